//! A net in plain Rust, to measure `wait_index` against: a vector of edges for each node and each label. It keeps what the
//! index keeps (the marked nodes in a list, each with its place in it, the supporters of each label, the visits), closes in
//! place too, and prints the same line.
use std::env;
use std::time::Instant;

#[derive(Default, Clone)]
struct Label {
    waiting: Vec<usize>,
    supporters: usize,
    closed: bool,
    open: bool,
    touched: bool,
}

const UNMARKED: usize = usize::MAX;

#[derive(Clone)]
struct Node {
    offers: Vec<usize>,
    awaits: Option<usize>,
    root: bool,
    place: usize,
}

struct Reach {
    nodes: Vec<Node>,
    labels: Vec<Label>,
    marked: Vec<usize>,
    touched: Vec<usize>,
    visits: usize,
    edges: (usize, usize),
}

impl Reach {
    fn add_node(&mut self) -> usize {
        self.nodes.push(Node {
            offers: Vec::new(),
            awaits: None,
            root: false,
            place: UNMARKED,
        });
        self.nodes.len() - 1
    }

    fn offer(&mut self, node: usize, label: usize) {
        if label >= self.labels.len() {
            return;
        }
        self.nodes[node].offers.push(label);
        self.edges.0 += 1;
        if self.nodes[node].place != UNMARKED {
            let cursor = self.marked.len();
            self.follow(label);
            self.spread(cursor);
        }
    }

    fn wait(&mut self, label: usize, node: usize) {
        if label >= self.labels.len() {
            return;
        }
        assert!(self.nodes[node].awaits.is_none());
        self.nodes[node].awaits = Some(label);
        self.labels[label].waiting.push(node);
        self.edges.1 += 1;
        if self.labels[label].open {
            self.visits += 1;
            let cursor = self.marked.len();
            self.mark(node);
            self.spread(cursor);
        }
    }

    fn add_root(&mut self, node: usize) {
        self.nodes[node].root = true;
        let cursor = self.marked.len();
        self.mark(node);
        self.spread(cursor);
    }

    fn mark(&mut self, node: usize) {
        if self.nodes[node].place == UNMARKED {
            self.nodes[node].place = self.marked.len();
            self.marked.push(node);
        }
    }

    fn unmark(&mut self, node: usize) {
        let place = self.nodes[node].place;
        self.marked.swap_remove(place);
        if let Some(&moved) = self.marked.get(place) {
            self.nodes[moved].place = place;
        }
        self.nodes[node].place = UNMARKED;
    }

    fn follow(&mut self, label: usize) {
        self.visits += 1;
        self.labels[label].supporters += 1;
        self.settle(label);
    }

    fn settle(&mut self, label: usize) {
        let l = &mut self.labels[label];
        if l.supporters == 0 || l.closed || l.open {
            return;
        }
        l.open = true;
        for i in 0..self.labels[label].waiting.len() {
            self.visits += 1;
            self.mark(self.labels[label].waiting[i]);
        }
    }

    fn spread(&mut self, mut cursor: usize) {
        while cursor < self.marked.len() {
            let node = self.marked[cursor];
            for i in 0..self.nodes[node].offers.len() {
                self.follow(self.nodes[node].offers[i]);
            }
            cursor += 1;
        }
    }

    fn touch(&mut self, label: usize) {
        let l = &mut self.labels[label];
        if l.open && !l.touched {
            l.touched = true;
            self.touched.push(label);
        }
    }

    fn close(&mut self, label: usize) -> usize {
        if !self.labels[label].open {
            self.labels[label].closed = true;
            return 0;
        }
        let before = self.visits;
        self.touch(label);
        let mut index = 0;
        while index < self.touched.len() {
            self.take_back(self.touched[index]);
            index += 1;
        }
        let between = self.visits;
        self.labels[label].closed = true;
        let cursor = self.marked.len();
        while let Some(label) = self.touched.pop() {
            self.labels[label].touched = false;
            self.settle(label);
        }
        self.spread(cursor);
        (before - between) + (self.visits - between)
    }

    fn take_back(&mut self, label: usize) {
        self.labels[label].open = false;
        for i in 0..self.labels[label].waiting.len() {
            let node = self.labels[label].waiting[i];
            self.visits -= 1;
            if self.nodes[node].root {
                continue;
            }
            self.unmark(node);
            for j in 0..self.nodes[node].offers.len() {
                let offered = self.nodes[node].offers[j];
                self.visits -= 1;
                self.labels[offered].supporters -= 1;
                self.touch(offered);
            }
        }
    }
}

fn main() {
    let words: Vec<String> = env::args().collect();
    let shape = words[1].as_str();
    let nodes: usize = words[2].parse().unwrap();
    let started = Instant::now();
    let mut reach = Reach {
        nodes: Vec::with_capacity(nodes),
        labels: vec![Label::default(); nodes],
        marked: Vec::with_capacity(nodes),
        touched: Vec::with_capacity(nodes),
        visits: 0,
        edges: (0, 0),
    };
    let mut random = 1u64;
    for place in 0..nodes {
        random = random.wrapping_mul(6_364_136_223_846_793_005).wrapping_add(1_442_695_040_888_963_407);
        let (offered, awaited) = match shape {
            "reversed" => (nodes - place - 1, (nodes - place - 1).wrapping_sub(1)),
            "random" => (place, (random >> 33) as usize % nodes),
            "star" => (nodes, place),
            _ => (place, place.wrapping_sub(1)),
        };
        let node = reach.add_node();
        reach.wait(awaited, node);
        reach.offer(node, offered);
        if shape == "star" && place == 0 {
            for label in 0..nodes {
                reach.offer(0, label);
            }
        }
        if shape == "random" {
            reach.offer(node, (random >> 13 & 0xffff_ffff) as usize % nodes);
        }
    }
    let built = started.elapsed().as_nanos();
    let (offers, waits) = reach.edges;
    let started = Instant::now();
    let roots = match shape {
        "reversed" => nodes - 1..nodes,
        "random" => 0..8,
        _ => 0..1,
    };
    for root in roots {
        reach.add_root(root);
    }
    let marked = started.elapsed().as_nanos();
    let visits = reach.visits;
    let started = Instant::now();
    let closes = match shape {
        "star" => nodes,
        "random" => 8,
        _ => 1,
    };
    let turns: usize = (0..closes).map(|label| reach.close(label)).sum();
    let closed = started.elapsed().as_nanos();
    println!("{built} {offers} {waits} {marked} {visits} {closed} {turns}");
}
