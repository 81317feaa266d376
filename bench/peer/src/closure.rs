//! What a replica accepts: an index of nodes, labels and edges as in `bin/reach.rs`, found by hash maps, and sets of the
//! standard library for what is lent in order.
use crate::document::{read_document, Document, Id};
use crate::receipt::{offers_of, Receipt, Triple};
use serde_json::Value;
use std::borrow::Borrow;
use std::cmp::Ordering;
use std::collections::{BTreeMap, BTreeSet, HashMap};
use std::ops::Bound;
use std::rc::Rc;

const MOST_RECEIPTS: usize = 4_194_304;
const UNMARKED: usize = usize::MAX;

pub struct Seed {
    domain: String,
    document: Document,
}

/// A document of a domain, of a seed or of a receipt. They are ordered by domain, rank and canonical text.
#[derive(Clone)]
enum Pair {
    OfSeed(Rc<Seed>),
    OfReceipt(Rc<Receipt>),
}

/// A receipt in the order of buckets: by the first byte of its id, and then by line.
struct InBucket(Rc<Receipt>);

/// A place in the order of buckets: that of a receipt, or the one before all receipts of a bucket.
trait Spot {
    fn spot(&self) -> (u8, Option<&Receipt>);
}

struct Start(u8);

struct Node {
    pair: Pair,
    offers: Vec<usize>,
    root: bool,
    place: usize,
}

#[derive(Default)]
struct Label {
    waiting: Vec<usize>,
    supporters: usize,
    closed: bool,
    open: bool,
    touched: bool,
}

pub struct Closure {
    /// The endpoint of each relationship, by domain.
    relationships: HashMap<String, String>,
    /// The domains of relationships, endpoints and seeds, each with its number.
    domains: HashMap<String, usize>,
    receipts: BTreeSet<Rc<Receipt>>,
    buckets: BTreeSet<InBucket>,
    distrusted: BTreeSet<(Id, usize)>,
    /// The accepted documents, each with how many marked nodes have it.
    accepted: BTreeMap<Pair, usize>,
    nodes: Vec<Node>,
    labels: Vec<Label>,
    /// The labels by domain, key and document, and all of one domain and key.
    numbers: HashMap<(usize, Id, Id), usize>,
    of_key: HashMap<(usize, Id), Vec<usize>>,
    marked: Vec<usize>,
    touched: Vec<usize>,
}

pub enum Taken {
    New { accepted_now: usize },
    Already,
}

#[derive(Debug)]
pub enum TakeError {
    ConfigDiffers,
    UnknownDomain,
    WrongEndpoint,
    Full,
}

impl Pair {
    fn parts(&self) -> (&str, &Document) {
        match self {
            Pair::OfSeed(seed) => (&seed.domain, &seed.document),
            Pair::OfReceipt(receipt) => (&receipt.domain, &receipt.document),
        }
    }
}

impl Ord for Pair {
    fn cmp(&self, other: &Pair) -> Ordering {
        let ((domain, document), (other_domain, other)) = (self.parts(), other.parts());
        domain
            .cmp(other_domain)
            .then_with(|| document.rank.cmp(&other.rank))
            .then_with(|| document.text.cmp(&other.text))
    }
}

impl Ord for Receipt {
    fn cmp(&self, other: &Receipt) -> Ordering {
        self.document
            .text
            .cmp(&other.document.text)
            .then_with(|| self.domain.cmp(&other.domain))
            .then_with(|| self.endpoint.cmp(&other.endpoint))
            .then_with(|| self.key.cmp(&other.key))
            .then_with(|| self.voucher.cmp(&other.voucher))
    }
}

impl Ord for InBucket {
    fn cmp(&self, other: &InBucket) -> Ordering {
        self.0.id()[0].cmp(&other.0.id()[0]).then_with(|| self.0.cmp(&other.0))
    }
}

impl Spot for InBucket {
    fn spot(&self) -> (u8, Option<&Receipt>) {
        (self.0.id()[0], Some(&self.0))
    }
}

impl Spot for Start {
    fn spot(&self) -> (u8, Option<&Receipt>) {
        (self.0, None)
    }
}

impl<'a> Borrow<dyn Spot + 'a> for InBucket {
    fn borrow(&self) -> &(dyn Spot + 'a) {
        self
    }
}

impl Ord for dyn Spot + '_ {
    fn cmp(&self, other: &Self) -> Ordering {
        self.spot().cmp(&other.spot())
    }
}

impl PartialOrd for dyn Spot + '_ {
    fn partial_cmp(&self, other: &Self) -> Option<Ordering> {
        Some(self.cmp(other))
    }
}

impl PartialEq for dyn Spot + '_ {
    fn eq(&self, other: &Self) -> bool {
        self.cmp(other) == Ordering::Equal
    }
}

impl Eq for dyn Spot + '_ {}

macro_rules! ordered {
    ($($name:ty),*) => {$(
        impl PartialOrd for $name {
            fn partial_cmp(&self, other: &$name) -> Option<Ordering> {
                Some(self.cmp(other))
            }
        }

        impl PartialEq for $name {
            fn eq(&self, other: &$name) -> bool {
                self.cmp(other) == Ordering::Equal
            }
        }

        impl Eq for $name {}
    )*};
}

ordered!(Pair, Receipt, InBucket);

impl Closure {
    /// A closure of a configuration that holds nothing. The configuration is one that `fed_config` reads.
    pub fn new(config: Value) -> Option<Closure> {
        let mut closure = Closure {
            relationships: HashMap::new(),
            domains: HashMap::new(),
            receipts: BTreeSet::new(),
            buckets: BTreeSet::new(),
            distrusted: BTreeSet::new(),
            accepted: BTreeMap::new(),
            nodes: Vec::new(),
            labels: Vec::new(),
            numbers: HashMap::new(),
            of_key: HashMap::new(),
            marked: Vec::new(),
            touched: Vec::new(),
        };
        for relationship in config.get("relationships")?.as_array()? {
            let domain = relationship.get("domain")?.as_str()?.to_owned();
            let endpoint = relationship.get("endpoint")?.as_str()?.to_owned();
            closure.add_domain(&domain);
            closure.add_domain(endpoint.strip_prefix("spiffe://")?.split('/').next()?);
            closure.relationships.insert(domain, endpoint);
        }
        for seed in config.get("seeds")?.as_array()? {
            let domain = seed.get("domain")?.as_str()?.to_owned();
            let document = read_document(seed.get("bundle")?.clone())?;
            closure.add_seed(Seed { domain, document });
        }
        Some(closure)
    }

    fn add_domain(&mut self, domain: &str) {
        let number = self.domains.len();
        self.domains.entry(domain.to_owned()).or_insert(number);
    }

    fn add_seed(&mut self, seed: Seed) {
        self.add_domain(&seed.domain);
        let offers = offers_of(&seed.domain, &seed.document);
        let node = self.add_node(Pair::OfSeed(Rc::new(seed)), &offers);
        self.nodes[node].root = true;
        let cursor = self.marked.len();
        self.mark(node);
        self.spread(cursor);
    }

    pub fn take(&mut self, receipt: Receipt) -> Result<Taken, TakeError> {
        self.take_shared(Rc::new(receipt))
    }

    fn take_shared(&mut self, receipt: Rc<Receipt>) -> Result<Taken, TakeError> {
        match self.relationships.get(&receipt.domain) {
            None => return Err(TakeError::UnknownDomain),
            Some(endpoint) if *endpoint != receipt.endpoint => return Err(TakeError::WrongEndpoint),
            Some(_) => {}
        }
        if self.receipts.contains(&receipt) {
            return Ok(Taken::Already);
        }
        if self.receipts.len() >= MOST_RECEIPTS {
            return Err(TakeError::Full);
        }
        let before = self.accepted.len();
        self.receipts.insert(receipt.clone());
        self.buckets.insert(InBucket(receipt.clone()));
        let node = self.add_node(Pair::OfReceipt(receipt.clone()), &receipt.offers);
        let need = self.label_of(&receipt.need);
        self.labels[need].waiting.push(node);
        if self.labels[need].open {
            let cursor = self.marked.len();
            self.mark(node);
            self.spread(cursor);
        }
        Ok(Taken::New { accepted_now: self.accepted.len() - before })
    }

    /// How many documents are lost.
    pub fn distrust(&mut self, domain: &str, key: Id) -> Result<usize, TakeError> {
        let number = *self.domains.get(domain).ok_or(TakeError::UnknownDomain)?;
        if !self.distrusted.insert((key, number)) {
            return Ok(0);
        }
        let before = self.accepted.len();
        let labels = self.of_key.get(&(number, key)).cloned().unwrap_or_default();
        self.close(&labels);
        Ok(before - self.accepted.len())
    }

    /// Takes all records and receipts of a closure of the same configuration, and says how many receipts are new. The
    /// labels of all records are closed together.
    pub fn merge(&mut self, other: &Closure) -> Result<usize, TakeError> {
        if self.relationships != other.relationships || self.domains != other.domains {
            return Err(TakeError::ConfigDiffers);
        }
        let new = other.receipts.difference(&self.receipts);
        let copies: Vec<Rc<Receipt>> = new.cloned().collect();
        if self.receipts.len() + copies.len() > MOST_RECEIPTS {
            return Err(TakeError::Full);
        }
        let mut labels = Vec::new();
        for &(key, number) in &other.distrusted {
            if self.distrusted.insert((key, number)) {
                labels.extend(self.of_key.get(&(number, key)).into_iter().flatten());
            }
        }
        self.close(&labels);
        let count = copies.len();
        for receipt in copies {
            self.take_shared(receipt)?;
        }
        Ok(count)
    }

    pub fn receipts(&self) -> impl Iterator<Item = &Receipt> {
        self.receipts.iter().map(|receipt| &**receipt)
    }

    pub fn receipts_of(&self, bucket: u8) -> impl Iterator<Item = &Receipt> {
        let start: Bound<&dyn Spot> = Bound::Included(&Start(bucket));
        let behind = self.buckets.range::<dyn Spot, _>((start, Bound::Unbounded)).map(|receipt| &*receipt.0);
        behind.take_while(move |receipt| receipt.id()[0] == bucket)
    }

    pub fn accepted(&self, domain: &str) -> impl Iterator<Item = &Document> {
        let domain = domain.to_owned();
        self.accepted.keys().map(Pair::parts).filter(move |(own, _)| *own == domain).map(|(_, document)| document)
    }

    pub fn pending_count(&self) -> usize {
        self.nodes.len() - self.marked.len()
    }

    fn add_node(&mut self, pair: Pair, offers: &[Triple]) -> usize {
        let offers = offers.iter().map(|offer| self.label_of(offer)).collect();
        self.nodes.push(Node { pair, offers, root: false, place: UNMARKED });
        self.nodes.len() - 1
    }

    fn label_of(&mut self, triple: &Triple) -> usize {
        let domain = self.domains[&triple.domain];
        let new = self.labels.len();
        let label = *self.numbers.entry((domain, triple.key, triple.document)).or_insert(new);
        if label == new {
            let closed = self.distrusted.contains(&(triple.key, domain));
            self.labels.push(Label { closed, ..Label::default() });
            self.of_key.entry((domain, triple.key)).or_default().push(label);
        }
        label
    }

    fn mark(&mut self, node: usize) {
        if self.nodes[node].place == UNMARKED {
            self.nodes[node].place = self.marked.len();
            self.marked.push(node);
            *self.accepted.entry(self.nodes[node].pair.clone()).or_default() += 1;
        }
    }

    fn unmark(&mut self, node: usize) {
        let place = self.nodes[node].place;
        self.marked.swap_remove(place);
        if let Some(&moved) = self.marked.get(place) {
            self.nodes[moved].place = place;
        }
        self.nodes[node].place = UNMARKED;
        let pair = &self.nodes[node].pair;
        if let Some(count) = self.accepted.get_mut(pair) {
            *count -= 1;
            if *count == 0 {
                self.accepted.remove(pair);
            }
        }
    }

    fn settle(&mut self, label: usize) {
        let own = &mut self.labels[label];
        if own.supporters == 0 || own.closed || own.open {
            return;
        }
        own.open = true;
        for i in 0..self.labels[label].waiting.len() {
            self.mark(self.labels[label].waiting[i]);
        }
    }

    fn spread(&mut self, mut cursor: usize) {
        while cursor < self.marked.len() {
            let node = self.marked[cursor];
            for i in 0..self.nodes[node].offers.len() {
                let label = self.nodes[node].offers[i];
                self.labels[label].supporters += 1;
                self.settle(label);
            }
            cursor += 1;
        }
    }

    fn touch(&mut self, label: usize) {
        let own = &mut self.labels[label];
        if own.open && !own.touched {
            own.touched = true;
            self.touched.push(label);
        }
    }

    /// Closes the labels together: what depends on any of them is taken back, and then what is reached otherwise
    /// follows.
    fn close(&mut self, labels: &[usize]) {
        for &label in labels {
            self.touch(label);
        }
        let mut index = 0;
        while index < self.touched.len() {
            self.take_back(self.touched[index]);
            index += 1;
        }
        for &label in labels {
            self.labels[label].closed = true;
        }
        let cursor = self.marked.len();
        while let Some(label) = self.touched.pop() {
            self.labels[label].touched = false;
            self.settle(label);
        }
        self.spread(cursor);
    }

    fn take_back(&mut self, label: usize) {
        self.labels[label].open = false;
        for i in 0..self.labels[label].waiting.len() {
            let node = self.labels[label].waiting[i];
            if self.nodes[node].root || self.nodes[node].place == UNMARKED {
                continue;
            }
            self.unmark(node);
            for j in 0..self.nodes[node].offers.len() {
                let offered = self.nodes[node].offers[j];
                self.labels[offered].supporters -= 1;
                self.touch(offered);
            }
        }
    }
}
