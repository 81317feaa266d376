//! `fedbundle report --config CONFIG` in plain Rust, to measure against: it reads receipts on standard input, follows
//! from the configured documents what each accepted one vouches for, with hash maps and a work list, and prints the
//! report. The configuration is given as an argument. Its URLs are not checked. With a second argument, which is a
//! number, it makes that many reports of what it took of a file that is the third, prints the last one, and on standard
//! error the nanoseconds of processors for all takes and for all reports.
use peer::document::{read_document, Document, Id};
use serde_json::Value;
use sha2::{Digest, Sha256};
use std::collections::{BTreeMap, HashMap, HashSet};
use std::error::Error;
use std::fmt::Write as _;
use std::io::{BufRead, Write as _};

/// The trust domain, the document's id and the key's id by which something is vouched for.
type Triple = (String, Id, Id);

/// Documents of a domain, sorted by sequence and then by canonical text.
type Accepted<'a> = BTreeMap<(Option<u64>, &'a str), (Id, usize)>;

/// What is asked of a document. Its certificates are not kept.
struct Node {
    domain: String,
    id: Id,
    text: String,
    sequence: Option<u64>,
    authorities: usize,
    keys: Vec<Id>,
}

#[derive(Default)]
struct Store {
    nodes: Vec<Node>,
    seeds: usize,
    /// The document's id, in which its domain is, the voucher and the key. The domain fixes the endpoint.
    held: HashSet<(Id, Id, Id)>,
    waiting: HashMap<Triple, Vec<usize>>,
}

struct Config {
    id: String,
    endpoints: BTreeMap<String, String>,
    domains: Vec<String>,
}

impl Node {
    fn new(domain: &str, document: Document) -> Node {
        Node {
            domain: domain.to_owned(),
            id: document.id(domain),
            sequence: document.rank,
            authorities: document.authorities.len(),
            keys: document.keys().into_iter().collect(),
            text: document.text,
        }
    }
}

fn main() -> Result<(), Box<dyn Error>> {
    let path = std::env::args().nth(1).ok_or("no configuration given")?;
    let value: Value = serde_json::from_slice(&std::fs::read(path)?)?;
    let mut store = Store::default();
    let config = read_config(value, &mut store)?;
    if let (Some(reports), Some(path)) = (std::env::args().nth(2), std::env::args().nth(3)) {
        return time_calls(&config, &mut store, &std::fs::read(path)?, reports.parse()?);
    }
    let mut refused = 0;
    let mut line = Vec::new();
    let mut input = std::io::stdin().lock();
    let mut number = 0u64;
    loop {
        line.clear();
        if input.read_until(b'\n', &mut line)? == 0 {
            break;
        }
        number += 1;
        let told = match line.split_last() {
            Some((b'\n', text)) => take(&config, &mut store, text).err().map(|error| error.to_string()),
            _ => Some("cut".to_owned()),
        };
        if let Some(told) = told {
            eprintln!("line {number}: {told}");
            refused += 1;
        }
    }
    let report = report(&config, &store);
    std::io::stdout().lock().write_all(report.as_bytes())?;
    std::process::exit(if refused == 0 { 0 } else { 1 })
}

extern "C" {
    // Of the C library, which counts microseconds.
    fn clock() -> i64;
}

/// The nanoseconds of processors that this process has used.
fn used() -> i64 {
    unsafe { clock() * 1_000 }
}

fn time_calls(config: &Config, store: &mut Store, text: &[u8], reports: u32) -> Result<(), Box<dyn Error>> {
    let begun = used();
    for line in text.split(|byte| *byte == b'\n').filter(|line| !line.is_empty()) {
        take(config, store, line)?;
    }
    let taken = used();
    let mut last = String::new();
    for _ in 0..reports {
        last = report(config, store);
    }
    eprintln!("{} {}", taken - begun, used() - taken);
    Ok(std::io::stdout().lock().write_all(last.as_bytes())?)
}

fn text_of<'a>(value: &'a Value, name: &str) -> Result<&'a str, &'static str> {
    value.get(name).and_then(Value::as_str).ok_or("not canonical")
}

fn domain_of(endpoint: &str) -> Result<&str, &'static str> {
    let rest = endpoint.strip_prefix("spiffe://").ok_or("not canonical")?;
    Ok(rest.split('/').next().unwrap_or(rest))
}

/// The document that is a member of a value, which loses it.
fn take_document(value: &mut Value, name: &str) -> Option<Document> {
    value.get_mut(name).map(Value::take).and_then(read_document)
}

fn digest_of(value: &Value, name: &str) -> Result<Id, Box<dyn Error>> {
    let mut id = [0; 32];
    hex::decode_to_slice(text_of(value, name)?, &mut id).map_err(|_| "not canonical")?;
    Ok(id)
}

fn read_config(mut value: Value, store: &mut Store) -> Result<Config, Box<dyn Error>> {
    let mut endpoints = BTreeMap::new();
    let mut written = BTreeMap::new();
    let mut domains = Vec::new();
    for one in value["relationships"].as_array().ok_or("no relationships")? {
        let (domain, endpoint) = (text_of(one, "domain")?, text_of(one, "endpoint")?);
        endpoints.insert(domain.to_owned(), endpoint.to_owned());
        written.insert(domain, serde_json::to_string(one)?);
        domains.extend([domain.to_owned(), domain_of(endpoint)?.to_owned()]);
    }
    let mut seeds = BTreeMap::new();
    let relationships: Vec<String> = written.into_values().collect();
    for seed in value["seeds"].as_array_mut().ok_or("no seeds")? {
        let document = take_document(seed, "bundle").ok_or("no bundle")?;
        let domain = text_of(seed, "domain")?;
        domains.push(domain.to_owned());
        seeds.insert((domain.to_owned(), document.text.clone()), document);
    }
    let bundles: Vec<String> =
        seeds.keys().map(|(domain, text)| format!("{{\"bundle\":{text},\"domain\":\"{domain}\"}}")).collect();
    let text = format!("{{\"relationships\":[{}],\"seeds\":[{}]}}", relationships.join(","), bundles.join(","));
    for ((domain, _), document) in seeds {
        store.nodes.push(Node::new(&domain, document));
    }
    store.seeds = store.nodes.len();
    domains.sort();
    domains.dedup();
    Ok(Config { id: hex::encode(Sha256::digest(text)), endpoints, domains })
}

/// Holds the receipt of a line, unless it is held already.
fn take(config: &Config, store: &mut Store, line: &[u8]) -> Result<(), Box<dyn Error>> {
    let mut value: Value = serde_json::from_slice(line).map_err(|_| "not canonical")?;
    let document = take_document(&mut value, "doc").ok_or("not canonical")?;
    let (domain, endpoint) = (text_of(&value, "domain")?, text_of(&value, "endpoint")?);
    let (key, voucher) = (digest_of(&value, "key")?, digest_of(&value, "voucher")?);
    let canonical = format!(
        "{{\"doc\":{},\"domain\":\"{domain}\",\"endpoint\":\"{endpoint}\",\"key\":\"{}\",\"voucher\":\"{}\"}}",
        document.text,
        hex::encode(key),
        hex::encode(voucher)
    );
    if canonical.as_bytes() != line {
        return Err("not canonical".into());
    }
    match config.endpoints.get(domain) {
        None => return Err("unknown domain".into()),
        Some(other) if other != endpoint => return Err("wrong endpoint".into()),
        Some(_) => {}
    }
    let node = Node::new(domain, document);
    if store.held.insert((node.id, voucher, key)) {
        if store.held.len() > 4_194_304 {
            return Err("full".into());
        }
        let need = (domain_of(endpoint)?.to_owned(), voucher, key);
        store.waiting.entry(need).or_default().push(store.nodes.len());
        store.nodes.push(node);
    }
    Ok(())
}

/// The nodes that are accepted: those of the seeds, and with each all that it vouches for.
fn reached(store: &Store) -> Vec<bool> {
    let mut marked = vec![false; store.nodes.len()];
    let mut work: Vec<usize> = (0..store.seeds).collect();
    marked[..store.seeds].fill(true);
    while let Some(at) = work.pop() {
        let node = &store.nodes[at];
        for key in &node.keys {
            for &next in store.waiting.get(&(node.domain.clone(), node.id, *key)).into_iter().flatten() {
                if !marked[next] {
                    marked[next] = true;
                    work.push(next);
                }
            }
        }
    }
    marked
}

fn report(config: &Config, store: &Store) -> String {
    let marked = reached(store);
    let pending = marked.iter().filter(|is_marked| !**is_marked).count();
    let mut accepted: HashMap<&str, Accepted> = HashMap::new();
    for (node, _) in store.nodes.iter().zip(&marked).filter(|(_, is_marked)| **is_marked) {
        let place = accepted.entry(&node.domain).or_default();
        place.insert((node.sequence, &node.text), (node.id, node.authorities));
    }
    let mut out = format!("config {}\nreceipts {} pending {pending}\n", config.id, store.held.len());
    for domain in &config.domains {
        let documents = accepted.remove(domain.as_str()).unwrap_or_default();
        let _ = writeln!(out, "domain {domain}");
        push_domain(&mut out, &documents);
    }
    out
}

fn told(id: &Id, sequence: Option<u64>) -> String {
    let sequence = sequence.map_or("none".to_owned(), |number| number.to_string());
    format!("{} sequence {sequence}", hex::encode(id))
}

fn push_domain(out: &mut String, documents: &Accepted) {
    let _ = match documents.last_key_value() {
        Some(((sequence, _), (id, _))) => writeln!(out, "  current {}", told(id, *sequence)),
        None => writeln!(out, "  current none"),
    };
    let mut conflicts: BTreeMap<u64, Vec<(&str, &Id)>> = BTreeMap::new();
    for ((sequence, text), (id, authorities)) in documents {
        let _ = writeln!(out, "  accepted {} authorities {authorities}", told(id, *sequence));
        if let Some(number) = sequence {
            conflicts.entry(*number).or_default().push((text, id));
        }
    }
    for (sequence, group) in conflicts.iter().filter(|(_, group)| group.len() > 1) {
        let keys_of = |text: &str| text[..text.rfind(']').unwrap_or(0)].to_owned();
        let is_hint = group.iter().all(|(text, _)| keys_of(text) == keys_of(group[0].0));
        let ids: Vec<String> = group.iter().map(|(_, id)| hex::encode(id)).collect();
        let _ = writeln!(out, "  conflict {sequence} {} {}", if is_hint { "hint" } else { "keys" }, ids.join(" "));
    }
}
