//! Reading a configuration in plain Rust, to measure `fed_config` against: it reads the configuration on standard input
//! this many times, and prints the least time in nanoseconds and the id.
use peer::document::read_document;
use peer::names::{domain_of, is_domain};
use serde_json::{Map, Value};
use sha2::{Digest, Sha256};
use std::collections::{BTreeMap, BTreeSet};
use std::error::Error;
use std::io::Read;
use std::time::Instant;
use url::Url;

const MAX_DOMAINS: usize = 1_024;
const MAX_SEEDS: usize = 4_096;
const MAX_URL_BYTES: usize = 2_048;

/// The endpoint's id, its trust domain and the URL of each relationship, by trust domain.
type Relationships = BTreeMap<String, (String, String, String)>;

/// The domain and the canonical text of each seed.
type Seeds = BTreeSet<(String, String)>;

struct Config {
    relationships: Relationships,
    seeds: Seeds,
    domains: BTreeSet<String>,
    id: [u8; 32],
}

fn main() -> Result<(), Box<dyn Error>> {
    let runs: u32 = std::env::args().nth(1).ok_or("no runs given")?.parse()?;
    let mut bytes = Vec::new();
    std::io::stdin().lock().read_to_end(&mut bytes)?;
    let mut least = u128::MAX;
    for _ in 0..runs {
        let started = Instant::now();
        let read = read_config(&bytes);
        least = least.min(started.elapsed().as_nanos());
        drop(read);
    }
    let config = read_config(&bytes)?;
    assert!(config.domains.len() >= config.relationships.len().min(1) && config.seeds.len() <= MAX_SEEDS);
    println!("{least} {}", hex::encode(config.id));
    Ok(())
}

fn read_config(bytes: &[u8]) -> Result<Config, Box<dyn Error>> {
    let mut members = members_of(serde_json::from_slice(bytes)?, 2)?;
    let written = take_array(&mut members, "relationships")?;
    let bundles = take_array(&mut members, "seeds")?;
    if written.len() > MAX_DOMAINS || bundles.len() > MAX_SEEDS {
        return Err("too many".into());
    }
    let mut relationships = Relationships::new();
    for element in written {
        let (domain, rest) = read_relationship(element)?;
        if relationships.insert(domain, rest).is_some() {
            return Err("a relationship twice".into());
        }
    }
    let seeds = bundles.into_iter().map(read_seed).collect::<Result<Seeds, _>>()?;
    let domains = domains_of(&relationships, &seeds);
    if domains.len() > MAX_DOMAINS {
        return Err("too many domains".into());
    }
    let id = Sha256::digest(canonical_text(&relationships, &seeds)?).into();
    Ok(Config { relationships, seeds, domains, id })
}

/// The members of an object, which has this many.
fn members_of(value: Value, count: usize) -> Result<Map<String, Value>, &'static str> {
    match value {
        Value::Object(members) if members.len() == count => Ok(members),
        _ => Err("no such object"),
    }
}

fn take_array(members: &mut Map<String, Value>, name: &str) -> Result<Vec<Value>, &'static str> {
    match members.remove(name) {
        Some(Value::Array(elements)) => Ok(elements),
        _ => Err("no array"),
    }
}

fn take_text(members: &mut Map<String, Value>, name: &str) -> Result<String, &'static str> {
    match members.remove(name) {
        Some(Value::String(text)) => Ok(text),
        _ => Err("no text"),
    }
}

fn read_relationship(element: Value) -> Result<(String, (String, String, String)), Box<dyn Error>> {
    let mut members = members_of(element, 4)?;
    let domain = take_domain(&mut members)?;
    let endpoint = take_text(&mut members, "endpoint")?;
    let endpoint_domain = domain_of(&endpoint).ok_or("no SPIFFE ID")?.to_owned();
    if take_text(&mut members, "profile")? != "https_spiffe" {
        return Err("another profile".into());
    }
    let url = read_url(&take_text(&mut members, "url")?)?;
    Ok((domain, (endpoint, endpoint_domain, url)))
}

fn take_domain(members: &mut Map<String, Value>) -> Result<String, &'static str> {
    Some(take_text(members, "domain")?).filter(|text| is_domain(text)).ok_or("no trust domain")
}

fn read_url(text: &str) -> Result<String, Box<dyn Error>> {
    if text.len() > MAX_URL_BYTES {
        return Err("a long URL".into());
    }
    let url = Url::parse(text)?;
    if url.scheme() != "https" || !url.username().is_empty() || url.password().is_some() {
        return Err("another URL".into());
    }
    Ok(url.into())
}

fn read_seed(element: Value) -> Result<(String, String), Box<dyn Error>> {
    let mut members = members_of(element, 2)?;
    let domain = take_domain(&mut members)?;
    let document = members.remove("bundle").and_then(read_document).ok_or("no bundle")?;
    Ok((domain, document.text))
}

fn domains_of(relationships: &Relationships, seeds: &Seeds) -> BTreeSet<String> {
    let mut domains = BTreeSet::new();
    for (domain, (_, endpoint_domain, _)) in relationships {
        domains.insert(domain.clone());
        domains.insert(endpoint_domain.clone());
    }
    domains.extend(seeds.iter().map(|(domain, _)| domain.clone()));
    domains
}

fn canonical_text(relationships: &Relationships, seeds: &Seeds) -> serde_json::Result<String> {
    let mut text = String::from("{\"relationships\":[");
    for (at, (domain, (endpoint, _, url))) in relationships.iter().enumerate() {
        if at > 0 {
            text.push(',');
        }
        let url = serde_json::to_string(url)?;
        text.push_str(&format!(
            "{{\"domain\":\"{domain}\",\"endpoint\":\"{endpoint}\",\"profile\":\"https_spiffe\",\"url\":{url}}}"
        ));
    }
    text.push_str("],\"seeds\":[");
    for (at, (domain, bundle)) in seeds.iter().enumerate() {
        if at > 0 {
            text.push(',');
        }
        text.push_str(&format!("{{\"bundle\":{bundle},\"domain\":\"{domain}\"}}"));
    }
    text.push_str("]}");
    Ok(text)
}
