//! Explaining documents in plain Rust, to measure `explain` of `bundle_view` against: a breadth-first search over receipts
//! that are sorted by what they need. It reads a configuration with one document, a domain, the document that is sought,
//! and receipts, a line each, from standard input, explains the document this many times, and prints the least time in
//! nanoseconds, how many receipts the chain has, and the first one's id.
use peer::document::{read_document, Authority, PublicKey};
use peer::receipt::{offers_of, read_line, Receipt, Triple};
use serde_json::Value;
use std::error::Error;
use std::io::Read;
use std::time::Instant;

struct Step<'a> {
    receipt: &'a Receipt,
    before: Option<usize>,
    length: usize,
}

fn main() -> Result<(), Box<dyn Error>> {
    let runs: u32 = std::env::args().nth(1).ok_or("no runs given")?.parse()?;
    let mut text = String::new();
    std::io::stdin().lock().read_to_string(&mut text)?;
    let mut lines = text.lines();
    let seed = lines.next().and_then(read_seed).ok_or("no configuration")?;
    let (domain, canonical) = lines.next().zip(lines.next()).ok_or("no document")?;
    let receipts = lines.map(|line| read_line(line.as_bytes())).collect::<Option<Vec<_>>>().ok_or("no receipt")?;
    let mut least = u128::MAX;
    for _ in 0..runs {
        let started = Instant::now();
        let explained = explain(&seed, &receipts, domain, canonical);
        least = least.min(started.elapsed().as_nanos());
        drop(explained);
    }
    match explain(&seed, &receipts, domain, canonical).as_deref() {
        Some(chain @ [first, ..]) => {
            assert!(chain.iter().map(written).sum::<usize>() > 0);
            println!("{least} {} {}", chain.len(), hex::encode(first.id()));
        }
        Some([]) => println!("{least} 0 none"),
        None => println!("{least} none none"),
    }
    Ok(())
}

/// So that no part of a copy is left out.
fn written(receipt: &Receipt) -> usize {
    let authorities: usize = receipt.document.authorities.iter().map(authority_bytes).sum();
    receipt.domain.len() + receipt.endpoint.len() + receipt.document.text.len() + authorities
}

fn authority_bytes(authority: &Authority) -> usize {
    let (key, rest) = match authority {
        Authority::X509 { key, der } => (key, der.len()),
        Authority::Jwt { kid, key } => (key, kid.len()),
    };
    rest + match key {
        PublicKey::Rsa { n, e } => n.len() + e.len(),
        PublicKey::Ec { crv, x, y } => crv.len() + x.len() + y.len(),
    }
}

/// A shortest chain of receipts to the document, if there is one.
fn explain(seed: &[Triple], receipts: &[Receipt], domain: &str, canonical: &str) -> Option<Vec<Receipt>> {
    let mut waiting: Vec<&Receipt> = receipts.iter().collect();
    waiting.sort_unstable_by(|one, other| one.need.cmp(&other.need));
    let mut visited = vec![false; waiting.len()];
    let mut steps = Vec::new();
    follow(&waiting, &mut visited, &mut steps, seed, None, 1);
    let mut place = 0;
    while place < steps.len() {
        let Step { receipt, length, .. } = steps[place];
        if receipt.domain == domain && receipt.document.text == canonical {
            return Some(chain_to(&steps, place));
        }
        follow(&waiting, &mut visited, &mut steps, &receipt.offers, Some(place), length + 1);
        place += 1;
    }
    None
}

fn follow<'a>(
    waiting: &[&'a Receipt],
    visited: &mut [bool],
    steps: &mut Vec<Step<'a>>,
    offers: &[Triple],
    before: Option<usize>,
    length: usize,
) {
    for offer in offers {
        let mut place = waiting.partition_point(|receipt| receipt.need < *offer);
        while place < waiting.len() && !visited[place] && waiting[place].need == *offer {
            visited[place] = true;
            steps.push(Step { receipt: waiting[place], before, length });
            place += 1;
        }
    }
}

fn chain_to(steps: &[Step], last: usize) -> Vec<Receipt> {
    let mut chain = Vec::with_capacity(steps[last].length);
    let mut at = Some(last);
    while let Some(place) = at {
        chain.push(steps[place].receipt.clone());
        at = steps[place].before;
    }
    chain.reverse();
    chain
}

/// What the configured document offers.
fn read_seed(config: &str) -> Option<Vec<Triple>> {
    let mut config: Value = serde_json::from_str(config).ok()?;
    let seed = config.get_mut("seeds")?.get_mut(0)?;
    let document = read_document(seed.get_mut("bundle")?.take())?;
    Some(offers_of(seed.get("domain")?.as_str()?, &document))
}
