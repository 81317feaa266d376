//! Takes the receipts on standard input into a closure in plain Rust, and then the records of distrust, to measure
//! `trust_closure` against. The first line is the configuration. It prints what the takes and each record took, in
//! nanoseconds, and numbers that tell what is held and accepted. With the argument `merge` another closure has the
//! records, and is merged. With `hold` it only holds the receipts.
use peer::closure::{Closure, Taken};
use peer::document::Id;
use peer::receipt::{read_line, Receipt};
use serde_json::Value;
use std::error::Error;
use std::io::BufRead;
use std::time::Instant;

struct Input {
    config: Value,
    receipts: Vec<Receipt>,
    records: Vec<(String, Id)>,
}

fn main() -> Result<(), Box<dyn Error>> {
    let input = read_input().ok_or("no such input")?;
    let word = std::env::args().nth(1);
    if word.as_deref() == Some("hold") {
        println!("{}", hold(input.receipts));
        return Ok(());
    }
    let mut closure = Closure::new(input.config.clone()).ok_or("no configuration")?;
    let started = Instant::now();
    let accepted = take_all(&mut closure, input.receipts);
    print!("{} {accepted}", started.elapsed().as_nanos());
    tell(&closure);
    if word.as_deref() == Some("merge") {
        merge(&mut closure, input.config, input.records)?;
    } else {
        distrust(&mut closure, input.records)?;
    }
    tell(&closure);
    println!();
    Ok(())
}

fn distrust(closure: &mut Closure, records: Vec<(String, Id)>) -> Result<(), Box<dyn Error>> {
    for (domain, key) in records {
        let started = Instant::now();
        let lost = closure.distrust(&domain, key).map_err(|error| format!("{error:?}"))?;
        print!(" {} {lost}", started.elapsed().as_nanos());
    }
    Ok(())
}

fn merge(closure: &mut Closure, config: Value, records: Vec<(String, Id)>) -> Result<(), Box<dyn Error>> {
    let mut other = Closure::new(config).ok_or("no configuration")?;
    for (domain, key) in records {
        other.distrust(&domain, key).map_err(|error| format!("{error:?}"))?;
    }
    let started = Instant::now();
    let new = closure.merge(&other).map_err(|error| format!("{error:?}"))?;
    print!(" {} {new}", started.elapsed().as_nanos());
    Ok(())
}

fn tell(closure: &Closure) {
    print!(" {} {}", closure.pending_count(), sum_of(closure));
}

fn read_input() -> Option<Input> {
    let mut lines = std::io::stdin().lock().lines();
    let config = serde_json::from_str(&lines.next()?.ok()?).ok()?;
    let mut input = Input { config, receipts: Vec::new(), records: Vec::new() };
    for line in lines {
        let line = line.ok()?;
        if line.starts_with("{\"distrust\"") {
            input.records.push(read_record(&line)?);
        } else {
            input.receipts.push(read_line(line.as_bytes())?);
        }
    }
    Some(input)
}

fn read_record(line: &str) -> Option<(String, Id)> {
    let record: Value = serde_json::from_str(line).ok()?;
    let key = hex::decode(record.get("distrust")?.as_str()?).ok()?.try_into().ok()?;
    Some((record.get("domain")?.as_str()?.to_owned(), key))
}

/// Moves the receipts to a list of their own.
fn hold(receipts: Vec<Receipt>) -> usize {
    let mut held = Vec::with_capacity(receipts.len());
    held.extend(receipts.into_iter().map(std::rc::Rc::new));
    held.len()
}

fn take_all(closure: &mut Closure, receipts: Vec<Receipt>) -> usize {
    let mut accepted = 0;
    for receipt in receipts {
        if let Ok(Taken::New { accepted_now }) = closure.take(receipt) {
            accepted += accepted_now;
        }
    }
    accepted
}

/// Of the receipts in order, and in the order of buckets, and of the accepted documents in order.
fn sum_of(closure: &Closure) -> u64 {
    let with_receipt = |sum, receipt: &Receipt| with_number(sum, u64::from(receipt.id()[31]));
    let sum = closure.receipts().fold(0, with_receipt);
    let sum = (0..=255).flat_map(|bucket| closure.receipts_of(bucket)).fold(sum, with_receipt);
    closure.accepted("a.example").fold(sum, |sum, document| with_number(sum, document.rank.unwrap_or(0)))
}

fn with_number(sum: u64, number: u64) -> u64 {
    sum.wrapping_mul(31).wrapping_add(number)
}
