//! Snapshots and sessions in plain Rust, to measure `replica_sync` and the program against.
//!
//! `snapshot`, `session COUNT` and `ids` read the canonical configuration and receipts, a line each, from standard input,
//! and print times in nanoseconds and what has to be the same in both programs. `serve` and `pull` do what the program's
//! commands of those names do.
mod sockets;

use peer::document::Id;
use peer::line::{read_line, write_hex, Rest};
use peer::messages::write_question;
use peer::replica::Replica;
use peer::session::{pull, serve_one};
use peer::snapshot::{read_snapshot, write_snapshot};
use peer::sums::KeptSums;
use std::error::Error;
use std::io::Read;
use std::time::Instant;

type Answer = Result<(), Box<dyn Error>>;

fn main() -> Answer {
    let words: Vec<String> = std::env::args().skip(1).collect();
    let words: Vec<&str> = words.iter().map(String::as_str).collect();
    match words.as_slice() {
        ["snapshot"] => snapshots(&read_input()?),
        ["session", count] => sessions(&read_input()?, count.parse()?),
        ["ids"] => ids(&read_input()?),
        ["serve", config, state, address, sessions] => sockets::serve(config, state, address, sessions.parse()?),
        ["pull", config, state, address] => sockets::pull_from(config, state, address),
        _ => Err("no such words".into()),
    }
}

fn read_input() -> std::io::Result<String> {
    let mut text = String::new();
    std::io::stdin().lock().read_to_string(&mut text)?;
    Ok(text)
}

/// A replica that took this many of the receipts.
fn holding(input: &str, count: usize) -> Result<Replica, Box<dyn Error>> {
    let mut lines = input.lines();
    let mut replica = Replica::new(lines.next().ok_or("no configuration")?).ok_or("no configuration")?;
    for line in lines.take(count) {
        let receipt = read_line(line.as_bytes()).ok_or("no receipt")?;
        replica.take(receipt).map_err(|why| format!("{why:?}"))?;
    }
    Ok(replica)
}

fn sum_of(bytes: &[u8]) -> u64 {
    bytes.iter().fold(0, |sum: u64, byte| sum.wrapping_mul(31).wrapping_add(u64::from(*byte)))
}

fn snapshots(input: &str) -> Answer {
    let config = input.lines().next().ok_or("no configuration")?;
    let replica = holding(input, usize::MAX)?;
    let mut text = Vec::with_capacity(input.len() + 300);
    let started = Instant::now();
    write_snapshot(&mut text, &replica)?;
    let wrote = started.elapsed().as_nanos();
    drop(replica);
    let started = Instant::now();
    let empty = Replica::new(config).ok_or("no configuration")?;
    let read = read_snapshot(text.as_slice(), empty)?;
    let took = started.elapsed().as_nanos();
    println!("{wrote} {took} {} {} {}", text.len(), sum_of(&text), read.count - read.closure.pending_count());
    Ok(())
}

/// A session between one who holds this many of the receipts and one who holds all.
fn sessions(input: &str, count: usize) -> Answer {
    let mut asker = holding(input, count)?;
    let answerer = holding(input, usize::MAX)?;
    let mut questions = Vec::with_capacity(70 * count + 40_000);
    let started = Instant::now();
    for bucket in 0..=255 {
        write_question(&mut questions, &asker, bucket)?;
    }
    let asked = started.elapsed().as_nanos();
    let mut answers = Vec::with_capacity(input.len() + 40_000);
    let started = Instant::now();
    let served = serve_one(&answerer, &mut KeptSums::default(), questions.as_slice(), &mut answers)?;
    let answered = started.elapsed().as_nanos();
    let mut again = Vec::with_capacity(70 * count + 40_000);
    let started = Instant::now();
    let taken = pull(&mut asker, answers.as_slice(), &mut again)?;
    let pulled = started.elapsed().as_nanos();
    if again != questions || served != 256 {
        return Err("other questions".into());
    }
    let sums = (sum_of(&questions), sum_of(&answers));
    let (sent, got) = (questions.len(), answers.len());
    println!("{asked} {answered} {pulled} {taken} {sent} {got} {} {} {}", sums.0, sums.1, asker.count);
    Ok(())
}

/// What it costs to sort the ids, write them as digits, and read them again.
fn ids(input: &str) -> Answer {
    let replica = holding(input, usize::MAX)?;
    let mut text = Vec::with_capacity(70 * replica.count);
    let started = Instant::now();
    for bucket in 0..=255 {
        for id in replica.ids_of(bucket) {
            write_hex(&mut text, &id)?;
        }
    }
    let mut rest = Rest(std::str::from_utf8(&text)?);
    let mut read: Vec<Id> = Vec::new();
    while let Some(id) = rest.digest() {
        read.push(id);
    }
    let took = started.elapsed().as_nanos();
    println!("{took} {}", read.len());
    Ok(())
}
