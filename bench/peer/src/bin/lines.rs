//! Reading receipts' lines in plain Rust, to measure `receipt_core` against: it reads the lines on standard input this
//! many times, keeping the receipts, and prints the least time in nanoseconds, how many receipts there are, and a sum
//! over their ids, needs and offers.
use peer::document::Id;
use peer::receipt::{read_line, Receipt, Triple};
use std::error::Error;
use std::io::{BufRead, Read};
use std::time::Instant;

fn main() -> Result<(), Box<dyn Error>> {
    let runs = std::env::args().nth(1).and_then(|word| word.parse().ok()).unwrap_or(1);
    let mut text = Vec::new();
    std::io::stdin().lock().read_to_end(&mut text)?;
    let mut least = u128::MAX;
    let (mut count, mut sum) = (0, 0);
    for _ in 0..runs {
        let started = Instant::now();
        let receipts = read_all(&text)?;
        least = least.min(started.elapsed().as_nanos());
        count = receipts.len();
        sum = sum_of(&receipts);
    }
    println!("{least} {count} {sum}");
    Ok(())
}

fn read_all(text: &[u8]) -> std::io::Result<Vec<Receipt>> {
    let mut source = text;
    let mut line = Vec::new();
    let mut receipts = Vec::new();
    while source.read_until(b'\n', &mut line)? > 0 {
        if line.pop() == Some(b'\n') {
            receipts.extend(read_line(&line));
        }
        line.clear();
    }
    Ok(receipts)
}

fn sum_of(receipts: &[Receipt]) -> u64 {
    let mut sum = 0;
    for receipt in receipts {
        sum = with_triple(with_bytes(sum, receipt.id()), &receipt.need);
        sum = receipt.offers.iter().fold(sum, with_triple);
    }
    sum
}

fn with_triple(sum: u64, triple: &Triple) -> u64 {
    with_bytes(with_bytes(sum, &triple.document), &triple.key)
}

fn with_bytes(sum: u64, bytes: &Id) -> u64 {
    bytes.iter().fold(sum, |sum, byte| sum.wrapping_mul(31).wrapping_add(u64::from(*byte)))
}
