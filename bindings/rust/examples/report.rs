//! Prints what the receipts of the second file make a replica of the configuration in the first one accept.
use fedbundle::Replica;
use std::env::args;
use std::error::Error;
use std::fs::read;
use std::io::{stdout, Write};

fn main() -> Result<(), Box<dyn Error>> {
    let mut files = args().skip(1);
    let config = read(files.next().ok_or("no configuration")?)?;
    let lines = read(files.next().ok_or("no receipts")?)?;
    let mut replica = Replica::open(&config, b"")?;
    for line in lines.split_inclusive(|byte| *byte == b'\n') {
        if let Err(refused) = replica.take(line.strip_suffix(b"\n").unwrap_or(line)) {
            eprintln!("{} {refused}", refused.number); // -501 G1 UnknownDomain
        }
    }
    stdout().write_all(&replica.report()?)?;
    Ok(())
}
