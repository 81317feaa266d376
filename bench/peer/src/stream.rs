//! Lines of streams: as bytes, and as what they say.
use crate::document::Id;
use crate::line::{read_line, write_hex, write_line, Rest};
use crate::names::is_domain;
use crate::receipt::Receipt;
use crate::replica::{Replica, SyncError};
use std::io::{self, BufRead, Read, Write};

const MAX_LINE_BYTES: u64 = 8_388_608;

pub enum Line<'a> {
    Text(&'a [u8]),
    TooLong,
    Cut,
    End,
}

pub struct Lines<R> {
    source: R,
    line: Vec<u8>,
}

impl<R: BufRead> Lines<R> {
    pub fn new(source: R) -> Lines<R> {
        Lines { source, line: Vec::new() }
    }

    pub fn next_line(&mut self) -> io::Result<Line<'_>> {
        self.line.clear();
        self.source.by_ref().take(MAX_LINE_BYTES + 1).read_until(b'\n', &mut self.line)?;
        match self.line.pop() {
            None => Ok(Line::End),
            Some(b'\n') => Ok(Line::Text(&self.line)),
            Some(_) if (self.line.len() as u64) < MAX_LINE_BYTES => Ok(Line::Cut),
            Some(_) => self.pass_over(),
        }
    }

    /// Passes over the rest of a line that is too long.
    fn pass_over(&mut self) -> io::Result<Line<'_>> {
        loop {
            let read = self.source.fill_buf()?;
            if read.is_empty() {
                return Ok(Line::Cut);
            }
            let end = read.iter().position(|byte| *byte == b'\n');
            let count = end.map_or(read.len(), |end| end + 1);
            self.source.consume(count);
            if end.is_some() {
                return Ok(Line::TooLong);
            }
        }
    }
}

/// Which lines may be at a place.
#[derive(Clone, Copy, PartialEq)]
pub enum Wanted {
    Records,
    Receipts,
    Either,
}

enum Entry {
    Record(String, Id),
    Receipt(Receipt),
}

/// Takes what the line with this number says, and keeps it as the last one. Answers whether a receipt was not held.
pub fn take_line(
    replica: &mut Replica,
    wanted: Wanted,
    last: &mut Vec<u8>,
    number: u64,
    text: &[u8],
) -> Result<bool, SyncError> {
    let entry = read_entry(wanted, text).ok_or(SyncError::NotCanonical(number))?;
    if last.as_slice() >= text {
        return Err(SyncError::NotRising(number));
    }
    last.clear();
    last.extend_from_slice(text);
    let taken = match entry {
        Entry::Receipt(receipt) => replica.take(receipt),
        Entry::Record(domain, key) => replica.distrust(domain, key).map(|()| false),
    };
    taken.map_err(|why| SyncError::Refused(number, why))
}

fn read_entry(wanted: Wanted, text: &[u8]) -> Option<Entry> {
    let is_record = text.starts_with(b"{\"distrust\":");
    match wanted {
        Wanted::Records => read_record(text),
        Wanted::Either if is_record => read_record(text),
        _ => read_line(text).map(Entry::Receipt),
    }
}

fn read_record(text: &[u8]) -> Option<Entry> {
    let mut rest = Rest(std::str::from_utf8(text).ok()?);
    rest.after("{\"distrust\":\"")?;
    let key = rest.digest()?;
    rest.after("\",\"domain\":\"")?;
    let domain = rest.string().filter(|text| is_domain(text))?.to_owned();
    Some(Entry::Record(domain, key)).filter(|_| rest.0 == "}")
}

pub fn write_records(out: &mut impl Write, replica: &Replica) -> io::Result<()> {
    for (key, domain) in &replica.records {
        out.write_all(b"{\"distrust\":\"")?;
        write_hex(out, key)?;
        writeln!(out, "\",\"domain\":\"{domain}\"}}")?;
    }
    Ok(())
}

pub fn write_receipts<'a>(out: &mut impl Write, receipts: impl Iterator<Item = &'a Receipt>) -> io::Result<()> {
    for receipt in receipts {
        write_line(out, receipt)?;
    }
    Ok(())
}
