//! Snapshots, written and read.
use crate::line::{write_hex, Rest};
use crate::replica::{Replica, SyncError};
use crate::stream::{take_line, write_receipts, write_records, Line, Lines, Wanted};
use std::io::{self, BufRead, Write};

pub fn write_snapshot(out: &mut impl Write, replica: &Replica) -> io::Result<()> {
    out.write_all(b"{\"config\":\"")?;
    write_hex(out, &replica.config)?;
    out.write_all(b"\",\"format\":2}\n")?;
    write_records(out, replica)?;
    write_receipts(out, replica.closure.receipts())?;
    writeln!(out, "{}", count_line(2, replica))
}

fn count_line(format: u64, replica: &Replica) -> String {
    match format {
        1 => format!("{{\"count\":{}}}", replica.count),
        _ => format!("{{\"count\":{},\"distrusts\":{}}}", replica.count, replica.records.len()),
    }
}

/// Reads a snapshot into a replica that holds nothing.
pub fn read_snapshot(source: impl BufRead, mut replica: Replica) -> Result<Replica, SyncError> {
    let mut lines = Lines::new(source);
    let format = match lines.next_line()? {
        Line::Text(text) => read_first(&replica, text)?,
        Line::TooLong => return Err(SyncError::BadHeader),
        Line::Cut | Line::End => return Err(SyncError::Truncated),
    };
    let wanted = if format == 1 { Wanted::Receipts } else { Wanted::Either };
    let mut last = Vec::new();
    let mut number = 2;
    loop {
        match lines.next_line()? {
            Line::Text(text) if text.starts_with(b"{\"count\":") => {
                if text != count_line(format, &replica).as_bytes() {
                    return Err(SyncError::BadCount);
                }
                break;
            }
            Line::Text(text) => take_line(&mut replica, wanted, &mut last, number, text)?,
            Line::TooLong => return Err(SyncError::NotCanonical(number)),
            Line::Cut | Line::End => return Err(SyncError::Truncated),
        };
        number += 1;
    }
    match lines.next_line()? {
        Line::End => Ok(replica),
        _ => Err(SyncError::NotCanonical(number + 1)),
    }
}

/// The format that the first line tells.
fn read_first(replica: &Replica, text: &[u8]) -> Result<u64, SyncError> {
    let (config, format) = split_first(text).ok_or(SyncError::BadHeader)?;
    if config != replica.config {
        return Err(SyncError::ConfigDiffers);
    }
    match format {
        1 | 2 => Ok(format),
        _ => Err(SyncError::VersionDiffers),
    }
}

/// The configuration's digest and the format in the first line of a snapshot or of sums.
pub(crate) fn split_first(text: &[u8]) -> Option<([u8; 32], u64)> {
    let mut rest = Rest(std::str::from_utf8(text).ok()?);
    rest.after("{\"config\":\"")?;
    let config = rest.digest()?;
    rest.after("\",\"format\":")?;
    let format = rest.number()?;
    Some((config, format)).filter(|_| rest.0 == "}")
}
