//! Sums of what is held: a digest of the records, and one of the ids of each bucket; their question, and its answer.
use crate::document::Id;
use crate::line::{write_hex, Rest};
use crate::replica::{Replica, SyncError};
use crate::snapshot::split_first;
use crate::stream::{write_records, Line, Lines};
use sha2::{Digest, Sha256};
use std::io::{self, BufRead, Write};

pub const PARTS: usize = 257;

/// The sums as they were last computed, each with how many receipts or records it was of.
#[derive(Default)]
pub struct KeptSums {
    parts: Vec<(usize, Id)>,
}

impl KeptSums {
    /// The sums of the records and of each bucket. One is computed again only where its part has grown.
    pub fn sums_of(&mut self, replica: &Replica) -> io::Result<Vec<Id>> {
        for part in 0..PARTS {
            let count = count_of(replica, part);
            if self.parts.get(part).map_or(true, |(before, _)| *before != count) {
                let sum = (count, sum_of(replica, part)?);
                match self.parts.get_mut(part) {
                    Some(kept) => *kept = sum,
                    None => self.parts.push(sum),
                }
            }
        }
        Ok(self.parts.iter().map(|(_, sum)| *sum).collect())
    }
}

fn count_of(replica: &Replica, part: usize) -> usize {
    match part.checked_sub(1) {
        None => replica.records.len(),
        Some(bucket) => replica.closure.receipts_of(bucket as u8).count(),
    }
}

fn sum_of(replica: &Replica, part: usize) -> io::Result<Id> {
    let mut text = Vec::new();
    match part.checked_sub(1) {
        None => write_records(&mut text, replica)?,
        Some(bucket) => replica.ids_of(bucket as u8).iter().for_each(|id| text.extend_from_slice(id)),
    }
    Ok(Sha256::digest(text).into())
}

fn write_head(out: &mut impl Write, replica: &Replica) -> io::Result<()> {
    out.write_all(b"{\"config\":\"")?;
    write_hex(out, &replica.config)?;
    out.write_all(b"\",\"format\":2}\n")
}

pub fn write_sums(out: &mut impl Write, replica: &Replica, sums: &[Id]) -> io::Result<()> {
    write_head(out, replica)?;
    for sum in sums {
        write_hex(out, sum)?;
        out.write_all(b"\n")?;
    }
    Ok(())
}

pub fn write_marks(out: &mut impl Write, replica: &Replica, marks: &[bool]) -> io::Result<()> {
    write_head(out, replica)?;
    let text: Vec<u8> = marks.iter().map(|mark| if *mark { b'1' } else { b'0' }).collect();
    out.write_all(&text)?;
    out.write_all(b"\n")
}

/// Takes the first line of a question or an answer.
pub fn check_head(text: &[u8], replica: &Replica) -> Result<(), SyncError> {
    let (config, format) = split_first(text).ok_or(SyncError::BadHeader)?;
    if config != replica.config {
        return Err(SyncError::ConfigDiffers);
    }
    if format != 2 {
        return Err(SyncError::VersionDiffers);
    }
    Ok(())
}

/// The lines of the sums, each compared with the own one.
pub fn read_sums(lines: &mut Lines<impl BufRead>, own: &[Id]) -> Result<Vec<bool>, SyncError> {
    let mut marks = Vec::with_capacity(own.len());
    for sum in own {
        let mut rest = Rest(std::str::from_utf8(next(lines)?).map_err(|_| SyncError::BadHeader)?);
        let other = rest.digest().filter(|_| rest.0.is_empty()).ok_or(SyncError::BadHeader)?;
        marks.push(other != *sum);
    }
    Ok(marks)
}

/// The buckets that differ, or one where only the records do.
pub fn read_marks(lines: &mut Lines<impl BufRead>, replica: &Replica) -> Result<Vec<u8>, SyncError> {
    check_head(next(lines)?, replica)?;
    let marks = next(lines)?;
    if marks.len() != PARTS || marks.iter().any(|mark| !matches!(mark, b'0' | b'1')) {
        return Err(SyncError::NotCanonical(2));
    }
    let differ = |bucket: &u8| marks[usize::from(*bucket) + 1] == b'1';
    let buckets: Vec<u8> = (0..=255).filter(differ).collect();
    Ok(if buckets.is_empty() && marks[0] == b'1' { vec![0] } else { buckets })
}

fn next<'a, R: BufRead>(lines: &'a mut Lines<R>) -> Result<&'a [u8], SyncError> {
    match lines.next_line()? {
        Line::Text(text) => Ok(text),
        Line::TooLong => Err(SyncError::BadHeader),
        Line::Cut | Line::End => Err(SyncError::Truncated),
    }
}
