//! Questions and answers, written and read.
use crate::document::Id;
use crate::line::{write_hex, Rest};
use crate::receipt::Receipt;
use crate::replica::{Replica, SyncError};
use crate::stream::{take_line, write_receipts, write_records, Line, Lines, Wanted};
use crate::sums::check_head;
use std::io::{self, BufRead, Write};

pub struct Question {
    pub bucket: u8,
    pub ids: Vec<Id>,
}

struct Told {
    bucket: u64,
    config: Id,
    count: u64,
    records: Option<u64>,
    format: u64,
    buckets: u64,
}

pub fn write_question(out: &mut impl Write, replica: &Replica, bucket: u8) -> io::Result<()> {
    write!(out, "{{\"bucket\":{bucket},\"config\":\"")?;
    write_hex(out, &replica.config)?;
    out.write_all(b"\",\"format\":2,\"have\":[")?;
    for (at, id) in replica.ids_of(bucket).iter().enumerate() {
        out.write_all(if at > 0 { b",\"" } else { b"\"" })?;
        write_hex(out, id)?;
        out.write_all(b"\"")?;
    }
    out.write_all(b"],\"of\":256}\n")
}

/// What a peer asks.
pub enum Asked {
    /// The first line of sums; these follow.
    Sums,
    Ids(Question),
    Nothing,
}

pub fn read_question(lines: &mut Lines<impl BufRead>, replica: &Replica) -> Result<Asked, SyncError> {
    let text = match lines.next_line()? {
        Line::Text(text) => text,
        Line::TooLong => return Err(SyncError::BadHeader),
        Line::Cut => return Err(SyncError::Truncated),
        Line::End => return Ok(Asked::Nothing),
    };
    if text.starts_with(b"{\"config\"") {
        return check_head(text, replica).map(|()| Asked::Sums);
    }
    let (bucket, config, format, ids, buckets) = split_question(text).ok_or(SyncError::BadHeader)?;
    check(replica, &config, format, buckets)?;
    Ok(Asked::Ids(Question { bucket: bucket as u8, ids }))
}

type Split = (u64, Id, u64, Vec<Id>, u64);

fn split_question(text: &[u8]) -> Option<Split> {
    let mut rest = Rest(std::str::from_utf8(text).ok()?);
    rest.after("{\"bucket\":")?;
    let bucket = rest.number()?;
    rest.after(",\"config\":\"")?;
    let config = rest.digest()?;
    rest.after("\",\"format\":")?;
    let format = rest.number()?;
    rest.after(",\"have\":[")?;
    let ids = read_ids(&mut rest)?;
    rest.after("],\"of\":")?;
    let buckets = rest.number()?;
    Some((bucket, config, format, ids, buckets)).filter(|_| rest.0 == "}" && bucket < buckets)
}

fn read_ids(rest: &mut Rest<'_>) -> Option<Vec<Id>> {
    let mut ids: Vec<Id> = Vec::new();
    while !rest.0.starts_with(']') {
        if !ids.is_empty() {
            rest.after(",")?;
        }
        rest.after("\"")?;
        let id = rest.digest()?;
        rest.after("\"")?;
        if ids.last().map_or(false, |last| *last >= id) {
            return None;
        }
        ids.push(id);
    }
    Some(ids)
}

fn check(replica: &Replica, config: &Id, format: u64, buckets: u64) -> Result<(), SyncError> {
    if *config != replica.config {
        return Err(SyncError::ConfigDiffers);
    }
    if (format, buckets) != (2, 256) {
        return Err(SyncError::VersionDiffers);
    }
    Ok(())
}

pub fn write_answer(out: &mut impl Write, replica: &Replica, question: &Question) -> io::Result<()> {
    let is_lacking = |receipt: &&Receipt| question.ids.binary_search(receipt.id()).is_err();
    let lacking: Vec<&Receipt> = replica.closure.receipts_of(question.bucket).filter(is_lacking).collect();
    write!(out, "{{\"bucket\":{},\"config\":\"", question.bucket)?;
    write_hex(out, &replica.config)?;
    let records = replica.records.len();
    writeln!(out, "\",\"count\":{},\"distrusts\":{records},\"format\":2,\"of\":256}}", lacking.len())?;
    write_records(out, replica)?;
    write_receipts(out, lacking.into_iter())
}

/// Takes the answer about the bucket line by line, and answers the number of the line behind it. Raises the number of
/// receipts that were not held.
pub fn take_answer(
    lines: &mut Lines<impl BufRead>,
    replica: &mut Replica,
    bucket: u8,
    mut number: u64,
    taken: &mut u64,
) -> Result<u64, SyncError> {
    let told = match lines.next_line()? {
        Line::Text(text) => split_told(text).filter(|told| told.bucket == u64::from(bucket)),
        Line::TooLong => None,
        Line::Cut | Line::End => return Err(SyncError::Truncated),
    };
    let told = told.ok_or(SyncError::BadHeader)?;
    check(replica, &told.config, told.format, told.buckets)?;
    number += 1;
    let mut last = Vec::new();
    for (wanted, count) in [(Wanted::Records, told.records.unwrap_or(0)), (Wanted::Receipts, told.count)] {
        for _ in 0..count {
            match lines.next_line()? {
                Line::Text(text) => *taken += u64::from(take_line(replica, wanted, &mut last, number, text)?),
                Line::TooLong => return Err(SyncError::NotCanonical(number)),
                Line::Cut | Line::End => return Err(SyncError::Truncated),
            }
            number += 1;
        }
    }
    Ok(number)
}

fn split_told(text: &[u8]) -> Option<Told> {
    let mut rest = Rest(std::str::from_utf8(text).ok()?);
    rest.after("{\"bucket\":")?;
    let bucket = rest.number()?;
    rest.after(",\"config\":\"")?;
    let config = rest.digest()?;
    rest.after("\",\"count\":")?;
    let count = rest.number()?;
    let records = match rest.after(",\"distrusts\":") {
        Some(()) => Some(rest.number()?),
        None => None,
    };
    rest.after(",\"format\":")?;
    let format = rest.number()?;
    rest.after(",\"of\":")?;
    let buckets = rest.number()?;
    let told = Told { bucket, config, count, records, format, buckets };
    Some(told).filter(|told| rest.0 == "}" && bucket < buckets && (told.records.is_some() || format == 1))
}
