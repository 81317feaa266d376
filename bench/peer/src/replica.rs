//! What a replica holds: a closure, its records of distrust in their order, and the digest of its configuration.
use crate::closure::{Closure, TakeError, Taken};
use crate::document::Id;
use crate::receipt::Receipt;
use serde_json::Value;
use sha2::{Digest, Sha256};
use std::collections::BTreeSet;
use std::error::Error;
use std::fmt;

const MOST_RECORDS: usize = 4_096;

pub struct Replica {
    pub closure: Closure,
    /// The key and the domain of each record.
    pub records: BTreeSet<(Id, String)>,
    pub config: Id,
    pub count: usize,
}

/// Why a stream is not taken, with the number of the line.
#[derive(Debug)]
pub enum SyncError {
    BadHeader,
    ConfigDiffers,
    VersionDiffers,
    NotCanonical(u64),
    NotRising(u64),
    BadCount,
    Truncated,
    Refused(u64, TakeError),
    Io,
}

impl fmt::Display for SyncError {
    fn fmt(&self, out: &mut fmt::Formatter<'_>) -> fmt::Result {
        match self {
            SyncError::BadHeader => write!(out, "S1 BadHeader"),
            SyncError::ConfigDiffers => write!(out, "S2 ConfigDiffers"),
            SyncError::VersionDiffers => write!(out, "S3 VersionDiffers"),
            SyncError::NotCanonical(line) => write!(out, "S4 NotCanonical line {line}"),
            SyncError::NotRising(line) => write!(out, "S5 NotRising line {line}"),
            SyncError::BadCount => write!(out, "S6 BadCount"),
            SyncError::Truncated => write!(out, "S7 Truncated"),
            SyncError::Refused(line, why) => write!(out, "S8 Refused line {line} {why:?}"),
            SyncError::Io => write!(out, "S9 Io"),
        }
    }
}

impl Error for SyncError {}

impl From<std::io::Error> for SyncError {
    fn from(_error: std::io::Error) -> SyncError {
        SyncError::Io
    }
}

impl Replica {
    /// A replica of the configuration that holds nothing. The text is the configuration's canonical one.
    pub fn new(config: &str) -> Option<Replica> {
        let value: Value = serde_json::from_str(config).ok()?;
        Some(Replica {
            closure: Closure::new(value)?,
            records: BTreeSet::new(),
            config: Sha256::digest(config).into(),
            count: 0,
        })
    }

    /// Whether the receipt was not held.
    pub fn take(&mut self, receipt: Receipt) -> Result<bool, TakeError> {
        match self.closure.take(receipt)? {
            Taken::New { .. } => {
                self.count += 1;
                Ok(true)
            }
            Taken::Already => Ok(false),
        }
    }

    pub fn distrust(&mut self, domain: String, key: Id) -> Result<(), TakeError> {
        let record = (key, domain);
        if self.records.contains(&record) {
            return Ok(());
        }
        if self.records.len() >= MOST_RECORDS {
            return Err(TakeError::Full);
        }
        self.closure.distrust(&record.1, key)?;
        self.records.insert(record);
        Ok(())
    }

    /// The ids of a bucket's receipts, sorted.
    pub fn ids_of(&self, bucket: u8) -> Vec<Id> {
        let mut ids: Vec<Id> = self.closure.receipts_of(bucket).map(|receipt| *receipt.id()).collect();
        ids.sort_unstable();
        ids
    }
}
