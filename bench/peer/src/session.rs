//! Sessions: the side that asks, about every bucket or about those whose sums differ, and the side that answers.
use crate::messages::{read_question, take_answer, write_answer, write_question, Asked};
use crate::replica::{Replica, SyncError};
use crate::stream::Lines;
use crate::sums::{read_marks, read_sums, write_marks, write_sums, KeptSums};
use std::io::{BufRead, Write};

/// Answers questions until there are no more, and answers how many there were about buckets.
pub fn serve_one(
    replica: &Replica,
    kept: &mut KeptSums,
    source: impl BufRead,
    sink: &mut impl Write,
) -> Result<u64, SyncError> {
    let mut lines = Lines::new(source);
    let mut count = 0;
    loop {
        match read_question(&mut lines, replica)? {
            Asked::Sums => {
                let marks = read_sums(&mut lines, &kept.sums_of(replica)?)?;
                write_marks(sink, replica, &marks)?;
            }
            Asked::Ids(question) => {
                write_answer(sink, replica, &question)?;
                count += 1;
            }
            Asked::Nothing => return Ok(count),
        }
        sink.flush()?;
    }
}

/// Asks about each bucket and takes what is answered, and answers how many receipts were not held.
pub fn pull(replica: &mut Replica, source: impl BufRead, sink: &mut impl Write) -> Result<u64, SyncError> {
    pull_about(replica, &mut Lines::new(source), sink, 0..=255)
}

/// Asks which sums differ, and then about those buckets.
pub fn pull_quietly(
    replica: &mut Replica,
    kept: &mut KeptSums,
    source: impl BufRead,
    sink: &mut impl Write,
) -> Result<u64, SyncError> {
    let mut lines = Lines::new(source);
    write_sums(sink, replica, &kept.sums_of(replica)?)?;
    sink.flush()?;
    let buckets = read_marks(&mut lines, replica)?;
    pull_about(replica, &mut lines, sink, buckets)
}

fn pull_about(
    replica: &mut Replica,
    lines: &mut Lines<impl BufRead>,
    sink: &mut impl Write,
    buckets: impl IntoIterator<Item = u8>,
) -> Result<u64, SyncError> {
    let mut number = 1;
    let mut taken = 0;
    for bucket in buckets {
        write_question(sink, replica, bucket)?;
        sink.flush()?;
        number = take_answer(lines, replica, bucket, number, &mut taken)?;
    }
    Ok(taken)
}
