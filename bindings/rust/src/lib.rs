//! fedbundle in Rust: the store under a replica of a SPIFFE trust server, over its library for C.
//!
//! All texts are bytes. A call that is refused returns [`Refused`], and leaves the replica as it was. The library wants a
//! replica for itself while it only reads it, so each call takes `&mut self`; a server puts it into a `Mutex`.

use std::ffi::c_void;
use std::fmt;
use std::ptr::null_mut;

const DONE: i64 = 0;
const NEEDS_ROOM: i64 = 1;
const ALREADY: i64 = 3;
const FIRST_ROOM: usize = 4096;

/// A place for a replica: `fedbundle_replica` of fedbundle.h.
#[repr(C)]
struct Place {
    at: *mut c_void,
}

/// What a call says besides what it returns: `fedbundle_outcome` of fedbundle.h.
#[repr(C)]
struct Outcome {
    count: u64,
    length: u64,
    fault_length: u64,
    fault: [u8; 240],
}

// A text that is read, and one that is written, of which the length comes next.
type In = *const u8;
type Out = *mut u8;

extern "C" {
    fn fedbundle_raw_version(out: Out, room: usize, end: &mut Outcome) -> i64;
    fn fedbundle_raw_open(p: &mut Place, config: In, c: usize, snapshot: In, s: usize, end: &mut Outcome) -> i64;
    fn fedbundle_raw_take(p: &mut Place, line: In, l: usize, end: &mut Outcome) -> i64;
    fn fedbundle_raw_observe(
        p: &mut Place,
        domain: In,
        d: usize,
        endpoint: In,
        e: usize,
        key: In,
        k: usize,
        document: In,
        b: usize,
        out: Out,
        room: usize,
        end: &mut Outcome,
    ) -> i64;
    fn fedbundle_raw_distrust(p: &mut Place, domain: In, d: usize, key: In, k: usize, end: &mut Outcome) -> i64;
    fn fedbundle_raw_merge(p: &mut Place, snapshot: In, s: usize, end: &mut Outcome) -> i64;
    fn fedbundle_raw_current(p: &mut Place, domain: In, d: usize, out: Out, room: usize, end: &mut Outcome) -> i64;
    fn fedbundle_raw_explain(
        p: &mut Place,
        domain: In,
        d: usize,
        document: In,
        b: usize,
        out: Out,
        room: usize,
        end: &mut Outcome,
    ) -> i64;
    fn fedbundle_raw_replica_report(p: &mut Place, out: Out, room: usize, end: &mut Outcome) -> i64;
    fn fedbundle_raw_snapshot(p: &mut Place, out: Out, room: usize, end: &mut Outcome) -> i64;
    fn fedbundle_raw_have(p: &mut Place, bucket: u8, out: Out, room: usize, end: &mut Outcome) -> i64;
    fn fedbundle_raw_answer(p: &mut Place, asked: In, a: usize, out: Out, room: usize, end: &mut Outcome) -> i64;
    fn fedbundle_raw_absorb(p: &mut Place, answered: In, a: usize, end: &mut Outcome) -> i64;
    fn fedbundle_raw_close(p: &mut Place);
    fn fedbundle_raw_report(config: In, c: usize, lines: In, l: usize, out: Out, room: usize, end: &mut Outcome)
        -> i64;
    fn fedbundle_raw_canon(
        domain: In,
        d: usize,
        document: In,
        b: usize,
        out: Out,
        room: usize,
        end: &mut Outcome,
    ) -> i64;
}

/// A call that was refused.
#[derive(Debug, Clone, PartialEq, Eq)]
pub struct Refused {
    /// The number of the code, as fedbundle.h says: -204 is B4.
    pub number: i64,
    /// Its text, as `G1 UnknownDomain`.
    pub text: String,
}

impl fmt::Display for Refused {
    fn fmt(&self, f: &mut fmt::Formatter<'_>) -> fmt::Result {
        f.write_str(&self.text)
    }
}

impl std::error::Error for Refused {}

/// Makes a call with an outcome, and returns what it returned and the outcome, or the refusal.
fn judged(call: impl FnOnce(&mut Outcome) -> i64) -> Result<(i64, Outcome), Refused> {
    let mut end = Outcome { count: 0, length: 0, fault_length: 0, fault: [0; 240] };
    let number = call(&mut end);
    if number >= 0 {
        return Ok((number, end));
    }
    let text = &end.fault[..end.fault.len().min(end.fault_length as usize)];
    Err(Refused { number, text: String::from_utf8_lossy(text).into_owned() })
}

/// What a call writes, or `None` where there is none of it.
fn written(mut call: impl FnMut(*mut u8, usize, &mut Outcome) -> i64) -> Result<Option<Vec<u8>>, Refused> {
    let mut room = FIRST_ROOM;
    loop {
        let mut text = vec![0; room];
        let (returned, end) = judged(|end| call(text.as_mut_ptr(), room, end))?;
        if returned != NEEDS_ROOM {
            text.truncate(end.length as usize);
            return Ok((returned == DONE).then_some(text));
        }
        room = end.length as usize;
    }
}

/// The version of the library.
pub fn version() -> String {
    let text = written(|out, room, end| unsafe { fedbundle_raw_version(out, room, end) });
    String::from_utf8_lossy(&text.ok().flatten().unwrap_or_default()).into_owned()
}

/// The report of what is accepted from lines of receipts, and how many lines have no receipt that fits.
pub fn report(config: &[u8], lines: &[u8]) -> Result<(Vec<u8>, u64), Refused> {
    let mut refused = 0;
    let made = text(written(|out, room, end| unsafe {
        let (c, l) = (config, lines);
        let returned = fedbundle_raw_report(c.as_ptr(), c.len(), l.as_ptr(), l.len(), out, room, end);
        refused = end.count;
        returned
    }));
    Ok((made?, refused))
}

/// The canonical text of a document of a domain, its id and the ids of its keys, each on a line of its own.
pub fn canon(domain: &[u8], document: &[u8]) -> Result<Vec<u8>, Refused> {
    let (d, b) = (domain, document);
    text(written(|out, room, end| unsafe {
        fedbundle_raw_canon(d.as_ptr(), d.len(), b.as_ptr(), b.len(), out, room, end)
    }))
}

/// A replica of a configuration. It is freed where it is dropped.
pub struct Replica {
    place: Place,
}

// The library has no state but that of each replica, and its replica was proved to be as good in another thread.
unsafe impl Send for Replica {}

impl Drop for Replica {
    fn drop(&mut self) {
        unsafe { fedbundle_raw_close(&mut self.place) }
    }
}

/// What came of a receipt or a record.
#[derive(Debug, Clone, Copy, PartialEq, Eq)]
pub enum Taken {
    /// It is held from now on. So many bundles are accepted now and were not; or, of a key that was distrusted, are
    /// accepted no longer.
    New(u64),
    /// It was held.
    Already,
}

impl Replica {
    /// A replica with what the snapshot has, or with nothing where it has no bytes.
    pub fn open(config: &[u8], snapshot: &[u8]) -> Result<Replica, Refused> {
        let mut replica = Replica { place: Place { at: null_mut() } };
        let (c, s) = (config, snapshot);
        judged(|end| unsafe { fedbundle_raw_open(&mut replica.place, c.as_ptr(), c.len(), s.as_ptr(), s.len(), end) })?;
        Ok(replica)
    }

    /// Takes the receipt of a line, without its line feed.
    pub fn take(&mut self, line: &[u8]) -> Result<Taken, Refused> {
        let made = judged(|end| unsafe { fedbundle_raw_take(&mut self.place, line.as_ptr(), line.len(), end) });
        made.map(taken)
    }

    /// Takes a bundle that was fetched, on the word of TLS, and returns its receipt's line.
    pub fn observe(&mut self, domain: &[u8], endpoint: &[u8], key: &[u8], document: &[u8]) -> Result<Vec<u8>, Refused> {
        let (d, e, k, b) = (domain, endpoint, key, document);
        text(written(|out, room, end| unsafe {
            fedbundle_raw_observe(
                &mut self.place,
                d.as_ptr(),
                d.len(),
                e.as_ptr(),
                e.len(),
                k.as_ptr(),
                k.len(),
                b.as_ptr(),
                b.len(),
                out,
                room,
                end,
            )
        }))
    }

    /// Distrusts a key in a domain, for good.
    pub fn distrust(&mut self, domain: &[u8], key: &[u8]) -> Result<Taken, Refused> {
        let (d, k) = (domain, key);
        let made = judged(|end| unsafe {
            fedbundle_raw_distrust(&mut self.place, d.as_ptr(), d.len(), k.as_ptr(), k.len(), end)
        });
        made.map(taken)
    }

    /// Takes all of a snapshot, or nothing. Returns how many receipts were not held.
    pub fn merge(&mut self, snapshot: &[u8]) -> Result<u64, Refused> {
        let s = snapshot;
        Ok(judged(|end| unsafe { fedbundle_raw_merge(&mut self.place, s.as_ptr(), s.len(), end) })?.1.count)
    }

    /// The current bundle of a domain in its canonical form, or `None`.
    pub fn current(&mut self, domain: &[u8]) -> Result<Option<Vec<u8>>, Refused> {
        let d = domain;
        written(|out, room, end| unsafe { fedbundle_raw_current(&mut self.place, d.as_ptr(), d.len(), out, room, end) })
    }

    /// The lines of a shortest chain by which a document is accepted, or `None` where it is not.
    pub fn explain(&mut self, domain: &[u8], document: &[u8]) -> Result<Option<Vec<u8>>, Refused> {
        let (d, b) = (domain, document);
        written(|out, room, end| unsafe {
            fedbundle_raw_explain(&mut self.place, d.as_ptr(), d.len(), b.as_ptr(), b.len(), out, room, end)
        })
    }

    /// The report of what is accepted.
    pub fn report(&mut self) -> Result<Vec<u8>, Refused> {
        text(written(|out, room, end| unsafe { fedbundle_raw_replica_report(&mut self.place, out, room, end) }))
    }

    /// The snapshot of what is held.
    pub fn snapshot(&mut self) -> Result<Vec<u8>, Refused> {
        text(written(|out, room, end| unsafe { fedbundle_raw_snapshot(&mut self.place, out, room, end) }))
    }

    /// What is held of a bucket, for another replica to answer.
    pub fn have(&mut self, bucket: u8) -> Result<Vec<u8>, Refused> {
        text(written(|out, room, end| unsafe { fedbundle_raw_have(&mut self.place, bucket, out, room, end) }))
    }

    /// The answer to another replica's have.
    pub fn answer(&mut self, asked: &[u8]) -> Result<Vec<u8>, Refused> {
        let a = asked;
        text(written(|out, room, end| unsafe {
            fedbundle_raw_answer(&mut self.place, a.as_ptr(), a.len(), out, room, end)
        }))
    }

    /// Takes all of an answer, or nothing. Returns how many receipts were not held.
    pub fn absorb(&mut self, answered: &[u8]) -> Result<u64, Refused> {
        let a = answered;
        Ok(judged(|end| unsafe { fedbundle_raw_absorb(&mut self.place, a.as_ptr(), a.len(), end) })?.1.count)
    }
}

fn taken((returned, end): (i64, Outcome)) -> Taken {
    if returned == ALREADY {
        Taken::Already
    } else {
        Taken::New(end.count)
    }
}

/// A text that there always is.
fn text(made: Result<Option<Vec<u8>>, Refused>) -> Result<Vec<u8>, Refused> {
    Ok(made?.unwrap_or_default())
}
