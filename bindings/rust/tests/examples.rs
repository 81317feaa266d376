//! The crate over the examples. tests/library.py runs it.
use fedbundle::{canon, report, Refused, Replica, Taken};
use std::fs;
use std::path::Path;
use std::sync::Mutex;
use std::thread;

fn example(name: &str) -> Vec<u8> {
    fs::read(Path::new(env!("CARGO_MANIFEST_DIR")).join("../../examples").join(name)).unwrap()
}

/// A replica that took the receipts of the examples.
fn taken() -> Replica {
    let mut replica = Replica::open(&example("config.json"), b"").unwrap();
    for line in example("receipts.jsonl").split(|byte| *byte == b'\n').filter(|line| !line.is_empty()) {
        assert!(matches!(replica.take(line), Ok(Taken::New(_))));
    }
    replica
}

fn refused<T>(made: Result<T, Refused>) -> (i64, String) {
    let refused = made.err().unwrap();
    (refused.number, refused.text)
}

#[test]
fn report_of_a_replica() {
    assert_eq!(example("receipts.report"), taken().report().unwrap());
}

#[test]
fn no_replica() {
    let (config, lines, want) = (example("config.json"), example("receipts.jsonl"), example("receipts.report"));
    assert_eq!(Ok((want.clone(), 0)), report(&config, &lines));
    assert_eq!(Ok((want, 2)), report(&config, &[&lines[..], b"{}\ncut"].concat()));
    assert_eq!((-301, "C1 NotJson".into()), refused(report(b"[", &lines)));
    assert_eq!(Ok(example("a.example.canon")), canon(b"a.example", &example("a.example.json")));
    assert_eq!((-202, "B2 NotJson".into()), refused(canon(b"a.example", b"[")));
}

#[test]
fn snapshot_is_opened_and_merged() {
    let snapshot = taken().snapshot().unwrap();
    let mut opened = Replica::open(&example("config.json"), &snapshot).unwrap();
    assert_eq!(snapshot, opened.snapshot().unwrap());
    let mut merged = Replica::open(&example("config.json"), b"").unwrap();
    assert_eq!(Ok(6), merged.merge(&snapshot));
    assert_eq!(snapshot, merged.snapshot().unwrap());
}

#[test]
fn gossip() {
    let (mut replica, mut asker) = (taken(), Replica::open(&example("config.json"), b"").unwrap());
    let mut count = 0;
    for bucket in 0..=255 {
        let answer = replica.answer(&asker.have(bucket).unwrap()).unwrap();
        count += asker.absorb(&answer).unwrap();
    }
    assert_eq!(6, count);
    assert_eq!(replica.snapshot(), asker.snapshot());
}

#[test]
fn current_is_explained() {
    let mut replica = taken();
    let current = replica.current(b"b.example").unwrap().unwrap();
    let chain = replica.explain(b"b.example", &current).unwrap().unwrap();
    assert_eq!(2, chain.iter().filter(|byte| **byte == b'\n').count());
    assert_eq!(Ok(None), replica.current(b"c.example"));
}

#[test]
fn refusals() {
    assert_eq!((-301, "C1 NotJson".into()), refused(Replica::open(b"[", b"")));
    let mut replica = taken();
    let before = replica.report();
    assert_eq!((-401, "L1 NotCanonical".into()), refused(replica.take(b"")));
    assert_eq!((-501, "G1 UnknownDomain".into()), refused(replica.distrust(b"c.example", &[b'0'; 64])));
    assert_eq!((-104, "N4 BadDomainByte at 9".into()), refused(replica.distrust(b"a.example:1", b"")));
    assert_eq!((-701, "S1 BadHeader".into()), refused(replica.merge(b"{}\n")));
    assert_eq!(before, replica.report());
}

#[test]
fn turns() {
    let replica = Mutex::new(taken());
    let want = replica.lock().unwrap().report();
    thread::scope(|scope| {
        for _ in 0..8 {
            scope.spawn(|| assert_eq!(want, replica.lock().unwrap().report()));
        }
    });
}
