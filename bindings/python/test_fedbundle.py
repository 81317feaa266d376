"""The module over the examples. tests/library.py runs it."""
import threading
import unittest
from pathlib import Path

from fedbundle import USAGE, Refused, Replica, canon, report

EXAMPLES = Path(__file__).resolve().parents[2] / "examples"
CONFIG = (EXAMPLES / "config.json").read_bytes()


def taken():
    """A replica that took the receipts of the examples."""
    replica = Replica(CONFIG)
    for line in (EXAMPLES / "receipts.jsonl").read_bytes().splitlines():
        replica.take(line)
    return replica


class Examples(unittest.TestCase):
    def refuses(self, number, text, call, *arguments):
        with self.assertRaises(Refused) as caught:
            call(*arguments)
        self.assertEqual((number, text), (caught.exception.number, caught.exception.text))

    def test_report(self):
        self.assertEqual((EXAMPLES / "receipts.report").read_bytes(), taken().report())

    def test_snapshot_is_opened_and_merged(self):
        snapshot = taken().snapshot()
        self.assertEqual(snapshot, Replica(CONFIG, snapshot).snapshot())
        merged = Replica(CONFIG)
        self.assertEqual(6, merged.merge(snapshot))
        self.assertEqual(snapshot, merged.snapshot())

    def test_gossip(self):
        replica, asker = taken(), Replica(CONFIG)
        counts = [asker.absorb(replica.answer(asker.have(bucket))) for bucket in range(256)]
        self.assertEqual(6, sum(counts))
        self.assertEqual(replica.snapshot(), asker.snapshot())

    def test_current_is_explained(self):
        replica = taken()
        chain = replica.explain(b"b.example", replica.current(b"b.example"))
        self.assertEqual(2, chain.count(b"\n"))
        self.assertIsNone(replica.current(b"c.example"))

    def test_refusals(self):
        self.refuses(-301, "C1 NotJson", Replica, b"[")
        replica = taken()
        before = replica.report()
        self.refuses(-401, "L1 NotCanonical", replica.take, b"")
        self.refuses(-501, "G1 UnknownDomain", replica.distrust, b"c.example", b"0" * 64)
        self.refuses(-104, "N4 BadDomainByte at 9", replica.distrust, b"a.example:1", b"")
        self.refuses(-701, "S1 BadHeader", replica.merge, b"{}\n")
        self.assertEqual(before, replica.report())
        replica.close()
        self.refuses(USAGE, "usage", replica.report)

    def test_no_replica(self):
        lines = (EXAMPLES / "receipts.jsonl").read_bytes()
        wanted = (EXAMPLES / "receipts.report").read_bytes()
        self.assertEqual((wanted, 0), report(CONFIG, lines))
        self.assertEqual((wanted, 2), report(CONFIG, lines + b"{}\ncut"))
        self.refuses(-301, "C1 NotJson", report, b"[", lines)
        wanted = (EXAMPLES / "a.example.canon").read_bytes()
        self.assertEqual(wanted, canon(b"a.example", (EXAMPLES / "a.example.json").read_bytes()))
        self.refuses(-202, "B2 NotJson", canon, b"a.example", b"[")

    def test_turns(self):
        replica = taken()
        reports = []
        threads = [threading.Thread(target=lambda: reports.append(replica.report())) for _ in range(8)]
        for thread in threads:
            thread.start()
        for thread in threads:
            thread.join()
        self.assertEqual({replica.report()}, set(reports))


if __name__ == "__main__":
    unittest.main()
