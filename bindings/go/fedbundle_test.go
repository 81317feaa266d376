package fedbundle

import (
	"bytes"
	"errors"
	"os"
	"path/filepath"
	"sync"
	"testing"
)

// example reads a file of examples/.
func example(t *testing.T, name string) []byte {
	t.Helper()
	text, err := os.ReadFile(filepath.Join("..", "..", "examples", name))
	if err != nil {
		t.Fatal(err)
	}
	return text
}

// taken is a replica that took the receipts of the examples.
func taken(t *testing.T) *Replica {
	t.Helper()
	r, err := Open(example(t, "config.json"), nil)
	if err != nil {
		t.Fatal(err)
	}
	t.Cleanup(r.Close)
	for _, line := range bytes.Split(bytes.TrimSuffix(example(t, "receipts.jsonl"), []byte("\n")), []byte("\n")) {
		if _, err := r.Take(line); err != nil {
			t.Fatal(err)
		}
	}
	return r
}

func wantCode(t *testing.T, err error, code int64, text string) {
	t.Helper()
	var refused *Error
	if !errors.As(err, &refused) || refused.Code != code || refused.Text != text {
		t.Errorf("%v, wanted %d %s", err, code, text)
	}
}

func wantSame(t *testing.T, a, b *Replica) {
	t.Helper()
	first, err := a.Snapshot()
	second, other := b.Snapshot()
	if err != nil || other != nil || !bytes.Equal(first, second) {
		t.Errorf("not the same is held: %v, %v", err, other)
	}
}

func TestReport(t *testing.T) {
	report, err := taken(t).Report()
	if err != nil || !bytes.Equal(report, example(t, "receipts.report")) {
		t.Errorf("%v, %s", err, report)
	}
}

func TestSnapshotIsOpenedAndMerged(t *testing.T) {
	r := taken(t)
	snapshot, err := r.Snapshot()
	if err != nil {
		t.Fatal(err)
	}
	opened, err := Open(example(t, "config.json"), snapshot)
	if err != nil {
		t.Fatal(err)
	}
	defer opened.Close()
	wantSame(t, r, opened)
	merged, err := Open(example(t, "config.json"), nil)
	if err != nil {
		t.Fatal(err)
	}
	defer merged.Close()
	if count, err := merged.Merge(snapshot); err != nil || count != 6 {
		t.Errorf("%d receipts merged, %v", count, err)
	}
	wantSame(t, r, merged)
}

func TestGossip(t *testing.T) {
	r := taken(t)
	asker, err := Open(example(t, "config.json"), nil)
	if err != nil {
		t.Fatal(err)
	}
	defer asker.Close()
	var count uint64
	for bucket := 0; bucket < 256; bucket++ {
		have, err := asker.Have(uint8(bucket))
		if err != nil {
			t.Fatal(err)
		}
		answer, err := r.Answer(have)
		if err != nil {
			t.Fatal(err)
		}
		added, err := asker.Absorb(answer)
		if err != nil {
			t.Fatal(err)
		}
		count += added
	}
	if count != 6 {
		t.Errorf("%d receipts absorbed", count)
	}
	wantSame(t, r, asker)
}

func TestCurrentIsExplained(t *testing.T) {
	r := taken(t)
	current, found, err := r.Current("b.example")
	if err != nil || !found {
		t.Fatal(found, err)
	}
	chain, found, err := r.Explain("b.example", current)
	if err != nil || !found || bytes.Count(chain, []byte("\n")) != 2 {
		t.Errorf("%v, %v, %s", found, err, chain)
	}
	if _, found, err := r.Current("c.example"); found || err != nil {
		t.Error(found, err)
	}
}

func TestRefusals(t *testing.T) {
	_, err := Open([]byte("["), nil)
	wantCode(t, err, -301, "C1 NotJson")
	r := taken(t)
	before, _ := r.Report()
	_, err = r.Take(nil)
	wantCode(t, err, -401, "L1 NotCanonical")
	_, err = r.Distrust("c.example", "00000000000000000000000000000000"+"00000000000000000000000000000000")
	wantCode(t, err, -501, "G1 UnknownDomain")
	_, err = r.Distrust("a.example:1", "")
	wantCode(t, err, -104, "N4 BadDomainByte at 9")
	_, err = r.Merge([]byte("{}\n"))
	wantCode(t, err, -701, "S1 BadHeader")
	after, _ := r.Report()
	if !bytes.Equal(before, after) {
		t.Error("a refusal changed the report")
	}
	r.Close()
	_, err = r.Report()
	wantCode(t, err, Usage, "usage")
}

func TestNoReplica(t *testing.T) {
	config, lines, want := example(t, "config.json"), example(t, "receipts.jsonl"), example(t, "receipts.report")
	if report, refused, err := Report(config, lines); err != nil || refused != 0 || !bytes.Equal(report, want) {
		t.Errorf("%v, %d refused, %s", err, refused, report)
	}
	more := append(append([]byte(nil), lines...), "{}\ncut"...)
	if report, refused, err := Report(config, more); err != nil || refused != 2 || !bytes.Equal(report, want) {
		t.Errorf("%v, %d refused, %s", err, refused, report)
	}
	_, _, err := Report([]byte("["), lines)
	wantCode(t, err, -301, "C1 NotJson")
	text, err := Canon("a.example", example(t, "a.example.json"))
	if err != nil || !bytes.Equal(text, example(t, "a.example.canon")) {
		t.Errorf("%v, %s", err, text)
	}
	_, err = Canon("a.example", []byte("["))
	wantCode(t, err, -202, "B2 NotJson")
}

func TestTurns(t *testing.T) {
	r := taken(t)
	want, _ := r.Report()
	var group sync.WaitGroup
	for i := 0; i < 8; i++ {
		group.Add(1)
		go func() {
			defer group.Done()
			for j := 0; j < 20; j++ {
				if report, err := r.Report(); err != nil || !bytes.Equal(report, want) {
					t.Error("another report", err)
				}
			}
		}()
	}
	group.Wait()
}
