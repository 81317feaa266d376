// Package fedbundle is the store under a replica of a SPIFFE trust server, over the proved library for C.
//
// All texts are bytes. A call that is refused returns an *Error with the code of the command, and leaves the replica as
// it was. A Replica may be used by several goroutines: its calls take turns.
package fedbundle

/*
#cgo pkg-config: fedbundle
#include <fedbundle.h>
*/
import "C"

import (
	"runtime"
	"strconv"
	"sync"
	"unsafe"
)

const firstRoom = 4096

// Usage is the code of a call that may not be made so: on a closed replica, with a name that is not UTF-8, or with a key
// that is not 64 lower-case hexadecimal digits.
const Usage = -1

// Error is a call that was refused.
type Error struct {
	// Code is the number of the code, as fedbundle.h says: -204 is B4.
	Code int64
	// Text is its text, as "G1 UnknownDomain".
	Text string
}

func (e *Error) Error() string {
	return "fedbundle: " + e.Text
}

// Taken is what came of a receipt or a record.
type Taken struct {
	// Already says that it was held.
	Already bool
	// Count says how many bundles are accepted now and were not; or, of a key that was distrusted, no longer.
	Count uint64
}

// Replica is a replica of a configuration. Close frees it.
type Replica struct {
	mutex sync.Mutex
	place C.fedbundle_replica
}

// Open returns a replica with what the snapshot has, or with nothing where it has no bytes.
func Open(config, snapshot []byte) (*Replica, error) {
	r := new(Replica)
	_, err := r.count(func(end *C.fedbundle_outcome) C.int64_t {
		return C.fedbundle_open(&r.place, at(config), size(config), at(snapshot), size(snapshot), end)
	})
	if err != nil {
		return nil, err
	}
	runtime.SetFinalizer(r, (*Replica).Close)
	return r, nil
}

// Close frees the replica. Each later call returns an error with the code Usage.
func (r *Replica) Close() {
	r.mutex.Lock()
	defer r.mutex.Unlock()
	C.fedbundle_close(&r.place)
	runtime.SetFinalizer(r, nil)
}

// Take takes the receipt of a line, without its line feed.
func (r *Replica) Take(line []byte) (Taken, error) {
	return r.count(func(end *C.fedbundle_outcome) C.int64_t {
		return C.fedbundle_take(&r.place, at(line), size(line), end)
	})
}

// Observe takes a bundle that was fetched, on the word of TLS, and returns its receipt's line.
func (r *Replica) Observe(domain, endpoint, key string, document []byte) ([]byte, error) {
	d, e, k := []byte(domain), []byte(endpoint), []byte(key)
	text, _, err := r.text(func(out unsafe.Pointer, room C.size_t, end *C.fedbundle_outcome) C.int64_t {
		return C.fedbundle_observe(&r.place, at(d), size(d), at(e), size(e), at(k), size(k), at(document), size(document),
			out, room, end)
	})
	return text, err
}

// Distrust distrusts a key in a domain, for good.
func (r *Replica) Distrust(domain, key string) (Taken, error) {
	d, k := []byte(domain), []byte(key)
	return r.count(func(end *C.fedbundle_outcome) C.int64_t {
		return C.fedbundle_distrust(&r.place, at(d), size(d), at(k), size(k), end)
	})
}

// Merge takes all of a snapshot, or nothing, and returns how many receipts were not held.
func (r *Replica) Merge(snapshot []byte) (uint64, error) {
	taken, err := r.count(func(end *C.fedbundle_outcome) C.int64_t {
		return C.fedbundle_merge(&r.place, at(snapshot), size(snapshot), end)
	})
	return taken.Count, err
}

// Current returns the current bundle of a domain in its canonical form, and whether there is one.
func (r *Replica) Current(domain string) ([]byte, bool, error) {
	d := []byte(domain)
	return r.text(func(out unsafe.Pointer, room C.size_t, end *C.fedbundle_outcome) C.int64_t {
		return C.fedbundle_current(&r.place, at(d), size(d), out, room, end)
	})
}

// Explain returns the lines of a shortest chain by which a document is accepted, and whether it is.
func (r *Replica) Explain(domain string, document []byte) ([]byte, bool, error) {
	d := []byte(domain)
	return r.text(func(out unsafe.Pointer, room C.size_t, end *C.fedbundle_outcome) C.int64_t {
		return C.fedbundle_explain(&r.place, at(d), size(d), at(document), size(document), out, room, end)
	})
}

// Report returns the report of what is accepted.
func (r *Replica) Report() ([]byte, error) {
	text, _, err := r.text(func(out unsafe.Pointer, room C.size_t, end *C.fedbundle_outcome) C.int64_t {
		return C.fedbundle_replica_report(&r.place, out, room, end)
	})
	return text, err
}

// Snapshot returns the snapshot of what is held.
func (r *Replica) Snapshot() ([]byte, error) {
	text, _, err := r.text(func(out unsafe.Pointer, room C.size_t, end *C.fedbundle_outcome) C.int64_t {
		return C.fedbundle_snapshot(&r.place, out, room, end)
	})
	return text, err
}

// Have returns what is held of a bucket, for another replica to answer.
func (r *Replica) Have(bucket uint8) ([]byte, error) {
	text, _, err := r.text(func(out unsafe.Pointer, room C.size_t, end *C.fedbundle_outcome) C.int64_t {
		return C.fedbundle_have(&r.place, C.uint8_t(bucket), out, room, end)
	})
	return text, err
}

// Answer returns the answer to another replica's have.
func (r *Replica) Answer(asked []byte) ([]byte, error) {
	text, _, err := r.text(func(out unsafe.Pointer, room C.size_t, end *C.fedbundle_outcome) C.int64_t {
		return C.fedbundle_answer(&r.place, at(asked), size(asked), out, room, end)
	})
	return text, err
}

// Absorb takes all of an answer, or nothing, and returns how many receipts were not held.
func (r *Replica) Absorb(answered []byte) (uint64, error) {
	taken, err := r.count(func(end *C.fedbundle_outcome) C.int64_t {
		return C.fedbundle_absorb(&r.place, at(answered), size(answered), end)
	})
	return taken.Count, err
}

// Report returns the report of what is accepted from lines of receipts, and how many lines have no receipt that fits.
func Report(config, lines []byte) ([]byte, uint64, error) {
	var refused uint64
	text, _, err := written(func(out unsafe.Pointer, room C.size_t, end *C.fedbundle_outcome) C.int64_t {
		code := C.fedbundle_report(at(config), size(config), at(lines), size(lines), out, room, end)
		refused = uint64(end.count)
		return code
	})
	return text, refused, err
}

// Canon returns the canonical text of a document of a domain, its id and the ids of its keys, each on a line of its own.
func Canon(domain string, document []byte) ([]byte, error) {
	d := []byte(domain)
	text, _, err := written(func(out unsafe.Pointer, room C.size_t, end *C.fedbundle_outcome) C.int64_t {
		return C.fedbundle_canon(at(d), size(d), at(document), size(document), out, room, end)
	})
	return text, err
}

// Version returns the version of the library.
func Version() string {
	text, _, _ := written(func(out unsafe.Pointer, room C.size_t, end *C.fedbundle_outcome) C.int64_t {
		return C.fedbundle_version(out, room, end)
	})
	return string(text)
}

// count makes a call that counts.
func (r *Replica) count(call func(*C.fedbundle_outcome) C.int64_t) (Taken, error) {
	r.mutex.Lock()
	defer r.mutex.Unlock()
	var end C.fedbundle_outcome
	code := call(&end)
	if code < 0 {
		return Taken{}, refusal(code, &end)
	}
	return Taken{Already: code == C.FEDBUNDLE_ALREADY, Count: uint64(end.count)}, nil
}

// text makes a call on the replica that writes.
func (r *Replica) text(call func(unsafe.Pointer, C.size_t, *C.fedbundle_outcome) C.int64_t) ([]byte, bool, error) {
	r.mutex.Lock()
	defer r.mutex.Unlock()
	return written(call)
}

// written makes a call that writes, with as much room as it needs, and says whether there is something.
func written(call func(unsafe.Pointer, C.size_t, *C.fedbundle_outcome) C.int64_t) ([]byte, bool, error) {
	for room := firstRoom; ; {
		out := make([]byte, room)
		var end C.fedbundle_outcome
		switch code := call(at(out), size(out), &end); {
		case code < 0:
			return nil, false, refusal(code, &end)
		case code == C.FEDBUNDLE_NONE:
			return nil, false, nil
		case code == C.FEDBUNDLE_NEEDS_ROOM:
			room = int(end.length)
		default:
			return out[:end.length], true, nil
		}
	}
}

func refusal(code C.int64_t, end *C.fedbundle_outcome) error {
	text := C.GoStringN((*C.char)(unsafe.Pointer(&end.fault[0])), C.int(end.fault_length))
	if text == "" {
		text = strconv.FormatInt(int64(code), 10)
	}
	return &Error{Code: int64(code), Text: text}
}

// at is the address of the first byte. The library reads none where there are none.
func at(bytes []byte) unsafe.Pointer {
	if len(bytes) == 0 {
		return nil
	}
	return unsafe.Pointer(&bytes[0])
}

func size(bytes []byte) C.size_t {
	return C.size_t(len(bytes))
}
