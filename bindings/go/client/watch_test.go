package client

import (
	"context"
	"encoding/json"
	"io"
	"net"
	"strings"
	"sync"
	"testing"
	"time"
)

// changing is a replica whose bundles change: the current document of each trust domain, which is empty if it has none.
type changing struct {
	mutex   sync.Mutex
	current map[string]string
	away    bool
	// older is what is told instead of the ids of these documents.
	older map[string]string
}

func (r *changing) set(change func()) {
	r.mutex.Lock()
	defer r.mutex.Unlock()
	change()
}

func (r *changing) serve(connection *net.UnixConn) {
	words, _ := request(connection)
	r.mutex.Lock()
	defer r.mutex.Unlock()
	if r.away || len(words) == 0 {
		return
	}
	if words[0] == "status" {
		_, _ = io.WriteString(connection, replied(r.status(), "", 0))
		return
	}
	document := r.current[strings.TrimPrefix(words[1], "--domain=")]
	if document == "" {
		_, _ = io.WriteString(connection, replied("", "fedbundle: no current bundle\n", 1))
		return
	}
	_, _ = io.WriteString(connection, replied(document+"\n", "", 0))
}

func (r *changing) status() string {
	status := Status{Config: "c", Domains: []DomainStatus{}}
	for domain, document := range r.current {
		one := DomainStatus{Domain: domain}
		if document != "" {
			one.Current = &CurrentBundle{ID: documentID(domain, []byte(document))}
		}
		if id, found := r.older[domain]; found {
			one.Current = &CurrentBundle{ID: id}
		}
		status.Domains = append(status.Domains, one)
	}
	text, _ := json.Marshal(status)
	return string(text)
}

// watched begins a Watch of such a replica.
func watched(t *testing.T, r *changing, domains ...string) (<-chan Update, context.CancelFunc) {
	t.Helper()
	c := served(t, r.serve)
	ctx, cancel := context.WithTimeout(context.Background(), 20*time.Second)
	t.Cleanup(cancel)
	return c.Watch(ctx, WatchOptions{Every: time.Millisecond, Domains: domains}), cancel
}

// next is the next update that is not an error of the whole replica.
func next(t *testing.T, updates <-chan Update) Update {
	t.Helper()
	for update := range updates {
		if update.Domain != "" {
			return update
		}
	}
	t.Fatal("the watch has ended")
	return Update{}
}

func wantUpdate(t *testing.T, updates <-chan Update, domain, document string) {
	t.Helper()
	update := next(t, updates)
	found := ""
	if update.Bundle != nil {
		found = string(update.Bundle.Document)
	}
	if update.Domain != domain || found != document || update.Err != nil {
		t.Errorf("update %+v with %q, wanted %s with %q", update, found, domain, document)
	}
}

func TestWatch(t *testing.T) {
	const first, second = `{"keys":[],"spiffe_sequence":1}`, `{"keys":[],"spiffe_sequence":2}`
	r := &changing{current: map[string]string{"a": first, "b": first, "c": ""}}
	updates, cancel := watched(t, r)
	wantUpdate(t, updates, "a", first)
	wantUpdate(t, updates, "b", first)
	wantUpdate(t, updates, "c", "")
	r.set(func() { r.current["b"] = second })
	wantUpdate(t, updates, "b", second)
	r.set(func() { r.current["b"] = first })
	wantUpdate(t, updates, "b", first)
	r.set(func() { r.current["b"] = "" })
	wantUpdate(t, updates, "b", "")
	r.set(func() { r.current["c"] = second })
	wantUpdate(t, updates, "c", second)
	r.set(func() { delete(r.current, "a") })
	wantUpdate(t, updates, "a", "")
	cancel()
	for update := range updates {
		t.Errorf("after the end: %+v", update)
	}
}

func TestWatchOfNamedDomains(t *testing.T) {
	r := &changing{current: map[string]string{"a": `{"keys":[]}`, "b": `{"keys":[]}`}}
	updates, _ := watched(t, r, "x", "b")
	wantUpdate(t, updates, "x", "")
	wantUpdate(t, updates, "b", `{"keys":[]}`)
	r.set(func() { r.current["a"], r.current["b"] = "", "" })
	wantUpdate(t, updates, "b", "")
}

// While the replica is away each poll gives an error, and then only what has changed comes.
func TestWatchOfReplicaThatIsAway(t *testing.T) {
	r := &changing{current: map[string]string{"a": `{"keys":[]}`, "b": `{"keys":[]}`}}
	updates, _ := watched(t, r)
	wantUpdate(t, updates, "a", `{"keys":[]}`)
	wantUpdate(t, updates, "b", `{"keys":[]}`)
	r.set(func() { r.away = true })
	for i := 0; i < 3; i++ {
		update := <-updates
		wantCode(t, "away", update.Err, NoReplica, 3)
	}
	r.set(func() { r.away, r.current["b"] = false, "" })
	wantUpdate(t, updates, "b", "")
}

// A bundle that cannot be read is an error at each poll, and the others come.
func TestWatchOfBadBundle(t *testing.T) {
	r := &changing{current: map[string]string{"a": `{"keys":[{"use":"x509-svid","x5c":["AAAA"]}]}`, "b": `{"keys":[]}`}}
	updates, _ := watched(t, r)
	update := next(t, updates)
	wantCode(t, "a certificate that is not one", update.Err, BadReply, 3)
	wantUpdate(t, updates, "b", `{"keys":[]}`)
	update = next(t, updates)
	wantCode(t, "the same again", update.Err, BadReply, 3)
	if update.Domain != "a" {
		t.Errorf("%+v", update)
	}
}

// The status may be older than the bundle: it is given once, and a bundle that has gone since is none.
func TestWatchOfOlderStatus(t *testing.T) {
	r := &changing{current: map[string]string{"a": `{"keys":[]}`, "b": ""}, older: map[string]string{"a": "1", "b": "2"}}
	updates, _ := watched(t, r)
	wantUpdate(t, updates, "a", `{"keys":[]}`)
	wantUpdate(t, updates, "b", "")
	select {
	case update := <-updates:
		t.Errorf("%+v", update)
	case <-time.After(50 * time.Millisecond):
	}
}

// Nobody receives the update, and the replica does not answer: in both cases the watch ends when it is cancelled.
func TestWatchIsCancelled(t *testing.T) {
	for _, c := range []*Client{silent(t, ""), served(t, (&changing{current: map[string]string{"a": ""}}).serve)} {
		ctx, cancel := context.WithCancel(context.Background())
		updates, start := c.Watch(ctx, WatchOptions{}), time.Now()
		time.Sleep(50 * time.Millisecond)
		cancel()
		if update, open := <-updates; open {
			t.Errorf("%+v", update)
		}
		wantQuick(t, "cancelling", start)
	}
}
