package client

import (
	"bufio"
	"bytes"
	"context"
	"crypto/sha256"
	"encoding/hex"
	"encoding/json"
	"errors"
	"fmt"
	"io"
	"net"
	"os"
	"path/filepath"
	"reflect"
	"strings"
	"sync"
	"syscall"
	"testing"
	"time"
)

const (
	key    = "00137aeb0271226a8ddfd5ba38adce9c8d4113fd83130a4ddbdc0df64a157fd2"
	nobody = `{"errors":0,"output":0,"status":0}` + "\n"
)

// served listens on a socket, gives each connection to the function, and closes it.
func served(t *testing.T, serve func(*net.UnixConn)) *Client {
	t.Helper()
	folder, err := os.MkdirTemp("", "fedbundle")
	if err != nil {
		t.Fatal(err)
	}
	path := filepath.Join(folder, "socket")
	listener, err := net.ListenUnix("unix", &net.UnixAddr{Name: path, Net: "unix"})
	if err != nil {
		t.Fatal(err)
	}
	var group sync.WaitGroup
	c := New(path)
	t.Cleanup(func() {
		c.Close()
		listener.Close()
		group.Wait()
		os.RemoveAll(folder)
	})
	// It is counted too: a group may not grow from nothing while one waits for it.
	group.Add(1)
	go accept(listener, serve, &group)
	return c
}

func accept(listener *net.UnixListener, serve func(*net.UnixConn), group *sync.WaitGroup) {
	defer group.Done()
	for {
		connection, err := listener.AcceptUnix()
		if err != nil {
			return
		}
		group.Add(1)
		go func() {
			defer group.Done()
			defer connection.Close()
			serve(connection)
		}()
	}
}

// request reads the arguments and the input of the only request of a connection.
func request(connection io.Reader) ([]string, string) {
	words, input, _ := nextRequest(bufio.NewReader(connection))
	return words, input
}

// nextRequest reads the next one, and says whether it came.
func nextRequest(reader *bufio.Reader) ([]string, string, bool) {
	line, err := reader.ReadBytes('\n')
	var first struct {
		Input int      `json:"input"`
		Words []string `json:"words"`
	}
	if err != nil || json.Unmarshal(line, &first) != nil {
		return nil, "", false
	}
	input := make([]byte, first.Input)
	_, err = io.ReadFull(reader, input)
	return first.Words, string(input), err == nil
}

// seen are the arguments that came on each connection of a server.
type seen struct {
	sync.Mutex
	connections [][]string
}

// counted gives each request on each connection to the function, as long as that says so.
func counted(t *testing.T, reply func(connection *net.UnixConn, word, input string) bool) (*Client, *seen) {
	t.Helper()
	came := new(seen)
	return served(t, func(connection *net.UnixConn) {
		came.Lock()
		place := len(came.connections)
		came.connections = append(came.connections, nil)
		came.Unlock()
		reader := bufio.NewReader(connection)
		for {
			words, input, ok := nextRequest(reader)
			if !ok {
				return
			}
			came.Lock()
			came.connections[place] = append(came.connections[place], words[0])
			came.Unlock()
			if !reply(connection, words[0], input) {
				return
			}
		}
	}), came
}

func (s *seen) want(t *testing.T, wanted ...[]string) {
	t.Helper()
	s.Lock()
	defer s.Unlock()
	if !reflect.DeepEqual(s.connections, wanted) {
		t.Errorf("came %q, wanted %q", s.connections, wanted)
	}
}

func wantOutput(t *testing.T, c *Client, word, input, output string) {
	t.Helper()
	reply, err := c.Ask(context.Background(), []string{word}, []byte(input))
	if err != nil || string(reply.Output) != output {
		t.Errorf("%s: %v, %v", word, err, reply)
	}
}

// The connection is kept for the next request, also if a reply comes in pieces, and not after Close.
func TestOneConnection(t *testing.T) {
	c, came := counted(t, func(connection *net.UnixConn, word, input string) bool {
		for _, one := range []byte(replied(word+input, "errors", 0)) {
			if _, err := connection.Write([]byte{one}); err != nil {
				return false
			}
		}
		return true
	})
	var words []string
	for i := 0; i < 20; i++ {
		words = append(words, fmt.Sprint(i))
		wantOutput(t, c, words[i], strings.Repeat("x", i), words[i]+strings.Repeat("x", i))
	}
	came.want(t, words)
	c.Close()
	wantOutput(t, c, "after", "", "after")
	came.want(t, words, []string{"after"})
}

// A request is made once more if the connection that was kept ends without a byte of the reply.
func TestEndedConnection(t *testing.T) {
	var ended sync.Once
	c, came := counted(t, func(connection *net.UnixConn, word, input string) bool {
		again := true
		if word == "end" {
			ended.Do(func() { again = false })
		}
		if again {
			_, _ = io.WriteString(connection, replied(word, "", 0))
		}
		return again
	})
	wantOutput(t, c, "one", "", "one")
	wantOutput(t, c, "end", "input", "end")
	came.want(t, []string{"one", "end"}, []string{"end"})
	// It was ended after the last reply.
	c, came = counted(t, func(connection *net.UnixConn, word, input string) bool {
		_, _ = io.WriteString(connection, replied(word, "", 0))
		return false
	})
	for _, word := range []string{"one", "two", "three"} {
		wantOutput(t, c, word, "", word)
	}
	came.want(t, []string{"one"}, []string{"two"}, []string{"three"})
}

// It is not on a new connection, nor once a byte of the reply came, nor if it is that of Stop.
func TestNotMadeAgain(t *testing.T) {
	c, came := counted(t, func(connection *net.UnixConn, word, input string) bool {
		switch word {
		case "one":
			_, _ = io.WriteString(connection, replied("1", "", 0))
		case "cut":
			_, _ = io.WriteString(connection, "{")
		}
		return word == "one"
	})
	_, err := c.Ask(context.Background(), []string{"none"}, nil)
	wantCode(t, "none", err, NoReplica, 3)
	for _, word := range []string{"cut", "stop"} {
		wantOutput(t, c, "one", "", "1")
		_, err := c.Ask(context.Background(), []string{word}, nil)
		wantCode(t, word, err, NoReplica, 3)
	}
	came.want(t, []string{"none"}, []string{"one", "cut"}, []string{"one"}, []string{"stop"})
}

// What a server sends unasked is not taken for the next reply.
func TestUnaskedBytes(t *testing.T) {
	sent := make(chan struct{}, 2)
	c, came := counted(t, func(connection *net.UnixConn, word, input string) bool {
		_, _ = io.WriteString(connection, replied(word, "", 0))
		time.Sleep(50 * time.Millisecond)
		_, _ = io.WriteString(connection, replied("unasked", "", 0))
		sent <- struct{}{}
		return true
	})
	wantOutput(t, c, "one", "", "one")
	<-sent
	wantOutput(t, c, "two", "", "two")
	came.want(t, []string{"one"}, []string{"two"})
}

// A request whose context has ended leaves no time limit to the next one.
func TestLimitOfOne(t *testing.T) {
	c, came := counted(t, func(connection *net.UnixConn, word, input string) bool {
		_, _ = io.WriteString(connection, replied(word, "", 0))
		return true
	})
	for i := 0; i < 50; i++ {
		ctx, cancel := context.WithCancel(context.Background())
		if _, err := c.Ask(ctx, []string{"one"}, nil); err != nil {
			t.Error(err)
		}
		cancel()
	}
	came.Lock()
	defer came.Unlock()
	if len(came.connections) != 1 {
		t.Errorf("%d connections", len(came.connections))
	}
}

// replying gives each request the same reply.
func replying(t *testing.T, reply string) *Client {
	t.Helper()
	return served(t, func(connection *net.UnixConn) {
		request(connection)
		_, _ = io.WriteString(connection, reply)
	})
}

// replied is a reply with these streams.
func replied(output, errors string, status int) string {
	return fmt.Sprintf("{\"errors\":%d,\"output\":%d,\"status\":%d}\n%s%s", len(errors), len(output), status, output, errors)
}

func example(t *testing.T, name string) []byte {
	t.Helper()
	text, err := os.ReadFile(filepath.Join("..", "..", "..", "examples", name))
	if err != nil {
		t.Fatal(err)
	}
	return text
}

func wantCode(t *testing.T, what string, err error, code string, status int) {
	t.Helper()
	var refused *Error
	if !errors.As(err, &refused) || refused.Code != code || refused.Status != status || !HasCode(err, code) {
		t.Errorf("%s: %v, wanted %s with status %d", what, err, code, status)
	}
}

// canonical are the lines of a file that the command canon printed: the document, its id, and the ids of its keys.
func canonical(t *testing.T, domain string) (document []byte, id string, keys []string) {
	t.Helper()
	for i, line := range strings.Split(strings.TrimSpace(string(example(t, domain+".canon"))), "\n") {
		switch {
		case i == 0:
			document = []byte(line)
		case strings.HasPrefix(line, "id "):
			id = line[len("id "):]
		default:
			keys = append(keys, strings.TrimPrefix(line, "key "))
		}
	}
	return document, id, keys
}

// What each method sends, by MODEL.md and the command's options.
func TestWhatIsSent(t *testing.T) {
	document, polls := []byte(`{"keys":[]}`), []Poll{
		{Domain: "a.example", OK: true, At: time.Unix(5, 999)}, {Domain: "b.example", At: time.Unix(-7, 0)},
	}
	ctx, dom := context.Background(), "--domain=a.example"
	for _, row := range []struct {
		ask   func(*Client) error
		words []string
		input string
	}{
		{func(c *Client) error { _, err := c.Status(ctx); return err }, []string{"status", "--format=json"}, ""},
		{func(c *Client) error { _, err := c.Metrics(ctx); return err }, []string{"status", "--format=prometheus"}, ""},
		{func(c *Client) error { _, err := c.Report(ctx); return err }, []string{"report"}, ""},
		{func(c *Client) error { _, err := c.List(ctx, ""); return err }, []string{"list", "--format=json"}, ""},
		{func(c *Client) error { _, err := c.ListKeys(ctx, "a.example"); return err },
			[]string{"list", "--keys", "--format=json", dom}, ""},
		{func(c *Client) error { _, err := c.Graph(ctx, ""); return err }, []string{"graph"}, ""},
		{func(c *Client) error { _, err := c.Graph(ctx, "a.example"); return err }, []string{"graph", dom}, ""},
		{func(c *Client) error { _, err := c.Bundle(ctx, "a.example"); return err }, []string{"bundle", dom}, ""},
		{func(c *Client) error { _, err := c.Bundle(ctx, `-"\é<`); return err }, []string{"bundle", `--domain=-"\é<`}, ""},
		{func(c *Client) error { _, err := c.BundlePEM(ctx, "a.example"); return err },
			[]string{"bundle", dom, "--format=pem"}, ""},
		{func(c *Client) error { _, err := c.Explain(ctx, "a.example", document); return err },
			[]string{"explain", dom}, `{"keys":[]}`},
		{func(c *Client) error { _, err := c.ExplainShort(ctx, "a.example", document); return err },
			[]string{"explain", dom, "--short"}, `{"keys":[]}`},
		{func(c *Client) error { _, err := c.Polls(ctx, time.Unix(-5, 1), polls); return err },
			[]string{"polls", "--now=-5"}, "a.example ok 5\nb.example fail -7\n"},
		{func(c *Client) error {
			_, err := c.Observe(ctx, "a.example", "spiffe://x/y", key, document)
			return err
		},
			[]string{"observe", dom, "--endpoint=spiffe://x/y", "--key=" + key}, `{"keys":[]}`},
		{func(c *Client) error { _, err := c.Merge(ctx, []byte("snapshot\n")); return err },
			[]string{"merge"}, "snapshot\n"},
		{func(c *Client) error { _, err := c.MergeAtMost(ctx, nil, 7); return err },
			[]string{"merge", "--most-bytes=7"}, ""},
		{func(c *Client) error { return c.Distrust(ctx, "a.example", key) },
			[]string{"distrust", dom, "--key=" + key}, ""},
		{func(c *Client) error { return c.DistrustUnknown(ctx, "a.example", key) },
			[]string{"distrust", dom, "--key=" + key, "--unknown-key"}, ""},
		{func(c *Client) error { _, err := c.DistrustVerbose(ctx, "a.example", key); return err },
			[]string{"distrust", dom, "--key=" + key, "--verbose"}, ""},
		{func(c *Client) error { _, err := c.DistrustDryRun(ctx, "a.example", key); return err },
			[]string{"distrust", dom, "--key=" + key, "--dry-run"}, ""},
		{func(c *Client) error { return c.Stop(ctx) }, []string{"stop"}, ""},
		{func(c *Client) error { _, err := c.Version(ctx); return err }, []string{"--version"}, ""},
		{func(c *Client) error { _, err := c.Ask(ctx, nil, []byte("x")); return err }, []string{}, "x"},
	} {
		var words []string
		var input string
		c := served(t, func(connection *net.UnixConn) {
			words, input = request(connection)
			_, _ = io.WriteString(connection, replied("", "fedbundle: O4 KeyNotInCurrent\n", 1))
		})
		if err := row.ask(c); len(row.words) > 0 {
			wantCode(t, row.words[0], err, "O4", 1)
		}
		if !reflect.DeepEqual(words, row.words) || input != row.input {
			t.Errorf("sent %q and %q, wanted %q and %q", words, input, row.words, row.input)
		}
	}
}

const statusText = `{"config":"c1","receipts":6,"receipt_limit":65536,"pending":1,"record_limit":4096,"records":2,` +
	`"domains":[{"domain":"a","current":{"id":"d1","sequence":18446744073709551615,"refresh_hint":300,"keys":[{"id":"k1",` +
	`"distrusted":true}]},"accepted":3,"conflicts":1},{"domain":"b","current":null,"accepted":0,"conflicts":0}],` +
	`"keyless_seeds":[{"domain":"b","id":"d2"}],"warning":true,"snapshot_bytes":115,"journal_bytes":89,"peers":[{"peer":` +
	`"127.0.0.1:1","ended_well":5,"fault":null,"receipts":7},{"peer":"127.0.0.1:2","ended_well":null,"fault":"S9",` +
	`"receipts":0}],"warnings":[{"kind":"no-current","domain":"b"},{"kind":"expires","domain":"a","key":"k1","not_after":-1},` +
	`{"kind":"quiet-peer","peer":"127.0.0.1:2","since":9},{"kind":"nearly-full","what":"receipts","held":60000}]}` + "\n"

func TestStatus(t *testing.T) {
	c := replying(t, replied(statusText, "", 1))
	status, err := c.Status(context.Background())
	if err != nil {
		t.Fatal(err)
	}
	again, err := json.Marshal(status)
	if err != nil || string(again)+"\n" != statusText {
		t.Errorf("%v, %s", err, again)
	}
	if *status.Domains[0].Current.Sequence != 1<<64-1 || status.Domains[1].Current != nil || !status.Warning {
		t.Errorf("%+v", status)
	}
	if status.Previous != nil {
		t.Errorf("%+v", status.Previous)
	}
}

func TestStatusBetweenConfigurations(t *testing.T) {
	const previous = `"previous":{"config":"c0","used":5,"peers":[{"peer":"127.0.0.1:1","asked":"next"},{"peer":"127.0.0.1:2","asked":null}]},`
	text := strings.Replace(statusText, `"warnings":`, previous+`"warnings":`, 1)
	status, err := replying(t, replied(text, "", 0)).Status(context.Background())
	if err != nil {
		t.Fatal(err)
	}
	again, err := json.Marshal(status)
	if err != nil || string(again)+"\n" != text {
		t.Errorf("%v, %s", err, again)
	}
	if *status.Previous.Used != 5 || *status.Previous.Peers[0].Asked != "next" || status.Previous.Peers[1].Asked != nil {
		t.Errorf("%+v", status.Previous)
	}
}

func TestLists(t *testing.T) {
	ctx := context.Background()
	text := `{"receipts":[{"receipt":"r","domain":"a","sequence":4,"document":"d","endpoint":"e","key":"k","voucher":"v",` +
		`"status":"accepted"},{"receipt":"q","domain":"a","sequence":null,"document":"d","endpoint":"e","key":"k",` +
		`"voucher":"v","status":"pending"}],"records":[{"distrust":"k","domain":"b"}]}`
	held, err := replying(t, replied(text+"\n", "", 0)).List(ctx, "")
	if again, _ := json.Marshal(held); err != nil || string(again) != text {
		t.Errorf("%v, %s", err, again)
	}
	text = `[{"key":"k","domain":"a","public_key":"p","not_before":-1,"not_after":5,"valid_from":"f","valid_until":"u",` +
		`"subject":"","distrusted":true,"same_public_key":true,"bundles":["d"]},{"key":"l","domain":"a","public_key":null,` +
		`"not_before":null,"not_after":null,"valid_from":null,"valid_until":null,"subject":null,"distrusted":false,` +
		`"same_public_key":false,"bundles":[]}]`
	known, err := replying(t, replied(`{"keys":`+text+"}\n", "", 0)).ListKeys(ctx, "")
	if again, _ := json.Marshal(known); err != nil || string(again) != text {
		t.Errorf("%v, %s", err, again)
	}
	for _, wrong := range []string{"{}", "[]", "x", `{"receipts":[]}`, `{"keys":null}`, `{"keys":1,"receipts":1}`} {
		_, err := replying(t, replied(wrong+"\n", "", 0)).List(ctx, "")
		wantCode(t, wrong, err, BadReply, 3)
		_, err = replying(t, replied(wrong+"\n", "", 0)).ListKeys(ctx, "")
		wantCode(t, wrong, err, BadReply, 3)
	}
}

func TestAnswers(t *testing.T) {
	ctx := context.Background()
	line := bytes.SplitN(example(t, "receipts.jsonl"), []byte("\n"), 2)[0]
	receipt, err := replying(t, replied(string(line)+"\n", "", 0)).Observe(ctx, "a.example", "", "", nil)
	if err != nil || !bytes.Equal(receipt.Line, line) || receipt.Domain != "a.example" ||
		receipt.Endpoint != "spiffe://a.example/spire/server" || len(receipt.Key) != 64 || len(receipt.Voucher) != 64 ||
		!bytes.HasPrefix(line[len(`{"doc":`):], receipt.Document) || !json.Valid(receipt.Document) {
		t.Errorf("%v, %+v", err, receipt)
	}
	chain, err := replying(t, replied(string(line)+"\n"+string(line)+"\n", "", 0)).Explain(ctx, "a.example", nil)
	if err != nil || len(chain) != 2 || !reflect.DeepEqual(chain[1], *receipt) {
		t.Errorf("%v, %+v", err, chain)
	}
	if chain, err := replying(t, nobody).Explain(ctx, "a.example", nil); err != nil || len(chain) != 0 {
		t.Errorf("%v, %+v", err, chain)
	}
	polls, err := replying(t, replied("a due\nb 1764057600\nc past range\nd -7\n", "", 0)).Polls(ctx, time.Now(), nil)
	next, before := time.Unix(1764057600, 0), time.Unix(-7, 0)
	wanted := []NextPoll{{Domain: "a", Due: true}, {Domain: "b", Next: &next}, {Domain: "c"}, {Domain: "d", Next: &before}}
	if err != nil || !reflect.DeepEqual(polls, wanted) {
		t.Errorf("%v, %+v", err, polls)
	}
	if count, err := replying(t, replied("new 12\n", "", 0)).Merge(ctx, nil); err != nil || count != 12 {
		t.Errorf("%v, %d", err, count)
	}
	told, err := replying(t, replied("", "loses a key k\nlocked-out a\n", 0)).DistrustVerbose(ctx, "a", key)
	if err != nil || !reflect.DeepEqual(told, []string{"loses a key k", "locked-out a"}) {
		t.Errorf("%v, %q", err, told)
	}
	reply, err := replying(t, replied("out", "err", 255)).Ask(ctx, []string{"x"}, nil)
	if err != nil || !reflect.DeepEqual(reply, &Reply{Output: []byte("out"), Errors: []byte("err"), Status: 255}) {
		t.Errorf("%v, %+v", err, reply)
	}
}

func TestParseBundle(t *testing.T) {
	for _, domain := range []string{"a.example", "b.example"} {
		document, id, keys := canonical(t, domain)
		bundle, err := ParseBundle(domain, document)
		if err != nil || bundle.ID != id || *bundle.RefreshHint != 300 || bundle.Sequence == nil {
			t.Fatal(domain, err, bundle)
		}
		var found []string
		for _, certificate := range bundle.X509Authorities {
			digest := sha256.Sum256(certificate.Raw)
			found = append(found, hex.EncodeToString(digest[:]))
		}
		if !reflect.DeepEqual(found, keys) {
			t.Errorf("%s: keys %v, wanted %v", domain, found, keys)
		}
	}
	bundle, err := ParseBundle("a", []byte(`{"keys":[]}`))
	if err != nil || bundle.Sequence != nil || bundle.RefreshHint != nil || bundle.X509Authorities != nil {
		t.Error(err, bundle)
	}
	for _, text := range []string{
		``, `[`, `{}`, `[]`, `{"keys":1}`, `{"keys":[{"use":"x509-svid"}]}`, `{"keys":[{"use":"x509-svid","x5c":["?"]}]}`,
		`{"keys":[{"use":"x509-svid","x5c":["AAAA"]}]}`, `{"keys":[{"use":"x509-svid","x5c":["AAAA","AAAA"]}]}`,
		`{"keys":[],"spiffe_sequence":-1}`, `{"keys":[],"spiffe_sequence":1.5}`,
	} {
		_, err := ParseBundle("a", []byte(text))
		wantCode(t, text, err, BadReply, 3)
	}
}

func TestRefusals(t *testing.T) {
	for _, row := range []struct {
		errors       string
		status       int
		code, text   string
		shownAsError string
	}{
		{"fedbundle: O5 Document B2 NotJson\n", 1, "O5", "O5 Document B2 NotJson", ""},
		{"fedbundle: no current bundle\n", 1, NoBundle, "no current bundle", ""},
		{"fedbundle: read only\n", 1, ReadOnly, "read only", ""},
		{"fedbundle: usage\n", 2, Usage, "usage", ""},
		{"error: unexpected argument\n\nUsage: x\n", 2, Usage, "error: unexpected argument\n\nUsage: x", ""},
		{"fedbundle: E2 NoMemory\n", 4, "E2", "E2 NoMemory", ""},
		{"", 7, "status 7", "status 7", ""},
	} {
		_, err := replying(t, replied("", row.errors, row.status)).Report(context.Background())
		wantCode(t, row.errors, err, row.code, row.status)
		if err.Error() != "fedbundle: "+row.text {
			t.Errorf("%q", err)
		}
	}
	_, err := replying(t, replied("", "fedbundle: too many requests\n", 1)).Status(context.Background())
	wantCode(t, "a status without output", err, TooManyRequests, 1)
}

func TestWrongAnswers(t *testing.T) {
	ctx := context.Background()
	for _, output := range []string{"", "\n", "x\ny\n", "x", "{}\n", "[]\n", `{"doc":{}}` + "\n", "\xff\n", "new 1.5\n", "a\n"} {
		c := replying(t, replied(output, "", 0))
		_, err := c.Observe(ctx, "a", "b", "c", nil)
		wantCode(t, output, err, BadReply, 3)
		_, err = c.Merge(ctx, nil)
		wantCode(t, output, err, BadReply, 3)
		if output != "" {
			_, err = c.Status(ctx)
			wantCode(t, output, err, BadReply, 3)
			_, err = c.Polls(ctx, time.Now(), nil)
			wantCode(t, output, err, BadReply, 3)
		}
	}
	_, err := New("socket").Polls(ctx, time.Now(), []Poll{{Domain: "a ok 5\nb"}})
	wantCode(t, "a name with a line feed", err, Usage, 2)
	_, err = New("socket").Bundle(ctx, "\xff")
	wantCode(t, "a name that is not UTF-8", err, Usage, 2)
}

// A reply that is cut anywhere, or that is not one, is reported so.
func TestCutReplies(t *testing.T) {
	whole := replied("output\n", "errors\n", 0)
	for length := range whole {
		_, err := replying(t, whole[:length]).Report(context.Background())
		wantCode(t, whole[:length], err, NoReplica, 3)
	}
	for _, reply := range []string{
		"\n", "x\n", "[]\n", "{}\n", "null\n", `{"errors":0,"output":0}` + "\n", `{"errors":0,"output":0,"status":256}` + "\n",
		`{"errors":-1,"output":0,"status":0}` + "\n", `{"errors":0,"output":1.0,"status":0}` + "\nx",
		`{"errors":0,"output":"0","status":0}` + "\n", `{"errors":0,"output":null,"status":0}` + "\n", nobody + "x",
		`{"errors":18446744073709551615,"output":1,"status":0}` + "\n", `{"errors":1,"output":18446744073709551615,"status":0}` + "\n",
		`{"errors":0,"output":536870913,"status":0}` + "\n", strings.Repeat(" ", headLimit) + nobody,
		strings.Repeat("[", headLimit-1) + "\n", strings.Repeat("x", 1<<20),
	} {
		_, err := replying(t, reply).Report(context.Background())
		wantCode(t, reply[:len(reply)%60], err, NoReplica, 3)
	}
	c := replying(t, replied("12345", "67", 0))
	c.MostReplyBytes = 6
	_, err := c.Report(context.Background())
	wantCode(t, "more than MostReplyBytes", err, NoReplica, 3)
	c.MostReplyBytes = 7
	if text, err := c.Report(context.Background()); err != nil || string(text) != "12345" {
		t.Errorf("%v, %s", err, text)
	}
}

// A server that never ends its reply is left once more came than its first line says.
func TestEndlessReply(t *testing.T) {
	endless := func(head string) *Client {
		return served(t, func(connection *net.UnixConn) {
			piece := strings.Repeat("x", 1<<16)
			_, err := io.WriteString(connection, head+piece)
			for err == nil {
				_, err = io.WriteString(connection, piece)
			}
		})
	}
	_, err := endless("").Report(context.Background())
	wantCode(t, "endless first line", err, NoReplica, 3)
	_, err = endless(replied("ab", "", 0)).Report(context.Background())
	wantCode(t, "endless output", err, NoReplica, 3)
}

// A refusal that comes before the whole input was read is the answer, although the connection then breaks.
func TestRefusedInput(t *testing.T) {
	c := served(t, func(connection *net.UnixConn) {
		_, _ = connection.Read(make([]byte, 10))
		_, _ = io.WriteString(connection, replied("", "fedbundle: input too long\n", 1))
	})
	_, err := c.Merge(context.Background(), make([]byte, 16<<20))
	wantCode(t, "input too long", err, "input too long", 1)
}

// silent writes this, reads nothing, and keeps the connection open.
func silent(t *testing.T, head string) *Client {
	t.Helper()
	over := make(chan struct{})
	c := served(t, func(connection *net.UnixConn) {
		_, _ = io.WriteString(connection, head)
		<-over
	})
	t.Cleanup(func() { close(over) })
	return c
}

func wantQuick(t *testing.T, what string, start time.Time) {
	t.Helper()
	if took := time.Since(start); took > 5*time.Second {
		t.Errorf("%s took %s", what, took)
	}
}

func TestTimeout(t *testing.T) {
	for _, head := range []string{"", "{", nobody[:len(nobody)-1], replied("ab", "", 0)[:30]} {
		c, start := silent(t, head), time.Now()
		c.Timeout = 50 * time.Millisecond
		_, err := c.Report(context.Background())
		wantCode(t, "silence after "+head, err, NoReply, 3)
		if !errors.Is(err, context.DeadlineExceeded) {
			t.Error(err)
		}
		wantQuick(t, "a time limit", start)
	}
	ctx, cancel := context.WithTimeout(context.Background(), 50*time.Millisecond)
	defer cancel()
	start := time.Now()
	_, err := silent(t, "").Report(ctx)
	wantCode(t, "the deadline of a context", err, NoReply, 3)
	wantQuick(t, "the deadline of a context", start)
}

func TestCancel(t *testing.T) {
	ctx, cancel := context.WithCancel(context.Background())
	time.AfterFunc(50*time.Millisecond, cancel)
	start := time.Now()
	_, err := silent(t, "").Report(ctx)
	wantCode(t, "a request that is cancelled", err, NoReply, 3)
	if !errors.Is(err, context.Canceled) {
		t.Error(err)
	}
	_, err = replying(t, nobody).Report(ctx)
	wantCode(t, "a context that ended before", err, NoReply, 3)
	wantQuick(t, "cancelling", start)
}

// A server that does not read keeps a long input waiting, but only for the time limit.
func TestUnreadInput(t *testing.T) {
	c := silent(t, "")
	c.Timeout = 50 * time.Millisecond
	_, err := c.Merge(context.Background(), make([]byte, 16<<20))
	wantCode(t, "input that nobody reads", err, NoReply, 3)
}

// fullSocket is one at which as many clients wait as may.
func fullSocket(t *testing.T) (*Client, func()) {
	path := filepath.Join(t.TempDir(), "s")
	socket, err := syscall.Socket(syscall.AF_UNIX, syscall.SOCK_STREAM, 0)
	if err != nil {
		t.Fatal(err)
	}
	t.Cleanup(func() { syscall.Close(socket) })
	if err := syscall.Bind(socket, &syscall.SockaddrUnix{Name: path}); err != nil {
		t.Fatal(err)
	}
	if err := syscall.Listen(socket, 0); err != nil {
		t.Fatal(err)
	}
	waiting, err := net.Dial("unix", path)
	if err != nil {
		t.Fatal(err)
	}
	return New(path), func() {
		waiting.Close()
		for i := 0; i < 2; i++ {
			accepted, _, err := syscall.Accept(socket)
			if err == nil && i == 1 {
				_, _ = syscall.Write(accepted, []byte(replied("late", "", 0)))
			}
			syscall.Close(accepted)
		}
	}
}

func TestFullSocket(t *testing.T) {
	c, free := fullSocket(t)
	c.Timeout = 100 * time.Millisecond
	_, err := c.Report(context.Background())
	wantCode(t, "a full socket", err, NoReply, 3)
	c.Timeout = 0
	go func() {
		time.Sleep(50 * time.Millisecond)
		free()
	}()
	if text, err := c.Report(context.Background()); err != nil || string(text) != "late" {
		t.Errorf("%v, %s", err, text)
	}
}

func TestPaths(t *testing.T) {
	folder := t.TempDir()
	file := filepath.Join(folder, "file")
	if err := os.WriteFile(file, nil, 0o600); err != nil {
		t.Fatal(err)
	}
	for _, row := range []struct {
		path, code string
		status     int
	}{
		{"", Usage, 2}, {"a\x00b", Usage, 2}, {"/" + strings.Repeat("x", 107), IO, 3}, {"/" + strings.Repeat("x", 106), NoReplica, 3},
		{file, NoReplica, 3}, {folder, NoReplica, 3}, {filepath.Join(folder, "none"), NoReplica, 3}, {file + "/x", NoReplica, 3},
	} {
		_, err := New(row.path).Report(context.Background())
		wantCode(t, row.path, err, row.code, row.status)
	}
}

// A path that begins with "@" is that of a file, as for the command.
func TestAtSign(t *testing.T) {
	old, err := os.Getwd()
	if err != nil {
		t.Fatal(err)
	}
	if err := os.Chdir(filepath.Dir(replying(t, replied("found", "", 0)).Socket)); err != nil {
		t.Fatal(err)
	}
	defer os.Chdir(old)
	if err := os.Symlink("socket", "@socket"); err != nil {
		t.Fatal(err)
	}
	if text, err := New("@socket").Report(context.Background()); err != nil || string(text) != "found" {
		t.Errorf("%v, %s", err, text)
	}
}

func TestManyGoroutines(t *testing.T) {
	c := served(t, func(connection *net.UnixConn) {
		words, input := request(connection)
		_, _ = io.WriteString(connection, replied(words[1]+input, "", 0))
	})
	var group sync.WaitGroup
	for i := 0; i < 32; i++ {
		group.Add(1)
		go func(name string) {
			defer group.Done()
			reply, err := c.Ask(context.Background(), []string{"x", name}, []byte(name))
			if err != nil || string(reply.Output) != name+name {
				t.Errorf("%v, %v", err, reply)
			}
		}(fmt.Sprint(i))
	}
	group.Wait()
}
