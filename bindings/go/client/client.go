// Package client asks a running replica of fedbundle through its local socket. It is pure Go, and uses only the standard
// library.
//
// Each request of the replica is a method of Client. A request that is refused returns an *Error with the code and the
// text that the command prints, and with its exit status. Watch gives the bundle of a trust domain each time it changes.
//
// The replica's socket of --read-socket answers the same methods, except that it refuses each change with ReadOnly.
package client

import (
	"context"
	"strconv"
	"sync"
	"time"
)

// DefaultTimeout is how long a request may take if a Client does not say otherwise.
const DefaultTimeout = 60 * time.Second

// DefaultMostReplyBytes is how many bytes a reply may have if a Client does not say otherwise: as many as a replica
// keeps of all its requests and replies, unless it is started with another --most-request-bytes.
const DefaultMostReplyBytes = 512 << 20

// Client asks the replica that listens on a socket, of fedbundle 0.13.0 or later. It keeps one connection for the next
// request, until Close. Several goroutines may use it at once: a request that is made while another one is not answered
// has a connection of its own. A Client is not copied. The zero value of each field but Socket has a meaning.
//
// If the replica has ended the connection that was kept, before a byte of the reply came, the request is made once more on
// a new one, except that of Stop. What a replica holds is a set that only grows, so a request may be carried out again:
// Observe may then hold one more receipt of the same bundle, and Merge counts what is new since.
type Client struct {
	// Socket is the path of the socket, of at most 107 bytes.
	Socket string
	// Timeout is how long a request may take as a whole; DefaultTimeout if it is 0. The deadline of a request's context
	// also holds if it is earlier.
	Timeout time.Duration
	// MostReplyBytes is how many bytes a reply may have after its first line; DefaultMostReplyBytes if it is 0.
	MostReplyBytes int64

	lock   sync.Mutex
	kept   *stream
	keptAt string
}

// New returns a client of the replica that listens on the socket.
func New(socket string) *Client {
	return &Client{Socket: socket}
}

// Status returns how the replica stands, and what it warns of.
func (c *Client) Status(ctx context.Context) (*Status, error) {
	text, err := c.statusIn(ctx, "json")
	if err != nil {
		return nil, err
	}
	return parseStatus(text)
}

// Metrics returns the status in the text format of Prometheus.
func (c *Client) Metrics(ctx context.Context) ([]byte, error) {
	return c.statusIn(ctx, "prometheus")
}

// Report returns the report of what the replica accepts, as the command prints it.
func (c *Client) Report(ctx context.Context) ([]byte, error) {
	return c.output(ctx, nil, "report")
}

// List returns each receipt and each record of distrust that the replica holds; those of one trust domain, unless that is
// empty. It needs a replica of fedbundle 0.6.0, as ListKeys and Graph do: an earlier one refuses it with Usage.
func (c *Client) List(ctx context.Context, domain string) (*Held, error) {
	text, err := c.output(ctx, nil, optional(domain, "list", "--format=json")...)
	if err != nil {
		return nil, err
	}
	return parseHeld(text)
}

// ListKeys returns each X.509 key that an accepted bundle or a held receipt lists; those of one trust domain, unless that is
// empty. The work of the replica grows with the square of a domain's keys.
func (c *Client) ListKeys(ctx context.Context, domain string) ([]KnownKey, error) {
	text, err := c.output(ctx, nil, optional(domain, "list", "--keys", "--format=json")...)
	if err != nil {
		return nil, err
	}
	return parseKeys(text)
}

// Graph returns which bundle vouches for which, for Graphviz; the receipts of one trust domain, unless that is empty.
func (c *Client) Graph(ctx context.Context, domain string) ([]byte, error) {
	return c.output(ctx, nil, optional(domain, "graph")...)
}

// Config returns what the replica's configuration says, as the command prints it. It needs a replica of fedbundle 0.7.0, as
// Snapshot, Migrate, Reseed and Diff do: an earlier one refuses it with Usage.
func (c *Client) Config(ctx context.Context) ([]byte, error) {
	return c.output(ctx, nil, "config")
}

// Snapshot returns all that the replica holds, as Merge takes it.
func (c *Client) Snapshot(ctx context.Context) ([]byte, error) {
	return c.output(ctx, nil, "migrate")
}

// Migrate returns the snapshot of what goes along to another configuration, and a line for each receipt and each record that
// is left out.
func (c *Client) Migrate(ctx context.Context, config []byte) (snapshot []byte, leftOut []string, err error) {
	return c.migrate(ctx, config, "migrate", "--to=-")
}

// MigrateRecords does the same with the records of distrust, and takes no receipt.
func (c *Client) MigrateRecords(ctx context.Context, config []byte) (snapshot []byte, leftOut []string, err error) {
	return c.migrate(ctx, config, "migrate", "--to=-", "--records-only")
}

// Reseed returns a configuration whose seeds are the current bundles, also that of the allowed domain, unless that is
// empty. If a domain is refused, the text of the error has its line.
func (c *Client) Reseed(ctx context.Context, allowed string) ([]byte, error) {
	words := []string{"reseed"}
	if allowed != "" {
		words = append(words, option("allow", allowed))
	}
	return c.output(ctx, nil, words...)
}

// Diff returns what only the replica holds, each line after "- ", and what only the snapshot holds, each after "+ ".
func (c *Client) Diff(ctx context.Context, snapshot []byte) ([]string, error) {
	reply, err := c.shown(ctx, snapshot, "diff", "--with=-")
	if err != nil {
		return nil, err
	}
	return lines(reply.Output), nil
}

// Bundle returns the current bundle of a trust domain: its canonical JSON, without a line feed. ParseBundle reads it.
// The code is NoBundle if the domain has none.
func (c *Client) Bundle(ctx context.Context, domain string) ([]byte, error) {
	text, err := c.output(ctx, nil, "bundle", option("domain", domain))
	if err != nil {
		return nil, err
	}
	return onlyLine(text)
}

// BundlePEM returns the certificates of the X.509 authorities of the current bundle as PEM. The code is NoBundle if the
// domain has none.
func (c *Client) BundlePEM(ctx context.Context, domain string) ([]byte, error) {
	return c.output(ctx, nil, "bundle", option("domain", domain), "--format=pem")
}

// Explain returns a shortest chain of receipts that leads from a configured bundle to this one. The chain of a
// configured bundle is empty. The code is NotAccepted if the replica does not accept the bundle.
func (c *Client) Explain(ctx context.Context, domain string, document []byte) ([]Receipt, error) {
	text, err := c.output(ctx, document, "explain", option("domain", domain))
	if err != nil {
		return nil, err
	}
	return parseReceipts(text)
}

// ExplainShort returns the same chain as a line for each step, the last step first, and a line for the configured bundle.
func (c *Client) ExplainShort(ctx context.Context, domain string, document []byte) ([]string, error) {
	text, err := c.output(ctx, document, "explain", option("domain", domain), "--short")
	if err != nil {
		return nil, err
	}
	return lines(text), nil
}

// Polls returns for each relationship when its bundle is to be fetched next, by the polls that were made, in their
// order, and the present time. Times count in whole seconds.
func (c *Client) Polls(ctx context.Context, now time.Time, polls []Poll) ([]NextPoll, error) {
	input, err := pollLines(polls)
	if err != nil {
		return nil, err
	}
	text, err := c.output(ctx, input, "polls", option("now", strconv.FormatInt(now.Unix(), 10)))
	if err != nil {
		return nil, err
	}
	return parseNextPolls(text)
}

// Observe takes a bundle that was fetched, and returns its receipt. The endpoint is the SPIFFE ID, and the key the id of
// the authority, under which TLS verified the connection: the replica believes both.
func (c *Client) Observe(ctx context.Context, domain, endpoint, key string, document []byte) (*Receipt, error) {
	text, err := c.output(ctx, document, "observe", option("domain", domain), option("endpoint", endpoint),
		option("key", key))
	if err != nil {
		return nil, err
	}
	line, err := onlyLine(text)
	if err != nil {
		return nil, err
	}
	return parseReceipt(line)
}

// Merge takes all that a snapshot holds, or nothing, and returns how many of its receipts were not held.
func (c *Client) Merge(ctx context.Context, snapshot []byte) (uint64, error) {
	text, err := c.output(ctx, snapshot, "merge")
	if err != nil {
		return 0, err
	}
	return parseMerged(text)
}

// MergeAtMost does the same, unless the snapshot and the replica's files have more than so many bytes together.
func (c *Client) MergeAtMost(ctx context.Context, snapshot []byte, mostBytes uint64) (uint64, error) {
	text, err := c.output(ctx, snapshot, "merge", option("most-bytes", strconv.FormatUint(mostBytes, 10)))
	if err != nil {
		return 0, err
	}
	return parseMerged(text)
}

// Distrust distrusts a key in a trust domain. This cannot be taken back. A key that no bundle lists, held or configured, is
// refused with NoKnownKey, except by a replica up to fedbundle 0.12.0.
func (c *Client) Distrust(ctx context.Context, domain, key string) error {
	_, err := c.output(ctx, nil, "distrust", option("domain", domain), option("key", key))
	return err
}

// DistrustUnknown does the same, and takes a key that no bundle lists. A replica up to fedbundle 0.12.0 refuses it with
// Usage.
func (c *Client) DistrustUnknown(ctx context.Context, domain, key string) error {
	_, err := c.output(ctx, nil, "distrust", option("domain", domain), option("key", key), "--unknown-key")
	return err
}

// DistrustVerbose does what Distrust does, and returns what the record changed, as the lines of DistrustDryRun.
func (c *Client) DistrustVerbose(ctx context.Context, domain, key string) ([]string, error) {
	reply, err := c.done(ctx, nil, "distrust", option("domain", domain), option("key", key), "--verbose")
	if err != nil {
		return nil, err
	}
	return lines(reply.Errors), nil
}

// DistrustDryRun returns what distrusting the key would change, a line each, and changes nothing.
func (c *Client) DistrustDryRun(ctx context.Context, domain, key string) ([]string, error) {
	text, err := c.output(ctx, nil, "distrust", option("domain", domain), option("key", key), "--dry-run")
	if err != nil {
		return nil, err
	}
	return lines(text), nil
}

// Stop ends the replica. What it acknowledged before is on its disk.
func (c *Client) Stop(ctx context.Context) error {
	_, err := c.output(ctx, nil, "stop")
	return err
}

// Version returns the version of the replica's program and the formats that it reads and writes, a line each.
func (c *Client) Version(ctx context.Context) ([]string, error) {
	text, err := c.output(ctx, nil, "--version")
	if err != nil {
		return nil, err
	}
	return lines(text), nil
}

// statusIn returns the status in a format. If it has a warning, the exit status is 1, and it is printed all the same.
func (c *Client) statusIn(ctx context.Context, format string) ([]byte, error) {
	reply, err := c.shown(ctx, nil, "status", option("format", format))
	if err != nil {
		return nil, err
	}
	return reply.Output, nil
}

func (c *Client) migrate(ctx context.Context, config []byte, words ...string) ([]byte, []string, error) {
	reply, err := c.shown(ctx, config, words...)
	if err != nil {
		return nil, nil, err
	}
	return reply.Output, lines(reply.Errors), nil
}

// shown makes a request, and returns its reply if something was shown, also with the exit status 1, or nothing was to be.
func (c *Client) shown(ctx context.Context, input []byte, words ...string) (*Reply, error) {
	reply, err := c.Ask(ctx, words, input)
	if err != nil {
		return nil, err
	}
	if reply.Status > 1 || reply.Status == 1 && len(reply.Output) == 0 {
		return nil, refusal(reply)
	}
	return reply, nil
}

// output makes a request, and returns its output if it was not refused.
func (c *Client) output(ctx context.Context, input []byte, words ...string) ([]byte, error) {
	reply, err := c.done(ctx, input, words...)
	if err != nil {
		return nil, err
	}
	return reply.Output, nil
}

// done makes a request, and returns its reply if it was not refused.
func (c *Client) done(ctx context.Context, input []byte, words ...string) (*Reply, error) {
	reply, err := c.Ask(ctx, words, input)
	if err != nil {
		return nil, err
	}
	if reply.Status != 0 {
		return nil, refusal(reply)
	}
	return reply, nil
}

// optional are the arguments, and the trust domain if it is not empty.
func optional(domain string, words ...string) []string {
	if domain == "" {
		return words
	}
	return append(words, option("domain", domain))
}

// option is one argument, so that a text with a hyphen at its beginning is not taken for another option.
func option(name, text string) string {
	return "--" + name + "=" + text
}
