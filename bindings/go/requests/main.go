// Requests makes the requests that it reads, one a line, and prints what came of each.
//
// A line is a JSON object: the call, the socket, the most seconds, and the arguments. What is printed is an object with
// the answer, or with the code, the text and the status of a refusal. Bytes are in base64. Python has such a program, too,
// and tests/clients.py compares them.
package main

import (
	"bufio"
	"bytes"
	"context"
	"encoding/json"
	"errors"
	"fmt"
	"log"
	"os"
	"time"

	"fedbundle.example/fedbundle/client"
)

// line is a request. The input is followed by so many spaces.
type line struct {
	Call    string
	Socket  string
	Seconds float64
	Texts   []string
	Input   []byte
	Spaces  int
	Number  int64
	Polls   []poll
}

type poll struct {
	Domain string
	OK     bool
	Second int64
}

// call makes a request with the texts of its line.
type call func(ctx context.Context, c *client.Client, l *line) (any, error)

var calls = map[string]call{
	"status":  func(ctx context.Context, c *client.Client, l *line) (any, error) { return c.Status(ctx) },
	"metrics": func(ctx context.Context, c *client.Client, l *line) (any, error) { return c.Metrics(ctx) },
	"report":  func(ctx context.Context, c *client.Client, l *line) (any, error) { return c.Report(ctx) },
	"list":    func(ctx context.Context, c *client.Client, l *line) (any, error) { return c.List(ctx, l.Texts[0]) },
	"list_keys": func(ctx context.Context, c *client.Client, l *line) (any, error) {
		return c.ListKeys(ctx, l.Texts[0])
	},
	"graph":    func(ctx context.Context, c *client.Client, l *line) (any, error) { return c.Graph(ctx, l.Texts[0]) },
	"config":   func(ctx context.Context, c *client.Client, l *line) (any, error) { return c.Config(ctx) },
	"snapshot": func(ctx context.Context, c *client.Client, l *line) (any, error) { return c.Snapshot(ctx) },
	"migrate": func(ctx context.Context, c *client.Client, l *line) (any, error) {
		snapshot, leftOut, err := c.Migrate(ctx, l.Input)
		return map[string]any{"snapshot": snapshot, "left_out": append([]string{}, leftOut...)}, err
	},
	"migrate_records": func(ctx context.Context, c *client.Client, l *line) (any, error) {
		snapshot, leftOut, err := c.MigrateRecords(ctx, l.Input)
		return map[string]any{"snapshot": snapshot, "left_out": append([]string{}, leftOut...)}, err
	},
	"reseed": func(ctx context.Context, c *client.Client, l *line) (any, error) {
		return c.Reseed(ctx, l.Texts[0])
	},
	"diff": func(ctx context.Context, c *client.Client, l *line) (any, error) {
		lines, err := c.Diff(ctx, l.Input)
		return append([]string{}, lines...), err
	},
	"bundle": func(ctx context.Context, c *client.Client, l *line) (any, error) {
		return c.Bundle(ctx, l.Texts[0])
	},
	"bundle_pem": func(ctx context.Context, c *client.Client, l *line) (any, error) {
		return c.BundlePEM(ctx, l.Texts[0])
	},
	"parsed": parsed,
	"explain": func(ctx context.Context, c *client.Client, l *line) (any, error) {
		chain, err := c.Explain(ctx, l.Texts[0], l.Input)
		shown := []any{}
		for i := range chain {
			shown = append(shown, shownReceipt(&chain[i]))
		}
		return shown, err
	},
	"explain_short": func(ctx context.Context, c *client.Client, l *line) (any, error) {
		return c.ExplainShort(ctx, l.Texts[0], l.Input)
	},
	"polls": polls,
	"observe": func(ctx context.Context, c *client.Client, l *line) (any, error) {
		receipt, err := c.Observe(ctx, l.Texts[0], l.Texts[1], l.Texts[2], l.Input)
		if err != nil {
			return nil, err
		}
		return shownReceipt(receipt), nil
	},
	"merge": func(ctx context.Context, c *client.Client, l *line) (any, error) {
		return c.Merge(ctx, l.Input)
	},
	"merge_at_most": func(ctx context.Context, c *client.Client, l *line) (any, error) {
		return c.MergeAtMost(ctx, l.Input, uint64(l.Number))
	},
	"distrust": func(ctx context.Context, c *client.Client, l *line) (any, error) {
		return nil, c.Distrust(ctx, l.Texts[0], l.Texts[1])
	},
	"distrust_unknown": func(ctx context.Context, c *client.Client, l *line) (any, error) {
		return nil, c.DistrustUnknown(ctx, l.Texts[0], l.Texts[1])
	},
	"distrust_verbose": func(ctx context.Context, c *client.Client, l *line) (any, error) {
		return c.DistrustVerbose(ctx, l.Texts[0], l.Texts[1])
	},
	"distrust_dry_run": func(ctx context.Context, c *client.Client, l *line) (any, error) {
		return c.DistrustDryRun(ctx, l.Texts[0], l.Texts[1])
	},
	"stop":    func(ctx context.Context, c *client.Client, l *line) (any, error) { return nil, c.Stop(ctx) },
	"version": func(ctx context.Context, c *client.Client, l *line) (any, error) { return c.Version(ctx) },
	"ask": func(ctx context.Context, c *client.Client, l *line) (any, error) {
		reply, err := c.Ask(ctx, l.Texts, l.Input)
		if err != nil {
			return nil, err
		}
		return map[string]any{"output": reply.Output, "errors": reply.Errors, "status": reply.Status}, nil
	},
}

func shownReceipt(receipt *client.Receipt) any {
	return map[string]any{
		"line": receipt.Line, "domain": receipt.Domain, "endpoint": receipt.Endpoint, "key": receipt.Key,
		"voucher": receipt.Voucher, "document": receipt.Document,
	}
}

func parsed(ctx context.Context, c *client.Client, l *line) (any, error) {
	document, err := c.Bundle(ctx, l.Texts[0])
	if err != nil {
		return nil, err
	}
	bundle, err := client.ParseBundle(l.Texts[0], document)
	if err != nil {
		return nil, err
	}
	certificates := [][]byte{}
	for _, certificate := range bundle.X509Authorities {
		certificates = append(certificates, certificate.Raw)
	}
	return map[string]any{
		"domain": bundle.Domain, "id": bundle.ID, "document": bundle.Document, "sequence": bundle.Sequence,
		"refresh_hint": bundle.RefreshHint, "x509_authorities": certificates,
	}, nil
}

func polls(ctx context.Context, c *client.Client, l *line) (any, error) {
	var made []client.Poll
	for _, one := range l.Polls {
		made = append(made, client.Poll{Domain: one.Domain, OK: one.OK, At: time.Unix(one.Second, 0)})
	}
	next, err := c.Polls(ctx, time.Unix(l.Number, 0), made)
	shown := []any{}
	for _, one := range next {
		var second *int64
		if one.Next != nil {
			found := one.Next.Unix()
			second = &found
		}
		shown = append(shown, map[string]any{"domain": one.Domain, "due": one.Due, "next": second})
	}
	return shown, err
}

// clients has one for each socket, so that a connection is kept.
var clients = map[string]*client.Client{}

// made is what came of a request.
func made(text []byte) any {
	var l line
	if err := json.Unmarshal(text, &l); err != nil {
		log.Fatal(err)
	}
	l.Input = append(l.Input, bytes.Repeat([]byte{' '}, l.Spaces)...)
	c := clients[l.Socket]
	if c == nil {
		c = client.New(l.Socket)
		clients[l.Socket] = c
	}
	c.Timeout = time.Duration(l.Seconds * float64(time.Second))
	answer, err := calls[l.Call](context.Background(), c, &l)
	var refused *client.Error
	if errors.As(err, &refused) {
		return map[string]any{"code": refused.Code, "text": refused.Text, "status": refused.Status}
	}
	if err != nil {
		log.Fatal(err)
	}
	return map[string]any{"answer": answer}
}

func main() {
	texts := bufio.NewScanner(os.Stdin)
	texts.Buffer(nil, 1<<28)
	for texts.Scan() {
		shown, err := json.Marshal(made(texts.Bytes()))
		if err != nil {
			log.Fatal(err)
		}
		fmt.Println(string(shown))
	}
}
