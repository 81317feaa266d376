package client

import (
	"context"
	"sort"
	"time"
)

// DefaultEvery is the time between two polls of Watch if its options do not say otherwise.
const DefaultEvery = 10 * time.Second

// WatchOptions say what Watch looks at, and how often. The zero value of each has a meaning.
type WatchOptions struct {
	// Every is the time from the end of a poll to the next one; DefaultEvery if it is 0.
	Every time.Duration
	// Domains are the trust domains to look at; all of the replica's configuration if there are none.
	Domains []string
}

// Update is what a poll of Watch found: a bundle, that a trust domain has none, or an error.
type Update struct {
	// Domain is the trust domain, or empty for an error that is not about one.
	Domain string
	// Bundle is its current bundle, or nil if it has none any more, or there is an error.
	Bundle *Bundle
	// Err is why a poll failed. What was given before is still the last that is known, and the next poll tries again.
	Err error
}

// Watch polls the replica. First it gives the current bundle of each trust domain, or that there is none, and then each
// that has changed. A bundle may go back to an earlier one, if a key was distrusted: its sequence number shows that.
//
// An error is given for each poll that fails, as if the replica is away. Watch then goes on. The channel is closed soon
// after the context ends, and no poll is made while an update waits to be received.
func (c *Client) Watch(ctx context.Context, options WatchOptions) <-chan Update {
	if options.Every <= 0 {
		options.Every = DefaultEvery
	}
	w := &watch{client: c, options: options, given: map[string]string{}, updates: make(chan Update)}
	go w.run(ctx)
	return w.updates
}

// watch is what a call of Watch keeps: for each trust domain, the id of the document that was given last, which is empty
// if it had none.
type watch struct {
	client  *Client
	options WatchOptions
	given   map[string]string
	updates chan Update
}

func (w *watch) run(ctx context.Context) {
	defer close(w.updates)
	for ctx.Err() == nil {
		w.poll(ctx)
		pause(ctx, w.options.Every)
	}
}

func (w *watch) poll(ctx context.Context) {
	status, err := w.client.Status(ctx)
	if err != nil {
		w.give(ctx, Update{Err: err})
		return
	}
	current := currentIDs(status)
	for _, domain := range w.domains(current) {
		err := w.look(ctx, domain, current[domain])
		if err != nil {
			w.give(ctx, Update{Domain: domain, Err: err})
		}
		// A bundle that cannot be read says nothing about the others. Without a reply none of them is asked for.
		if err != nil && !HasCode(err, BadReply) {
			return
		}
	}
}

// look gives what became of a trust domain, if that is not what was given last.
func (w *watch) look(ctx context.Context, domain, id string) error {
	given, known := w.given[domain]
	if known && given == id {
		return nil
	}
	bundle, err := w.bundle(ctx, domain, id)
	if err != nil {
		return err
	}
	// The bundle may have changed since the status was asked for.
	id = ""
	if bundle != nil {
		id = bundle.ID
	}
	if known && given == id {
		return nil
	}
	if w.give(ctx, Update{Domain: domain, Bundle: bundle}) {
		w.given[domain] = id
	}
	return nil
}

// bundle asks for the bundle of a trust domain, and returns nil if it has none.
func (w *watch) bundle(ctx context.Context, domain, id string) (*Bundle, error) {
	if id == "" {
		return nil, nil
	}
	document, err := w.client.Bundle(ctx, domain)
	if HasCode(err, NoBundle) {
		return nil, nil
	}
	if err != nil {
		return nil, err
	}
	return ParseBundle(domain, document)
}

// give waits until the update is received, and says whether it was.
func (w *watch) give(ctx context.Context, update Update) bool {
	if ctx.Err() != nil {
		return false
	}
	select {
	case w.updates <- update:
		return true
	case <-ctx.Done():
		return false
	}
}

// domains are those to look at, also those that the replica's configuration does not have any more.
func (w *watch) domains(current map[string]string) []string {
	if len(w.options.Domains) > 0 {
		return w.options.Domains
	}
	all := make([]string, 0, len(current))
	for domain := range current {
		all = append(all, domain)
	}
	for domain := range w.given {
		if _, found := current[domain]; !found {
			all = append(all, domain)
		}
	}
	sort.Strings(all)
	return all
}

// currentIDs are the ids of the current documents, which are empty for domains that have none.
func currentIDs(status *Status) map[string]string {
	ids := map[string]string{}
	for _, domain := range status.Domains {
		ids[domain.Domain] = ""
		if domain.Current != nil {
			ids[domain.Domain] = domain.Current.ID
		}
	}
	return ids
}
