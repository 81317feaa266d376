package client

import (
	"bytes"
	"encoding/json"
	"errors"
	"fmt"
	"strconv"
	"strings"
	"time"
)

// Status is how a replica stands. The members are those of the command's JSON.
type Status struct {
	// Config is the digest of the configuration.
	Config string `json:"config"`
	// Receipts is how many receipts are held, of at most ReceiptLimit.
	Receipts uint64 `json:"receipts"`
	// ReceiptLimit is how many receipts may be held.
	ReceiptLimit uint64 `json:"receipt_limit"`
	// Pending is how many of the receipts no accepted bundle vouches for.
	Pending uint64 `json:"pending"`
	// RecordLimit is how many records of distrust may be held.
	RecordLimit uint64 `json:"record_limit"`
	// Records is how many records of distrust are held.
	Records uint64 `json:"records"`
	// Domains are the trust domains of the configuration, in ascending order.
	Domains []DomainStatus `json:"domains"`
	// KeylessSeeds are the configured bundles without an X.509 authority.
	KeylessSeeds []KeylessSeed `json:"keyless_seeds"`
	// Warning says whether the command ends with the exit status 1.
	Warning bool `json:"warning"`
	// SnapshotBytes is the size of the state file.
	SnapshotBytes uint64 `json:"snapshot_bytes"`
	// JournalBytes is the size of its journal.
	JournalBytes uint64 `json:"journal_bytes"`
	// Peers are the replicas from which this one pulls.
	Peers []PeerStatus `json:"peers"`
	// Previous is the configuration from which the replica changes, or nil if it runs without --previous.
	Previous *PreviousStatus `json:"previous,omitempty"`
	// Warnings is what needs attention.
	Warnings []StatusWarning `json:"warnings"`
}

// DomainStatus is how a trust domain stands.
type DomainStatus struct {
	// Domain is its name.
	Domain string `json:"domain"`
	// Current is its current bundle, or nil if it has none.
	Current *CurrentBundle `json:"current"`
	// Accepted is how many of its bundles are accepted.
	Accepted uint64 `json:"accepted"`
	// Conflicts is how many sequence numbers several accepted bundles have.
	Conflicts uint64 `json:"conflicts"`
}

// CurrentBundle is what the status says of a current bundle.
type CurrentBundle struct {
	// ID is its document id.
	ID string `json:"id"`
	// Sequence is its sequence number, or nil if it has none.
	Sequence *uint64 `json:"sequence"`
	// RefreshHint is its refresh hint in seconds, or nil if it has none.
	RefreshHint *uint64 `json:"refresh_hint"`
	// Keys are its X.509 authorities.
	Keys []KeyStatus `json:"keys"`
}

// KeyStatus is how a key of a current bundle stands.
type KeyStatus struct {
	// ID is the key id: the SHA-256 of the certificate.
	ID string `json:"id"`
	// Distrusted says whether the key is distrusted in the domain of the bundle.
	Distrusted bool `json:"distrusted"`
}

// KeylessSeed is a configured bundle without an X.509 authority.
type KeylessSeed struct {
	// Domain is its trust domain.
	Domain string `json:"domain"`
	// ID is its document id.
	ID string `json:"id"`
}

// PeerStatus is how the sessions with a peer ended since the replica began.
type PeerStatus struct {
	// Peer is its address.
	Peer string `json:"peer"`
	// EndedWell is the Unix second at which a session last ended well, or nil if none did.
	EndedWell *int64 `json:"ended_well"`
	// Fault is the code of the last session that failed, or nil if none did.
	Fault *string `json:"fault"`
	// Receipts is how many receipts came that were not held.
	Receipts uint64 `json:"receipts"`
}

// PreviousStatus is how far a change of the configuration is.
type PreviousStatus struct {
	// Config is the digest of the previous configuration.
	Config string `json:"config"`
	// Used is the Unix second at which a session under it was last answered, or nil if none was.
	Used *int64 `json:"used"`
	// Peers are the replicas from which this one pulls.
	Peers []AskedPeer `json:"peers"`
}

// AskedPeer is under which configuration a peer last answered.
type AskedPeer struct {
	// Peer is its address.
	Peer string `json:"peer"`
	// Asked is "next", "previous", or nil if it did not answer yet.
	Asked *string `json:"asked"`
}

// StatusWarning is something that needs attention. RUNBOOKS.md of fedbundle says what to do. Which members are not nil
// depends on the kind.
type StatusWarning struct {
	// Kind is its name, as "locked-out".
	Kind string `json:"kind"`
	// Domain is the trust domain.
	Domain *string `json:"domain,omitempty"`
	// Key is the key of a certificate that expires.
	Key *string `json:"key,omitempty"`
	// NotAfter is the Unix second at which that certificate ends.
	NotAfter *int64 `json:"not_after,omitempty"`
	// Peer is the address of a peer.
	Peer *string `json:"peer,omitempty"`
	// Since is the Unix second since which no session with the peer ended well.
	Since *int64 `json:"since,omitempty"`
	// What is what is nearly full.
	What *string `json:"what,omitempty"`
	// Held is how many of these are held.
	Held *uint64 `json:"held,omitempty"`
}

// Receipt is the record of one fetch of a bundle.
type Receipt struct {
	// Line is the receipt as the command prints it, without its line feed.
	Line []byte
	// Domain is the trust domain of the bundle.
	Domain string
	// Endpoint is the SPIFFE ID of the endpoint that gave it.
	Endpoint string
	// Key is the id of the key that proved the endpoint.
	Key string
	// Voucher is the document id of the bundle that lists the key.
	Voucher string
	// Document is the bundle's canonical JSON.
	Document []byte
}

// Held is what a replica holds.
type Held struct {
	// Receipts are its receipts.
	Receipts []HeldReceipt `json:"receipts"`
	// Records are its records of distrust.
	Records []Record `json:"records"`
}

// HeldReceipt is what is shown of a receipt that is held.
type HeldReceipt struct {
	// Receipt is its id.
	Receipt string `json:"receipt"`
	// Domain is the trust domain of the bundle.
	Domain string `json:"domain"`
	// Sequence is the bundle's sequence number, or nil if it has none.
	Sequence *uint64 `json:"sequence"`
	// Document is the bundle's document id.
	Document string `json:"document"`
	// Endpoint is the SPIFFE ID of the endpoint that gave it.
	Endpoint string `json:"endpoint"`
	// Key is the id of the key that proved the endpoint.
	Key string `json:"key"`
	// Voucher is the document id of the bundle that lists the key.
	Voucher string `json:"voucher"`
	// Status is "accepted", "pending" or "distrusted".
	Status string `json:"status"`
}

// Record is a record of distrust.
type Record struct {
	// Key is the id of the key that is distrusted.
	Key string `json:"distrust"`
	// Domain is the trust domain in which it is.
	Domain string `json:"domain"`
}

// KnownKey is what is known of an X.509 key.
type KnownKey struct {
	// Key is the key id.
	Key string `json:"key"`
	// Domain is the trust domain.
	Domain string `json:"domain"`
	// PublicKey is the SHA-256 of the public key. It, the times and the subject are nil if the certificate is not read.
	PublicKey *string `json:"public_key"`
	// NotBefore is the Unix second from which the certificate is valid.
	NotBefore *int64 `json:"not_before"`
	// NotAfter is the Unix second up to which it is valid.
	NotAfter *int64 `json:"not_after"`
	// ValidFrom is NotBefore as a date and a time in UTC, such as "2027-01-31T23:59:59Z"; nil from a program before 0.7.0.
	ValidFrom *string `json:"valid_from"`
	// ValidUntil is NotAfter in the same form; nil from a program before 0.7.0.
	ValidUntil *string `json:"valid_until"`
	// Subject is the certificate's subject as RFC 4514 writes it, printable ASCII. It is empty if the subject is, and nil if
	// the subject is not read, or from a program before 0.7.0.
	Subject *string `json:"subject"`
	// Distrusted says whether the key is distrusted in the domain.
	Distrusted bool `json:"distrusted"`
	// SamePublicKey says whether a key that is distrusted in the domain has the same public key.
	SamePublicKey bool `json:"same_public_key"`
	// Bundles are the document ids of the accepted bundles that list the key.
	Bundles []string `json:"bundles"`
}

// Poll is a poll that was made.
type Poll struct {
	// Domain is the trust domain whose bundle was fetched.
	Domain string
	// OK says whether the poll brought the bundle.
	OK bool
	// At is when it was made, of which whole seconds count.
	At time.Time
}

// NextPoll says when the bundle of a trust domain is to be fetched next.
type NextPoll struct {
	// Domain is the trust domain.
	Domain string
	// Due says whether that is now.
	Due bool
	// Next is the time, or nil if the poll is due, or would be later than the replica can say.
	Next *time.Time
}

func parseStatus(text []byte) (*Status, error) {
	status := new(Status)
	if err := json.Unmarshal(text, status); err != nil {
		return nil, badReply(err)
	}
	if status.Config == "" || status.Domains == nil {
		return nil, badReply(errors.New("the status has no configuration or no domains"))
	}
	return status, nil
}

func parseHeld(text []byte) (*Held, error) {
	held := new(Held)
	if err := json.Unmarshal(text, held); err != nil {
		return nil, badReply(err)
	}
	if held.Receipts == nil || held.Records == nil {
		return nil, badReply(errors.New("the list has no receipts or no records"))
	}
	return held, nil
}

func parseKeys(text []byte) ([]KnownKey, error) {
	var list struct {
		Keys []KnownKey `json:"keys"`
	}
	if err := json.Unmarshal(text, &list); err != nil {
		return nil, badReply(err)
	}
	if list.Keys == nil {
		return nil, badReply(errors.New("the list has no keys"))
	}
	return list.Keys, nil
}

func parseReceipt(line []byte) (*Receipt, error) {
	var said struct {
		Document json.RawMessage `json:"doc"`
		Domain   string          `json:"domain"`
		Endpoint string          `json:"endpoint"`
		Key      string          `json:"key"`
		Voucher  string          `json:"voucher"`
	}
	if err := json.Unmarshal(line, &said); err != nil {
		return nil, badReply(err)
	}
	if said.Document == nil || said.Domain == "" || said.Endpoint == "" || said.Key == "" || said.Voucher == "" {
		return nil, badReply(errors.New("a receipt lacks a member"))
	}
	return &Receipt{Line: line, Domain: said.Domain, Endpoint: said.Endpoint, Key: said.Key, Voucher: said.Voucher,
		Document: said.Document}, nil
}

func parseReceipts(text []byte) ([]Receipt, error) {
	var receipts []Receipt
	for _, line := range lines(text) {
		receipt, err := parseReceipt([]byte(line))
		if err != nil {
			return nil, err
		}
		receipts = append(receipts, *receipt)
	}
	return receipts, nil
}

// parseMerged reads "new 5".
func parseMerged(text []byte) (uint64, error) {
	line, err := onlyLine(text)
	if err != nil {
		return 0, err
	}
	count, err := strconv.ParseUint(strings.TrimPrefix(string(line), "new "), 10, 64)
	if err != nil {
		return 0, badReply(err)
	}
	return count, nil
}

// pollLines are the polls as lines. A name with a space or a line feed would be read as something else.
func pollLines(polls []Poll) ([]byte, error) {
	var text bytes.Buffer
	for _, poll := range polls {
		if strings.ContainsAny(poll.Domain, " \n") {
			return nil, usage(fmt.Errorf("%q is not the name of a trust domain", poll.Domain))
		}
		outcome := "fail"
		if poll.OK {
			outcome = "ok"
		}
		fmt.Fprintf(&text, "%s %s %d\n", poll.Domain, outcome, poll.At.Unix())
	}
	return text.Bytes(), nil
}

func parseNextPolls(text []byte) ([]NextPoll, error) {
	var polls []NextPoll
	for _, line := range lines(text) {
		poll, err := parseNextPoll(line)
		if err != nil {
			return nil, badReply(err)
		}
		polls = append(polls, poll)
	}
	return polls, nil
}

// parseNextPoll reads "a.example due", "a.example 1764057600" or "a.example past range".
func parseNextPoll(line string) (NextPoll, error) {
	domain, when, _ := strings.Cut(line, " ")
	switch when {
	case "due":
		return NextPoll{Domain: domain, Due: true}, nil
	case "past range":
		return NextPoll{Domain: domain}, nil
	}
	second, err := strconv.ParseInt(when, 10, 64)
	if err != nil {
		return NextPoll{}, err
	}
	next := time.Unix(second, 0)
	return NextPoll{Domain: domain, Next: &next}, nil
}

// lines are the lines of a text, without their line feeds.
func lines(text []byte) []string {
	if len(text) == 0 {
		return nil
	}
	return strings.Split(strings.TrimSuffix(string(text), "\n"), "\n")
}

// onlyLine is the text without its line feed, which it has only at its end.
func onlyLine(text []byte) ([]byte, error) {
	if bytes.IndexByte(text, '\n') != len(text)-1 || len(text) == 0 {
		return nil, badReply(errors.New("the answer is not one line"))
	}
	return text[:len(text)-1], nil
}
