package client

import (
	"errors"
	"fmt"
	"regexp"
	"strings"
)

// Codes of errors that a caller may want to handle. REFERENCE.md of fedbundle lists all of them; one that has a letter
// and a number, as O4, is only that.
const (
	// NoReplica: nobody listens on the socket, or the reply is cut or is not one. A change may have been made.
	NoReplica = "no replica"
	// NoReply: the whole reply did not come in time, or the context was cancelled. A change may have been made.
	NoReply = "no reply"
	// BadReply: the replica's answer is not what the command prints, or package x509 does not read a certificate in it. If
	// a change was asked for, it was made.
	BadReply = "bad reply"
	// Usage: an argument is not one that a command can have, as a text that is not UTF-8.
	Usage = "usage"
	// NoBundle: the trust domain has no current bundle.
	NoBundle = "no current bundle"
	// NoKnownKey: a key that is to be distrusted is in no bundle of the trust domain, held or configured.
	NoKnownKey = "no known key"
	// NotAccepted: the replica does not accept the bundle.
	NotAccepted = "not accepted"
	// ReadOnly: a change was asked for at a socket at which nothing can be changed.
	ReadOnly = "read only"
	// TooManyRequests: the replica has no room for one more request. Nothing was changed.
	TooManyRequests = "too many requests"
	// IO: a file or a socket failed, or access to it was refused.
	IO = "S9"
)

// Error is a request that was refused, or that has no reply.
type Error struct {
	// Code is the letter and the number, as "O4", or the whole text if it has none, as NoBundle.
	Code string
	// Text is what the command prints after "fedbundle: ", as "O4 KeyNotInCurrent".
	Text string
	// Status is the exit status with which the command ends.
	Status int

	cause error
}

// Error returns the text, and why the client itself gave up, if it did.
func (e *Error) Error() string {
	if e.cause != nil {
		return fmt.Sprintf("fedbundle: %s: %v", e.Text, e.cause)
	}
	return "fedbundle: " + e.Text
}

// Unwrap returns why the client itself gave up: an error of the system, or that of the context.
func (e *Error) Unwrap() error {
	return e.cause
}

// HasCode says whether the error is an *Error with this code.
func HasCode(err error, code string) bool {
	var refused *Error
	return errors.As(err, &refused) && refused.Code == code
}

var numbered = regexp.MustCompile(`^[A-Z][0-9]+\b`)

// refusal is what a reply says whose exit status is not 0.
func refusal(reply *Reply) *Error {
	text := strings.TrimPrefix(strings.TrimSpace(string(reply.Errors)), "fedbundle: ")
	if text == "" {
		text = fmt.Sprintf("status %d", reply.Status)
	}
	code := text
	if number := numbered.FindString(text); number != "" {
		code = number
	} else if reply.Status == 2 {
		code = Usage
	}
	return &Error{Code: code, Text: text, Status: reply.Status}
}

func noReplica(cause error) *Error {
	return &Error{Code: NoReplica, Text: NoReplica, Status: 3, cause: cause}
}

func noReply(cause error) *Error {
	return &Error{Code: NoReply, Text: NoReply, Status: 3, cause: cause}
}

func badReply(cause error) *Error {
	return &Error{Code: BadReply, Text: BadReply, Status: 3, cause: cause}
}

func usage(cause error) *Error {
	return &Error{Code: Usage, Text: Usage, Status: 2, cause: cause}
}

func ioFailed(cause error) *Error {
	return &Error{Code: IO, Text: "S9 Io", Status: 3, cause: cause}
}
