package client

import (
	"bufio"
	"context"
	"encoding/json"
	"errors"
	"fmt"
	"io"
	"io/fs"
	"net"
	"os"
	"strings"
	"syscall"
	"time"
	"unicode/utf8"
)

const (
	// headLimit is how many bytes the first line of a reply may have.
	headLimit = 65_536
	// pathLimit is how many bytes the path of a socket may have.
	pathLimit = 107
	// connectPause is the wait before the next try while too many clients wait at the socket.
	connectPause = 20 * time.Millisecond
)

// Reply is what a replica replied to a request.
type Reply struct {
	// Output is what the command prints on standard output.
	Output []byte
	// Errors is what the command prints on standard error.
	Errors []byte
	// Status is the exit status with which the command ends.
	Status int
}

// stream is a connection, and what was read of it.
type stream struct {
	*net.UnixConn
	reader *bufio.Reader
}

// errUnanswered says that a connection has ended before a byte of the reply came.
var errUnanswered = errors.New("the reply has no first line")

// Ask makes any request: the arguments of a command without --at, and its standard input. A request that is refused is
// not an error here: its reply says so. Use it for what no other method asks.
func (c *Client) Ask(ctx context.Context, words []string, input []byte) (*Reply, error) {
	line, err := requestLine(words, len(input))
	if err != nil {
		return nil, err
	}
	path, err := c.path()
	if err != nil {
		return nil, err
	}
	ctx, cancel := context.WithTimeout(ctx, c.timeout())
	defer cancel()
	if len(words) == 0 || words[0] != "stop" {
		if kept := c.take(path); kept != nil {
			reply, err := c.exchange(ctx, kept, path, line, input)
			if !errors.Is(err, errUnanswered) {
				return reply, err
			}
		}
	}
	connection, err := connect(ctx, path)
	if err != nil {
		return nil, err
	}
	made := &stream{connection, bufio.NewReaderSize(connection, headLimit+1)}
	return c.exchange(ctx, made, path, line, input)
}

// exchange returns the reply to a request, after which the connection is kept. After anything else it is closed.
func (c *Client) exchange(ctx context.Context, connection *stream, path string, line, input []byte) (*Reply, error) {
	end := endWith(ctx, connection)
	send(connection, line, input)
	reply, err := readReply(connection.reader, c.mostReplyBytes())
	end()
	if err == nil {
		c.keep(connection, path)
		return reply, nil
	}
	connection.Close()
	if ctx.Err() != nil {
		return nil, noReply(ctx.Err())
	}
	return nil, noReplica(err)
}

// take returns the connection that is kept, if it is one to this path and the replica has not ended it. It is not kept any
// more.
func (c *Client) take(path string) *stream {
	c.lock.Lock()
	kept, at := c.kept, c.keptAt
	c.kept = nil
	c.lock.Unlock()
	if kept != nil && (at != path || !isQuiet(kept.UnixConn)) {
		kept.Close()
		return nil
	}
	return kept
}

// keep keeps this connection, and closes another one.
func (c *Client) keep(connection *stream, path string) {
	c.lock.Lock()
	other := c.kept
	c.kept, c.keptAt = connection, path
	c.lock.Unlock()
	if other != nil {
		other.Close()
	}
}

// Close closes the connection that is kept, if there is one. A later request makes another one.
func (c *Client) Close() error {
	c.keep(nil, "")
	return nil
}

// isQuiet says whether nothing comes on the connection, and not its end.
func isQuiet(connection *net.UnixConn) bool {
	raw, err := connection.SyscallConn()
	if err != nil {
		return false
	}
	quiet := false
	err = raw.Control(func(file uintptr) {
		_, _, err := syscall.Recvfrom(int(file), make([]byte, 1), syscall.MSG_PEEK|syscall.MSG_DONTWAIT)
		quiet = err == syscall.EAGAIN
	})
	return err == nil && quiet && connection.SetDeadline(time.Time{}) == nil
}

func (c *Client) timeout() time.Duration {
	if c.Timeout == 0 {
		return DefaultTimeout
	}
	return c.Timeout
}

func (c *Client) mostReplyBytes() uint64 {
	if c.MostReplyBytes <= 0 {
		return DefaultMostReplyBytes
	}
	return uint64(c.MostReplyBytes)
}

// requestLine is the first line of a request, which says how many bytes of input follow it.
func requestLine(words []string, count int) ([]byte, error) {
	for _, word := range words {
		if !utf8.ValidString(word) {
			return nil, usage(fmt.Errorf("%q is not UTF-8", word))
		}
	}
	list, err := json.Marshal(append([]string{}, words...))
	if err != nil {
		return nil, usage(err)
	}
	return []byte(fmt.Sprintf("{\"input\":%d,\"words\":%s}\n", count, list)), nil
}

// connect tries again while too many clients wait at the socket.
func connect(ctx context.Context, path string) (*net.UnixConn, error) {
	for {
		connection, err := new(net.Dialer).DialContext(ctx, "unix", path)
		switch {
		case err == nil:
			return connection.(*net.UnixConn), nil
		case ctx.Err() != nil:
			return nil, noReply(ctx.Err())
		case errors.Is(err, context.DeadlineExceeded):
			return nil, noReply(context.DeadlineExceeded)
		case errors.Is(err, fs.ErrPermission):
			return nil, ioFailed(err)
		case !errors.Is(err, syscall.EAGAIN):
			return nil, noReplica(err)
		}
		if !pause(ctx, connectPause) {
			return nil, noReply(ctx.Err())
		}
	}
}

// path is the socket's, as package net takes it: there a path that begins with "@" is not that of a file.
func (c *Client) path() (string, error) {
	path := c.Socket
	if path == "" || strings.ContainsRune(path, 0) {
		return "", usage(fmt.Errorf("%q is not the path of a socket", path))
	}
	if path[0] == '@' {
		path = "./" + path
	}
	if len(path) > pathLimit {
		return "", ioFailed(syscall.ENAMETOOLONG)
	}
	return path, nil
}

// pause waits, and says whether the context still goes on.
func pause(ctx context.Context, length time.Duration) bool {
	timer := time.NewTimer(length)
	defer timer.Stop()
	select {
	case <-timer.C:
		return ctx.Err() == nil
	case <-ctx.Done():
		return false
	}
}

// endWith makes each read and write of the connection fail once the context ends, until the returned function has
// returned.
func endWith(ctx context.Context, connection net.Conn) func() {
	over, done := make(chan struct{}), make(chan struct{})
	go func() {
		defer close(done)
		select {
		case <-ctx.Done():
			_ = connection.SetDeadline(time.Unix(1, 0))
		case <-over:
		}
	}()
	return func() {
		close(over)
		<-done
	}
}

// send writes as much of a request as the replica takes. If it refuses the request before it has read all of it, the
// reply says why: so a write that fails is not an error here.
func send(connection io.Writer, line, input []byte) {
	for _, part := range [][]byte{line, input} {
		if len(part) == 0 {
			continue
		}
		if _, err := connection.Write(part); err != nil {
			return
		}
	}
}

// head is the first line of a reply.
type head struct {
	Errors *uint64 `json:"errors"`
	Output *uint64 `json:"output"`
	Status *uint8  `json:"status"`
}

// readReply reads a reply, of at most so many bytes after its first line.
func readReply(reader *bufio.Reader, most uint64) (*Reply, error) {
	line, err := reader.ReadSlice('\n')
	if err != nil && len(line) == 0 && !errors.Is(err, os.ErrDeadlineExceeded) {
		return nil, fmt.Errorf("%w: %v", errUnanswered, err)
	}
	if err != nil {
		return nil, fmt.Errorf("the first line of the reply has no end: %w", err)
	}
	first, err := parseHead(line, most)
	if err != nil {
		return nil, err
	}
	length := *first.Output + *first.Errors
	body, err := io.ReadAll(io.LimitReader(reader, int64(length)))
	// The connection may also end by an error of the system, as when not all input was read.
	if errors.Is(err, os.ErrDeadlineExceeded) {
		return nil, err
	}
	if uint64(len(body)) != length || reader.Buffered() > 0 {
		return nil, fmt.Errorf("the reply does not have the %d bytes that its first line says", length)
	}
	split := *first.Output
	return &Reply{Output: body[:split:split], Errors: body[split:], Status: int(*first.Status)}, nil
}

func parseHead(line []byte, most uint64) (*head, error) {
	var first head
	if err := json.Unmarshal(line, &first); err != nil {
		return nil, fmt.Errorf("the first line of the reply: %w", err)
	}
	if first.Errors == nil || first.Output == nil || first.Status == nil {
		return nil, errors.New("the first line of the reply lacks a number")
	}
	if *first.Output > most || *first.Errors > most-*first.Output {
		return nil, fmt.Errorf("the reply has more than %d bytes", most)
	}
	return &first, nil
}
