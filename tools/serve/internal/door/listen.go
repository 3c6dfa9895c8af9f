package door

import (
	"bytes"
	"context"
	"crypto/tls"
	"encoding/json"
	"errors"
	"fmt"
	"net"
	"net/http"
	"strconv"
	"sync"
	"time"
)

const (
	// handshakeLimit is how long a client may take to begin TLS.
	handshakeLimit = 5 * time.Second
	// mostUnsent is how many bytes the system holds for a client that doesn't read. It would take
	// some millions, which many such clients have made and copied before anybody else is served.
	mostUnsent = 1 << 17
)

// Limited is a listener that turns away whoever comes when too many are connected, and speaks TLS
// where there is a certificate.
func (web *Web) Limited(listener net.Listener, certificate *tls.Config) net.Listener {
	its := &limited{Listener: listener, web: web, certificate: certificate}
	if certificate != nil {
		its.ready = make(chan net.Conn)
		its.closed = make(chan struct{})
		its.failed = make(chan error, 1)
		go its.greet()
	}
	return its
}

type limited struct {
	net.Listener
	web         *Web
	certificate *tls.Config
	// ready are those who speak TLS, failed is why nobody comes any more.
	ready  chan net.Conn
	failed chan error
	once   sync.Once
	closed chan struct{}
}

// Accept waits for one who may come in.
func (its *limited) Accept() (net.Conn, error) {
	if its.certificate == nil {
		guest, err := its.admit()
		if err != nil {
			return nil, err
		}
		return &plain{guest}, nil
	}
	select {
	case connection := <-its.ready:
		return connection, nil
	case err := <-its.failed:
		its.failed <- err
		return nil, err
	}
}

// Close lets nobody in any more.
func (its *limited) Close() error {
	if its.closed != nil {
		its.once.Do(func() { close(its.closed) })
	}
	return its.Listener.Close()
}

// admit waits for one for whom there is a place.
func (its *limited) admit() (*guest, error) {
	for {
		connection, err := its.Listener.Accept()
		if err != nil {
			return nil, err
		}
		if tcp, is := connection.(*net.TCPConn); is {
			_ = tcp.SetWriteBuffer(mostUnsent) // If not, it takes more memory.
		}
		comer := its.web.crowd.admit(connection, int(its.web.Most), its.web.Tokens != nil)
		if comer != nil {
			return comer, nil
		}
		_ = connection.Close()
	}
}

// greet begins TLS with all who come, with each on its own.
func (its *limited) greet() {
	for {
		guest, err := its.admit()
		var short interface{ Temporary() bool }
		switch {
		case err == nil:
			go its.begin(guest)
		case errors.As(err, &short) && short.Temporary():
			time.Sleep(acceptPause)
		default:
			its.failed <- err
			return
		}
	}
}

// begin begins TLS with a client.
func (its *limited) begin(guest *guest) {
	connection := tls.Server(guest, its.certificate)
	limit, cancel := context.WithTimeout(context.Background(), handshakeLimit)
	defer cancel()
	if err := connection.HandshakeContext(limit); err != nil {
		var record tls.RecordHeaderError
		if errors.As(err, &record) && record.Conn != nil && isHTTP(record.RecordHeader[:]) {
			const why = "the server speaks TLS here: ask by https"
			_, _ = guest.Conn.Write(plainProblem(http.StatusBadRequest, why))
		}
		_ = guest.Close()
		return
	}
	var ready net.Conn = connection
	if connection.ConnectionState().NegotiatedProtocol != "h2" {
		ready = &plain{connection} // The server of HTTP knows one of HTTP/2 by its type.
	}
	select {
	case its.ready <- ready:
	case <-its.closed:
		_ = guest.Close()
	}
}

// isHTTP says whether the first bytes of a client are those of a request without TLS.
func isHTTP(start []byte) bool {
	for _, method := range []string{"GET /", "HEAD ", "POST ", "PUT /", "OPTIO", "DELET", "PATCH"} {
		if string(start) == method {
			return true
		}
	}
	return false
}

// plain is a connection of HTTP/1. What the package net/http itself answers to a request that it
// can't read is a text; the client gets an error as all others are.
type plain struct{ net.Conn }

// statusHead is before the status of such an answer, and textHead behind it.
const (
	statusHead = "HTTP/1.1 "
	textHead   = "\r\nContent-Type: text/plain; charset=utf-8\r\nConnection: close\r\n\r\n"
)

// Write sends a part of an answer.
func (its *plain) Write(text []byte) (int, error) {
	if !bytes.HasPrefix(text, []byte(statusHead)) || len(text) < len(statusHead)+3 {
		return its.Conn.Write(text)
	}
	head, why, is := bytes.Cut(text, []byte(textHead))
	status, err := strconv.Atoi(string(text[len(statusHead) : len(statusHead)+3]))
	if !is || err != nil || bytes.Contains(head, []byte("\r\n")) {
		return its.Conn.Write(text)
	}
	if _, err := its.Conn.Write(plainProblem(status, string(why))); err != nil {
		return 0, err
	}
	return len(text), nil
}

// problem is an error as it is answered. The member `error` has what went wrong, as in `detail`.
type problem struct {
	Type   string `json:"type"`
	Title  string `json:"title"`
	Status int    `json:"status"`
	Detail string `json:"detail"`
	Error  string `json:"error"`
}

// problemKind is the type of a problem.
const problemKind = "application/problem+json"

// problemOf is the text of an error.
func problemOf(status int, why string) []byte {
	text, err := json.Marshal(problem{"about:blank", http.StatusText(status), status, why, why})
	if err != nil { // There is none.
		return nil
	}
	return append(text, '\n')
}

// plainProblem is the whole answer of an error.
func plainProblem(status int, why string) []byte {
	body := problemOf(status, why)
	const form = "HTTP/1.1 %d %s\r\nContent-Type: %s\r\nContent-Length: %d\r\n" +
		"Connection: close\r\n\r\n%s"
	return []byte(fmt.Sprintf(form, status, http.StatusText(status), problemKind, len(body), body))
}
