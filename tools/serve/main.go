// Command faultyard-serve is one guard that many ask. It keeps its audit on the disk before it
// answers, and goes on with it when it is started again.
package main

import (
	"context"
	"crypto/tls"
	"errors"
	"fmt"
	"net"
	"net/http"
	"os"
	"os/exec"
	"os/signal"
	"path/filepath"
	"strconv"
	"sync/atomic"
	"syscall"
	"time"

	"faultyard"
	"faultyard-serve/internal/book"
	"faultyard-serve/internal/door"
	"faultyard-serve/internal/panics"
)

const (
	// mostConnected is how many may be connected at once, at each door.
	mostConnected = 256
	// lastLimit is how long requests may take that are there when the server ends.
	lastLimit = 2 * time.Second
)

func main() {
	words, err := parsed(os.Args[1:], os.Stdout)
	if err == nil && words != nil {
		err = panics.Caught(func() error { return serve(words) })
	}
	os.Exit(report(err))
}

// report says on standard error why the server ends, and answers its status.
func report(err error) int {
	if err == nil {
		return ended
	}
	say(err.Error())
	var known failure
	var refusal book.Refusal
	var caught panics.Error
	switch {
	case errors.As(err, &caught):
		fmt.Fprint(os.Stderr, caught.Where)
		return broken
	case errors.As(err, &known):
		return known.status
	case errors.As(err, &refusal):
		return refusal.Status
	}
	return ioFailed
}

// say tells something on standard error.
func say(what string) { fmt.Fprintln(os.Stderr, "faultyard-serve: "+what) }

// server is what runs until a signal comes, or the disk fails.
type server struct {
	words  *words
	config []byte
	guard  *faultyard.Guard
	book   *book.Book
	lines  *door.Lines
	web    *door.Web
	http   *http.Server
	actors int // of the cluster file
	// tokens and pair are nil where there are none.
	tokens *door.Tokens
	pair   atomic.Pointer[tls.Certificate]
	// socket and network are nil where nobody is let in there.
	socket, network net.Listener
}

// serve answers until a signal ends the server, or the disk fails.
func serve(words *words) error {
	signals, again := make(chan os.Signal, 1), make(chan os.Signal, 1)
	signal.Notify(signals, syscall.SIGTERM, syscall.SIGINT)
	signal.Notify(again, syscall.SIGHUP)
	signal.Ignore(syscall.SIGXFSZ) // A limit of a file is an error of the write.
	// And so is a standard error that nobody reads. What isn't ignored, no program inherits.
	signal.Notify(make(chan os.Signal, 1), syscall.SIGPIPE)
	its := &server{words: words}
	defer its.end()
	if err := its.open(); err != nil {
		return err
	}
	if err := its.listen(); err != nil {
		return err
	}
	failed := make(chan error, 2)
	answer := func(serve func() error) { failed <- panics.Caught(serve) }
	go answer(func() error { return its.lines.Serve(its.socket) })
	if its.network != nil {
		go answer(func() error { return its.http.Serve(its.network) })
	}
	say(its.ready())
	notify("READY=1")
	for {
		select {
		case <-again:
			its.readAgain()
		case <-signals:
			// A disk may take long. Another signal ends the server at once, as a kill does.
			signal.Stop(signals)
			return its.book.Close()
		case <-its.book.Stopped():
			return its.book.Stop()
		case err := <-failed:
			return err
		}
	}
}

// readAgain reads the tokens and the certificate again. Where one is refused, both stay.
func (its *server) readAgain() {
	tokens, pair, err := its.words.secrets()
	if err != nil {
		say(err.Error() + "; tokens and certificate stay as they were")
		return
	}
	if tokens != nil {
		its.tokens.Become(tokens)
		its.tellOfStrangers(tokens)
	}
	its.pair.Store(pair)
	say("tokens and certificate are read again")
}

// tellOfStrangers says which tokens are of actors that the cluster file hasn't: they may read, and
// each of their acts is refused.
func (its *server) tellOfStrangers(tokens *door.Tokens) {
	for _, actor := range tokens.Beyond(its.actors) {
		const why = "%s: a token is of actor %d; %s has %d actors, from 0, so its acts are refused"
		say(fmt.Sprintf(why, its.words.tokens, actor, its.words.config, its.actors))
	}
}

// open opens the guard, and goes on with its audit.
func (its *server) open() (err error) {
	if its.config, err = os.ReadFile(its.words.config); err != nil {
		return err
	}
	// A wrong cluster file is told before the audit is touched.
	begun, err := faultyard.Open(its.config)
	if err != nil {
		return ofLibrary(err)
	}
	cluster, err := begun.Cluster()
	_ = begun.Close()
	if err != nil {
		return ofLibrary(err)
	}
	its.actors = len(cluster.Actors)
	tokens, pair, err := its.words.secrets()
	if err != nil {
		return failure{refused, err.Error()}
	}
	if tokens != nil {
		its.tellOfStrangers(tokens)
	}
	its.tokens = tokens
	its.pair.Store(pair)
	if err := its.goOn(); err != nil {
		return err
	}
	its.lines = &door.Lines{Book: its.book, Most: mostConnected}
	its.web = &door.Web{
		Book: its.book, Guard: library{its.guard}, Tokens: its.tokens,
		Program: program(its.config), Version: libraryVersion(), Lines: its.lines,
		Most: mostConnected, Say: say, Beat: beat(),
	}
	return nil
}

// goOn goes on with the audit, or begins it.
func (its *server) goOn() (err error) {
	path := its.words.audit
	its.book, err = book.Open(book.Files{
		Audit: path, Cluster: its.words.config, Config: its.config, After: its.after, Say: say,
	})
	var refusal book.Refusal
	if errors.As(err, &refusal) {
		refusal.Why = path + refusal.Beside + ": " + refusal.Why
		return refusal
	}
	return err
}

// after opens the guard behind an audit.
func (its *server) after(audit []byte) (book.Guard, error) {
	guard, err := faultyard.OpenAfter(its.config, audit)
	if err != nil {
		return nil, ofAudit(its.config, audit, err)
	}
	its.guard = guard
	return library{guard}, nil
}

// secrets reads the files of tokens and of TLS, where there are any.
func (its *words) secrets() (tokens *door.Tokens, pair *tls.Certificate, err error) {
	if its.tokens != "" {
		if tokens, err = door.ReadTokens(its.tokens); err != nil {
			return nil, nil, err
		}
	}
	if its.certificate != "" {
		read, err := tls.LoadX509KeyPair(its.certificate, its.privateKey)
		if err != nil {
			return nil, nil, err
		}
		pair = &read
	}
	return tokens, pair, nil
}

// tls is how TLS is spoken, or nil.
func (its *server) tls() *tls.Config {
	if its.words.certificate == "" {
		return nil
	}
	return &tls.Config{
		MinVersion: tls.VersionTLS12,
		NextProtos: []string{"h2", "http/1.1"},
		GetCertificate: func(*tls.ClientHelloInfo) (*tls.Certificate, error) {
			return its.pair.Load(), nil
		},
	}
}

// beat is how often streams of events show that the server is there, where a test says so.
func beat() time.Duration {
	milliseconds, _ := strconv.Atoi(os.Getenv("FAULTYARD_SERVE_BEAT"))
	return time.Duration(milliseconds) * time.Millisecond
}

// listen opens the doors.
func (its *server) listen() (err error) {
	if its.socket, err = door.ListenSocket(its.words.socket, its.words.socketMode); err != nil {
		return err
	}
	if its.words.listen == "" {
		return nil
	}
	if its.network, err = net.Listen(networkOf(its.words.listen), its.words.listen); err != nil {
		return err
	}
	its.network = its.web.Limited(its.network, its.tls())
	its.http = its.web.Server(its.tls())
	return nil
}

// networkOf is the network of an address. One of IPv4, also 0.0.0.0, takes nobody by IPv6.
func networkOf(address string) string {
	if host, _, err := net.SplitHostPort(address); err == nil && net.ParseIP(host).To4() != nil {
		return "tcp4"
	}
	return "tcp"
}

// ready is what is said once everybody may ask.
func (its *server) ready() string {
	text := fmt.Sprintf("%d entries; socket %s", its.book.Stats().Entries, its.words.socket)
	if its.network == nil {
		return text
	}
	scheme := "http"
	if its.words.certificate != "" {
		scheme = "https"
	}
	return fmt.Sprintf("%s; %s://%s/", text, scheme, its.network.Addr())
}

// end lets nobody in any more. Who was answered has an entry on the disk.
func (its *server) end() {
	notify("STOPPING=1")
	if its.socket != nil {
		_ = its.socket.Close()
	}
	if its.book != nil {
		_ = its.book.Close()
	}
	if its.http != nil {
		last, cancel := context.WithTimeout(context.Background(), lastLimit)
		defer cancel()
		_ = its.http.Shutdown(last)
	}
}

// program finds the program faultyard: FAULTYARD names it, or it lies beside the server or on the
// search path. Without it no picture is drawn.
func program(config []byte) *door.Program {
	path := os.Getenv("FAULTYARD")
	if own, err := os.Executable(); path == "" && err == nil {
		beside := filepath.Join(filepath.Dir(own), "faultyard")
		if _, err := os.Stat(beside); err == nil {
			path = beside
		}
	}
	if path == "" {
		path = "faultyard"
	}
	found, err := exec.LookPath(path)
	if err != nil {
		return nil
	}
	return &door.Program{Path: found, Config: config}
}

// notify tells systemd, where it started the server, how far it is.
func notify(what string) {
	path := os.Getenv("NOTIFY_SOCKET")
	if path == "" {
		return
	}
	if connection, err := net.Dial("unixgram", path); err == nil {
		_, _ = connection.Write([]byte(what))
		_ = connection.Close()
	}
}
