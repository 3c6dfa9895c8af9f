package door

import (
	"context"
	"crypto/tls"
	"encoding/json"
	"fmt"
	"log"
	"net"
	"net/http"
	"strings"
	"time"

	"faultyard-serve/internal/book"
	"faultyard-serve/internal/panics"
)

// The limits of what a client of the network may take.
const (
	mostHeader  = 16 << 10
	headerLimit = 5 * time.Second
	bodyLimit   = 10 * time.Second
	answerLimit = 30 * time.Second
	idleLimit   = 60 * time.Second
)

// Web answers requests of HTTP.
type Web struct {
	Book *book.Book
	// Guard is that of the book.
	Guard Guard
	// Tokens says who may do what. Without it only this machine is answered.
	Tokens *Tokens
	// Program draws pictures.
	Program *Program
	Version string
	// Lines is the other door, whose clients are counted too.
	Lines *Lines
	// Most is how many may be connected at once.
	Most int32
	// Say tells what went wrong in the server itself.
	Say func(what string)
	// Beat is how often a stream of events says that the server is there, if not every 3 seconds.
	Beat     time.Duration
	crowd    crowd
	requests requests
	pictures cache
}

// route is a path that is answered.
type route struct {
	method string
	path   string
	answer func(*Web, http.ResponseWriter, *http.Request)
	// open is: no token is asked for.
	open bool
}

// routes are all paths. The file openapi.json describes those that aren't the page's.
var routes = []route{
	{"POST", "/v1/acts", (*Web).act, false},
	{"GET", "/v1/status", (*Web).status, false},
	{"GET", "/v1/audit", (*Web).audit, false},
	{"GET", "/v1/events", (*Web).events, false},
	{"GET", "/v1/targets", (*Web).targets, false},
	{"GET", "/v1/bears", (*Web).bears, false},
	{"POST", "/v1/judge", (*Web).judge, false},
	{"GET", "/v1/killable", question("killable", "actor"), false},
	{"GET", "/v1/state", question("state", "process"), false},
	{"GET", "/v1/cluster", question("cluster"), false},
	{"GET", "/v1/record", question("record", "record"), false},
	{"GET", "/v1/needed", question("needed", "process"), false},
	{"GET", "/v1/sight", question("sight"), false},
	{"GET", "/picture.svg", (*Web).picture, false},
	{"GET", "/metrics", (*Web).metrics, false},
	{"GET", "/healthz", (*Web).healthz, true},
	{"GET", "/openapi.json", asset("openapi.json", "application/json"), true},
	{"GET", "/", asset("page.html", "text/html; charset=utf-8"), true},
	{"GET", "/page.css", asset("page.css", "text/css; charset=utf-8"), true},
	{"GET", "/page.js", asset("page.js", "text/javascript; charset=utf-8"), true},
	{"GET", "/page-stream.js", asset("page-stream.js", "text/javascript; charset=utf-8"), true},
}

// connectionKey finds the connection of a request in its context.
type connectionKey struct{}

// Server is the server of these answers, with its limits. Its listener is Limited.
func (web *Web) Server(certificate *tls.Config) *http.Server {
	return &http.Server{
		Handler:           web,
		TLSConfig:         certificate,
		MaxHeaderBytes:    mostHeader,
		ReadHeaderTimeout: headerLimit,
		ReadTimeout:       bodyLimit,
		IdleTimeout:       idleLimit,
		ErrorLog:          log.New(nowhere{}, "", 0),
		ConnContext: func(context_ context.Context, connection net.Conn) context.Context {
			return context.WithValue(context_, connectionKey{}, connection)
		},
	}
}

// nowhere takes what a client did wrong: it is the client's matter.
type nowhere struct{}

func (nowhere) Write(text []byte) (int, error) { return len(text), nil }

// ServeHTTP answers a request.
func (web *Web) ServeHTTP(writer http.ResponseWriter, request *http.Request) {
	its := &told{ResponseWriter: writer, status: http.StatusOK}
	defer func() { web.requests.add(its.status) }()
	defer func() {
		if why := recover(); why != nil {
			web.breaks(its, request, why)
		}
	}()
	defer web.watch(&request)()
	patience(request, answerLimit)
	header := its.Header()
	header.Set("Cache-Control", "no-store")
	header.Set("X-Content-Type-Options", "nosniff")
	header.Set("Referrer-Policy", "no-referrer")
	header.Set("Content-Security-Policy",
		"default-src 'self'; style-src 'self' 'unsafe-inline'; img-src data:; "+
			"frame-ancestors 'none'; base-uri 'none'; form-action 'self'")
	if len(request.TransferEncoding) > 0 {
		// A length beside it, as only one who means ill sends it, has been taken out by now.
		header.Set("Connection", "close")
	}
	web.dispatch(its, request)
}

// breaks tells of a panic, and answers it. Whoever has got a part of an answer sees that the rest
// is missing.
func (web *Web) breaks(its *told, request *http.Request, why any) {
	isTold := its.isTold
	its.status = http.StatusInternalServerError
	if why == http.ErrAbortHandler {
		panic(why)
	}
	broken := panics.Of(why)
	web.Say(fmt.Sprintf("%s %s: %v\n%s", request.Method, request.URL.Path, broken, broken.Where))
	if isTold {
		panic(http.ErrAbortHandler)
	}
	its.Header().Del("Content-Length")
	fail(its, http.StatusInternalServerError, "the server is at fault")
}

// told remembers the status of an answer, and whether any of it was sent.
type told struct {
	http.ResponseWriter
	status int
	isTold bool
}

// WriteHeader sends the status.
func (its *told) WriteHeader(status int) {
	its.status, its.isTold = status, true
	its.ResponseWriter.WriteHeader(status)
}

// Write sends a part of the answer.
func (its *told) Write(text []byte) (int, error) {
	its.isTold = true
	return its.ResponseWriter.Write(text)
}

// dispatch finds the route of a request, and who asks.
func (web *Web) dispatch(writer http.ResponseWriter, request *http.Request) {
	var allowed []string
	for _, route := range routes {
		if route.path != request.URL.Path {
			continue
		}
		method := request.Method
		if method == http.MethodHead {
			method = http.MethodGet
		}
		if route.method != method {
			allowed = append(allowed, route.method)
			continue
		}
		if !web.hasPlace(writer, request) || !route.open && !web.mayEnter(writer, request) {
			return
		}
		route.answer(web, writer, request)
		return
	}
	if len(allowed) > 0 {
		writer.Header().Set("Allow", strings.Join(allowed, ", "))
		fail(writer, http.StatusMethodNotAllowed, "this path has another method")
		return
	}
	fail(writer, http.StatusNotFound, "there is no such path")
}

// fail answers an error.
func fail(writer http.ResponseWriter, status int, why string) {
	writer.Header().Set("Content-Type", problemKind)
	writer.WriteHeader(status)
	_, _ = writer.Write(problemOf(status, why)) // Whoever is gone needs no answer.
}

// failOf answers what went wrong with an act or a view.
func failOf(writer http.ResponseWriter, err error) {
	fault, is := book.FaultOf(err)
	if !is {
		fail(writer, http.StatusServiceUnavailable, err.Error())
		return
	}
	status := http.StatusBadRequest
	switch fault {
	case book.TooLong:
		status = http.StatusRequestEntityTooLarge
	case book.JournalFull:
		status = http.StatusInsufficientStorage
	case book.OnceOther:
		status = http.StatusUnprocessableEntity
	}
	fail(writer, status, faultLine(fault, 1))
}

// writeJSON answers a value.
func writeJSON(writer http.ResponseWriter, status int, value any) {
	text, err := json.Marshal(value)
	if err != nil {
		http.Error(writer, err.Error(), http.StatusInternalServerError)
		return
	}
	writer.Header().Set("Content-Type", "application/json")
	writer.WriteHeader(status)
	_, _ = writer.Write(append(text, '\n')) // Whoever is gone needs no answer.
}
