package door

import (
	"context"
	"net"
	"net/http"
	"net/url"
	"strings"
	"time"
)

// actorKey finds the actor of a request in its context.
type actorKey struct{}

// mayEnter asks for a token. Without a file of tokens only this machine gets here, and no request
// of a stranger, which a proxy or a browser of this machine may hand on.
func (web *Web) mayEnter(writer http.ResponseWriter, request *http.Request) bool {
	if web.Tokens == nil {
		if why := stranger(request); why != "" {
			fail(writer, http.StatusForbidden, why)
			return false
		}
		writer.Header().Set("Faultyard-Audit", web.Book.ID())
		return true
	}
	actor, known := web.Tokens.actorOf(request)
	if !known {
		writer.Header().Set("WWW-Authenticate", `Bearer realm="faultyard"`)
		fail(writer, http.StatusUnauthorized, "the request has no token that is known")
		return false
	}
	writer.Header().Set("Faultyard-Audit", web.Book.ID())
	*request = *request.WithContext(context.WithValue(request.Context(), actorKey{}, actor))
	return true
}

// hasPlace says whether there is a place for who asks.
func (web *Web) hasPlace(writer http.ResponseWriter, request *http.Request) bool {
	guest := guestOf(request)
	if guest == nil {
		return true
	}
	isKnown := false
	if web.Tokens != nil {
		_, isKnown = web.Tokens.actorOf(request)
	}
	if guest.knows(isKnown, request.URL.Path == "/healthz") {
		return true
	}
	writer.Header().Set("Connection", "close")
	fail(writer, http.StatusServiceUnavailable, "too many are connected")
	return false
}

// forwarded are headers by which proxies tell whose request they hand on.
var forwarded = []string{
	"Forwarded", "Via", "X-Forwarded-For", "X-Forwarded-Host", "X-Forwarded-Proto",
	"X-Forwarded-Server", "X-Forwarded-Port", "X-Real-Ip", "X-Original-Host", "Client-Ip",
}

// stranger says why a request may be another machine's, or nothing. A page of another server, whose
// name was changed to this machine's address, names its own host.
func stranger(request *http.Request) string {
	const needs = "; behind a proxy, give --tokens"
	for _, name := range forwarded {
		if _, has := request.Header[name]; has {
			return "a proxy handed the request on, by its header " + name + needs
		}
	}
	if !request.ProtoAtLeast(1, 1) {
		return "a request of " + request.Proto + " is as a proxy hands it on" + needs
	}
	if !isLoopback(request.Host) {
		return "the host of the request isn't this machine"
	}
	if origin := request.Header.Get("Origin"); origin != "" {
		if from, err := url.Parse(origin); err != nil || !isLoopback(from.Host) {
			return "the origin of the request isn't this machine"
		}
	}
	return ""
}

// isLoopback says whether a host, with its port or without, is this machine.
func isLoopback(host string) bool {
	name := host
	if split, _, err := net.SplitHostPort(host); err == nil {
		name = split
	}
	name = strings.TrimSuffix(strings.TrimPrefix(name, "["), "]")
	address := net.ParseIP(name)
	return name == "localhost" || address != nil && address.IsLoopback()
}

// watchKey finds in the context of a request of HTTP/2 the clock that ends its connection.
type watchKey struct{}

// watch notes that a request is answered, until the function that it answers is called. The limits
// of a connection of HTTP/2 would be those of all its requests, so a clock of each ends it.
func (web *Web) watch(request **http.Request) (ends func()) {
	its := *request
	connection, _ := its.Context().Value(connectionKey{}).(net.Conn)
	var clock *time.Timer
	if connection != nil && its.ProtoMajor > 1 {
		clock = time.AfterFunc(answerLimit, func() { _ = connection.Close() })
		*request = its.WithContext(context.WithValue(its.Context(), watchKey{}, clock))
	}
	guest := guestOf(its)
	if guest != nil {
		guest.begins()
	}
	return func() {
		if clock != nil {
			clock.Stop()
		}
		if guest != nil {
			guest.ends()
		}
	}
}

// patience is how long the client may take from now on to take its answer, or to send its body.
func patience(request *http.Request, seconds time.Duration) {
	if clock, is := request.Context().Value(watchKey{}).(*time.Timer); is {
		clock.Reset(seconds)
		return
	}
	if connection, is := request.Context().Value(connectionKey{}).(net.Conn); is {
		_ = connection.SetWriteDeadline(time.Now().Add(seconds))
	}
}

// staysOpen lets a client say nothing for as long as it is answered.
func staysOpen(request *http.Request) {
	connection, is := request.Context().Value(connectionKey{}).(net.Conn)
	if is && request.ProtoMajor == 1 {
		_ = connection.SetReadDeadline(time.Time{})
	}
}

// waits stops the clock of a client whose answer isn't made yet.
func waits(request *http.Request) {
	if clock, is := request.Context().Value(watchKey{}).(*time.Timer); is {
		clock.Stop()
	}
}
