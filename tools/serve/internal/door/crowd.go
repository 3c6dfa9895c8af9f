package door

import (
	"crypto/tls"
	"net"
	"net/http"
	"sync"
	"time"
)

const (
	// reservePart is which part of all places is kept for tokens and for health.
	reservePart = 8
	// addressPart is which part of all places the clients of one address have at most, those with a
	// token apart.
	addressPart = 2
)

// crowd is who is connected.
type crowd struct {
	lock sync.Mutex
	all  map[*guest]bool
}

// guest is one who is connected, until it is closed.
type guest struct {
	net.Conn
	crowd   *crowd
	address string
	// The lock of the crowd guards these.
	still  time.Time // since when nothing of it is answered
	busy   int       // how many of its requests are answered
	served bool      // one of them was
	known  bool      // it has shown a token
	isLast bool      // when it came, only places were left that are kept
}

// count is how many are connected.
func (its *crowd) count() int {
	its.lock.Lock()
	defer its.lock.Unlock()
	return len(its.all)
}

// admit takes in one who comes, or answers nil. Where places are few, one goes who has no token and
// asks nothing.
func (its *crowd) admit(connection net.Conn, most int, isEach bool) *guest {
	its.lock.Lock()
	defer its.lock.Unlock()
	comer := &guest{Conn: connection, crowd: its, still: time.Now()}
	comer.address, _, _ = net.SplitHostPort(connection.RemoteAddr().String())
	if isEach && !its.makeRoom(most/addressPart, comer.address) {
		return nil
	}
	if !its.makeRoom(most-most/reservePart, "") {
		comer.isLast = true
		if len(its.all) >= most {
			return nil
		}
	}
	if its.all == nil {
		its.all = map[*guest]bool{}
	}
	its.all[comer] = true
	return comer
}

// makeRoom has fewer than so many of an address connected, or of all, those with a token apart
// where there is an address. It says whether that went.
func (its *crowd) makeRoom(most int, address string) bool {
	for {
		count, idle := its.idlest(address)
		if count < most {
			return true
		}
		if idle == nil {
			return false
		}
		delete(its.all, idle)
		_ = idle.Conn.Close()
	}
}

// idlest counts them, and finds the one who goes first: of an address, or of that with the most who
// may go. So a crowd from elsewhere sends nobody away who is alone.
func (its *crowd) idlest(address string) (count int, idle *guest) {
	groups, now := map[string]int{}, time.Now()
	for guest := range its.all {
		if address != "" && (guest.address != address || guest.known) {
			continue
		}
		count++
		if guest.busy == 0 && !guest.known {
			groups[guest.address]++
		}
	}
	for guest := range its.all {
		if guest.busy > 0 || guest.known || address != "" && guest.address != address {
			continue
		}
		if idle == nil || groups[guest.address] > groups[idle.address] ||
			groups[guest.address] == groups[idle.address] && guest.goesBefore(idle, now) {
			idle = guest
		}
	}
	return count, idle
}

// goesBefore says whether it goes before another: who is new goes last, and else first who has
// asked nothing for the longest time.
func (its *guest) goesBefore(other *guest, now time.Time) bool {
	if its.isNew(now) != other.isNew(now) {
		return other.isNew(now)
	}
	return its.still.Before(other.still)
}

// isNew says whether it may still be about to begin. One who was served and goes comes again, as
// HTTP has it; for one who goes while it shakes hands, or before it has asked, that is an error.
func (its *guest) isNew(now time.Time) bool {
	return !its.served && now.Sub(its.still) < handshakeLimit
}

// Close closes the connection.
func (its *guest) Close() error {
	its.crowd.lock.Lock()
	delete(its.crowd.all, its)
	its.crowd.lock.Unlock()
	return its.Conn.Close()
}

// begins notes that a request of it is answered.
func (its *guest) begins() {
	its.crowd.lock.Lock()
	defer its.crowd.lock.Unlock()
	its.busy++
}

// ends notes that one was.
func (its *guest) ends() {
	its.crowd.lock.Lock()
	defer its.crowd.lock.Unlock()
	its.busy--
	its.served = true
	its.still = time.Now()
}

// knows notes whether its token is known. It says whether its request may be answered: the last
// places are for those with a token, and for health.
func (its *guest) knows(isKnown, isHealth bool) bool {
	its.crowd.lock.Lock()
	defer its.crowd.lock.Unlock()
	its.known = isKnown
	if isKnown {
		its.isLast = false
	}
	return !its.isLast || isHealth
}

// guestOf is the guest whose request this is, or nil.
func guestOf(request *http.Request) *guest {
	connection, _ := request.Context().Value(connectionKey{}).(net.Conn)
	for {
		switch its := connection.(type) {
		case *guest:
			return its
		case *plain:
			connection = its.Conn
		case *tls.Conn:
			connection = its.NetConn()
		default:
			return nil
		}
	}
}
