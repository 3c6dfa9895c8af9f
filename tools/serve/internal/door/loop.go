package door

import (
	"bytes"
	"errors"
	"fmt"
	"net"
	"runtime"
	"sync"
	"syscall"
	"time"
	"unsafe"

	"faultyard-serve/internal/book"
)

const (
	// mostLine is how many bytes a line has at most, without its line feed.
	mostLine = 65_536
	// mostInput is how much of a client's input is held: what the guard finds too long at least.
	mostInput = mostLine + 2
	// firstInput is how much of it is held at first.
	firstInput = 4096
	// mostAtOnce is how many lines of one client one turn takes.
	mostAtOnce = 1024
	// enoughOutput is how much output of one client is made before the others are served.
	enoughOutput = 1 << 16
	pollIn       = 1 // POLLIN of poll(2)
	// mostEvents is how many clients one look at epoll tells of.
	mostEvents = 128
	// atOnce are the flags of who doesn't wait.
	atOnce = syscall.MSG_DONTWAIT | syscall.MSG_NOSIGNAL
	// aloneFor is how long the loop waits for a client who is alone, in microseconds. The system
	// makes a few milliseconds of it.
	aloneFor = 1000
	// spinFor is how long the loop looks for what such a client says next before it sleeps: longer
	// than one takes that asks as soon as it is answered.
	spinFor = 50 * time.Microsecond
	// looksATime is how many looks at a socket there are to one at the clock.
	looksATime = 16
)

// tooLong is a line that the guard finds too long. It stands for one that isn't held.
var tooLong = bytes.Repeat([]byte("x"), mostLine+1)

// loop serves the clients of a socket by one thread, which waits for all of them at once. A
// goroutine for each client would cost another change of threads for each line, and several loops
// one for each sync.
type loop struct {
	lines   *Lines
	poll    int // the descriptor of epoll
	events  [mostEvents]syscall.EpollEvent
	lock    sync.Mutex
	clients map[int]*client
	// again are clients that have something to do without an event. lastReady is how many clients
	// the last batch served.
	again, ready []*client
	lastReady    int
	// isQuick is: the client who is alone spoke within spinFor.
	isQuick bool
	// waiting is how many clients wait for a sync of others. The lock guards woken: their batches
	// that were served or are to lead. The bell is rung where there are any.
	waiting int
	woken   []*batch
	bell    bell
	rung    bool // events told of the bell
	// idle, heeded and looked are lists that are used again.
	idle, heeded []*batch
	looked       []*client
	waste        [firstInput]byte // for what is received a second time
}

// client is one who is connected.
type client struct {
	descriptor int
	input      []byte
	from       int    // how much of the input was taken
	output     []byte // what the client hasn't read yet
	number     int    // of the next line, from 1
	next, to   int    // the entries that are still to be told
	turn       *book.Turn
	skips      bool // the rest of a line that is too long is passed over
	ends       bool // no more input comes
	isReady    bool // it is in the batch that is gathered, or in one that waits
	isFull     bool // it has to read before more is done for it
	isMuted    bool // no events tell of it until it is answered
	failed     error
	canBeHeard bool
	held       int // how many bytes of its input still stand at the socket, until it is answered
}

// newLoop is a loop without clients.
func newLoop(lines *Lines) (*loop, error) {
	poll, err := syscall.EpollCreate1(syscall.EPOLL_CLOEXEC)
	if err != nil {
		return nil, err
	}
	its := &loop{lines: lines, poll: poll, clients: map[int]*client{}}
	if its.bell, err = newBell(); err == nil {
		err = its.listen(syscall.EPOLL_CTL_ADD, int(its.bell), syscall.EPOLLIN)
	}
	return its, err
}

// listen says, by a call of epoll, of which events of a descriptor it is told.
func (its *loop) listen(call, descriptor int, events uint32) error {
	event := syscall.EpollEvent{Events: events, Fd: int32(descriptor)}
	return syscall.EpollCtl(its.poll, call, descriptor, &event)
}

// add takes in a client, and sends it the header.
func (its *loop) add(connection net.Conn) error {
	descriptor, err := taken(connection)
	if err != nil {
		return err
	}
	client := &client{descriptor: descriptor, number: 1, turn: book.NewTurn()}
	client.input = make([]byte, 0, firstInput)
	client.output = append(client.output, book.Header...)
	client.canBeHeard = canBeHeard(descriptor)
	if err = client.send(); err == nil {
		err = its.listen(syscall.EPOLL_CTL_ADD, descriptor, syscall.EPOLLIN)
	}
	if err != nil {
		_ = syscall.Close(descriptor)
		return err
	}
	its.lock.Lock()
	its.clients[descriptor] = client
	its.lock.Unlock()
	return nil
}

// taken is the descriptor of a connection, out of the runtime's hands.
func taken(connection net.Conn) (descriptor int, err error) {
	defer connection.Close()
	raw, err := connection.(syscall.Conn).SyscallConn()
	if err != nil {
		return 0, err
	}
	var number syscall.Errno
	var copied uintptr
	err = raw.Control(func(descriptor uintptr) {
		copied, _, number = syscall.Syscall(
			syscall.SYS_FCNTL, descriptor, syscall.F_DUPFD_CLOEXEC, 0)
	})
	if err == nil && number != 0 {
		err = number
	}
	return int(copied), err
}

// canBeHeard makes a descriptor one that hear may wait at, where the system can.
func canBeHeard(descriptor int) bool {
	limit := syscall.Timeval{Usec: aloneFor}
	err := syscall.SetsockoptTimeval(descriptor, syscall.SOL_SOCKET, syscall.SO_RCVTIMEO, &limit)
	return err == nil && syscall.SetNonblock(descriptor, false) == nil
}

// run serves until epoll fails, which it never does.
func (its *loop) run() error {
	for {
		patience := -1
		if len(its.again) > 0 {
			patience = 0
		}
		if patience == 0 || !its.hear() {
			if err := its.collect(patience); err != nil {
				return err
			}
		}
		if its.rung {
			its.rung = false
			its.heed()
		}
		its.gather()
		its.serve()
	}
}

// hear waits a moment for a client who is alone, and says whether it spoke. Others who come
// meanwhile are served behind that moment.
func (its *loop) hear() bool {
	client := its.alone()
	if client == nil || client.isReady || client.isFull || !client.canBeHeard {
		return false
	}
	if !its.spin(client) && !its.sleep(client) {
		return false
	}
	its.look(client)
	if !client.isReady {
		its.takeOff(client)
	}
	return true
}

// spin looks again and again for what a quick client says next: to sleep and be woken takes as long
// as all else of a round trip. Where there is one processor, the client would wait for it.
func (its *loop) spin(client *client) bool {
	if !its.isQuick || runtime.NumCPU() == 1 {
		return false
	}
	for until := time.Now().Add(spinFor); time.Now().Before(until); {
		for look := 0; look < looksATime; look++ {
			if client.fill(atOnce) > 0 || client.isOver() {
				return true
			}
		}
	}
	return false
}

// sleep waits in the call that receives, which is a call less than by epoll.
//
// The call only peeks. A client that waits in a read is woken when what it sent is taken off the
// socket, and would sleep again before its answer wakes it. So that is done behind the answer.
func (its *loop) sleep(client *client) bool {
	began := time.Now()
	client.held = client.fill(syscall.MSG_PEEK)
	its.isQuick = time.Since(began) < spinFor
	return client.held > 0 || client.isOver()
}

// isOver says whether a client says no more.
func (its *client) isOver() bool { return its.ends || its.failed != nil }

// alone is the client where nobody else is connected.
func (its *loop) alone() *client {
	its.lock.Lock()
	defer its.lock.Unlock()
	if len(its.clients) == 1 {
		for _, client := range its.clients {
			return client
		}
	}
	return nil
}

// takeOff takes off a client's socket what was heard there.
func (its *loop) takeOff(client *client) {
	for client.held > 0 {
		part := its.waste[:]
		if client.held < len(part) {
			part = part[:client.held]
		}
		taken, err := moved(syscall.SYS_RECVFROM, client.descriptor, part, atOnce)
		if taken == 0 { // It stands there, so this never is.
			client.failed = fmt.Errorf("what was heard is gone: %w", err)
			taken = client.held
		}
		client.held -= taken
	}
}

// collect waits for events, and reads what came.
func (its *loop) collect(milliseconds int) error {
	count, err := syscall.EpollWait(its.poll, its.events[:], milliseconds)
	if err != nil && err != syscall.EINTR {
		return err
	}
	again := its.again
	its.again, its.looked = its.looked[:0], again
	for _, client := range again {
		its.look(client)
	}
	for at := 0; at < count; at++ {
		its.hearOf(int(its.events[at].Fd))
	}
	return nil
}

// hearOf does what an event asks for, by its descriptor.
func (its *loop) hearOf(descriptor int) {
	if descriptor == int(its.bell) {
		its.rung = true
		return
	}
	its.lock.Lock()
	client := its.clients[descriptor]
	its.lock.Unlock()
	switch {
	case client == nil: // It was let go just now.
	case client.isReady: // Its turn comes first, and events would tell of it until then.
		if !client.isMuted && its.listen(syscall.EPOLL_CTL_MOD, descriptor, once) == nil {
			client.isMuted = true
		}
	case client.isFull:
		its.finish(client)
	default:
		client.fill(atOnce)
		its.look(client)
	}
}

// once are events of nothing but the end of a client, which are told once.
const once = 1 << 30 // EPOLLONESHOT

// look puts a client into the batch where it has something to ask, and ends it where it ended.
func (its *loop) look(client *client) {
	if client.isReady || client.isFull {
		return
	}
	if client.failed == nil && (client.next < client.to || client.take()) {
		client.isReady = true
		its.ready = append(its.ready, client)
	} else if client.isOver() {
		its.remove(client)
	}
}

// gather waits for as many clients as the last batch served, at most for a part of the last sync's
// time: clients that were answered together ask together again, and then one sync serves all of
// them. Where others wait for a sync that runs, all wait for it.
func (its *loop) gather() {
	if len(its.ready) == 0 || len(its.ready) >= its.lastReady || its.waiting > 0 {
		return
	}
	patience := its.lines.Book.Patience()
	if patience == 0 {
		return
	}
	until := time.Now().Add(patience)
	for len(its.ready) < its.lastReady {
		left, before := time.Until(until), len(its.ready)
		if left <= 0 || !isReadable(its.poll, left) || its.collect(0) != nil {
			return
		}
		if len(its.ready) == before {
			return // Those who say more before they are answered are no reason to wait.
		}
	}
}

// isReadable waits until a descriptor has something to read, for so long at most.
func isReadable(descriptor int, patience time.Duration) bool {
	asked := struct {
		descriptor   int32
		events, told int16
	}{int32(descriptor), pollIn, 0}
	limit := syscall.NsecToTimespec(int64(patience))
	ready, _, _ := syscall.Syscall6(syscall.SYS_PPOLL,
		uintptr(unsafe.Pointer(&asked)), 1, uintptr(unsafe.Pointer(&limit)), 0, 0, 0)
	return ready == 1
}

// serve answers the batch: at once who only reads.
func (its *loop) serve() {
	if len(its.ready) == 0 {
		return
	}
	its.lastReady = len(its.ready)
	asking := its.newBatch()
	for _, client := range its.ready {
		if from, asked := readFrom(client.turn); asked {
			client.number++
			client.next, client.to = from, its.lines.Book.Stats().Entries
			client.output, client.next = appendRange(client.output, from, client.to)
			client.turn.Asks = client.turn.Asks[:0]
		}
		if len(client.turn.Asks) > 0 {
			asking.add(client)
		} else {
			its.answer(client)
		}
	}
	its.ready = its.ready[:0]
	if len(asking.clients) > 0 {
		its.join(asking)
	} else {
		its.idle = append(its.idle, asking)
	}
}

// answer makes the output of a client, and sends it.
func (its *loop) answer(client *client) {
	client.isReady = false
	if len(client.turn.Asks) > 0 {
		client.output, client.failed =
			appendAnswers(client.output, client.turn.Answers, client.number)
		client.number += len(client.turn.Asks)
		client.turn.Asks = client.turn.Asks[:0]
	}
	for client.next < client.to && len(client.output) < enoughOutput && client.failed == nil {
		lines, next, err := its.lines.Book.Entries(client.next, client.to, enoughOutput)
		client.output, client.failed = append(client.output, lines...), err
		client.next = next
	}
	its.finish(client)
}

// finish sends what there is to send, and sees to it that the client is looked at again.
func (its *loop) finish(client *client) {
	err := client.send()
	its.takeOff(client)
	isFull := len(client.output) > 0
	if err == nil && (isFull != client.isFull || client.isMuted) {
		client.isFull, client.isMuted = isFull, false
		events := uint32(syscall.EPOLLIN)
		if isFull {
			events = syscall.EPOLLOUT
		}
		err = its.listen(syscall.EPOLL_CTL_MOD, client.descriptor, events)
	}
	if err != nil {
		its.remove(client)
	} else if !client.isFull && client.isBusy() {
		its.again = append(its.again, client)
	}
}

// isBusy says whether there is something to do for a client before it says more.
func (its *client) isBusy() bool {
	return its.isOver() || its.next < its.to ||
		bytes.IndexByte(its.input[its.from:], '\n') >= 0
}

// remove lets a client go.
func (its *loop) remove(client *client) {
	its.forget(client)
	its.lines.count.Add(-1)
}

func (its *loop) forget(client *client) {
	its.lock.Lock()
	delete(its.clients, client.descriptor)
	its.lock.Unlock()
	_ = syscall.Close(client.descriptor)
}

// moved receives into a part of memory or sends it, as the flags say. Where the thread never waits
// the scheduler isn't told of the call: that takes as long as a short call itself.
func moved(call uintptr, descriptor int, part []byte, flags uintptr) (int, error) {
	if len(part) == 0 {
		return 0, nil
	}
	var count uintptr
	var number syscall.Errno
	if flags&syscall.MSG_DONTWAIT != 0 {
		count, _, number = syscall.RawSyscall6(call, uintptr(descriptor),
			uintptr(unsafe.Pointer(&part[0])), uintptr(len(part)), flags, 0, 0)
	} else {
		count, _, number = syscall.Syscall6(call, uintptr(descriptor),
			uintptr(unsafe.Pointer(&part[0])), uintptr(len(part)), flags, 0, 0)
	}
	switch number {
	case 0:
		return int(count), nil
	case syscall.EAGAIN, syscall.EINTR:
		return 0, errLater
	}
	return 0, number
}

// errLater is: nothing goes at once.
var errLater = errors.New("later")

// send sends what the client takes of the output.
func (its *client) send() error {
	if len(its.output) == 0 {
		return nil
	}
	sent, err := moved(syscall.SYS_SENDTO, its.descriptor, its.output, atOnce)
	if err == errLater {
		return nil
	}
	its.output = its.output[:copy(its.output, its.output[sent:])]
	return err
}

// fill reads what is there, and answers how much.
func (its *client) fill(flags uintptr) int {
	if its.from > 0 {
		its.input = its.input[:copy(its.input, its.input[its.from:])]
		its.from = 0
	}
	if length := len(its.input); length == cap(its.input) && length < mostInput {
		more := 2 * length
		if more > mostInput {
			more = mostInput
		}
		its.input = append(make([]byte, 0, more), its.input...)
	}
	room := its.input[len(its.input):cap(its.input)]
	read, err := moved(syscall.SYS_RECVFROM, its.descriptor, room, flags)
	switch {
	case err == errLater:
	case err != nil:
		its.failed = err
	case read == 0 && len(room) > 0:
		its.ends = true
	default:
		its.input = its.input[:len(its.input)+read]
	}
	return read
}

// take takes lines of the input into the turn. It says whether there is any. A line that asks for
// entries stands alone in its turn.
func (its *client) take() bool {
	its.turn.Asks = its.turn.Asks[:0]
	for len(its.turn.Asks) < mostAtOnce {
		line := its.line()
		if line == nil || isRead(line) && len(its.turn.Asks) > 0 {
			break
		}
		if its.skips {
			line, its.skips = tooLong, false
		} else {
			its.from += len(line)
		}
		its.turn.Asks = append(its.turn.Asks, book.Ask{Line: line})
		if isRead(line) {
			break
		}
	}
	return len(its.turn.Asks) > 0
}

// line is the next line that is whole, or nil. What is left of a line that is too long is passed
// over.
func (its *client) line() []byte {
	rest := its.input[its.from:]
	end := bytes.IndexByte(rest, '\n') + 1
	isWhole := end > 0 || its.ends && (len(rest) > 0 || its.skips)
	if end == 0 {
		end = len(rest)
	}
	switch {
	case its.skips:
		its.from += end
		if isWhole {
			return tooLong
		}
	case isWhole:
		return rest[:end]
	case len(rest) == mostInput:
		its.skips = true
		its.from += end
	}
	return nil
}
