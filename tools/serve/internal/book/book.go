// Package book keeps the audit of one guard on the disk, for many who ask at once.
//
// An answer goes out only once its entry is on the disk. Those who ask while a sync runs wait for
// the next one together: one sync serves all of them.
package book

import (
	"bytes"
	"errors"
	"fmt"
	"io"
	"os"
	"sync"
	"time"

	"faultyard-serve/internal/panics"
)

// Header is the first line of an audit that a book begins or goes on with.
const Header = "{\"audit\":2}\n"

const (
	// gatherPart is which part of the last sync's time others are waited for.
	gatherPart = 4
	// leastGather is the least time that is worth a wait.
	leastGather = 20 * time.Microsecond
	// mostKept is how many bytes of answers a turn has memory for when it is used again: one that
	// asked much at once holds no more than others.
	mostKept = 1 << 12
)

// Guard makes acts, and keeps the entry of each. Goroutines may share it.
type Guard interface {
	// Act makes the act of a script's line, and puts the line of its entry behind a text. Where the
	// line is refused, nothing is entered, the text is as it was, and the error is a Fault. Any other
	// error ends the book.
	Act(text, line []byte) ([]byte, error)
	// Ask answers the line of what is told to the line of a question, or an error as Act does.
	Ask(line []byte) ([]byte, error)
	// Entry answers the line of the entry at a place, from 0.
	Entry(at int) ([]byte, error)
}

// Fault is why a line makes no entry, as a guard says it of a script's line.
type Fault string

// Error is the fault's word.
func (fault Fault) Error() string { return string(fault) }

// FaultOf is the Fault that an error is, if it is one.
func FaultOf(err error) (fault Fault, is bool) {
	is = errors.As(err, &fault)
	return fault, is
}

// The faults that a guard finds in a line, and those that a book adds.
const (
	TooLong     Fault = "TooLong"
	Syntax      Fault = "Syntax"
	Floor       Fault = "Floor"
	JournalFull Fault = "JournalFull"
	// OnceName is: the key of an act isn't 1 to 64 letters, digits and marks of - _ . and :.
	OnceName Fault = "OnceName"
	// OnceOther is: the actor gave this key to another act before.
	OnceOther Fault = "OnceOther"
)

// ErrEnded is: the book was closed.
var ErrEnded = errors.New("the server ends")

// Ask is an act that somebody asks for.
type Ask struct {
	// Line is the act's line of a script. It may have a member `once`: the key of the act.
	Line []byte
	// Once is the key of the act, where it isn't in the line.
	Once string
}

// Answer is what came of an Ask: the line of its entry, or an error.
type Answer struct {
	Line []byte
	Err  error
	// Repeated is: the entry is that of an earlier act with the same key.
	Repeated bool
}

// Turn is what one client asks at once, and its answers. A client may use it again and again.
type Turn struct {
	Asks    []Ask
	Answers []Answer
	// text has the lines of the answers. It is used again, and each act would else take memory.
	text []byte
	// view is called with why the book makes no more acts, or nil. What it panics with is broken.
	view   func(stop error)
	broken error
}

// NewTurn is a turn without asks.
func NewTurn() *Turn { return new(Turn) }

// begin takes out what was answered before.
func (turn *Turn) begin() {
	turn.Answers, turn.text = turn.Answers[:0], turn.text[:0]
	if cap(turn.text) > mostKept {
		turn.text = nil
	}
}

// keep is a copy of a line, for as long as the turn isn't used again.
func (turn *Turn) keep(line []byte) []byte {
	from := len(turn.text)
	turn.text = append(turn.text, line...)
	return turn.text[from:len(turn.text):len(turn.text)]
}

// Party is the turns of several clients for whom one goroutine asks. It may be used again and
// again.
type Party struct {
	Turns []*Turn
	// Wake is called once for a party that joined others: it was answered, or it is to lead. Whoever
	// leads calls it, so it returns at once.
	Wake func(leads bool)
}

// NewParty is a party of these turns.
func NewParty(turns ...*Turn) *Party { return &Party{Turns: turns} }

// Stats counts what a book did since it was opened.
type Stats struct {
	Entries  int // that are on the disk, those from before too
	Made     uint64
	Refused  uint64
	Repeated uint64
	Syncs    uint64
	Synced   time.Duration // how long all syncs took
}

// Book is an open audit. Goroutines may share it.
type Book struct {
	clock  Clock
	guard  Guard
	audit  *os.File
	events *events
	places []place // of both files
	folder *folder

	lock    sync.Mutex
	waiting []*Party
	led     bool
	stop    error // why nothing is made any more
	stopped chan struct{}
	grown   chan struct{} // closed once there are more entries
	stats   Stats
	length  int64   // of the audit in bytes, as far as it is on the disk
	ends    []int64 // where the line of each entry ends
	health  health
	// lastSync is how long the last sync took.
	lastSync time.Duration
	spare    []*Party

	// Who leads owns these.
	count  int // of the entries that the guard has
	buffer []byte
	made   []int // where the line of each entry ends in the buffer
	turns  []*Turn
}

// Submit makes the acts of a turn in their order, and returns once each entry is on the disk.
func (book *Book) Submit(turn *Turn) { book.SubmitAll(NewParty(turn)) }

// SubmitAll does so for each turn of a party, in their order.
func (book *Book) SubmitAll(party *Party) {
	woken := make(chan bool, 1)
	party.Wake = func(leads bool) { woken <- leads }
	if book.Join(party) || <-woken {
		book.Lead(party)
	}
}

// Join puts a party to those who wait, and says whether it is to lead. Where another leads, the
// party is woken later. Its caller may do something else until then.
func (book *Book) Join(party *Party) (leads bool) {
	book.lock.Lock()
	defer book.lock.Unlock()
	book.waiting = append(book.waiting, party)
	leads = !book.led
	book.led = true
	return leads
}

// Lead makes the acts of all who wait, of whom the party is one that is to lead. It returns once
// each entry is on the disk.
func (book *Book) Lead(party *Party) {
	book.lock.Lock()
	parties, stop := book.waiting, book.stop
	book.waiting = book.spare[:0]
	book.lock.Unlock()

	book.turns = book.turns[:0]
	for _, its := range parties {
		book.turns = append(book.turns, its.Turns...)
	}
	book.serve(book.turns, stop)
	for _, other := range parties {
		if other != party {
			other.Wake(false)
		}
	}
	book.handOn(parties)
}

// Patience is how long it is worth to wait for others before a party is submitted: a part of the
// last sync's time, or nothing.
func (book *Book) Patience() time.Duration {
	book.lock.Lock()
	defer book.lock.Unlock()
	if patience := book.lastSync / gatherPart; patience >= leastGather {
		return patience
	}
	return 0
}

// handOn lets the first of those who wait lead. The list of those who were served is used again.
func (book *Book) handOn(served []*Party) {
	var next *Party
	book.lock.Lock()
	book.spare = served
	book.led = len(book.waiting) > 0
	if book.led {
		next = book.waiting[0]
	}
	book.lock.Unlock()
	if next != nil {
		next.Wake(true)
	}
}

// View calls a function while nobody acts and all that was done is on the disk. Where the disk
// failed, the guard has acts that aren't there: then it isn't called, and the error says why. Nor
// is it where the disk doesn't answer.
func (book *Book) View(look func()) (err error) {
	if book.isHanging() {
		return book.hangs()
	}
	book.alone(func(stop error) {
		if stop != nil && stop != ErrEnded {
			err = stop
			return
		}
		look()
	})
	return err
}

// alone calls a function while nobody acts, with why the book makes no more acts, or nil. It may be
// called by somebody else who leads, so its panic is caught there, and goes on here.
func (book *Book) alone(look func(stop error)) {
	turn := NewTurn()
	turn.view = look
	book.Submit(turn)
	if turn.broken != nil {
		panic(turn.broken)
	}
}

// serve answers the turns, and calls the views behind the sync. Whatever panics meanwhile, it
// returns: who leads has to hand on. A panic that isn't a view's ends the book.
func (book *Book) serve(turns []*Turn, stop error) {
	if stop == nil {
		stop = panics.Caught(func() error { return book.commit(turns) })
		if stop != nil {
			book.fail(stop)
		}
	}
	for _, turn := range turns {
		if stop != nil {
			turn.refuse(stop)
		}
		if view := turn.view; view != nil {
			turn.broken = panics.Caught(func() error {
				view(stop)
				return nil
			})
		}
	}
}

// refuse answers every ask of a turn with one error.
func (turn *Turn) refuse(err error) {
	turn.Answers = turn.Answers[:0]
	for range turn.Asks {
		turn.Answers = append(turn.Answers, Answer{Err: err})
	}
}

// commit makes the acts of the turns, and brings their entries to the disk.
func (book *Book) commit(turns []*Turn) error {
	var stats Stats
	book.buffer, book.made = book.buffer[:0], book.made[:0]
	book.events.look(book.clock.Now())
	for _, turn := range turns {
		turn.begin()
		for _, ask := range turn.Asks {
			answer, err := book.make(ask, &stats)
			if err != nil {
				return err
			}
			if !answer.Repeated { // Its line stands in the buffer.
				answer.Line = turn.keep(answer.Line)
			}
			turn.Answers = append(turn.Answers, answer)
		}
	}
	if len(book.buffer) > 0 {
		begun := book.clock.Now()
		book.asks(begun)
		if err := book.write(); err != nil {
			return err
		}
		// Nobody is answered what stands in a file without a name.
		if err := book.areStillThere(); err != nil {
			return err
		}
		stats.Syncs, stats.Synced = 1, book.clock.since(begun)
	}
	book.publish(stats)
	return nil
}

// make makes one act, unless its actor gave its key to an act before. The line of a new entry is
// answered where it stands in the buffer.
func (book *Book) make(ask Ask, stats *Stats) (Answer, error) {
	if ask.Once == "" && !bytes.HasPrefix(ask.Line, usualAct) {
		if answer, is, err := book.tell(ask.Line, stats); is {
			return answer, err
		}
	}
	asked, fault := readAsk(ask)
	if fault != "" {
		stats.Refused++
		return Answer{Err: fault}, nil
	}
	if asked.once != "" {
		if at, known := book.events.keys[asked.once]; known {
			return book.repeat(asked, at, stats)
		}
	}
	if fault := book.unread(asked.line); fault != "" {
		stats.Refused++
		return Answer{Err: fault}, nil
	}
	before := len(book.buffer)
	buffer, err := book.guard.Act(book.buffer, asked.line)
	if err != nil {
		if fault, is := FaultOf(err); is {
			stats.Refused++
			return Answer{Err: fault}, nil
		}
		return Answer{}, err
	}
	book.events.add(book.count, asked.once)
	book.count++
	book.buffer = buffer
	book.made = append(book.made, len(buffer))
	stats.Made++
	return Answer{Line: buffer[before:]}, nil
}

// usualAct is how the lines of acts begin, but for few. No question begins so.
var usualAct = []byte(`{"by":`)

// tell answers a line that is a question. It enters nothing.
func (book *Book) tell(line []byte, stats *Stats) (answer Answer, is bool, err error) {
	answer.Line, err = book.guard.Ask(line)
	if fault, isFault := FaultOf(err); isFault {
		if fault != Floor {
			return answer, false, nil // It may be an act.
		}
		stats.Refused++
		answer.Err, err = fault, nil
	}
	return answer, true, err
}

// unread is the fault of an act with whose entry the audit might not be read again: the guard
// answers to lines and writes audits that are longer.
func (book *Book) unread(line []byte) Fault {
	if !fits(line) {
		return TooLong
	}
	if book.length+int64(len(book.buffer))+mostLine > mostAudit {
		return JournalFull
	}
	return ""
}

// repeat answers the entry that the act with the same key made.
func (book *Book) repeat(asked asked, at int, stats *Stats) (Answer, error) {
	line, err := book.guard.Entry(at)
	if err != nil {
		return Answer{}, err
	}
	if !asked.made(line) {
		stats.Refused++
		return Answer{Err: OnceOther}, nil
	}
	stats.Repeated++
	return Answer{Line: line, Repeated: true}, nil
}

// write brings the buffer to the disk, behind the keys of its acts. Where the disk takes less, the
// audit is cut to what was answered before: nobody is answered what is taken out.
func (book *Book) write() error {
	err := book.events.write()
	if err == nil {
		// A write that a signal breaks off is made again, so it says where.
		_, err = book.audit.WriteAt(book.buffer, book.length)
	}
	if err == nil {
		return nil
	}
	if cut := book.audit.Truncate(book.length); cut != nil {
		return fmt.Errorf("%w, and then %v", err, cut)
	}
	return err
}

// asks notes since when the disk is written to.
func (book *Book) asks(since time.Time) {
	book.lock.Lock()
	defer book.lock.Unlock()
	book.health.asked = since
}

// publish tells those who look on what a commit did.
func (book *Book) publish(stats Stats) {
	book.lock.Lock()
	defer book.lock.Unlock()
	for _, end := range book.made {
		book.ends = append(book.ends, book.length+int64(end))
	}
	book.length += int64(len(book.buffer))
	its := &book.stats
	its.Entries = book.count
	its.Made += stats.Made
	its.Refused += stats.Refused
	its.Repeated += stats.Repeated
	its.Syncs += stats.Syncs
	if stats.Syncs > 0 {
		book.lastSync = stats.Synced
		book.health.answered, book.health.asked = book.clock.Now(), time.Time{}
	}
	its.Synced += stats.Synced
	if stats.Made > 0 && book.grown != nil {
		close(book.grown)
		book.grown = nil
	}
}

// fail has every later act refused.
func (book *Book) fail(why error) {
	book.lock.Lock()
	defer book.lock.Unlock()
	book.halt(why)
}

// halt has every later act refused. The lock is held.
func (book *Book) halt(why error) {
	if book.stop == nil {
		book.stop = why
		close(book.stopped)
	}
}

// Stopped is closed once the book makes no more acts; Stop says why.
func (book *Book) Stopped() <-chan struct{} { return book.stopped }

// Stop is why the book makes no more acts, or nil.
func (book *Book) Stop() error {
	book.lock.Lock()
	defer book.lock.Unlock()
	return book.stop
}

// Grown is closed once there are more entries than Stats said before it was called.
func (book *Book) Grown() (Stats, <-chan struct{}) {
	book.lock.Lock()
	defer book.lock.Unlock()
	if book.grown == nil {
		book.grown = make(chan struct{})
	}
	return book.stats, book.grown
}

// Stats counts what was done so far.
func (book *Book) Stats() Stats {
	book.lock.Lock()
	defer book.lock.Unlock()
	return book.stats
}

// ID is the identity of the audit: another one at the same place has another.
func (book *Book) ID() string { return book.events.id }

// Audit is the audit as far as it is on the disk, and how many bytes it has.
func (book *Book) Audit() (io.ReadSeeker, int64) {
	book.lock.Lock()
	defer book.lock.Unlock()
	return io.NewSectionReader(book.audit, 0, book.length), book.length
}

// Drawn is the audit and what `faultyard show --times` reads beside it: when each entry came.
func (book *Book) Drawn() (audit, times io.Reader, err error) {
	stop := book.View(func() {
		if err = book.flush(); err != nil {
			return
		}
		audit = io.NewSectionReader(book.audit, 0, book.length)
		times, err = book.events.times()
	})
	if stop != nil {
		err = stop
	}
	return audit, times, err
}

// flush writes the times that aren't in their file yet. Whoever calls it leads.
func (book *Book) flush() error {
	err := panics.Caught(func() error { return book.events.flush() })
	if err != nil {
		book.fail(err)
	}
	return err
}

// keepTimes writes the times of new entries once a second, so that a crash takes few of them. The
// first entries are those after which a channel is closed.
func (book *Book) keepTimes(grown <-chan struct{}) {
	for {
		select {
		case <-book.stopped:
			return
		case <-grown:
		}
		select {
		case <-book.stopped:
			return
		case <-book.clock.After(time.Second):
			_, grown = book.Grown() // Before they are written: else one that comes between is missed.
			book.alone(func(error) { _ = book.flush() })
		}
	}
}

// Close ends the book once those who lead are done. Later asks are answered ErrEnded.
func (book *Book) Close() error {
	var err error
	book.fail(ErrEnded)
	book.alone(func(error) {
		err = book.flush()
		if closed := book.audit.Close(); err == nil {
			err = closed
		}
		_ = book.events.file.Close()
		if book.folder != nil {
			_ = book.folder.file.Close()
			book.folder = nil
		}
	})
	return err
}
