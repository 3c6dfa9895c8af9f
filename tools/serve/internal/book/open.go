package book

import (
	"bytes"
	"errors"
	"fmt"
	"io"
	"os"
	"path/filepath"
	"strings"
	"syscall"
	"time"
)

const (
	// mostAudit is how many bytes an audit has at most.
	mostAudit = 268_435_456
	// mostLine is how many bytes a line of an audit has at most, with its line feed.
	mostLine = 65_536 + 1
)

// Refusal is why an audit isn't gone on with. Status is that of `faultyard check`.
type Refusal struct {
	Status int
	Why    string
	// Beside is the end of the file's name that is at fault, behind that of the audit.
	Beside string
}

// Error says why.
func (refusal Refusal) Error() string { return refusal.Why }

// HeldError is: another process has the audit open to go on with it.
type HeldError struct{ Path string }

// Error says which audit.
func (held HeldError) Error() string { return held.Path + " is held by another process" }

// Files names what a book reads and writes.
type Files struct {
	// Audit is the path of the audit. Its events stand beside it, and the cluster file that it was
	// begun under.
	Audit string
	// Cluster is the path of the cluster file, for what is said, and Config its text.
	Cluster string
	Config  []byte
	// After opens a guard that goes on where an audit ends, by its whole text. Where the audit isn't
	// one that a guard of this cluster wrote, the error is a Refusal.
	After func(audit []byte) (Guard, error)
	// Say tells what was cut.
	Say func(what string)
	// Clock is the system's where none is given.
	Clock Clock
}

// Clock is the time as a book sees it: what it is, and what has a value once so much of it is gone.
type Clock struct {
	Now   func() time.Time
	After func(time.Duration) <-chan time.Time
}

// since is how long ago a time was.
func (clock Clock) since(then time.Time) time.Duration { return clock.Now().Sub(then) }

// Open goes on with an audit, or begins one. It holds the file until the book is closed.
//
// A last line without its line feed was never answered, and is cut. Whatever else Files.After
// refuses is left as it is, and the error is its Refusal.
func Open(files Files) (*Book, error) {
	audit, err := openFile(files.Audit, syscall.O_DSYNC)
	if err != nil {
		return nil, err
	}
	if files.Clock.Now == nil {
		files.Clock = Clock{time.Now, time.After}
	}
	book := &Book{clock: files.Clock, audit: audit, stopped: make(chan struct{})}
	if err := book.goOn(files); err != nil {
		_ = audit.Close()
		return nil, err
	}
	book.stats.Entries = book.count
	book.health.answered = book.clock.Now()
	_, grown := book.Grown()
	go book.keepTimes(grown)
	go book.watch()
	return book, nil
}

// openFile opens a file that nobody else has, or makes it. With syscall.O_DSYNC each write returns
// once it is on the disk, as after fdatasync.
func openFile(path string, how int) (*os.File, error) {
	file, err := os.OpenFile(path, os.O_RDWR|os.O_CREATE|how, 0o644)
	if err != nil {
		return nil, err
	}
	err = syscall.Flock(int(file.Fd()), syscall.LOCK_EX|syscall.LOCK_NB)
	if err == nil {
		return file, nil
	}
	_ = file.Close()
	if errors.Is(err, syscall.EWOULDBLOCK) {
		return nil, HeldError{path}
	}
	return nil, fmt.Errorf("%s: %w", path, err)
}

// goOn opens the guard, cuts half a last line, and opens the events.
func (book *Book) goOn(files Files) error {
	if err := book.openGuard(files); err != nil {
		return err
	}
	if err := book.cut(files); err != nil {
		return fmt.Errorf("%s: %w", files.Audit, err)
	}
	info, err := book.audit.Stat()
	if err != nil {
		return err
	}
	events, err := openEvents(files, book.count, info.Mode().Perm())
	if err != nil {
		return err
	}
	book.events = events
	// The events come first: an audit with the copy and without them has lost them.
	if err := syncFolder(files.Audit); err != nil {
		return err
	}
	if err := book.keepCluster(files); err != nil {
		return err
	}
	for _, file := range []*os.File{book.audit, book.events.file} {
		place, err := placeOf(file)
		if err != nil {
			return err
		}
		book.places = append(book.places, place)
	}
	if err := syncFolder(files.Audit); err != nil {
		return err
	}
	book.folder = book.openFolder()
	return nil
}

// cut takes off half a last line, writes the header where there is none, and brings all to the
// disk.
func (book *Book) cut(files Files) error {
	info, err := book.audit.Stat()
	if err != nil {
		return err
	}
	if beyond := info.Size() - book.length; beyond > 0 {
		text := "%s: its last line is half; cut to the %d bytes that are whole"
		files.Say(fmt.Sprintf(text, files.Audit, book.length))
	}
	if err := cut(book.audit, book.length); err != nil {
		return err
	}
	if book.length == 0 {
		if _, err := book.audit.WriteString(Header); err != nil {
			_ = book.audit.Truncate(0)
			return err
		}
		book.length = int64(len(Header))
	}
	return onDisk(book.audit)
}

// openGuard opens a guard behind the whole lines of the audit. A file without any is as one with
// the header alone.
func (book *Book) openGuard(files Files) (err error) {
	text, err := book.text()
	if err != nil {
		return err
	}
	if length := bytes.LastIndexByte(text, '\n') + 1; mayBeHalf(text[length:], length) {
		text = text[:length]
	}
	book.length = int64(len(text))
	if len(text) == 0 {
		text = []byte(Header)
	}
	book.ends = endsOf(text)
	book.count = len(book.ends)
	if book.count > 0 {
		if err := files.begunUnderIt(); err != nil {
			return err
		}
	}
	book.guard, err = files.After(text)
	return err
}

// text is all that the audit's file has.
func (book *Book) text() ([]byte, error) {
	info, err := book.audit.Stat()
	if err != nil {
		return nil, err
	}
	if info.Size() > mostAudit+mostLine {
		return nil, Refusal{Status: 1, Why: "audit: TooLong"}
	}
	text := make([]byte, info.Size())
	_, err = io.ReadFull(book.audit, text)
	return text, err
}

// mayBeHalf says whether this can be the front of a line that a crash left behind so many bytes.
func mayBeHalf(rest []byte, before int) bool {
	front := Header
	if before > 0 {
		front = `{"act":{"`
	}
	if len(front) > len(rest) {
		front = front[:len(rest)]
	}
	return len(rest) < mostLine && strings.HasPrefix(string(rest), front)
}

// cut makes a file so long, and has it written to from there on.
func cut(file *os.File, length int64) error {
	if err := file.Truncate(length); err != nil {
		return err
	}
	_, err := file.Seek(length, io.SeekStart)
	return err
}

// onDisk waits until what was written to a file is on its disk.
func onDisk(file *os.File) error {
	for {
		err := syscall.Fdatasync(int(file.Fd()))
		if err != syscall.EINTR {
			return os.NewSyscallError("fdatasync", err)
		}
	}
}

// syncFolder brings the names of new files to the disk.
func syncFolder(path string) error {
	folder, err := os.Open(filepath.Dir(path))
	if err != nil {
		return err
	}
	defer folder.Close()
	return folder.Sync()
}
