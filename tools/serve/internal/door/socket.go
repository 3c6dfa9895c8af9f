// Package door answers those who ask a book: by lines over a Unix socket, and by HTTP.
package door

import (
	"bytes"
	"encoding/json"
	"errors"
	"fmt"
	"io/fs"
	"net"
	"os"
	"sync/atomic"
	"syscall"
	"time"

	"faultyard-serve/internal/book"
	"faultyard-serve/internal/panics"
)

// acceptPause is how long nobody is let in once a descriptor is lacking.
const acceptPause = 10 * time.Millisecond

// Lines answers the lines of `faultyard guard` to each who connects to a socket.
type Lines struct {
	Book *book.Book
	// Most is how many may be connected at once.
	Most  int32
	count atomic.Int32
}

// Count is how many are connected.
func (lines *Lines) Count() int { return int(lines.count.Load()) }

// ListenSocket makes a Unix socket of a mode, as 0600 for one that its owner alone may connect to.
// One that is left from a server that was killed is removed first.
func ListenSocket(path string, mode fs.FileMode) (net.Listener, error) {
	if info, err := os.Lstat(path); err == nil {
		if info.Mode()&os.ModeSocket == 0 {
			return nil, fmt.Errorf("%s is there, and is no socket", path)
		}
		other, err := net.Dial("unix", path)
		if err == nil {
			_ = other.Close()
			return nil, fmt.Errorf("%s: another server listens there", path)
		}
		if !errors.Is(err, syscall.ECONNREFUSED) {
			return nil, err
		}
		if err := os.Remove(path); err != nil {
			return nil, err
		}
	}
	mask := syscall.Umask(int(0o777 &^ mode))
	defer syscall.Umask(mask)
	return net.Listen("unix", path)
}

// Serve answers all who connect, until the listener is closed.
func (lines *Lines) Serve(listener net.Listener) error {
	its, err := newLoop(lines)
	if err != nil {
		return err
	}
	failed := make(chan error, 1)
	go func() {
		failed <- panics.Caught(its.run)
		_ = listener.Close()
	}()
	for {
		connection, err := listener.Accept()
		switch {
		case err == nil:
			lines.admit(connection, its)
		case isShort(err):
			time.Sleep(acceptPause)
		default:
			return ended(err, failed)
		}
	}
}

// admit lets a client in, unless too many are there or it has gone.
func (lines *Lines) admit(connection net.Conn, its *loop) {
	if lines.count.Add(1) <= lines.Most && its.add(connection) == nil {
		return
	}
	lines.count.Add(-1)
	_ = connection.Close()
}

// isShort says whether one who connects has to wait until somebody else goes, as where the process
// has no descriptor left.
func isShort(err error) bool {
	return errors.Is(err, syscall.EMFILE) || errors.Is(err, syscall.ENFILE) ||
		errors.Is(err, syscall.ENOBUFS) || errors.Is(err, syscall.ENOMEM)
}

// ended is why nobody is let in any more: nil where the server ends.
func ended(err error, failed <-chan error) error {
	select {
	case failure := <-failed:
		return failure
	default:
	}
	if errors.Is(err, net.ErrClosed) {
		return nil
	}
	return err
}

// readFrom says whether a line asks for the entries from one on, as {"from":7}. Such a line stands
// alone in its turn.
func readFrom(turn *book.Turn) (from int, asked bool) {
	if len(turn.Asks) != 1 || !isRead(turn.Asks[0].Line) {
		return 0, false
	}
	var line struct{ From *uint32 }
	reader := json.NewDecoder(bytes.NewReader(turn.Asks[0].Line))
	reader.DisallowUnknownFields()
	if reader.Decode(&line) != nil || line.From == nil {
		return 0, false
	}
	return int(*line.From), true
}

// isRead says whether a line enters nothing.
func isRead(line []byte) bool { return bytes.HasPrefix(line, []byte(`{"from":`)) }

// appendRange puts behind a text which entries follow: those from one on, up to the last.
func appendRange(text []byte, from, count int) ([]byte, int) {
	if count < from {
		from = count
	}
	return append(text, fmt.Sprintf("{\"from\":%d,\"to\":%d}\n", from, count)...), from
}

// appendAnswers puts the lines of the answers behind a text; number is that of the first line. An
// error that is no fault of a line ends the talk.
func appendAnswers(text []byte, answers []book.Answer, number int) ([]byte, error) {
	for at, answer := range answers {
		if answer.Err == nil {
			text = append(text, answer.Line...)
			continue
		}
		fault, is := book.FaultOf(answer.Err)
		if !is {
			return text, answer.Err
		}
		text = append(text, fmt.Sprintf("{\"refused\":%q}\n", faultLine(fault, number+at))...)
	}
	return text, nil
}

// faultLine is what `faultyard guard` says of a faulty line.
func faultLine(fault book.Fault, number int) string {
	if fault == book.JournalFull {
		return "script: JournalFull"
	}
	return fmt.Sprintf("script: line %d: %s", number, string(fault))
}
