package book

import (
	"bytes"
	"crypto/rand"
	"crypto/sha256"
	"encoding/hex"
	"encoding/json"
	"fmt"
	"io"
	"io/fs"
	"os"
	"strconv"
	"time"
)

const (
	// fullBuffer is how many bytes of times are written at once, where no key has to be.
	fullBuffer = 1 << 16
	// lastTime is the greatest time that `faultyard show --times` reads, in seconds.
	lastTime = 999_999
	// eventsEnd is the end of the file's name, behind that of the audit.
	eventsEnd = ".events"
)

// events is the file beside an audit: when each entry came, and the key that its act had.
//
// A key is on the disk before its entry is. So an entry without its key is one whose act had none.
// A key without its entry was never answered, and is taken out when the file is opened.
//
// Each line has a sum over all lines up to it. So a line that was changed or taken out is found,
// and the file refused. Lines at its end that are missing can't be told from the times that a crash
// takes: which entries lack their line is said.
type events struct {
	file  *os.File
	begun time.Time
	id    string         // of the audit
	now   float64        // when the clock was looked at, in seconds
	last  float64        // when the last entry came
	keys  map[string]int // the entry of each key, which stands behind its actor's number
	next  int            // the entry behind the last one that has a line
	sum   sum
	// buffer has what isn't in the file yet.
	buffer []byte
	keyed  bool // a key is in the buffer
}

// openEvents reads the file beside the audit of a book, and cuts what goes beyond its entries. One
// that is begun has the mode of the audit.
func openEvents(files Files, count int, mode fs.FileMode) (*events, error) {
	file, err := openFile(files.Audit+eventsEnd, 0)
	if err != nil {
		return nil, err
	}
	its := &events{file: file, keys: map[string]int{}}
	if err = its.goOn(files, count, mode); err == nil {
		err = onDisk(file)
	}
	if err == nil {
		return its, nil
	}
	_ = file.Close()
	if refusal, is := err.(Refusal); is {
		refusal.Beside = eventsEnd
		return nil, refusal
	}
	return nil, fmt.Errorf("%s: %w", file.Name(), err)
}

// goOn goes on with the file, or begins it.
func (its *events) goOn(files Files, count int, mode fs.FileMode) error {
	text, err := io.ReadAll(its.file)
	if err != nil {
		return err
	}
	whole, err := its.read(text, count)
	if err != nil {
		return err
	}
	if whole == 0 {
		if err := files.mayBeginEvents(count); err != nil {
			return err
		}
	}
	if err := cut(its.file, int64(whole)); err != nil {
		return err
	}
	if whole == 0 {
		if err := its.begin(files.Clock.Now(), mode); err != nil {
			return err
		}
	} else if its.next < count {
		const why = "%s lacks the lines of the entries %d to %d, as a crash leaves it: they had no keys"
		files.Say(fmt.Sprintf(why, its.file.Name(), its.next, count-1))
	}
	if its.next < count {
		its.now = its.last
		its.add(count-1, "") // So that this is said once.
	}
	return its.flush()
}

// mayBeginEvents refuses an audit of this server whose events are gone, and the keys with them. One
// of a guard has none.
func (files Files) mayBeginEvents(count int) error {
	_, err := os.Stat(files.begun())
	if count == 0 || os.IsNotExist(err) {
		return nil
	}
	const why = "it is gone or empty, and with it the keys of %d entries: an act that is sent again" +
		" would be made twice. Without %s too they are taken as the entries of a guard"
	return Refusal{Status: 1, Why: fmt.Sprintf(why, count, files.begun())}
}

// begin puts the line that says when the times began. The bytes of chance in it make it, and so the
// audit, one of a kind.
func (its *events) begin(now time.Time, mode fs.FileMode) error {
	chance := make([]byte, 16)
	if _, err := rand.Read(chance); err != nil {
		return err
	}
	its.begun = now
	line := append(its.buffer, `{"began":`...)
	line = strconv.AppendFloat(line, float64(now.UnixMilli())/1000, 'f', 3, 64)
	line = append(append(append(line, `,"of":"`...), hex.EncodeToString(chance)...), '"')
	its.buffer = its.sum.end(line, 0)
	its.id = idOf(its.buffer)
	return its.file.Chmod(mode)
}

// idOf is the identity of an audit, by the first line of its events.
func idOf(line []byte) string {
	digest := sha256.Sum256(line)
	return hex.EncodeToString(digest[:8])
}

// event is a line of the file.
type event struct {
	Began *float64
	Entry *int
	T     float64
	// S is T where that is later than is read by others.
	S    float64
	By   json.RawMessage
	Once string
}

// read takes in the lines as far as they are whole and their entries are there, and answers how
// many bytes those have.
func (its *events) read(text []byte, count int) (whole int, err error) {
	for number := 1; whole < len(text); number++ {
		rest := text[whole:]
		line := rest[:bytes.IndexByte(rest, '\n')+1]
		if len(line) == 0 {
			return its.readHalf(text, whole, count)
		}
		goesOn, err := its.take(line, whole == 0, count)
		switch {
		case err != nil && isUnwritten(text, whole) && !hasKey(rest[len(line):], count):
			return whole, nil
		case err != nil:
			return 0, Refusal{Status: 1, Why: fmt.Sprintf("line %d: %v", number, err)}
		case !goesOn:
			return whole, nil
		}
		whole += len(line)
	}
	return whole, nil
}

// The ways in which a line is at fault.
var (
	errNoEvents = Fault("it holds no events of this server")
	errChanged  = Fault("it isn't as it was written, so keys of acts may be lost")
)

// take takes in a line, and says whether its entry is there.
func (its *events) take(line []byte, isFirst bool, count int) (goesOn bool, err error) {
	before := its.sum
	var event event
	if !its.sum.take(line) || json.Unmarshal(line, &event) != nil {
		if isFirst && !bytes.HasPrefix(line, []byte(`{"began":`)) {
			return false, errNoEvents
		}
		return false, errChanged
	}
	switch {
	case isFirst && event.Began != nil:
		its.begun, its.id = time.UnixMilli(int64(*event.Began*1000)), idOf(line)
		return true, nil
	case isFirst:
		return false, errNoEvents
	case event.Entry == nil || *event.Entry < its.next:
		return false, errChanged
	case count <= *event.Entry:
		its.sum = before
		return false, nil
	}
	its.next, its.last = *event.Entry+1, event.T
	if event.S > event.T {
		its.last = event.S
	}
	if event.Once != "" {
		its.keys[string(bytes.TrimSpace(event.By))+" "+event.Once] = *event.Entry
	}
	return true, nil
}

// readHalf answers how many bytes are whole where the last line has no line feed. A crash leaves it
// so before its entry is there. One whose entry is there and had a key was cut otherwise.
func (its *events) readHalf(text []byte, whole, count int) (int, error) {
	rest := text[whole:]
	var entry int
	_, err := fmt.Sscanf(string(rest), `{"entry":%d,`, &entry)
	isThere := err == nil && entry < count && bytes.Contains(rest, []byte(`,"by":`))
	front := []byte(`{"entry":`)
	if whole == 0 {
		front = []byte(`{"began":`)
	}
	if len(rest) < len(front) {
		front = front[:len(rest)]
	}
	switch {
	case isUnwritten(text, whole):
		return whole, nil
	case !bytes.HasPrefix(rest, front) && whole == 0:
		return 0, Refusal{Status: 1, Why: "line 1: " + errNoEvents.Error()}
	case isThere || !bytes.HasPrefix(rest, front):
		return 0, Refusal{Status: 1, Why: "its last line is half, and " + errChanged.Error()[3:]}
	}
	return whole, nil
}

// look notes the time, for the entries that are added next. None is before the last one's.
func (its *events) look(now time.Time) {
	its.now = its.last
	if seconds := now.Sub(its.begun).Seconds(); its.now < seconds {
		its.now = seconds
	}
}

// add takes in an entry, and its key if there is one.
func (its *events) add(entry int, once string) {
	its.last = its.now
	from := len(its.buffer)
	line := append(its.buffer, `{"entry":`...)
	line = strconv.AppendInt(line, int64(entry), 10)
	line = append(line, `,"t":`...)
	if its.last <= lastTime {
		line = appendTime(line, its.last)
	} else {
		line = append(appendTime(line, lastTime), `,"s":`...)
		line = appendTime(line, its.last)
	}
	if once != "" {
		its.keys[once] = entry
		its.keyed = true
		space := bytes.IndexByte([]byte(once), ' ')
		line = append(append(append(line, `,"by":`...), once[:space]...), `,"once":"`...)
		line = append(append(line, once[space+1:]...), '"')
	}
	its.buffer = its.sum.end(line, from)
	its.next = entry + 1
}

// appendTime puts seconds with three digits behind a text, in a fraction of AppendFloat's time.
func appendTime(text []byte, seconds float64) []byte {
	milliseconds := int64(seconds*1000 + 0.5)
	rest := milliseconds % 1000
	text = append(strconv.AppendInt(text, milliseconds/1000, 10), '.')
	return append(text, byte('0'+rest/100), byte('0'+rest/10%10), byte('0'+rest%10))
}

// write brings the keys to the disk. Times alone are written once there are many.
func (its *events) write() error {
	if !its.keyed && len(its.buffer) < fullBuffer {
		return nil
	}
	if err := its.flush(); err != nil {
		return err
	}
	if !its.keyed {
		return nil
	}
	its.keyed = false
	return onDisk(its.file)
}

// flush writes what isn't in the file yet.
func (its *events) flush() error {
	_, err := its.file.Write(its.buffer)
	its.buffer = its.buffer[:0]
	return err
}

// times is what `faultyard show --times` reads: the file as far as it is written. Where its times
// are later than is read, they begin so much later.
func (its *events) times() (io.Reader, error) {
	length, err := its.file.Seek(0, io.SeekCurrent)
	if err != nil {
		return nil, err
	}
	section := io.NewSectionReader(its.file, 0, length)
	if its.last <= lastTime {
		return section, nil
	}
	return newLater(section, its.last-lastTime), nil
}
