package book

import (
	"bytes"
	"encoding/json"
	"errors"
	"fmt"
	"io"
	"os"
	"path/filepath"
	"regexp"
	"strings"
	"sync"
	"sync/atomic"
	"testing"
	"time"

	"faultyard-serve/internal/scribe"
)

// guard is the guard of a book in a test.
type guard struct{ scribe.Scribe }

// Act says Syntax as a book wants it.
func (its *guard) Act(text, line []byte) ([]byte, error) {
	entry, fault := its.Scribe.Act(line)
	if fault != "" {
		return text, Fault(fault)
	}
	return append(text, entry...), nil
}

// kept is what a test knows of a book.
type kept struct {
	*testing.T
	path, config string
	said         []string
	clock        Clock
}

func begin(test *testing.T) *kept {
	return &kept{T: test, path: filepath.Join(test.TempDir(), "audit"), config: "the cluster\n"}
}

// beginStill begins with a clock that goes on by what it is told alone.
func beginStill(test *testing.T) (its *kept, goesOn func(time.Duration)) {
	its = begin(test)
	var gone atomic.Int64
	its.clock.Now = func() time.Time { return time.UnixMilli(1_700_000_000_000 + gone.Load()) }
	its.clock.After = func(while time.Duration) <-chan time.Time {
		if while > 0 {
			return nil
		}
		return time.After(0)
	}
	return its, func(by time.Duration) { gone.Add(by.Milliseconds()) }
}

var entries = regexp.MustCompile(`^{"act":(.*),"at":\d+,"by":(\d+),"reply":"done"}\n$`)

// Ask says Syntax as a book wants it.
func (its *guard) Ask(line []byte) ([]byte, error) {
	told, fault := its.Scribe.Ask(line)
	if fault != "" {
		return nil, Fault(fault)
	}
	return told, nil
}

// after is a guard that makes the acts of an audit again.
func after(audit []byte) (Guard, error) {
	its := &guard{Scribe: scribe.Scribe{Most: 1000}}
	isAudit := bytes.HasPrefix(audit, []byte(Header))
	text := bytes.TrimPrefix(audit, []byte(Header))
	for _, line := range bytes.SplitAfter(text, []byte("\n")) {
		if isAudit && len(line) > 0 {
			act := entries.ReplaceAll(line, []byte(`{"by":$2,"act":$1}`))
			made, err := its.Act(nil, act)
			isAudit = err == nil && bytes.Equal(made, line)
		}
	}
	if !isAudit {
		return nil, Refusal{Status: 5, Why: fmt.Sprintf("bad entry, in %d bytes", len(audit))}
	}
	return its, nil
}

// open opens the book anew.
func (its *kept) open() (*Book, error) { return its.openAfter(after) }

// openAfter opens the book anew by this guard.
func (its *kept) openAfter(after func(audit []byte) (Guard, error)) (*Book, error) {
	return Open(Files{
		Audit:   its.path,
		Cluster: "two.toml",
		Config:  []byte(its.config),
		After:   after,
		Say:     func(what string) { its.said = append(its.said, what) },
		Clock:   its.clock,
	})
}

func (its *kept) must() *Book {
	its.Helper()
	book, err := its.open()
	if err != nil {
		its.Fatal(err)
	}
	return book
}

func (its *kept) write(name, text string) {
	its.Helper()
	if err := os.WriteFile(name, []byte(text), 0o600); err != nil {
		its.Fatal(err)
	}
}

func (its *kept) read(name string) string {
	its.Helper()
	text, err := os.ReadFile(name)
	if err != nil {
		its.Fatal(err)
	}
	return string(text)
}

// ask asks for one act.
func ask(book *Book, line string) Answer {
	turn := NewTurn()
	turn.Asks = []Ask{{Line: []byte(line)}}
	book.Submit(turn)
	answer := turn.Answers[0]
	answer.Line = append([]byte{}, answer.Line...)
	return answer
}

// up is the line of an act, with a key if there is one.
func up(process int, once string) string {
	if once == "" {
		return fmt.Sprintf(`{"by":0,"act":{"up":{"process":%d}}}`, process)
	}
	return fmt.Sprintf(`{"by":0,"act":{"up":{"process":%d}},"once":%q}`, process, once)
}

func entry(at, process int) string {
	text := `{"act":{"up":{"process":%d}},"at":%d,"by":0,"reply":"done"}` + "\n"
	return fmt.Sprintf(text, process, at)
}

func same(test *testing.T, what string, got, wanted any) {
	test.Helper()
	if fmt.Sprint(got) != fmt.Sprint(wanted) {
		test.Errorf("%s: %v, and not %v", what, got, wanted)
	}
}

func TestABookIsBegunAndGoneOnWith(test *testing.T) {
	its := begin(test)
	book := its.must()
	same(test, "the first answer", string(ask(book, up(3, "")).Line), entry(0, 3))
	if err := book.Close(); err != nil {
		test.Fatal(err)
	}
	same(test, "an answer of a closed book", ask(book, up(3, "")).Err, ErrEnded)
	book = its.must()
	same(test, "the second answer", string(ask(book, up(4, "")).Line), entry(1, 4))
	same(test, "the audit", its.read(its.path), Header+entry(0, 3)+entry(1, 4))
	same(test, "what was said", its.said, []string{})
	_ = book.Close()
}

func TestEveryFrontOfAnAuditIsGoneOnWith(test *testing.T) {
	whole := Header + entry(0, 3) + entry(1, 4)
	for length := 0; length <= len(whole); length++ {
		its := begin(test)
		its.write(its.path, whole[:length])
		book := its.must()
		wanted := whole[:strings.LastIndex(whole[:length], "\n")+1]
		count := strings.Count(wanted, "\n") - 1
		if wanted == "" {
			wanted, count = Header, 0
		}
		same(test, "the entries", book.Stats().Entries, count)
		same(test, "the audit", its.read(its.path), wanted)
		isHalf := length > 0 && whole[length-1] != '\n'
		same(test, fmt.Sprintf("%d: is said to be cut", length), len(its.said) == 1, isHalf)
		same(test, "the next answer", string(ask(book, up(5, "")).Line), entry(count, 5))
		_ = book.Close()
	}
}

func TestNothingIsCutBeforeTheGuardHasTheAudit(test *testing.T) {
	whole := Header + entry(0, 3)
	for _, text := range []string{Header[:5], whole, whole + entry(1, 4)[:20]} {
		its := begin(test)
		its.write(its.path, text)
		book, err := its.openAfter(func(audit []byte) (Guard, error) {
			same(test, "the file that the guard goes on from", its.read(its.path), text)
			return after(audit)
		})
		if err != nil {
			test.Fatal(err)
		}
		_ = book.Close()
	}
}

func TestWhatIsNoAuditOfThisGuardIsLeftAlone(test *testing.T) {
	for _, text := range []string{
		"x", "{\"audit\":1}\n", Header + "x", Header + "\n", Header + entry(1, 3),
		Header + strings.Replace(entry(0, 3), "done", "gone", 1),
		Header + entry(0, 3) + "{\"act\":{}}\n" + entry(1, 4) + "{",
		Header + strings.Repeat("x", 70_000), Header + strings.Repeat("x", 70_000) + "\n",
	} {
		its := begin(test)
		its.write(its.path, text)
		_, err := its.open()
		var refusal Refusal
		if !errors.As(err, &refusal) {
			test.Errorf("%.40q: %v", text, err)
		}
		same(test, "the file", its.read(its.path), text)
		for _, end := range []string{".events", ".cluster", ".cluster.new"} {
			if _, err := os.Stat(its.path + end); !os.IsNotExist(err) {
				test.Errorf("%.40q: there is %s", text, end)
			}
		}
	}
}

func TestAnAuditIsGoneOnWithUnderItsClusterFileAlone(test *testing.T) {
	its := begin(test)
	_ = its.must().Close()
	begun := its.path + ".cluster"
	same(test, "the copy", its.read(begun), "the cluster\n")
	its.config = "another\n" // Nobody was answered under the first.
	book := its.must()
	same(test, "the copy without entries", its.read(begun), "another\n")
	ask(book, up(3, ""))
	_ = book.Close()
	const why = "two.toml isn't the cluster file that it was begun under, which is "
	for _, config := range []string{"the cluster\n", "another", "another\n\n", ""} {
		its.config = config
		_, err := its.open()
		same(test, fmt.Sprintf("%q", config), err, Refusal{Status: 1, Why: why + begun})
		same(test, "the copy of one that is refused", its.read(begun), "another\n")
	}
	its.config = "another\n"
	book = its.must()
	same(test, "the next answer", string(ask(book, up(4, "")).Line), entry(1, 4))
	_ = book.Close()
	// An audit that a guard wrote has no copy.
	_ = os.Remove(begun)
	its.config = "a third\n"
	_ = its.must().Close()
	same(test, "the copy of a guard's audit", its.read(begun), "a third\n")
	its.write(begun, "a th") // No crash leaves this.
	_, err := its.open()
	same(test, "half a copy", err, Refusal{Status: 1, Why: why + begun})
}

func TestACopyOfTheClusterFileIsWholeAfterACrash(test *testing.T) {
	its := begin(test)
	its.config = strings.Repeat("the cluster\n", 1000)
	for length := 0; length <= len(its.config); length += 500 {
		its.write(its.path, Header+entry(0, 3))
		_ = os.Remove(its.path + ".cluster")
		its.write(its.path+".cluster.new", its.config[:length]) // As a crash leaves it.
		_ = its.must().Close()
		same(test, "the copy", its.read(its.path+".cluster") == its.config, true)
		_, err := os.Stat(its.path + ".cluster.new")
		same(test, "what the crash left is gone", os.IsNotExist(err), true)
	}
}

func TestWhatStandsBesideAnAuditHasItsMode(test *testing.T) {
	for _, mode := range []os.FileMode{0o600, 0o640, 0o666} {
		its := begin(test)
		its.write(its.path, "")
		if err := os.Chmod(its.path, mode); err != nil {
			test.Fatal(err)
		}
		_ = its.must().Close()
		for _, end := range []string{".cluster", ".events"} {
			info, err := os.Stat(its.path + end)
			if err != nil {
				test.Fatal(err)
			}
			same(test, "the mode of "+end, info.Mode().Perm(), mode)
		}
	}
}

func TestOneAtATimeHoldsTheFile(test *testing.T) {
	its := begin(test)
	book := its.must()
	_, err := its.open()
	same(test, "the second", err, its.path+" is held by another process")
	_ = book.Close()
	_ = its.must().Close()
}

func TestAKeyIsAnsweredOnce(test *testing.T) {
	its := begin(test)
	book := its.must()
	first := ask(book, up(1, "a"))
	same(test, "the first", string(first.Line), entry(0, 1))
	again := ask(book, `{"once": "a", "act": {"up": {"process": 1}}, "by": 0}`)
	same(test, "the same again", string(again.Line), entry(0, 1))
	same(test, "it is repeated", []bool{first.Repeated, again.Repeated}, []bool{false, true})
	same(test, "another act", ask(book, up(2, "a")).Err, OnceOther)
	other := ask(book, `{"by":1,"act":{"up":{"process":1}},"once":"a"}`)
	wanted := strings.Replace(entry(1, 1), `"by":0`, `"by":1`, 1)
	same(test, "another actor", string(other.Line), wanted)
	for _, key := range []string{`""`, `"a b"`, `7`, `null`, `"` + strings.Repeat("x", 65) + `"`} {
		line := `{"by":0,"act":{"up":{"process":1}},"once":` + key + `}`
		same(test, key, ask(book, line).Err, OnceName)
	}
	same(test, "the audit", strings.Count(its.read(its.path), "\n"), 3)
	_ = book.Close()
	book = its.must()
	same(test, "after a start", string(ask(book, up(1, "a")).Line), entry(0, 1))
	same(test, "and it is counted", book.Stats().Repeated, 1)
	_ = book.Close()
}

func TestTheActorStandsBeforeTheAct(test *testing.T) {
	for _, row := range []struct{ body, wanted string }{
		{`{"act":{"up":{"process":0}},"by":1}`, `{"by":1,"act":{"up":{"process":0}}}`},
		{`{ "by": 1, "act": { "tick": "<&>" } }`, `{"by":1,"act":{"tick":"<&>"}}`},
		{`{"z":[],"b":1,"act":2,"by":3}`, `{"by":3,"act":2,"b":1,"z":[]}`},
		{`{"act":{}}`, `{"act":{}}`},
		{`{}`, `{}`},
	} {
		var members map[string]json.RawMessage
		if err := json.Unmarshal([]byte(row.body), &members); err != nil {
			test.Fatal(err)
		}
		line, err := ByFirst(members)
		same(test, row.body, []any{string(line), err}, []any{row.wanted, error(nil)})
	}
}

func TestAKeyWithoutItsEntryIsTakenOut(test *testing.T) {
	its := begin(test)
	book := its.must()
	ask(book, up(1, "a"))
	ask(book, up(2, "b"))
	_ = book.Close()
	events := its.read(its.path + ".events")
	its.write(its.path, Header+entry(0, 1)) // As a crash between the two syncs leaves it.
	book = its.must()
	same(test, "the kept key", string(ask(book, up(1, "a")).Line), entry(0, 1))
	same(test, "another act", string(ask(book, up(7, "")).Line), entry(1, 7))
	same(test, "the lost key", string(ask(book, up(2, "b")).Line), entry(2, 2))
	_ = book.Close()
	// Of each front of the events every key is known, or it is said which entries have no line, or the
	// front is refused and left alone.
	for length := 0; length < len(events); length++ {
		front := events[:length]
		its.write(its.path, Header+entry(0, 1)+entry(1, 2))
		its.write(its.path+".events", front)
		its.said = nil
		lines := strings.Count(front, "\n")
		half := front[strings.LastIndex(front, "\n")+1:]
		book, err := its.open()
		isRefused := length == 0 || lines == 0 || strings.Contains(half, `"by":`)
		same(test, fmt.Sprintf("%d: is refused", length), err != nil, isRefused)
		if err != nil {
			same(test, fmt.Sprintf("%d: is left alone", length), its.read(its.path+".events"), front)
			continue
		}
		same(test, fmt.Sprintf("%d: keys", length), len(book.events.keys), lines-1)
		const said = "%s.events lacks the lines of the entries %d to 1, " +
			"as a crash leaves it: they had no keys"
		same(test, "what is said", its.said, []string{fmt.Sprintf(said, its.path, lines-1)})
		_ = book.Close()
		its.said = nil
		_ = its.must().Close()
		same(test, "and is said once", its.said, []string(nil))
	}
	its.write(its.path+".events", "something else\n")
	_, err := its.open()
	var refusal Refusal
	same(test, "a file of something else is refused", errors.As(err, &refusal), true)
	same(test, "and left alone", its.read(its.path+".events"), "something else\n")
}

func TestWhoeverAsksBesideOthersIsAnsweredInOrder(test *testing.T) {
	its := begin(test)
	book := its.must()
	const clients, acts = 32, 30
	var all sync.WaitGroup
	for client := 0; client < clients; client++ {
		all.Add(1)
		go func(client int) {
			defer all.Done()
			turn, last := NewTurn(), -1
			for number := 0; number < acts; number++ {
				turn.Asks = []Ask{{Line: []byte(up(client, ""))}}
				book.Submit(turn)
				var at, process int
				text := `{"act":{"up":{"process":%d}},"at":%d,`
				_, err := fmt.Sscanf(string(turn.Answers[0].Line), text, &process, &at)
				if err != nil || process != client || at <= last {
					test.Errorf("client %d, behind %d: %q", client, last, turn.Answers[0].Line)
					return
				}
				last = at
			}
		}(client)
	}
	all.Wait()
	same(test, "the entries", book.Stats().Entries, clients*acts)
	_ = book.Close()
	book = its.must()
	same(test, "the entries after a start", book.Stats().Entries, clients*acts)
	_ = book.Close()
}

func TestThoseWhoWaitShareASync(test *testing.T) {
	its, _ := beginStill(test)
	book := its.must()
	crowd := &crowd{T: test, book: book}
	var asks []func()
	for client := 0; client < 32; client++ {
		asks = append(asks, func() { ask(book, up(1, "")) })
	}
	crowd.together(asks...)
	stats := book.Stats()
	same(test, "the entries and syncs", fmt.Sprint(stats.Entries, stats.Syncs), "32 1")
	_ = book.Close()
}

func TestATurnIsAnsweredInItsOrder(test *testing.T) {
	its := begin(test)
	book := its.must()
	turn := NewTurn()
	for _, line := range []string{up(1, ""), "x", up(2, "k"), up(2, "k"), up(3, "")} {
		turn.Asks = append(turn.Asks, Ask{Line: []byte(line)})
	}
	book.Submit(turn)
	var told bytes.Buffer
	for _, answer := range turn.Answers {
		fmt.Fprintf(&told, "%s%v;", answer.Line, answer.Err)
	}
	wanted := entry(0, 1) + "<nil>;Syntax;" + entry(1, 2) + "<nil>;" + entry(1, 2) + "<nil>;"
	wanted += entry(2, 3) + "<nil>;"
	same(test, "the answers", told.String(), wanted)
	_ = book.Close()
}

func TestAnAnswerStaysWhileOthersAct(test *testing.T) {
	its := begin(test)
	book := its.must()
	first, second := NewTurn(), NewTurn()
	first.Asks = []Ask{{Line: []byte(up(1, ""))}, {Line: []byte("x")}, {Line: []byte(up(2, ""))}}
	second.Asks = []Ask{{Line: []byte(up(3, ""))}, {Line: []byte(up(4, ""))}}
	book.Submit(first)
	book.Submit(first) // From now on it has the memory that it needs.
	book.Submit(second)
	_ = append(first.Answers[0].Line, "more"...)
	same(test, "the first", string(first.Answers[0].Line), entry(2, 1))
	same(test, "the last", string(first.Answers[2].Line), entry(3, 2))
	same(test, "another's", string(second.Answers[0].Line), entry(4, 3))
	_ = book.Close()
}

func TestATurnThatAskedMuchHoldsNoMoreThanOthers(test *testing.T) {
	its := begin(test)
	book := its.must()
	turn := NewTurn()
	for number := 0; number < 500; number++ {
		turn.Asks = append(turn.Asks, Ask{Line: []byte(up(1, ""))})
	}
	book.Submit(turn)
	same(test, "the last of many", string(turn.Answers[499].Line), entry(499, 1))
	turn.Asks = turn.Asks[:1]
	book.Submit(turn)
	same(test, "the next", string(turn.Answers[0].Line), entry(500, 1))
	same(test, "it holds little", cap(turn.text) <= mostKept, true)
	_ = book.Close()
}

func TestALineThatOnlyLooksLikeOneWithAKeyIsTheGuards(test *testing.T) {
	its := begin(test)
	book := its.must()
	for _, member := range []string{`"since":"k"`, `"\u006fnce":"k"`} {
		line := strings.Replace(up(1, ""), `{"by":0`, `{"by":0,`+member, 1)
		same(test, member, ask(book, line).Err, Syntax)
	}
	same(test, "the keys", len(book.events.keys), 0)
	_ = book.Close()
}

func TestAFullJournalIsAFault(test *testing.T) {
	its := begin(test)
	book := its.must()
	turn := NewTurn()
	for number := 0; number < 1001; number++ {
		turn.Asks = append(turn.Asks, Ask{Line: []byte(up(1, ""))})
	}
	book.Submit(turn)
	same(test, "the last but one", turn.Answers[999].Err, nil)
	same(test, "the last", turn.Answers[1000].Err, JournalFull)
	same(test, "and the book goes on", book.Stop(), nil)
	_ = book.Close()
}

func TestADiskThatTakesNoMoreEndsTheBook(test *testing.T) {
	its := begin(test)
	book := its.must()
	ask(book, up(1, ""))
	_ = book.audit.Close()
	audit, err := os.Open(its.path) // It can't be written to.
	if err != nil {
		test.Fatal(err)
	}
	book.audit = audit
	answer := ask(book, up(2, ""))
	if answer.Err == nil || answer.Line != nil && len(answer.Line) > 0 {
		test.Errorf("it was answered %q", answer.Line)
	}
	<-book.Stopped()
	same(test, "a later act has the same error", ask(book, up(3, "")).Err, book.Stop())
	same(test, "the audit", its.read(its.path), Header+entry(0, 1))
}

// written is a book of three entries with keys, closed, and the text of its events.
func written(test *testing.T) (*kept, string) {
	its := begin(test)
	book := its.must()
	for process, key := range []string{"a", "b", "c"} {
		ask(book, up(process, key))
	}
	_ = book.Close()
	return its, its.read(its.path + ".events")
}

// knowsAll says whether an audit with other events is refused, and they are left alone, or each key
// is known.
func (its *kept) knowsAll(events string) bool {
	its.Helper()
	its.write(its.path+".events", events)
	book, err := its.open()
	if err != nil {
		var refusal Refusal
		isRefused := errors.As(err, &refusal) && refusal.Beside == ".events"
		return isRefused && its.read(its.path+".events") == events
	}
	defer book.Close()
	for process, key := range []string{"a", "b", "c"} {
		if !ask(book, up(process, key)).Repeated {
			return false
		}
	}
	return true
}

func TestNoKeyIsForgottenSilently(test *testing.T) {
	its, events := written(test)
	same(test, "as it was", its.knowsAll(events), true)
	for at := range events {
		for _, other := range []byte{0, '\n', events[at] ^ 1} {
			changed := []byte(events)
			changed[at] = other
			if !its.knowsAll(string(changed)) {
				test.Fatalf("byte %d of %q is %q", at, events, other)
			}
		}
		if !its.knowsAll(events[:at] + events[at+1:]) {
			test.Fatalf("byte %d of %q is taken out", at, events)
		}
	}
	lines := strings.SplitAfter(events, "\n")
	for at := range lines[:3] {
		less := strings.Join(lines[:at], "") + strings.Join(lines[at+1:], "")
		same(test, fmt.Sprintf("without line %d", at), its.knowsAll(less), true)
	}
	swapped := lines[0] + lines[2] + lines[1] + lines[3]
	same(test, "two lines are swapped", its.knowsAll(swapped), true)
	same(test, "emptied", its.knowsAll(""), true)
	_ = os.Remove(its.path + ".events")
	_, err := its.open()
	same(test, "removed", strings.Contains(fmt.Sprint(err), "the keys of 3 entries"), true)
	_, err = os.Stat(its.path + ".cluster")
	same(test, "the copy stays", err, nil)
	_ = os.Remove(its.path + ".cluster")
	_ = os.Remove(its.path + ".events")
	_ = its.must().Close()
}

func TestWhatThePowerTookOfTheEventsIsCut(test *testing.T) {
	its := begin(test)
	its.write(its.path, Header+entry(0, 1)+entry(1, 2))
	start := `{"began":1.5` + strings.Repeat(" ", sector-14) + "}\n"
	same(test, "a sector", len(start), sector)
	for _, rest := range []string{
		strings.Repeat("\x00", 40), strings.Repeat("\x00", sector) + "12}\n{\"entry\":1,\"t\":2}\n",
	} {
		its.write(its.path+".events", start+rest)
		book, err := its.open()
		same(test, "an unwritten sector", err, nil)
		if err == nil {
			_ = book.Close()
		}
		key := "\n" + `{"entry":1,"t":1,"by":0,"once":"c"}` + "\n"
		its.write(its.path+".events", start+rest+key)
		_, err = its.open()
		same(test, "before a key that was synced", err != nil, true)
	}
}

func TestEventsWithoutSumsAreGoneOnWith(test *testing.T) {
	its := begin(test)
	its.write(its.path, Header+entry(0, 1)+entry(1, 2))
	its.write(its.path+".events", `{"began":1.5}
{"entry":0,"t":0.5,"by":0,"once":"a"}
{"entry":1,"t":0.75}
`)
	its.write(its.path+".cluster", its.config)
	book := its.must()
	same(test, "an old key", ask(book, up(1, "a")).Repeated, true)
	ask(book, up(3, "b"))
	_ = book.Close()
	same(test, "nothing is said", its.said, []string(nil))
	events := its.read(its.path + ".events")
	book = its.must()
	same(test, "both keys", ask(book, up(1, "a")).Repeated && ask(book, up(3, "b")).Repeated, true)
	_ = book.Close()
	its.write(its.path+".events", strings.Replace(events, `"once":"a"`, `"once":"z"`, 1))
	_, err := its.open()
	const why = "line 4: it isn't as it was written, so keys of acts may be lost"
	same(test, "a change of an old line", err, Refusal{Status: 1, Why: why, Beside: ".events"})
}

func TestAnAuditHasAnIdentityThatStays(test *testing.T) {
	first, second := begin(test), begin(test)
	book, other := first.must(), second.must()
	id := book.ID()
	same(test, "another audit has another", id != other.ID() && len(id) == 16, true)
	ask(book, up(1, ""))
	_ = book.Close()
	_ = other.Close()
	book = first.must()
	same(test, "it stays", book.ID(), id)
	_ = book.Close()
}

func TestTimesGoOnBehindTheLastThatIsDrawn(test *testing.T) {
	its, goesOn := beginStill(test)
	book := its.must()
	ask(book, up(1, ""))
	goesOn(3_000_000 * time.Second)
	ask(book, up(2, ""))
	goesOn(time.Hour) // The last entry's time is drawn, and not when it was looked at.
	_, times, err := book.Drawn()
	if err != nil {
		test.Fatal(err)
	}
	text, _ := io.ReadAll(times)
	wanted := "{\"entry\":0,\"t\":0.000}\n{\"entry\":1,\"t\":999999.000}\n"
	same(test, "what is drawn", string(text), wanted)
	_ = book.Close()
	events := its.read(its.path + ".events")
	const line = `{"entry":1,"t":999999.000,"s":3000000.000,"sum"`
	same(test, "the file has it", strings.Contains(events, line), true)
	book = its.must()
	same(test, "it is read again", int(book.events.last), 3_000_000)
	_ = book.Close()
}

func TestEntriesAreReadInParts(test *testing.T) {
	its := begin(test)
	book := its.must()
	for process := 1; process < 4; process++ {
		ask(book, up(process, ""))
	}
	_ = book.Close()
	book = its.must()
	ask(book, up(4, ""))
	one := len(entry(0, 1))
	for _, row := range []struct{ from, to, most, next int }{
		{0, 4, 0, 1}, {0, 4, one, 1}, {0, 4, 2 * one, 2}, {0, 4, 2*one + 1, 2}, {1, 4, 9 * one, 4},
		{1, 3, 9 * one, 3}, {3, 9, one, 4}, {4, 9, one, 4}, {9, 9, one, 9}, {2, 2, one, 2},
	} {
		wanted := ""
		for at := row.from; at < row.next; at++ {
			wanted += entry(at, at+1)
		}
		lines, next, err := book.Entries(row.from, row.to, row.most)
		told := fmt.Sprint(string(lines), next, err)
		same(test, fmt.Sprint(row), told, fmt.Sprint(wanted, row.next, nil))
	}
	_ = book.Close()
}

// ways are the ways in which a file goes.
var ways = []func(path string) error{
	os.Remove,
	func(path string) error { return os.Rename(path, path+".old") },
	func(path string) error {
		_ = os.Rename(path, path+".old")
		return os.WriteFile(path, []byte(Header), 0o600)
	},
}

func TestAFileThatIsGoneEndsTheBook(test *testing.T) {
	for _, end := range []string{"", ".events"} {
		for _, goes := range ways {
			its := begin(test)
			book := its.must()
			ask(book, up(1, ""))
			its.endsAsGone(book, end, func() error { return goes(its.path + end) })
			its = begin(test)
			book = its.must()
			its.isStill(book)
			its.endsAsGone(book, end, func() error { return goes(its.path + end) })
			its = begin(test)
			its.clock = Clock{time.Now, func(time.Duration) <-chan time.Time { return time.After(1) }}
			book = its.must()
			_ = goes(its.path + end)
			<-book.Stopped() // Also where nobody asks.
			same(test, "why it stops", book.Stop(), its.path+end+gone)
			_ = book.Close()
		}
	}
	its := begin(test)
	book := its.must()
	its.isStill(book)
	folder := filepath.Dir(its.path)
	its.endsAsGone(book, "", func() error { return os.Rename(folder, folder+".old") })
}

const gone = " was removed or replaced while the server ran"

// endsAsGone has a file go, whose name has this end. Nobody is answered then.
func (its *kept) endsAsGone(book *Book, end string, goes func() error) {
	its.Helper()
	if err := goes(); err != nil {
		its.Fatal(err)
	}
	same(its.T, "the answer", ask(book, up(2, "")).Err, its.path+end+gone)
	same(its.T, "why it stops", book.Stop(), its.path+end+gone)
	_ = book.Close()
}

// isStill asks until the folder wasn't changed for a while, so that its times say enough.
func (its *kept) isStill(book *Book) {
	its.Helper()
	for isStill := false; !isStill; time.Sleep(time.Millisecond) {
		ask(book, up(1, ""))
		book.alone(func(error) {
			isStill = book.folder == nil || book.folder.changed[0].Sec > 0
		})
	}
	same(its.T, "the folder has times", book.folder != nil, true)
}

func TestHealthIsTheAgeOfTheLastSync(test *testing.T) {
	its, goesOn := beginStill(test)
	book := its.must()
	same(test, "at first", book.Health(0), nil)
	goesOn(time.Hour)
	same(test, "the disk is asked", book.Health(time.Hour), nil)
	same(test, "and answered", book.SyncAge(), time.Duration(0))
	goesOn(90 * time.Second)
	book.lock.Lock()
	book.health.probe = make(chan struct{}) // as of one that hangs
	book.lock.Unlock()
	const why = "the disk has answered no sync for 90 seconds"
	same(test, "it hangs", book.Health(0), why)
	same(test, "a view waits where nobody acts", book.View(func() {}), nil)
	book.asks(book.clock.Now().Add(-MostWait - 1))
	same(test, "nobody looks", book.View(func() { test.Error("a look") }), why)
	book.asks(book.clock.Now().Add(-MostWait))
	same(test, "one may look", book.View(func() {}), nil)
	ask(book, up(1, ""))
	same(test, "an act shows that it answers", book.Health(0), nil)
	goesOn(freshFor)
	same(test, "but not for ever", book.Health(0) != nil, true)
	_ = book.Close()
	same(test, "behind the end", book.Health(0), ErrEnded)
}

func TestAnActIsKnownAgainWhateverTheOrderOfItsKinds(test *testing.T) {
	line := []byte(`{"act":{"protect":{"process":1,"kinds":["Clog","Reboot","Clog"]}},"by":2}`)
	const made = `{"act":{"protect":{"kinds":["Reboot","Clog"],"process":1}},"at":0,"by":2}`
	same(test, "the same", asked{line: line}.made([]byte(made)), true)
	other := strings.Replace(made, `"Reboot",`, "", 1)
	same(test, "another", asked{line: line}.made([]byte(other)), false)
}

func TestTimesHaveThreeDigits(test *testing.T) {
	for _, seconds := range []float64{0, 0.0004, 0.0006, 0.25, 0.9996, 59.5, 86_400.01, lastTime} {
		wanted := fmt.Sprintf("x%.3f", seconds)
		same(test, wanted, string(appendTime([]byte("x"), seconds)), wanted)
	}
}

// panicky is a guard that panics at an act of its process 13.
type panicky struct{ *guard }

func (its panicky) Act(text, line []byte) ([]byte, error) {
	if bytes.Contains(line, []byte(`{"process":13}`)) {
		panic("thirteen")
	}
	return its.guard.Act(text, line)
}

// mustPanicky opens a book of such a guard.
func (its *kept) mustPanicky() *Book {
	its.Helper()
	book := its.must()
	book.guard = panicky{book.guard.(*guard)}
	return book
}

// crowd is several who ask a book at once, each by a goroutine that catches panics, as a handler of
// net/http does.
type crowd struct {
	*testing.T
	book   *Book
	breaks func() // is called before those who wait are let go, if it is there
	all    sync.WaitGroup
	caught []any
}

// come has somebody ask, who gets a place in the line of those who wait.
func (its *crowd) come(ask func()) {
	its.all.Add(1)
	number := len(its.caught)
	its.caught = append(its.caught, nil)
	go func() {
		defer its.all.Done()
		defer func() { its.caught[number] = recover() }()
		ask()
	}()
	its.waits(number + 1)
}

// waits returns once so many wait.
func (its *crowd) waits(count int) {
	for its.waiting() < count {
		time.Sleep(time.Millisecond)
	}
}

func (its *crowd) waiting() int {
	its.book.lock.Lock()
	defer its.book.lock.Unlock()
	return len(its.book.waiting)
}

// together has everybody wait behind one who looks, who is let go then; and returns once all are
// answered. The clock of the book has to stand still: else it may come into the line too.
func (its *crowd) together(asks ...func()) {
	looks, let := make(chan bool), make(chan bool)
	go its.book.View(func() {
		looks <- true
		<-let
		if its.breaks != nil {
			its.breaks()
		}
	})
	<-looks
	for _, ask := range asks {
		its.come(ask)
	}
	let <- true
	its.all.Wait()
}

func TestAPanicOfAViewIsItsCallersAlone(test *testing.T) {
	its, _ := beginStill(test)
	book := its.must()
	// The one who looks leads, or somebody else does who asks, or who looks.
	for leader := 0; leader < 3; leader++ {
		crowd := &crowd{T: test, book: book}
		var first, last Answer
		looked := false
		asks := []func(){
			func() { book.View(func() { panic("of a view") }) },
			func() { first = ask(book, up(1, "")) },
			func() { book.View(func() { looked = true }) },
		}
		asks = append(asks[leader:], asks[:leader]...)
		asks = append(asks, func() { last = ask(book, up(2, "")) })
		before := book.Stats().Entries
		crowd.together(asks...)
		for number, caught := range crowd.caught {
			isIts := number == (3-leader)%3
			same(test, "it panics", caught != nil, isIts)
			if caught != nil {
				same(test, "what it panics with", caught, "panic: of a view")
			}
		}
		same(test, "the first answer", string(first.Line), entry(before, 1))
		same(test, "the last answer", string(last.Line), entry(before+1, 2))
		same(test, "another looks", looked, true)
	}
	same(test, "the book goes on", book.Stop(), nil)
	same(test, "its end", book.Close(), nil)
}

func TestAPanicOfTheGuardEndsTheBook(test *testing.T) {
	its, _ := beginStill(test)
	book := its.mustPanicky()
	ask(book, up(1, ""))
	crowd := &crowd{T: test, book: book}
	answers := make([]Answer, 3)
	looked := false
	crowd.together(
		func() { answers[0] = ask(book, up(2, "k")) },
		func() { answers[1] = ask(book, up(13, "")) },
		func() { book.View(func() { looked = true }) },
		func() { answers[2] = ask(book, up(3, "")) },
	)
	for number, answer := range answers {
		same(test, fmt.Sprint("answer ", number), answer.Err, "panic: thirteen")
		same(test, "its line", len(answer.Line), 0)
	}
	same(test, "nobody panics", crowd.caught, []any{nil, nil, nil, nil})
	same(test, "nobody looks at what isn't on the disk", looked, false)
	<-book.Stopped()
	same(test, "why it stops", book.Stop(), "panic: thirteen")
	same(test, "the audit", its.read(its.path), Header+entry(0, 1))
	same(test, "a later act", ask(book, up(4, "")).Err, "panic: thirteen")
	_ = book.Close()
	book = its.must()
	same(test, "the key isn't known", string(ask(book, up(2, "k")).Line), entry(1, 2))
	_ = book.Close()
}

func TestAPanicOfTheBookEndsIt(test *testing.T) {
	its, _ := beginStill(test)
	book := its.must()
	ask(book, up(1, ""))
	kept := book.events
	crowd := &crowd{T: test, book: book, breaks: func() { book.events = nil }}
	answers := make([]Answer, 2)
	crowd.together(
		func() { answers[0] = ask(book, up(2, "")) },
		func() { answers[1] = ask(book, up(3, "")) },
	)
	for _, answer := range answers {
		is := answer.Err != nil && strings.HasPrefix(answer.Err.Error(), "panic: runtime error")
		same(test, "a panic is the answer", is, true)
	}
	same(test, "the audit", its.read(its.path), Header+entry(0, 1))
	book.alone(func(error) { book.events = kept })
	_ = book.Close()
	same(test, "why it stops", book.Stop(), answers[0].Err)
}

func TestAPanicOfTheTimesEndsTheBook(test *testing.T) {
	its, _ := beginStill(test)
	book := its.must()
	kept := book.events
	book.alone(func(error) {
		book.events = nil
		_ = book.flush()
	})
	<-book.Stopped()
	is := strings.HasPrefix(book.Stop().Error(), "panic: runtime error")
	same(test, "a panic is why", is, true)
	book.alone(func(error) { book.events = kept })
	_ = book.Close()
}

func TestNobodyLooksAtWhatIsntOnTheDisk(test *testing.T) {
	its := begin(test)
	book := its.must()
	audit, err := os.Open(its.path) // It can't be written to.
	if err != nil {
		test.Fatal(err)
	}
	_ = book.audit.Close()
	book.audit = audit
	ask(book, up(2, ""))
	looked := false
	err = book.View(func() { looked = true })
	same(test, "the view", fmt.Sprint(looked, err), fmt.Sprint(false, book.Stop()))
	_, _, err = book.Drawn()
	same(test, "what is drawn", err, book.Stop())
	_ = book.Close()
	book = its.must()
	_ = book.Close()
	same(test, "the view of a closed book", book.View(func() { looked = true }), nil)
	same(test, "is looked at", looked, true)
}

func TestAnEntryIsNoLongerThanIsRead(test *testing.T) {
	its := begin(test)
	book := its.must()
	const shell = `{"by":0,"act":{"begin":{"payload":"","team":0}}}`
	begins := func(length int) string {
		payload := strings.Repeat("0", length-len(shell))
		return strings.Replace(shell, `""`, `"`+payload+`"`, 1)
	}
	longest := mostLine - mostReply
	blanks := strings.Repeat(" ", mostLine-1-longest)
	for _, row := range []struct {
		line   string
		wanted error
	}{
		{begins(mostLine - 1), TooLong},
		{begins(longest + 1), TooLong},
		{begins(longest+1) + blanks[1:], TooLong},
		{begins(longest), nil},
		{strings.Repeat("x", mostLine-1), Syntax},
		{strings.Repeat("x", mostLine), TooLong},
	} {
		name := fmt.Sprintf("%.40s, of %d bytes", row.line, len(row.line))
		same(test, name, ask(book, row.line).Err, row.wanted)
	}
	for _, line := range strings.SplitAfter(its.read(its.path), "\n") {
		same(test, "its length", len(line) <= mostLine, true)
	}
	_ = book.Close()
	for _, line := range []string{begins(longest) + blanks, blanks + begins(longest)} {
		same(test, "blanks are in no entry", fits([]byte(line)), true)
	}
}

func TestAnAuditGrowsNoLongerThanIsRead(test *testing.T) {
	its := begin(test)
	book := its.must()
	// The file gets a hole, so it takes no room.
	book.length = mostAudit - mostLine - int64(len(entry(0, 1)))
	turn := NewTurn()
	for process := 1; process < 4; process++ {
		turn.Asks = append(turn.Asks, Ask{Line: []byte(up(process, ""))})
	}
	book.Submit(turn)
	same(test, "the first", turn.Answers[0].Err, nil)
	same(test, "the second", turn.Answers[1].Err, nil)
	same(test, "the third", turn.Answers[2].Err, JournalFull)
	same(test, "later ones", ask(book, up(1, "")).Err, JournalFull)
	book.alone(func(error) { book.length = mostAudit - mostLine + 1 })
	same(test, "a byte too few", ask(book, up(1, "")).Err, JournalFull)
	same(test, "the entries", book.Stats().Entries, 2)
	same(test, "and the book goes on", book.Stop(), nil)
	info, _ := os.Stat(its.path)
	same(test, "it can be read again", info.Size() <= mostAudit, true)
	_ = book.Close()
}
