// Package faultyard_tests says what each call of the Go binding does and answers, by the words of
// docs/FORMATS.md.
package faultyard_tests

import (
	"bytes"
	"errors"
	"fmt"
	"os"
	"reflect"
	"runtime"
	"strings"
	"sync"
	"testing"
	"time"

	"faultyard"
)

// six is examples/c6.toml.
func six(t *testing.T) []byte {
	t.Helper()
	config, err := os.ReadFile("../../../examples/c6.toml")
	if err != nil {
		t.Fatal(err)
	}
	return config
}

// sixWith is examples/c6.toml with another line in place of one.
func sixWith(t *testing.T, old, new string) []byte {
	t.Helper()
	config := six(t)
	if bytes.Count(config, []byte(old)) != 1 {
		t.Fatalf("c6.toml has not one %q", old)
	}
	return bytes.Replace(config, []byte(old), []byte(new), 1)
}

// opened is a guard that is closed when the test ends.
func opened(t *testing.T, config []byte) *faultyard.Guard {
	t.Helper()
	guard, err := faultyard.Open(config)
	if err != nil {
		t.Fatal(err)
	}
	t.Cleanup(func() { _ = guard.Close() })
	return guard
}

func equal(t *testing.T, found, wanted any) {
	t.Helper()
	if !reflect.DeepEqual(found, wanted) {
		t.Errorf("found %v, wanted %v", found, wanted)
	}
}

// fails says that an error is the one that is wanted.
func fails(t *testing.T, err, wanted error) {
	t.Helper()
	if !errors.Is(err, wanted) {
		t.Errorf("found the error %v, wanted %v", err, wanted)
	}
}

// kill orders a kill that is made or barred.
func kill(
	t *testing.T, guard *faultyard.Guard, actor uint32, order faultyard.Order,
) faultyard.Verdict {
	t.Helper()
	verdict, err := guard.Kill(actor, order)
	if err != nil {
		t.Fatal(err)
	}
	return verdict
}

// act makes an act of an actor, and answers the line of its entry.
func act(t *testing.T, guard *faultyard.Guard, actor int, act string) string {
	t.Helper()
	entry, err := guard.Act([]byte(fmt.Sprintf(`{"by":%d,"act":%s}`, actor, act)))
	if err != nil {
		t.Fatal(err)
	}
	return string(entry)
}

func journalLen(t *testing.T, guard *faultyard.Guard) int {
	t.Helper()
	count, err := guard.JournalLen()
	if err != nil {
		t.Fatal(err)
	}
	return count
}

func audit(t *testing.T, guard *faultyard.Guard) string {
	t.Helper()
	text, err := guard.Audit()
	if err != nil {
		t.Fatal(err)
	}
	return string(text)
}

const killedZone = `{"act":{"kill":{"floor":"Reboot","key":"zoneid","kind":"KillInstantly",` +
	`"tear":0,"value":"z0"}},"at":0,"by":1,` +
	`"reply":{"verdict":{"rule":null,"struck":"KillInstantly"}}}` + "\n"

func TestZoneZ0MayGoAndThenZ1IsRebooted(t *testing.T) {
	guard := opened(t, six(t))
	equal(t, audit(t, guard), faultyard.Header)
	order := faultyard.Order{
		Key: faultyard.Zone, Value: "z0", Kind: faultyard.KillInstantly, Floor: faultyard.Reboot,
	}
	equal(t, kill(t, guard, 1, order), faultyard.Verdict{Struck: faultyard.KillInstantly})
	order.Value = "z1"
	equal(t, kill(t, guard, 1, order),
		faultyard.Verdict{Struck: faultyard.Reboot, Rule: faultyard.TooManyDestroyed, Named: 0})
	for process := uint32(0); process < 7; process++ {
		destroyed, err := guard.IsDestroyed(process)
		equal(t, err, nil)
		equal(t, destroyed, process < 2)
	}
	left, err := guard.Left()
	equal(t, err, nil)
	equal(t, left, []uint32{2, 3, 4, 5})
	first, err := guard.Entry(0)
	equal(t, err, nil)
	equal(t, string(first), killedZone)
	second, err := guard.Entry(1)
	equal(t, err, nil)
	equal(t, audit(t, guard), faultyard.Header+killedZone+string(second))
	equal(t, journalLen(t, guard), 2)
	equal(t, act(t, guard, 0, `{"tick":{"ticks":5}}`),
		`{"act":{"tick":{"ticks":5}},"at":2,"by":0,"reply":{"time":5}}`+"\n")
	equal(t, act(t, guard, 0, `{"up":{"process":5}}`),
		`{"act":{"up":{"process":5}},"at":3,"by":0,"reply":{"no":["IsUp"]}}`+"\n")
}

func TestEachRuleAndWhatItNames(t *testing.T) {
	guard := opened(t, six(t))
	order := func(key faultyard.Key, value string, kind, floor faultyard.Kind) faultyard.Order {
		return faultyard.Order{Key: key, Value: value, Kind: kind, Floor: floor, Tear: 1<<64 - 1}
	}
	told := func(actor uint32, its faultyard.Order, wanted faultyard.Verdict) {
		t.Helper()
		equal(t, kill(t, guard, actor, its), wanted)
	}
	told(1, order(faultyard.Process, "nobody", faultyard.Reboot, faultyard.Reboot),
		faultyard.Verdict{Rule: faultyard.NoTarget})
	told(3, order(faultyard.Machine, "m4", faultyard.Reboot, faultyard.Reboot),
		faultyard.Verdict{Rule: faultyard.NoGrant, Named: 4})
	act(t, guard, 4, `{"protect":{"process":5,"kinds":["Reboot","KillInstantly"]}}`)
	// The floor that is left out is RebootProcess.
	told(1, order(faultyard.Process, "p5", faultyard.KillInstantly, faultyard.None),
		faultyard.Verdict{Struck: faultyard.RebootAndDelete, Rule: faultyard.Protected, Named: 5})
	entry, err := guard.Entry(3)
	equal(t, err, nil)
	wanted := `{"act":{"kill":{"floor":"RebootProcess","key":"processid","kind":"KillInstantly",` +
		`"tear":18446744073709551615,"value":"p5"}},"at":3,"by":1,"reply":`
	equal(t, strings.HasPrefix(string(entry), wanted), true)
	told(1, order(faultyard.Zone, "z0", faultyard.RebootAndDelete, faultyard.RebootAndDelete),
		faultyard.Verdict{Rule: faultyard.TooManyDestroyed, Named: 0})
	told(1, order(faultyard.DataCenter, "d0", faultyard.RebootProcess, faultyard.RebootProcess),
		faultyard.Verdict{Struck: faultyard.RebootProcess})
	told(1, order(faultyard.DataHall, "d0", faultyard.Reboot, faultyard.Reboot),
		faultyard.Verdict{Rule: faultyard.NoTarget})
	guard = opened(t, sixWith(t, "Across(2,", "Across(3,"))
	told(1, order(faultyard.Zone, "z0", faultyard.KillInstantly, faultyard.KillInstantly),
		faultyard.Verdict{Rule: faultyard.TooFewLeft, Named: 0})
}

func TestARefusedActIsAnErrorAndStandsInTheJournal(t *testing.T) {
	guard := opened(t, six(t))
	refuses := func(err error, wanted faultyard.Refusal) {
		t.Helper()
		fails(t, err, wanted)
		fails(t, err, faultyard.ErrRefused)
		var refusal faultyard.Refusal
		equal(t, errors.As(err, &refusal), true)
		equal(t, refusal, wanted)
		equal(t, errors.Is(err, faultyard.ErrClosed), false)
		equal(t, err.Error(), "faultyard: the act is refused: "+wanted.String())
	}
	refuses(guard.Up(0, 0), faultyard.RefusalIsUp)
	refuses(guard.Up(0, 6), faultyard.RefusalNoProcess)
	refuses(guard.Up(9, 0), faultyard.RefusalStranger)
	refuses(guard.Up(1, 0), faultyard.RefusalWrongRole)
	refuses(guard.Heal(0, 0), faultyard.RefusalNotDestroyed)
	empty := faultyard.Order{Key: faultyard.Process, Value: "p0", Kind: faultyard.RebootAndDelete}
	verdict, err := guard.Kill(9, empty)
	refuses(err, faultyard.RefusalStranger)
	equal(t, verdict, faultyard.Verdict{})
	equal(t, journalLen(t, guard), 6)
	// A record in a team of p0 and p2 is acknowledged. Then p0 is emptied, and lacks it.
	for _, its := range []string{
		`{"form":{"members":[0,2],"policy":0}}`, `{"begin":{"payload":"6869","team":0}}`,
		`{"deliver":{"message":0}}`, `{"deliver":{"message":1}}`, `{"sync":{"process":0}}`,
		`{"sync":{"process":2}}`, `{"deliver":{"message":2}}`, `{"deliver":{"message":3}}`,
	} {
		act(t, guard, 0, its)
	}
	equal(t, kill(t, guard, 1, empty), faultyard.Verdict{Struck: faultyard.RebootAndDelete})
	refuses(guard.Heal(0, 0), faultyard.RefusalNotUp)
	equal(t, guard.Up(0, 0), nil)
	refuses(guard.Heal(0, 0), faultyard.RefusalStillNeeds)
	needs := func(process, wanted uint32) {
		t.Helper()
		record, err := guard.Needed(process)
		equal(t, err, nil)
		equal(t, record, wanted)
	}
	needs(0, 0)
	for _, process := range []uint32{1, 2, 6} {
		needs(process, faultyard.NoSuchRecord)
	}
	for _, its := range []string{
		`{"copy":{"from":2,"record":0,"to":0}}`, `{"deliver":{"message":4}}`, `{"sync":{"process":0}}`,
	} {
		act(t, guard, 0, its)
	}
	needs(0, faultyard.NoSuchRecord)
	equal(t, guard.Heal(0, 0), nil)
	kill(t, guard, 1, faultyard.Order{
		Key: faultyard.Process, Value: "p4", Kind: faultyard.KillInstantly,
	})
	refuses(guard.Up(0, 4), faultyard.RefusalGone)
}

// set is the processes that a question answers.
func set(t *testing.T, ask func() ([]uint32, error)) []uint32 {
	t.Helper()
	found, err := ask()
	if err != nil {
		t.Fatal(err)
	}
	return found
}

// targets is whom a kill is about.
func targets(t *testing.T, guard *faultyard.Guard, key faultyard.Key, value string) []uint32 {
	t.Helper()
	return set(t, func() ([]uint32, error) { return guard.Targets(key, value) })
}

func TestWhomAKillIsAboutAndWhoIsDestroyedAndGone(t *testing.T) {
	guard := opened(t, six(t))
	equal(t, targets(t, guard, faultyard.Process, "p3"), []uint32{3})
	equal(t, targets(t, guard, faultyard.Machine, "m5"), []uint32{5})
	equal(t, targets(t, guard, faultyard.Zone, "z0"), []uint32{0, 1})
	equal(t, targets(t, guard, faultyard.DataCenter, "d0"), []uint32{0, 1, 2, 3, 4, 5})
	equal(t, targets(t, guard, faultyard.DataHall, "d0"), []uint32(nil))
	for _, value := range []string{"", "-z", "z0\x00"} {
		_, err := guard.Targets(faultyard.Zone, value)
		fails(t, err, faultyard.ErrName)
	}
	_, err := guard.Targets(6, "")
	fails(t, err, faultyard.ErrArgument)
	equal(t, set(t, guard.Destroyed), []uint32(nil))
	equal(t, set(t, guard.Gone), []uint32(nil))
	kill(t, guard, 1, faultyard.Order{
		Key: faultyard.Process, Value: "p1", Kind: faultyard.KillInstantly,
	})
	kill(t, guard, 1, faultyard.Order{
		Key: faultyard.Process, Value: "p0", Kind: faultyard.RebootAndDelete,
	})
	equal(t, targets(t, guard, faultyard.Zone, "z0"), []uint32{0})
	equal(t, set(t, guard.Destroyed), []uint32{0, 1})
	equal(t, set(t, guard.Gone), []uint32{1})
	equal(t, guard.Up(0, 0), nil)
	equal(t, guard.Heal(0, 0), nil)
	equal(t, set(t, guard.Destroyed), []uint32{1})
}

// state is the state of a process that is there.
func state(t *testing.T, guard *faultyard.Guard, process uint32) faultyard.State {
	t.Helper()
	state, is, err := guard.State(process)
	equal(t, err, nil)
	equal(t, is, true)
	return state
}

func TestWhoIsUpAndTheStateOfEachProcess(t *testing.T) {
	guard := opened(t, six(t))
	up := faultyard.State{Up: true}
	for process := uint32(0); process < 6; process++ {
		equal(t, state(t, guard, process), up)
	}
	equal(t, set(t, guard.UpSet), []uint32{0, 1, 2, 3, 4, 5})
	_, is, err := guard.State(6)
	equal(t, err, nil)
	equal(t, is, false)
	kill(t, guard, 1, faultyard.Order{
		Key: faultyard.Process, Value: "p1", Kind: faultyard.KillInstantly,
	})
	kill(t, guard, 1, faultyard.Order{
		Key: faultyard.Process, Value: "p0", Kind: faultyard.RebootAndDelete,
	})
	act(t, guard, 1, `{"clog":{"key":"processid","value":"p2","ticks":3}}`)
	equal(t, set(t, guard.UpSet), []uint32{2, 3, 4, 5})
	equal(t, state(t, guard, 0), faultyard.State{Destroyed: true})
	equal(t, state(t, guard, 1), faultyard.State{Destroyed: true, Gone: true})
	equal(t, state(t, guard, 2), faultyard.State{Up: true, Clogged: true})
	equal(t, state(t, guard, 3), up)
}

func TestByNumberAsByName(t *testing.T) {
	named, numbered := opened(t, six(t)), opened(t, six(t))
	kinds := []faultyard.Kind{
		faultyard.KillInstantly, faultyard.RebootAndDelete, faultyard.Reboot,
	}
	for process := uint32(0); process < 6; process++ {
		for _, kind := range kinds {
			verdict := kill(t, named, 1, faultyard.Order{
				Key: faultyard.Process, Value: fmt.Sprintf("p%d", process), Kind: kind, Tear: 5,
			})
			order := faultyard.ProcessOrder{Process: process, Kind: kind, Tear: 5}
			judged, err := numbered.JudgeProcess(1, order)
			equal(t, err, nil)
			equal(t, judged, verdict)
			killed, err := numbered.KillProcess(1, order)
			equal(t, err, nil)
			equal(t, killed, verdict)
		}
	}
	equal(t, audit(t, numbered), audit(t, named))
	count := journalLen(t, numbered)
	order := faultyard.ProcessOrder{Process: 5, Kind: faultyard.Reboot}
	_, err := numbered.JudgeProcess(9, order)
	fails(t, err, faultyard.RefusalStranger)
	order.Floor = faultyard.KillInstantly
	_, err = numbered.JudgeProcess(1, order)
	fails(t, err, faultyard.ErrFloor)
	_, err = numbered.KillProcess(1, order)
	fails(t, err, faultyard.ErrFloor)
	order.Process = 6
	_, err = numbered.JudgeProcess(1, order)
	fails(t, err, faultyard.ErrArgument)
	_, err = numbered.KillProcess(1, order)
	fails(t, err, faultyard.ErrArgument)
	equal(t, journalLen(t, numbered), count)
}

func TestEachProcessHasTheKindOfItsOwnJudgement(t *testing.T) {
	guard := opened(t, six(t))
	killable := func(actor uint32, wanted ...faultyard.Kind) {
		t.Helper()
		kinds, err := guard.Killable(actor)
		equal(t, err, nil)
		equal(t, fmt.Sprint(kinds), fmt.Sprint(wanted))
	}
	const hard, mild, none = faultyard.KillInstantly, faultyard.Reboot, faultyard.None
	equal(t, guard.Protect(4, 5, faultyard.KindsKillInstantly|faultyard.KindsReboot), nil)
	killable(1, hard, hard, hard, hard, hard, faultyard.RebootAndDelete)
	killable(3, none, none, none, none, none, none)
	_, err := guard.KillProcess(1, faultyard.ProcessOrder{Process: 0, Kind: hard})
	equal(t, err, nil)
	killable(1, none, hard, mild, mild, mild, faultyard.RebootProcess)
	kinds, err := guard.Killable(2)
	equal(t, err, nil)
	for process, kind := range kinds {
		judged, err := guard.JudgeProcess(2, faultyard.ProcessOrder{
			Process: uint32(process), Kind: hard,
		})
		equal(t, err, nil)
		equal(t, judged.Struck, kind)
	}
	_, err = guard.Killable(9)
	fails(t, err, faultyard.RefusalStranger)
	equal(t, journalLen(t, guard), 2)
}

func TestHowMuchMayBeLost(t *testing.T) {
	guard := opened(t, six(t))
	bears := func(emptied, gone uint32) {
		t.Helper()
		borne, err := guard.Bears()
		equal(t, err, nil)
		equal(t, borne, faultyard.Borne{
			Emptied: emptied, Gone: gone, EmptiedExact: true, GoneExact: true,
		})
	}
	bears(1, 1)
	kill(t, guard, 1, faultyard.Order{
		Key: faultyard.Zone, Value: "z1", Kind: faultyard.KillInstantly,
	})
	bears(0, 0)
	equal(t, journalLen(t, guard), 1)
}

func TestEachOrderIsJudgedAsTheKillIsThenAnswered(t *testing.T) {
	guard := opened(t, six(t))
	kinds := []faultyard.Kind{
		faultyard.KillInstantly, faultyard.RebootAndDelete, faultyard.Reboot,
	}
	count := 0
	for _, zone := range []string{"z0", "z1", "z2", "z9"} {
		for _, kind := range kinds {
			for _, floor := range []faultyard.Kind{faultyard.Reboot, faultyard.None} {
				order := faultyard.Order{
					Key: faultyard.Zone, Value: zone, Kind: kind, Floor: floor,
				}
				judged, err := guard.Judge(1, order)
				equal(t, err, nil)
				equal(t, journalLen(t, guard), count)
				equal(t, kill(t, guard, 1, order), judged)
				count++
			}
		}
	}
	order := faultyard.Order{Key: faultyard.Process, Value: "p0", Kind: faultyard.Reboot}
	_, err := guard.Judge(9, order)
	fails(t, err, faultyard.RefusalStranger)
	order.Floor = faultyard.KillInstantly
	_, err = guard.Judge(1, order)
	fails(t, err, faultyard.ErrFloor)
	order.Value = ""
	_, err = guard.Judge(1, order)
	fails(t, err, faultyard.ErrName)
	order.Key = 0
	_, err = guard.Judge(1, order)
	fails(t, err, faultyard.ErrArgument)
	equal(t, journalLen(t, guard), count)
}

func TestAGuardThatIsResetDoesTheSameAgain(t *testing.T) {
	guard := opened(t, six(t))
	var audits []string
	for len(audits) < 2 {
		act(t, guard, 0, `{"tick":{"ticks":5}}`)
		kill(t, guard, 1, faultyard.Order{
			Key: faultyard.Zone, Value: "z0", Kind: faultyard.KillInstantly,
		})
		audits = append(audits, audit(t, guard))
		equal(t, guard.Reset(), nil)
		equal(t, journalLen(t, guard), 0)
		equal(t, set(t, guard.Left), []uint32{0, 1, 2, 3, 4, 5})
	}
	equal(t, audits[0], audits[1])
}

func TestACopyHasTheJournalAndGoesItsOwnWay(t *testing.T) {
	guard := opened(t, six(t))
	act(t, guard, 0, `{"tick":{"ticks":5}}`)
	kill(t, guard, 1, faultyard.Order{
		Key: faultyard.Zone, Value: "z0", Kind: faultyard.KillInstantly,
	})
	before := audit(t, guard)
	other, err := guard.TryCopy()
	equal(t, err, nil)
	equal(t, audit(t, other), before)
	equal(t, set(t, other.Left), []uint32{2, 3, 4, 5})
	kill(t, other, 1, faultyard.Order{
		Key: faultyard.Process, Value: "p4", Kind: faultyard.Reboot,
	})
	equal(t, set(t, other.UpSet), []uint32{2, 3, 5})
	equal(t, set(t, guard.UpSet), []uint32{2, 3, 4, 5})
	equal(t, audit(t, guard), before)
	ahead := audit(t, other)
	equal(t, guard.Close(), nil)
	equal(t, audit(t, other), ahead)
	equal(t, other.Close(), nil)
	assertClosed(t, other)
}

// TestOpenAfter goes on where an audit ends, and meets what is refused.
func TestOpenAfter(t *testing.T) {
	guard := opened(t, six(t))
	order := faultyard.Order{Key: faultyard.Zone, Value: "z0", Kind: faultyard.KillInstantly}
	kill(t, guard, 1, order)
	before := audit(t, guard)
	other, err := faultyard.OpenAfter(six(t), []byte(before))
	equal(t, err, nil)
	equal(t, audit(t, other), before)
	order.Value, order.Floor = "z1", faultyard.Reboot
	kill(t, guard, 1, order)
	kill(t, other, 1, order)
	equal(t, audit(t, other), audit(t, guard))
	equal(t, other.Close(), nil)
	tick := `{"act":{"tick":{"ticks":1}},"at":1,"by":0,"reply":{"time":2}}` + "\n"
	_, err = faultyard.OpenAfter(six(t), []byte(before+tick))
	equal(t, err, error(faultyard.Refuted{Entry: 1}))
	fails(t, err, faultyard.ErrRefuted)
	for text, wanted := range map[string]error{
		before[:len(before)-1]: faultyard.ErrLineSyntax,
		"{\"audit\":1}\n":      faultyard.ErrNoHeader,
		"":                     faultyard.ErrNoHeader,
	} {
		_, err = faultyard.OpenAfter(six(t), []byte(text))
		fails(t, err, wanted)
	}
	_, err = faultyard.OpenAfter(nil, []byte(before))
	fails(t, err, faultyard.ErrConfigField)
}

func TestProcessesByTheirNames(t *testing.T) {
	guard := opened(t, six(t))
	count, err := guard.ProcessCount()
	equal(t, err, nil)
	equal(t, count, 6)
	for number := uint32(0); number < 6; number++ {
		process, err := guard.Process(fmt.Sprintf("p%d", number))
		equal(t, err, nil)
		equal(t, process, number)
	}
	for _, name := range []string{"p6", "z0", "p", "", "p0\x00"} {
		process, err := guard.Process(name)
		equal(t, err, nil)
		equal(t, process, faultyard.Nobody)
	}
}

// next says what there is to do next.
func next(t *testing.T, guard *faultyard.Guard, wanted faultyard.Sight) {
	t.Helper()
	sight, err := guard.Sight()
	equal(t, err, nil)
	equal(t, sight, wanted)
}

// keeps says whether a record is acknowledged, and who keeps it.
func keeps(t *testing.T, guard *faultyard.Guard, record uint32, acked bool, wanted uint32) {
	t.Helper()
	found, err := guard.IsAcked(record)
	equal(t, err, nil)
	equal(t, found, acked)
	keeper, err := guard.Keeper(record)
	equal(t, err, nil)
	equal(t, keeper, wanted)
}

func TestWhatThereIsToDoUntilARecordIsAcknowledged(t *testing.T) {
	guard := opened(t, six(t))
	wanted := faultyard.Sight{
		Deliverable: faultyard.Nothing, Unsynced: faultyard.Nobody, Sleeping: faultyard.Nobody,
	}
	next(t, guard, wanted)
	act(t, guard, 0, `{"form":{"members":[0,2],"policy":0}}`)
	act(t, guard, 0, `{"begin":{"payload":"6869","team":0}}`)
	wanted.Deliverable = 0
	next(t, guard, wanted)
	act(t, guard, 0, `{"deliver":{"message":0}}`)
	act(t, guard, 0, `{"deliver":{"message":1}}`)
	wanted.Deliverable, wanted.Unsynced = faultyard.Nothing, 0
	next(t, guard, wanted)
	act(t, guard, 0, `{"sync":{"process":0}}`)
	wanted.Deliverable, wanted.Unsynced = 2, 2
	next(t, guard, wanted)
	act(t, guard, 0, `{"sync":{"process":2}}`)
	act(t, guard, 0, `{"deliver":{"message":2}}`)
	keeps(t, guard, 0, false, faultyard.Nobody)
	act(t, guard, 0, `{"deliver":{"message":3}}`)
	keeps(t, guard, 0, true, 0)
	keeps(t, guard, 1, false, faultyard.Nobody)
	act(t, guard, 0, `{"tick":{"ticks":5}}`)
	kill(t, guard, 1, faultyard.Order{
		Key: faultyard.Process, Value: "p0", Kind: faultyard.RebootAndDelete,
	})
	keeps(t, guard, 0, true, 2)
	next(t, guard, faultyard.Sight{
		Now: 5, Deliverable: faultyard.Nothing, Unsynced: faultyard.Nobody, Sleeping: 0,
	})
	record, err := guard.Record(0)
	keeper := uint32(2)
	equal(t, err, nil)
	equal(t, record, &faultyard.Record{Acked: true, Keeper: &keeper, Synced: []uint32{2}})
	record, err = guard.Record(1)
	equal(t, err, nil)
	equal(t, record, (*faultyard.Record)(nil))
}

func TestWhatTheClusterFileSaysAndWhatBarsActs(t *testing.T) {
	guard := opened(t, six(t))
	cluster, err := guard.Cluster()
	equal(t, err, nil)
	equal(t, cluster.Entries, 0)
	equal(t, cluster.JournalLimit, 1000)
	equal(t, cluster.Policies, []string{"Across(2,zoneid,One())"})
	equal(t, len(cluster.Processes), 6)
	place := faultyard.Place{Process: "p3", Machine: "m3", Zone: "z1", DataCenter: "d0"}
	equal(t, cluster.Processes[3], place)
	equal(t, cluster.Actors[2].Role, "fault")
	equal(t, cluster.Actors[2].Grants[0].Kinds, []string{"Reboot", "KillInstantly"})
	equal(t, string(cluster.Actors[2].Grants[0].Scope), `"all"`)
	act(t, guard, 4, `{"protect":{"kinds":["Clog"],"process":1}}`)
	act(t, guard, 1, `{"clog":{"key":"processid","ticks":9,"value":"p2"}}`)
	states, err := guard.States()
	until := uint64(9)
	equal(t, err, nil)
	equal(t, len(states), 6)
	equal(t, states[0], faultyard.ProcessState{Up: true, Protected: []string{}})
	equal(t, states[1], faultyard.ProcessState{Up: true, Protected: []string{"Clog"}})
	wanted := faultyard.ProcessState{Up: true, Clogged: &until, Protected: []string{}}
	equal(t, states[2], wanted)
	length, err := guard.JournalLen()
	equal(t, err, nil)
	equal(t, length, 2)
}

func TestALineThatIsNoQuestionIsToldNothing(t *testing.T) {
	guard := opened(t, six(t))
	for line, wanted := range map[string]error{
		"":                                    faultyard.ErrLineSyntax,
		`{"by":0,"act":{"tick":{"ticks":1}}}`: faultyard.ErrLineSyntax,
		strings.Repeat(" ", 65_537):           faultyard.ErrLineTooLong,
	} {
		told, err := guard.Ask([]byte(line))
		fails(t, err, wanted)
		equal(t, told, []byte(nil))
	}
}

func TestAnErrorEntersNothing(t *testing.T) {
	guard := opened(t, sixWith(t, "journal_limit = 1000\n", "journal_limit = 1\n"))
	good := faultyard.Order{Key: faultyard.Process, Value: "p0", Kind: faultyard.Reboot}
	for _, bad := range []struct {
		status faultyard.Status
		change func(*faultyard.Order)
	}{
		{faultyard.ErrArgument, func(its *faultyard.Order) { its.Key = 0 }},
		{faultyard.ErrArgument, func(its *faultyard.Order) { its.Key = 6 }},
		{faultyard.ErrArgument, func(its *faultyard.Order) { its.Kind = faultyard.None }},
		{faultyard.ErrArgument, func(its *faultyard.Order) { its.Kind = 5 }},
		{faultyard.ErrArgument, func(its *faultyard.Order) { its.Floor = 5 }},
		{faultyard.ErrName, func(its *faultyard.Order) { its.Value = "" }},
		{faultyard.ErrName, func(its *faultyard.Order) { its.Value = "p0\x00" }},
		{faultyard.ErrName, func(its *faultyard.Order) { its.Value = strings.Repeat("p", 33) }},
		{faultyard.ErrFloor, func(its *faultyard.Order) { its.Floor = faultyard.KillInstantly }},
	} {
		order := good
		bad.change(&order)
		_, err := guard.Kill(1, order)
		fails(t, err, bad.status)
	}
	above := `{"by":1,"act":{"kill":{"floor":"Reboot","key":"zoneid","kind":"RebootProcess",` +
		`"tear":0,"value":"z0"}}}`
	for _, bad := range []struct {
		status faultyard.Status
		line   []byte
	}{
		{faultyard.ErrLineSyntax, nil},
		{faultyard.ErrLineSyntax, []byte("{}")},
		{faultyard.ErrLineSyntax, bytes.Repeat([]byte(" "), 65_536)},
		{faultyard.ErrLineTooLong, bytes.Repeat([]byte(" "), 65_537)},
		{faultyard.ErrFloor, []byte(above)},
	} {
		line, err := guard.Act(bad.line)
		fails(t, err, bad.status)
		equal(t, line == nil, true)
		text, err := guard.AppendAct([]byte("front"), bad.line)
		fails(t, err, bad.status)
		equal(t, string(text), "front")
	}
	for _, at := range []int{0, -1, 1 << 40} {
		_, err := guard.Entry(at)
		fails(t, err, faultyard.ErrNoEntry)
	}
	equal(t, journalLen(t, guard), 0)
	kill(t, guard, 1, good)
	before := audit(t, guard)
	_, err := guard.Kill(1, good)
	fails(t, err, faultyard.ErrJournalFull)
	fails(t, guard.Up(0, 0), faultyard.ErrJournalFull)
	fails(t, guard.Heal(0, 0), faultyard.ErrJournalFull)
	_, err = guard.Act([]byte(`{"by":0,"act":{"tick":{"ticks":5}}}`))
	fails(t, err, faultyard.ErrJournalFull)
	equal(t, audit(t, guard), before)
}

func TestAnActBehindAText(t *testing.T) {
	guard, other := opened(t, six(t)), opened(t, six(t))
	line := []byte(`{"by":0,"act":{"tick":{"ticks":5}}}`)
	entries := act(t, other, 0, `{"tick":{"ticks":5}}`) + act(t, other, 0, `{"tick":{"ticks":5}}`)
	roomy := append(make([]byte, 0, 4096), "front "...)
	text := append([]byte(nil), roomy...)
	for range [2]int{} {
		var err error
		if roomy, err = guard.AppendAct(roomy, line); err != nil {
			t.Fatal(err)
		}
	}
	equal(t, string(roomy), "front "+entries)
	guard = opened(t, six(t))
	for range [2]int{} {
		var err error
		if text, err = guard.AppendAct(text[:len(text):len(text)], line); err != nil {
			t.Fatal(err)
		}
	}
	equal(t, string(text), "front "+entries)
	equal(t, testing.AllocsPerRun(100, func() { _, _ = guard.AppendAct(roomy, line) }), 0.0)
}

func TestAClusterFileThatIsNone(t *testing.T) {
	field := "a key of the cluster file is missing, unknown or wrong, or a word is unknown"
	limit := "a number or a length of the cluster file is outside its range"
	name := "a text of the cluster file is no name, or names what is taken or isn't there"
	at := func(status faultyard.Status, part faultyard.Part, place uint64) faultyard.ConfigFault {
		return faultyard.ConfigFault{Status: status, Part: part, Place: place}
	}
	with := func(line string) []byte { return append(six(t), line+"\n"...) }
	for _, bad := range []struct {
		fault  faultyard.ConfigFault
		config []byte
		says   string
	}{
		{at(faultyard.ErrConfigTooLong, faultyard.WholeFile, 0),
			bytes.Repeat([]byte("\n"), 1_048_577),
			"TooLong: the cluster file has more than 1,048,576 bytes"},
		{at(faultyard.ErrConfigToml, faultyard.WholeFile, 0), []byte("="),
			"Toml: the cluster file is no TOML document in UTF-8"},
		{at(faultyard.ErrConfigToml, faultyard.WholeFile, 0), []byte("\xff"),
			"Toml: the cluster file is no TOML document in UTF-8"},
		{at(faultyard.ErrConfigField, faultyard.PartJournalLimit, 0), nil,
			"Field JournalLimit: " + field},
		{at(faultyard.ErrConfigField, faultyard.PartPolicies, 0),
			sixWith(t, `["Across(2,zoneid,One())"]`, "2"), "Field Policies: " + field},
		{at(faultyard.ErrConfigField, faultyard.PartUnknown, 0),
			with(`name = "six"`), "Field Unknown: " + field},
		{at(faultyard.ErrConfigLimit, faultyard.PartJournalLimit, 0),
			sixWith(t, "journal_limit = 1000\n", "journal_limit = 0\n"),
			"Limit JournalLimit: " + limit},
		{at(faultyard.ErrConfigName, faultyard.PartProcess, 5),
			sixWith(t, `"p5"`, `"p 5"`), "Name Process 5: " + name},
		{at(faultyard.ErrConfigName, faultyard.PartActor, 2),
			sixWith(t, `kinds = ["KillInstantly", "Reboot"]`,
				`kinds = [], key = "zoneid", value = ""`), "Name Actor 2: " + name},
		{at(faultyard.ErrConfigName, faultyard.PartProtect, 1),
			with(`protect = [{process = "p0", kinds = []}, {process = "p6", kinds = []}]`),
			"Name Protect 1: " + name},
		{at(faultyard.ErrConfigPolicy, faultyard.PartPolicies, 0),
			sixWith(t, "Across(2,zoneid", "Across(2,zone"),
			"Policy 0: a text of the cluster file is no policy"},
		{at(faultyard.ErrConfigUnmet, faultyard.PartPolicies, 1),
			sixWith(t, `"Across(2,`, `"One()", "Across(4,`),
			"PolicyUnmet 1: all processes of the cluster file together don't satisfy one of its policies"},
	} {
		guard, err := faultyard.Open(bad.config)
		equal(t, err, bad.fault)
		equal(t, guard == nil, true)
		equal(t, err.Error(), "faultyard: config: "+bad.says)
		fails(t, err, bad.fault.Status)
		var fault faultyard.ConfigFault
		equal(t, errors.As(err, &fault), true)
		equal(t, fault, bad.fault)
		var status faultyard.Status
		equal(t, errors.As(err, &status), true)
		equal(t, status, bad.fault.Status)
		equal(t, errors.Is(err, faultyard.ErrRefused), false)
	}
}

func TestTheVersionIsTheHeaders(t *testing.T) {
	header, err := os.ReadFile("../../../include/faultyard.h")
	equal(t, err, nil)
	major, minor, patch := faultyard.Version()
	for _, wanted := range []string{
		fmt.Sprintf("#define FAULTYARD_VERSION %d\n", major*10_000+minor*100+patch),
		fmt.Sprintf("#define FAULTYARD_VERSION_TEXT \"%d.%d.%d\"\n", major, minor, patch),
	} {
		equal(t, strings.Count(string(header), wanted), 1)
	}
}

// assertClosed says that each call answers that the guard is closed.
func assertClosed(t *testing.T, guard *faultyard.Guard) {
	t.Helper()
	_, err := guard.Kill(1, faultyard.Order{})
	fails(t, err, faultyard.ErrClosed)
	_, err = guard.Judge(1, faultyard.Order{})
	fails(t, err, faultyard.ErrClosed)
	fails(t, guard.Reset(), faultyard.ErrClosed)
	_, err = guard.TryCopy()
	fails(t, err, faultyard.ErrClosed)
	fails(t, guard.Up(0, 0), faultyard.ErrClosed)
	fails(t, guard.Heal(0, 0), faultyard.ErrClosed)
	_, err = guard.Act(nil)
	fails(t, err, faultyard.ErrClosed)
	_, err = guard.AppendAct(nil, nil)
	fails(t, err, faultyard.ErrClosed)
	_, err = guard.Ask(nil)
	fails(t, err, faultyard.ErrClosed)
	_, err = guard.Cluster()
	fails(t, err, faultyard.ErrClosed)
	_, err = guard.UpSet()
	fails(t, err, faultyard.ErrClosed)
	_, _, err = guard.State(0)
	fails(t, err, faultyard.ErrClosed)
	_, err = guard.Needed(0)
	fails(t, err, faultyard.ErrClosed)
	_, err = guard.Killable(1)
	fails(t, err, faultyard.ErrClosed)
	_, err = guard.Bears()
	fails(t, err, faultyard.ErrClosed)
	_, err = guard.IsDestroyed(0)
	fails(t, err, faultyard.ErrClosed)
	_, err = guard.Left()
	fails(t, err, faultyard.ErrClosed)
	_, err = guard.Destroyed()
	fails(t, err, faultyard.ErrClosed)
	_, err = guard.Gone()
	fails(t, err, faultyard.ErrClosed)
	_, err = guard.Targets(faultyard.Process, "p0")
	fails(t, err, faultyard.ErrClosed)
	_, err = guard.Process("p0")
	fails(t, err, faultyard.ErrClosed)
	_, err = guard.ProcessCount()
	fails(t, err, faultyard.ErrClosed)
	_, err = guard.IsAcked(0)
	fails(t, err, faultyard.ErrClosed)
	_, err = guard.Keeper(0)
	fails(t, err, faultyard.ErrClosed)
	_, err = guard.Sight()
	fails(t, err, faultyard.ErrClosed)
	_, err = guard.JournalLen()
	fails(t, err, faultyard.ErrClosed)
	_, err = guard.Entry(0)
	fails(t, err, faultyard.ErrClosed)
	_, err = guard.Audit()
	fails(t, err, faultyard.ErrClosed)
	fails(t, guard.Close(), faultyard.ErrClosed)
}

func TestAfterItsEndAGuardAnswersThatItIsClosed(t *testing.T) {
	guard := opened(t, six(t))
	equal(t, guard.Close(), nil)
	assertClosed(t, guard)
	assertClosed(t, new(faultyard.Guard))
	assertClosed(t, nil)
}

func TestACloseBesideOtherCallsEndsThem(t *testing.T) {
	guard := opened(t, six(t))
	var all sync.WaitGroup
	var closes, made sync.Map
	for number := 0; number < 8; number++ {
		number := number
		all.Add(1)
		go func() {
			defer all.Done()
			for count := 0; ; count++ {
				if _, err := guard.JournalLen(); err != nil {
					fails(t, err, faultyard.ErrClosed)
					return
				}
				made.Store(number, count)
				if number < 2 && count == 100 && guard.Close() == nil {
					closes.Store(number, true)
				}
			}
		}()
	}
	all.Wait()
	count := 0
	closes.Range(func(any, any) bool { count++; return true })
	equal(t, count, 1)
}

func TestAnEntryThatIsLongerThanTheFirstBuffer(t *testing.T) {
	guard := opened(t, six(t))
	act(t, guard, 0, `{"form":{"members":[0,2],"policy":0}}`)
	line := act(t, guard, 0, `{"begin":{"payload":"`+strings.Repeat("a", 512)+`","team":0}}`)
	equal(t, len(line) > 512, true)
	entry, err := guard.Entry(1)
	equal(t, err, nil)
	equal(t, string(entry), line)
	equal(t, strings.HasSuffix(audit(t, guard), line), true)
}

// play kills and starts processes from one on.
func play(t *testing.T, guard *faultyard.Guard, first uint32, count int) {
	for i := 0; i < count; i++ {
		process := (first + uint32(i)) % 6
		verdict, err := guard.Kill(1, faultyard.Order{
			Key:   faultyard.Process,
			Value: fmt.Sprintf("p%d", process),
			Kind:  faultyard.RebootAndDelete,
			Tear:  uint64(first)*1000 + uint64(i),
		})
		equal(t, err, nil)
		if verdict.Struck != faultyard.None {
			// Another goroutine that shares the guard may have started it already.
			if err := guard.Up(0, process); err != nil {
				fails(t, err, faultyard.RefusalIsUp)
			}
		}
	}
}

func TestEightGuardsInEightGoroutinesAreEachAsIfAlone(t *testing.T) {
	config := sixWith(t, "journal_limit = 1000\n", "journal_limit = 10000\n")
	var beside [8]string
	var all sync.WaitGroup
	for number := range beside {
		number := number
		all.Add(1)
		go func() {
			defer all.Done()
			guard, err := faultyard.Open(config)
			equal(t, err, nil)
			play(t, guard, uint32(number), 500)
			text, err := guard.Audit()
			equal(t, err, nil)
			beside[number] = string(text)
			equal(t, guard.Close(), nil)
		}()
	}
	all.Wait()
	for number := range beside {
		alone := opened(t, config)
		play(t, alone, uint32(number), 500)
		equal(t, len(beside[number]) > 100_000, true)
		equal(t, beside[number] == audit(t, alone), true)
	}
}

func TestManyGoroutinesShareAGuardAndEachGetsItsOwnAnswers(t *testing.T) {
	guard := opened(t, sixWith(t, "journal_limit = 1000\n", "journal_limit = 100000\n"))
	const goroutines, ticks = 32, 50
	var heard [goroutines][]string
	var all sync.WaitGroup
	for number := range heard {
		number := number
		all.Add(1)
		go func() {
			defer all.Done()
			play(t, guard, uint32(number), 20)
			for i := 0; i < ticks; i++ {
				// No other goroutine asks for as many ticks.
				line := fmt.Sprintf(`{"by":0,"act":{"tick":{"ticks":%d}}}`, number+1)
				entry, err := guard.Act([]byte(line))
				equal(t, err, nil)
				heard[number] = append(heard[number], string(entry))
			}
		}()
	}
	all.Wait()
	lines := strings.SplitAfter(audit(t, guard), "\n")[1:]
	for number := range heard {
		var wanted []string
		for _, line := range lines {
			if strings.HasPrefix(line, fmt.Sprintf(`{"act":{"tick":{"ticks":%d}}`, number+1)) {
				wanted = append(wanted, line)
			}
		}
		equal(t, len(wanted), ticks)
		equal(t, heard[number], wanted)
	}
	if path := os.Getenv("FAULTYARD_SHARED_AUDIT"); path != "" {
		equal(t, os.WriteFile(path, []byte(audit(t, guard)), 0o644), nil)
	}
}

func TestAGuardThatNobodyClosedIsFreed(t *testing.T) {
	before := runtime.NumGoroutine()
	for i := 0; i < 8; i++ {
		guard, err := faultyard.Open(six(t))
		equal(t, err, nil)
		equal(t, guard.Up(0, 9), faultyard.RefusalNoProcess)
	}
	for round := 0; runtime.NumGoroutine() > before; round++ {
		if round == 1000 {
			t.Fatalf("%d goroutines are left of %d", runtime.NumGoroutine(), before)
		}
		runtime.GC()
		time.Sleep(time.Millisecond)
	}
}

func TestWords(t *testing.T) {
	told := fmt.Sprint(faultyard.Zone, faultyard.RebootAndDelete, faultyard.TooFewLeft, faultyard.None)
	equal(t, told, "zoneid RebootAndDelete TooFewLeft None")
	told = fmt.Sprint(faultyard.Key(0), faultyard.Kind(5), faultyard.Rule(1<<31), faultyard.Refusal(0))
	equal(t, told, "Key(0) Kind(5) Rule(2147483648) faultyard: the act is refused: Refusal(0)")
	equal(t, faultyard.Status(4).Error(), "faultyard: status(4)")
	equal(t, fmt.Sprint(faultyard.WholeFile, faultyard.PartUnknown, faultyard.Part(7)),
		"WholeFile Unknown Part(7)")
	equal(t, faultyard.ConfigFault{}.Error(), "faultyard: config: config(0): status(0)")
	equal(t, faultyard.ErrJournalFull.Error(),
		"faultyard: the journal has as many entries as the cluster file allows")
	for _, kind := range []faultyard.Kind{faultyard.None, faultyard.RebootProcess, faultyard.Reboot} {
		equal(t, kind.EmptiesDisk() || kind.IsFinal(), false)
	}
	equal(t, faultyard.RebootAndDelete.EmptiesDisk() && !faultyard.RebootAndDelete.IsFinal(), true)
	equal(t, faultyard.KillInstantly.EmptiesDisk() && faultyard.KillInstantly.IsFinal(), true)
}
