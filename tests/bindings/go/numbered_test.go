package faultyard_tests

import (
	"errors"
	"fmt"
	"strings"
	"testing"

	"faultyard"
)

// entered says that the last entry has this act and this reply.
func entered(t *testing.T, guard *faultyard.Guard, act, reply string) {
	t.Helper()
	line, err := guard.Entry(journalLen(t, guard) - 1)
	equal(t, err, nil)
	entry := string(line)
	if !strings.HasPrefix(entry, `{"act":`+act+`,"at":`) ||
		!strings.HasSuffix(entry, `,"reply":`+reply+"}\n") {
		t.Errorf("found the entry %s, wanted %s and %s", entry, act, reply)
	}
}

// answers says that a call answered a value and no error.
func answers[Value any](t *testing.T, wanted Value) func(Value, error) {
	t.Helper()
	return func(found Value, err error) {
		t.Helper()
		equal(t, err, nil)
		equal(t, found, wanted)
	}
}

func TestARecordIsStoredCopiedAndMovedByNumbers(t *testing.T) {
	guard := opened(t, six(t))
	answers(t, uint32(0))(guard.Form(0, []uint32{0, 2}, 0))
	entered(t, guard, `{"form":{"members":[0,2],"policy":0}}`, `{"formed":0}`)
	answers(t, faultyard.Begun{})(guard.Begin(0, 0, []byte("hi")))
	entered(t, guard, `{"begin":{"payload":"6869","team":0}}`, `{"begun":{"first":0,"record":0}}`)
	answers(t, faultyard.Begun{Record: 1, First: 2})(guard.Begin(0, 0, nil))
	equal(t, guard.Lose(0, 1), nil)
	entered(t, guard, `{"lose":{"message":1}}`, `"done"`)
	answers(t, uint64(4))(guard.Resend(0, 0, 2))
	entered(t, guard, `{"resend":{"process":2,"record":0}}`, `{"sent":4}`)
	for _, message := range []uint64{0, 4} {
		answers(t, faultyard.Delivered{})(guard.Deliver(0, message))
	}
	answers(t, faultyard.Synced{Count: 1, First: 5})(guard.Sync(0, 0))
	answers(t, faultyard.Synced{Count: 1, First: 6})(guard.Sync(0, 2))
	entered(t, guard, `{"sync":{"process":2}}`, `{"synced":{"count":1,"first":6}}`)
	answers(t, uint64(9))(guard.Tick(0, 9))
	entered(t, guard, `{"tick":{"ticks":9}}`, `{"time":9}`)
	answers(t, faultyard.Delivered{Marked: true})(guard.Deliver(0, 5))
	answers(t, faultyard.Delivered{Marked: true, Acked: true})(guard.Deliver(0, 6))
	entered(t, guard, `{"deliver":{"message":6}}`, `{"marked":true}`)
	answers(t, uint64(7))(guard.Copy(0, 2, 0, 1))
	entered(t, guard, `{"copy":{"from":2,"record":0,"to":1}}`, `{"sent":7}`)
	answers(t, faultyard.Delivered{})(guard.Deliver(0, 7))
	answers(t, faultyard.Synced{Count: 1, First: 8})(guard.Sync(0, 1))
	equal(t, guard.Replace(0, 0, 0, 1), nil)
	entered(t, guard, `{"replace":{"into":1,"out":0,"team":0}}`, `"done"`)
}

func TestClogsGrantsAndProtectionsByNumbers(t *testing.T) {
	guard := opened(t, six(t))
	answers(t, faultyard.Ruling{})(guard.Clog(1, faultyard.Zone, "z1", 3))
	entered(t, guard, `{"clog":{"key":"zoneid","ticks":3,"value":"z1"}}`, `{"ruled":null}`)
	equal(t, state(t, guard, 2), faultyard.State{Up: true, Clogged: true})
	answers(t, faultyard.Ruling{})(guard.Unclog(1, faultyard.Process, "p2"))
	entered(t, guard, `{"unclog":{"key":"processid","value":"p2"}}`, `{"ruled":null}`)
	equal(t, state(t, guard, 2), faultyard.State{Up: true})
	answers(t, faultyard.Ruling{Rule: faultyard.NoTarget})(
		guard.Unclog(1, faultyard.Zone, "z9"))
	answers(t, faultyard.Ruling{Rule: faultyard.NoGrant, Named: 4})(
		guard.Clog(3, faultyard.Zone, "z2", 3))
	kinds := faultyard.KindsReboot | faultyard.KindsClog
	equal(t, guard.Give(4, 3, kinds, faultyard.Scope{Key: faultyard.Zone, Value: "z2"}), nil)
	entered(t, guard, `{"give":{"actor":3,"kinds":["Reboot","Clog"],`+
		`"scope":{"key":"zoneid","value":"z2"}}}`, `"done"`)
	answers(t, faultyard.Ruling{})(guard.Clog(3, faultyard.Zone, "z2", 3))
	everyone := faultyard.Scope{Key: faultyard.Everyone}
	equal(t, guard.Give(4, 3, faultyard.KindsAll, everyone), nil)
	entered(t, guard, `{"give":{"actor":3,"kinds":["RebootProcess","Reboot","RebootAndDelete",`+
		`"KillInstantly","Clog"],"scope":"all"}}`, `"done"`)
	equal(t, guard.Take(4, 3, 1), nil)
	entered(t, guard, `{"take":{"actor":3,"index":1}}`, `"done"`)
	equal(t, guard.Protect(4, 5, faultyard.KindsRebootProcess|faultyard.KindsKillInstantly), nil)
	entered(t, guard,
		`{"protect":{"kinds":["RebootProcess","KillInstantly"],"process":5}}`, `"done"`)
	equal(t, guard.Unprotect(4, 5, faultyard.KindsRebootAndDelete), nil)
	entered(t, guard, `{"unprotect":{"kinds":["RebootAndDelete"],"process":5}}`, `"done"`)
}

func TestWhatAnActByNumbersIsRefusedFor(t *testing.T) {
	guard := opened(t, six(t))
	named := func(err error, refusal faultyard.Refusal, named uint32) {
		t.Helper()
		var refused faultyard.Refused
		equal(t, errors.As(err, &refused), true)
		equal(t, refused, faultyard.Refused{Refusal: refusal, Named: named})
		fails(t, err, refusal)
		fails(t, err, faultyard.ErrRefused)
		equal(t, err.Error(),
			fmt.Sprintf("faultyard: the act is refused: %s %d", refusal.String(), named))
	}
	_, err := guard.Form(0, []uint32{0, 1}, 0)
	named(err, faultyard.RefusalTeamShort, 0)
	_, err = guard.Form(0, nil, 0)
	named(err, faultyard.RefusalTeamShort, 0)
	_, err = guard.Form(0, []uint32{0, 2}, 1)
	fails(t, err, faultyard.RefusalNoPolicy)
	for _, its := range []string{
		`{"form":{"members":[0,2],"policy":0}}`, `{"begin":{"payload":"6869","team":0}}`,
		`{"deliver":{"message":0}}`, `{"deliver":{"message":1}}`, `{"sync":{"process":0}}`,
		`{"sync":{"process":2}}`, `{"deliver":{"message":2}}`, `{"deliver":{"message":3}}`,
	} {
		act(t, guard, 0, its)
	}
	named(guard.Replace(0, 0, 0, 1), faultyard.RefusalStillNeeds, 0)
	_, err = guard.Resend(0, 0, 0)
	fails(t, err, faultyard.RefusalAcked)
	_, err = guard.Begin(0, 0, make([]byte, 257))
	fails(t, err, faultyard.RefusalPayload)
	_, err = guard.Deliver(0, 9)
	fails(t, err, faultyard.RefusalNoMessage)
	fails(t, guard.Lose(0, 9), faultyard.RefusalNoMessage)
	_, err = guard.Sync(0, 6)
	fails(t, err, faultyard.RefusalNoProcess)
	_, err = guard.Tick(1, 1)
	fails(t, err, faultyard.RefusalWrongRole)
	_, err = guard.Copy(0, 1, 0, 3)
	fails(t, err, faultyard.RefusalNoCopy)
	fails(t, guard.Take(4, 3, 0), faultyard.RefusalNoSuch)
	fails(t, guard.Protect(4, 6, faultyard.KindsAll), faultyard.RefusalNoProcess)
	fails(t, guard.Unprotect(4, 6, faultyard.KindsAll), faultyard.RefusalNoProcess)
	_, err = guard.Clog(9, faultyard.Zone, "z0", 1)
	fails(t, err, faultyard.RefusalStranger)
	_, err = guard.Unclog(9, faultyard.Zone, "z0")
	fails(t, err, faultyard.RefusalStranger)
}

func TestWhatIsNoActByNumbersEntersNothing(t *testing.T) {
	guard := opened(t, six(t))
	_, err := guard.Form(0, []uint32{2, 0}, 0)
	fails(t, err, faultyard.ErrArgument)
	_, err = guard.Begin(0, 0, make([]byte, 32_001))
	fails(t, err, faultyard.ErrArgument)
	fails(t, guard.Give(4, 3, 32, faultyard.Scope{}), faultyard.ErrArgument)
	fails(t, guard.Give(4, 3, 1, faultyard.Scope{Key: faultyard.Zone}), faultyard.ErrName)
	fails(t, guard.Protect(4, 0, 32), faultyard.ErrArgument)
	fails(t, guard.Unprotect(4, 0, 32), faultyard.ErrArgument)
	_, err = guard.Clog(1, faultyard.Everyone, "", 1)
	fails(t, err, faultyard.ErrArgument)
	_, err = guard.Unclog(1, faultyard.Zone, "")
	fails(t, err, faultyard.ErrName)
	equal(t, journalLen(t, guard), 0)
	full := opened(t, sixWith(t, "journal_limit = 1000\n", "journal_limit = 1\n"))
	answers(t, uint64(1))(full.Tick(0, 1))
	now, err := full.Tick(0, 1)
	fails(t, err, faultyard.ErrJournalFull)
	equal(t, now, uint64(0))
	equal(t, full.Close(), nil)
	fails(t, full.Lose(0, 0), faultyard.ErrClosed)
	fails(t, full.Replace(0, 0, 0, 1), faultyard.ErrClosed)
}
