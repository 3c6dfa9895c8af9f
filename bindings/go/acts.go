package faultyard

// #include <faultyard.h>
import "C"

import (
	"fmt"
	"unsafe"
)

// The acts by numbers are calls of their own: no text is made of them and read again. Each stands
// in the journal afterwards, refused or not.
//
// The error of each is the first of ErrClosed, those that it names, ErrJournalFull, ErrNoMemory; or
// a Refusal, the first that holds of those that faultyard.h lists for the call. After
// RefusalTeamShort and RefusalStillNeeds it is a Refused, which has the policy or the record.

// Kinds is a set of kinds of kill and of clogging, as KindsReboot | KindsClog.
type Kinds uint32

// The sets of one, and that of all.
const (
	KindsRebootProcess   Kinds = C.FY_KINDS_REBOOT_PROCESS
	KindsReboot          Kinds = C.FY_KINDS_REBOOT
	KindsRebootAndDelete Kinds = C.FY_KINDS_REBOOT_AND_DELETE
	KindsKillInstantly   Kinds = C.FY_KINDS_KILL_INSTANTLY
	KindsClog            Kinds = C.FY_KINDS_CLOG
	KindsAll             Kinds = C.FY_KINDS_ALL
)

// Scope says which processes a grant is for: those whose Key has the Value, or every process where
// the Key is Everyone.
type Scope struct {
	Key   Key
	Value string
}

// Refused is the error of an act that a policy or a record refuses. It is its Refusal by errors.Is
// and errors.As.
type Refused struct {
	// Refusal is RefusalTeamShort or RefusalStillNeeds.
	Refusal Refusal
	// Named is the policy that the members don't satisfy, or the record that the process lacks.
	Named uint32
}

// Error says that the act is refused, why, and by what.
func (refused Refused) Error() string {
	return fmt.Sprintf("%s %d", refused.Refusal.Error(), refused.Named)
}

// Unwrap is the Refusal.
func (refused Refused) Unwrap() error {
	return refused.Refusal
}

// Ruling is the answer to a clog, or to the end of one.
type Ruling struct {
	// Rule bars it; NoRule where it is done.
	Rule Rule
	// Named is the process (NoGrant, Protected) that the rule names.
	Named uint64
}

// Begun is a record that was begun.
type Begun struct {
	// Record is its number.
	Record uint32
	// First is the store message of the first member. Those of the others have the numbers behind
	// it.
	First uint64
}

// Synced is writes that were synced.
type Synced struct {
	// Count is how many.
	Count uint64
	// First is the acknowledgement of the first. Those of the others have the numbers behind it.
	First uint64
}

// Delivered is what a deliver delivered.
type Delivered struct {
	// Marked is: it was an acknowledgement, and not a store message.
	Marked bool
	// Acked is: the record of that acknowledgement is acknowledged now.
	Acked bool
}

// Clog holds back the messages of each process whose key has the value for so many ticks. One that
// a rule bars is no error. It names ErrArgument, ErrName.
func (guard *Guard) Clog(actor uint32, key Key, value string, ticks uint64) (Ruling, error) {
	text, length := bytesOf([]byte(value))
	reply, err := guard.made(func(its *C.fy_guard, reply *C.fy_reply) C.uint32_t {
		return C.fy_clog(its, C.uint32_t(actor), C.uint32_t(key), text, length,
			C.uint64_t(ticks), reply)
	})
	return Ruling{Rule(reply.rule), uint64(reply.named)}, err
}

// Unclog ends the clogs of each process whose key has the value. All else is as of Clog.
func (guard *Guard) Unclog(actor uint32, key Key, value string) (Ruling, error) {
	text, length := bytesOf([]byte(value))
	reply, err := guard.made(func(its *C.fy_guard, reply *C.fy_reply) C.uint32_t {
		return C.fy_unclog(its, C.uint32_t(actor), C.uint32_t(key), text, length, reply)
	})
	return Ruling{Rule(reply.rule), uint64(reply.named)}, err
}

// Form forms a team of these processes, by rising number, under a policy, and answers its number.
// It names ErrArgument, where the numbers don't rise or are more than 1024.
func (guard *Guard) Form(actor uint32, members []uint32, policy uint32) (uint32, error) {
	numbers := append(append([]uint32{}, members...), 0)
	first := (*C.uint32_t)(unsafe.Pointer(&numbers[0]))
	reply, err := guard.made(func(its *C.fy_guard, reply *C.fy_reply) C.uint32_t {
		return C.fy_form(its, C.uint32_t(actor), first, C.size_t(len(members)),
			C.uint32_t(policy), reply)
	})
	return uint32(reply.team), err
}

// Begin begins a record for a team, and sends each member a store message. It names ErrArgument,
// where the payload has more than 32,000 bytes.
func (guard *Guard) Begin(actor, team uint32, payload []byte) (Begun, error) {
	bytes, length := bytesOf(payload)
	reply, err := guard.made(func(its *C.fy_guard, reply *C.fy_reply) C.uint32_t {
		return C.fy_begin(its, C.uint32_t(actor), C.uint32_t(team), bytes, length, reply)
	})
	return Begun{uint32(reply.record), uint64(reply.message)}, err
}

// Deliver delivers a message in flight.
func (guard *Guard) Deliver(actor uint32, message uint64) (Delivered, error) {
	reply, err := guard.made(func(its *C.fy_guard, reply *C.fy_reply) C.uint32_t {
		return C.fy_deliver(its, C.uint32_t(actor), C.uint64_t(message), reply)
	})
	return Delivered{reply.marked != 0, reply.acked != 0}, err
}

// Lose drops a message in flight.
func (guard *Guard) Lose(actor uint32, message uint64) error {
	_, err := guard.made(func(its *C.fy_guard, reply *C.fy_reply) C.uint32_t {
		return C.fy_lose(its, C.uint32_t(actor), C.uint64_t(message), reply)
	})
	return err
}

// Resend sends a member the store message of a record again, and answers the message's number.
func (guard *Guard) Resend(actor, record, process uint32) (uint64, error) {
	reply, err := guard.made(func(its *C.fy_guard, reply *C.fy_reply) C.uint32_t {
		return C.fy_resend(its, C.uint32_t(actor), C.uint32_t(record), C.uint32_t(process), reply)
	})
	return uint64(reply.message), err
}

// Sync syncs what a process has written, and sends an acknowledgement of each write.
func (guard *Guard) Sync(actor, process uint32) (Synced, error) {
	reply, err := guard.made(func(its *C.fy_guard, reply *C.fy_reply) C.uint32_t {
		return C.fy_sync(its, C.uint32_t(actor), C.uint32_t(process), reply)
	})
	return Synced{uint64(reply.synced), uint64(reply.message)}, err
}

// Tick lets time pass, and answers the time.
func (guard *Guard) Tick(actor uint32, ticks uint64) (uint64, error) {
	reply, err := guard.made(func(its *C.fy_guard, reply *C.fy_reply) C.uint32_t {
		return C.fy_tick(its, C.uint32_t(actor), C.uint64_t(ticks), reply)
	})
	return uint64(reply.now), err
}

// Give gives another actor a grant of these kinds. It names ErrArgument, ErrName.
func (guard *Guard) Give(actor, to uint32, kinds Kinds, scope Scope) error {
	text, length := bytesOf([]byte(scope.Value))
	_, err := guard.made(func(its *C.fy_guard, reply *C.fy_reply) C.uint32_t {
		return C.fy_give(its, C.uint32_t(actor), C.uint32_t(to), C.uint32_t(kinds),
			C.uint32_t(scope.Key), text, length, reply)
	})
	return err
}

// Take takes away the grant at a place, from 0, of another actor's list.
func (guard *Guard) Take(actor, from, index uint32) error {
	_, err := guard.made(func(its *C.fy_guard, reply *C.fy_reply) C.uint32_t {
		return C.fy_take(its, C.uint32_t(actor), C.uint32_t(from), C.uint32_t(index), reply)
	})
	return err
}

// Protect bars kinds on a process, for every actor. It names ErrArgument.
func (guard *Guard) Protect(actor, process uint32, kinds Kinds) error {
	_, err := guard.made(func(its *C.fy_guard, reply *C.fy_reply) C.uint32_t {
		return C.fy_protect(its, C.uint32_t(actor), C.uint32_t(process), C.uint32_t(kinds), reply)
	})
	return err
}

// Unprotect bars kinds on a process no longer. It names ErrArgument.
func (guard *Guard) Unprotect(actor, process uint32, kinds Kinds) error {
	_, err := guard.made(func(its *C.fy_guard, reply *C.fy_reply) C.uint32_t {
		return C.fy_unprotect(its, C.uint32_t(actor), C.uint32_t(process), C.uint32_t(kinds), reply)
	})
	return err
}

// Copy sends the store message of a record from a process that has it synced to another, and
// answers the message's number.
func (guard *Guard) Copy(actor, from, record, to uint32) (uint64, error) {
	reply, err := guard.made(func(its *C.fy_guard, reply *C.fy_reply) C.uint32_t {
		return C.fy_copy(its, C.uint32_t(actor), C.uint32_t(from), C.uint32_t(record),
			C.uint32_t(to), reply)
	})
	return uint64(reply.message), err
}

// Replace puts a process into a team in place of the member out.
func (guard *Guard) Replace(actor, team, out, into uint32) error {
	_, err := guard.made(func(its *C.fy_guard, reply *C.fy_reply) C.uint32_t {
		return C.fy_replace(its, C.uint32_t(actor), C.uint32_t(team), C.uint32_t(out),
			C.uint32_t(into), reply)
	})
	return err
}

// made answers what a call of the library tells of an act. Where that isn't done, all is 0.
func (guard *Guard) made(
	call func(its *C.fy_guard, reply *C.fy_reply) C.uint32_t,
) (C.fy_reply, error) {
	var reply C.fy_reply
	var status C.uint32_t
	err := guard.do(func(its *C.fy_guard) {
		status = call(its, &reply)
	})
	if err == nil {
		err = reportOf(status, reply.refusal)
	}
	if err == nil {
		return reply, nil
	}
	if reply.refusal == C.FY_TEAM_SHORT || reply.refusal == C.FY_STILL_NEEDS {
		err = Refused{Refusal(reply.refusal), uint32(reply.named)}
	}
	return C.fy_reply{}, err
}
