// Package faultyard decides which faults a cluster tolerates.
//
// A Guard is opened with a cluster file, and asked before each kill. It answers the hardest kill
// that the replication policy tolerates, and keeps a journal of all that was asked and answered. It
// calls the C library in this process.
package faultyard

// #cgo pkg-config: faultyard
// #include <faultyard.h>
import "C"

import (
	"runtime"
	"sync"
	"unsafe"
)

// Header is the first line of an audit; the line of each entry follows.
const Header = C.FY_AUDIT_HEADER

// usualLine is how many bytes most lines have at most; a longer one is read again.
const usualLine = 512

// Version answers the version of the library that is loaded.
func Version() (major, minor, patch uint32) {
	number := uint32(C.fy_version())
	return number / 10_000, number / 100 % 100, number % 100
}

// Guard is a guard. Goroutines may share it: a mutex puts their calls in order.
type Guard struct {
	lock    sync.Mutex
	library C.fy_guard // its pointer is nil once it is closed
	told    C.size_t   // what a call tells: a variable of its own would be made anew each time
}

// Open opens a guard of a cluster in which nothing happened yet, by the text of a cluster file.
//
// Its error is ErrNoMemory, or a ConfigFault with the first of ErrConfigTooLong to ErrConfigUnmet
// that holds.
func Open(config []byte) (*Guard, error) {
	guard := new(Guard)
	text, length := bytesOf(config)
	status := C.fy_open(text, length, &guard.library)
	if C.FY_CONFIG_TOO_LONG <= status && status <= C.FY_CONFIG_UNMET {
		return nil, faultOf(text, length, status)
	}
	if err := errorOf(status); err != nil {
		return nil, err
	}
	return freed(guard), nil
}

// OpenAfter opens a guard that goes on where an audit ends, by its whole text: its journal is that
// of the audit, whose acts are made once more.
//
// Its error is, in this order, that of Open; ErrAuditTooLong; ErrNoHeader, also for an audit of the
// first version; then of the first line that is at fault ErrLineTooLong, ErrLineSyntax (half a last
// line too), or a Refuted. ErrNoMemory in place of any.
func OpenAfter(config, audit []byte) (*Guard, error) {
	guard := new(Guard)
	text, length := bytesOf(config)
	lines, size := bytesOf(audit)
	var bad C.uint32_t
	status := C.fy_open_after(text, length, lines, size, &guard.library, &bad)
	if C.FY_CONFIG_TOO_LONG <= status && status <= C.FY_CONFIG_UNMET {
		return nil, faultOf(text, length, status)
	}
	if status == C.FY_REFUTED {
		return nil, Refuted{Entry: uint32(bad)}
	}
	if err := errorOf(status); err != nil {
		return nil, err
	}
	return freed(guard), nil
}

// freed is an open guard, which is freed too where nobody closed it and nobody can reach it.
func freed(guard *Guard) *Guard {
	runtime.SetFinalizer(guard, func(guard *Guard) { C.fy_close(guard.library) })
	return guard
}

// do makes a call of the library in its turn. Threads may take turns with a guard. A nil guard is
// closed, so that a caller may defer Close before it looks at the error of Open.
func (guard *Guard) do(call func(*C.fy_guard)) error {
	if guard == nil {
		return ErrClosed
	}
	guard.lock.Lock()
	defer guard.lock.Unlock()
	if guard.library.at == nil {
		return ErrClosed
	}
	call(&guard.library)
	return nil
}

// Close frees what the guard holds. Each later call answers ErrClosed, as does a second Close, and
// each call of a nil guard.
func (guard *Guard) Close() error {
	return guard.do(func(its *C.fy_guard) {
		runtime.SetFinalizer(guard, nil)
		C.fy_close(*its)
		its.at = nil
	})
}

// Reset puts the guard back to where nothing happened yet, without reading its cluster file again.
// Its error is the first of ErrClosed, ErrNoMemory.
func (guard *Guard) Reset() error {
	var status C.uint32_t
	err := guard.do(func(its *C.fy_guard) {
		status = C.fy_reset(its)
	})
	if err != nil {
		return err
	}
	return errorOf(status)
}

// TryCopy opens a second guard with the same journal, to look ahead: what is done with one changes
// nothing of the other. The state is copied, and no act of the journal is made again. Its error is
// the first of ErrClosed, ErrNoMemory.
func (guard *Guard) TryCopy() (*Guard, error) {
	other := new(Guard)
	var status C.uint32_t
	err := guard.do(func(its *C.fy_guard) {
		status = C.fy_try_copy(its, &other.library)
	})
	if err != nil {
		return nil, err
	}
	if err := errorOf(status); err != nil {
		return nil, err
	}
	return freed(other), nil
}

// Order is an order to kill the processes whose Key has the Value.
type Order struct {
	Key   Key
	Value string
	// Kind is what is ordered.
	Kind Kind
	// Floor is the mildest kind that may take its place where it is barred: RebootProcess if it is
	// left out.
	Floor Kind
	// Tear has the bit i where a reboot keeps the unsynced write i.
	Tear uint64
}

// Verdict is the answer to an order.
type Verdict struct {
	// Struck is what to do to each process of the target that isn't gone; None is nothing.
	Struck Kind
	// Rule bars the kind that was ordered; NoRule where that struck.
	Rule Rule
	// Named is the process (NoGrant, Protected) or the policy (TooManyDestroyed, TooFewLeft) that
	// the rule names.
	Named uint64
}

// Kill orders a kill by an actor. A kill that a rule bars is no error.
//
// Its error is the first of ErrClosed, ErrArgument, ErrName, ErrFloor, ErrJournalFull, ErrNoMemory;
// or RefusalStranger where there is no such actor.
func (guard *Guard) Kill(actor uint32, order Order) (Verdict, error) {
	value, length := bytesOf([]byte(order.Value))
	return guard.verdict(func(
		its *C.fy_guard, struck, rule *C.uint32_t, named *C.uint64_t,
	) C.uint32_t {
		return C.fy_kill(its, C.uint32_t(actor), C.uint32_t(order.Key), value, length,
			C.uint32_t(order.Kind), floorOf(order.Floor), C.uint64_t(order.Tear), struck, rule, named)
	})
}

// Judge answers what Kill would answer now to the same order, if the journal had room. It enters
// nothing.
//
// Its error is the first of ErrClosed, ErrArgument, ErrName, ErrFloor; or RefusalStranger where
// there is no such actor.
func (guard *Guard) Judge(actor uint32, order Order) (Verdict, error) {
	value, length := bytesOf([]byte(order.Value))
	return guard.verdict(func(
		its *C.fy_guard, struck, rule *C.uint32_t, named *C.uint64_t,
	) C.uint32_t {
		return C.fy_judge(its, C.uint32_t(actor), C.uint32_t(order.Key), value, length,
			C.uint32_t(order.Kind), floorOf(order.Floor), struck, rule, named)
	})
}

// ProcessOrder is an order to kill one process, by its number.
type ProcessOrder struct {
	Process uint32
	// Kind, Floor and Tear are those of an Order.
	Kind  Kind
	Floor Kind
	Tear  uint64
}

// KillProcess does what Kill does with the name of the process. No name is looked up, so it is
// quicker.
//
// Its error is the first of ErrClosed, ErrArgument (also where no process has the number),
// ErrFloor, ErrJournalFull, ErrNoMemory; or RefusalStranger where there is no such actor.
func (guard *Guard) KillProcess(actor uint32, order ProcessOrder) (Verdict, error) {
	return guard.verdict(func(
		its *C.fy_guard, struck, rule *C.uint32_t, named *C.uint64_t,
	) C.uint32_t {
		return C.fy_kill_process(its, C.uint32_t(actor), C.uint32_t(order.Process),
			C.uint32_t(order.Kind), floorOf(order.Floor), C.uint64_t(order.Tear), struck, rule, named)
	})
}

// JudgeProcess answers what KillProcess would answer now to the same order, if the journal had
// room. It enters nothing.
//
// Its error is the first of ErrClosed, ErrArgument, ErrFloor; or RefusalStranger where there is no
// such actor.
func (guard *Guard) JudgeProcess(actor uint32, order ProcessOrder) (Verdict, error) {
	return guard.verdict(func(
		its *C.fy_guard, struck, rule *C.uint32_t, named *C.uint64_t,
	) C.uint32_t {
		return C.fy_judge_process(its, C.uint32_t(actor), C.uint32_t(order.Process),
			C.uint32_t(order.Kind), floorOf(order.Floor), struck, rule, named)
	})
}

// Killable answers of each process, by its number, the kind by which a kill of it alone would
// strike now, ordered by this actor by KillInstantly with the floor RebootProcess; None where
// nothing would strike. Once one is killed, fewer may be. It enters nothing.
//
// Its error is ErrClosed, or RefusalStranger where there is no such actor.
func (guard *Guard) Killable(actor uint32) ([]Kind, error) {
	var bytes [64 * C.FY_SET_WORDS]C.uint8_t
	var status C.uint32_t
	var told C.size_t
	err := guard.do(func(its *C.fy_guard) {
		status = C.fy_killable(its, C.uint32_t(actor), &bytes[0], C.size_t(len(bytes)), &told)
	})
	if err == nil {
		err = reportOf(status, C.FY_STRANGER)
	}
	if err != nil {
		return nil, err
	}
	kinds := make([]Kind, told)
	for process := range kinds {
		kinds[process] = Kind(bytes[process])
	}
	return kinds, nil
}

// floorOf is RebootProcess where an order leaves its floor out.
func floorOf(floor Kind) C.uint32_t {
	if floor == None {
		return C.FY_REBOOT_PROCESS
	}
	return C.uint32_t(floor)
}

// verdict answers the verdict that a call of the library tells.
func (guard *Guard) verdict(
	call func(its *C.fy_guard, struck, rule *C.uint32_t, named *C.uint64_t) C.uint32_t,
) (Verdict, error) {
	var status, struck, rule C.uint32_t
	var named C.uint64_t
	err := guard.do(func(its *C.fy_guard) {
		status = call(its, &struck, &rule, &named)
	})
	if err == nil {
		err = reportOf(status, C.FY_STRANGER)
	}
	if err != nil {
		return Verdict{}, err
	}
	return Verdict{Kind(struck), Rule(rule), uint64(named)}, nil
}

// Up reports that a process runs again, by an actor whose role is storage.
//
// Its error is the first of ErrClosed, ErrJournalFull, ErrNoMemory; or a Refusal where the process
// is up, gone or not there, or where the actor may not say so.
func (guard *Guard) Up(actor, process uint32) error {
	var status, refusal C.uint32_t
	err := guard.do(func(its *C.fy_guard) {
		status = C.fy_up(its, C.uint32_t(actor), C.uint32_t(process), &refusal)
	})
	if err != nil {
		return err
	}
	return reportOf(status, refusal)
}

// Heal reports that a destroyed process has every acknowledged record on its disk again, by an
// actor whose role is storage. Its errors are as Up's.
func (guard *Guard) Heal(actor, process uint32) error {
	var status, refusal C.uint32_t
	err := guard.do(func(its *C.fy_guard) {
		status = C.fy_heal(its, C.uint32_t(actor), C.uint32_t(process), &refusal)
	})
	if err != nil {
		return err
	}
	return reportOf(status, refusal)
}

// Act makes any act, given as its line of a script, and answers the line of its entry, which ends
// with a line feed. A refused act is answered too, and is no error: the line has the refusal.
//
// Its error is the first of ErrClosed, ErrLineTooLong, ErrLineSyntax, ErrFloor, ErrJournalFull;
// ErrNoMemory may take the place of any but the first. After ErrUnwritten the act stands in the
// journal.
func (guard *Guard) Act(line []byte) ([]byte, error) {
	return guard.AppendAct(nil, line)
}

// AppendAct makes an act as Act does, and puts the line of its entry behind a text: where the text
// has room for it and the longest reply, no memory is taken. With an error the text is as it was.
func (guard *Guard) AppendAct(text, line []byte) ([]byte, error) {
	act, length := bytesOf(line)
	most := len(line) + C.FY_MOST_REPLY
	answered := text
	if cap(text)-len(text) < most {
		answered = append(text, make([]byte, most)...)
	}
	answer := answered[len(text) : len(text)+most]
	var status C.uint32_t
	var told int
	err := guard.do(func(its *C.fy_guard) {
		status = C.fy_act(its, act, length, pointerTo(answer), C.size_t(most), &guard.told)
		told = int(guard.told)
	})
	if err == nil {
		err = errorOf(status)
	}
	if err != nil {
		return text, err
	}
	return answered[:len(text)+told], nil
}

// IsDestroyed says whether a process is destroyed: struck by a kind that empties its disk, and not
// healed since. Its error is ErrClosed.
func (guard *Guard) IsDestroyed(process uint32) (bool, error) {
	var destroyed bool
	err := guard.do(func(its *C.fy_guard) {
		destroyed = C.fy_is_destroyed(its, C.uint32_t(process)) != 0
	})
	return destroyed, err
}

// Left answers the processes that aren't gone for good, emptied or not, in the order of their
// numbers. Its error is ErrClosed.
func (guard *Guard) Left() ([]uint32, error) {
	return guard.set(func(its *C.fy_guard, words *C.uint64_t) C.uint32_t {
		C.fy_left(its, words, C.FY_SET_WORDS)
		return C.FY_DONE
	})
}

// UpSet answers the processes that are up, in the order of their numbers. Its error is ErrClosed.
func (guard *Guard) UpSet() ([]uint32, error) {
	return guard.set(func(its *C.fy_guard, words *C.uint64_t) C.uint32_t {
		C.fy_up_set(its, words, C.FY_SET_WORDS)
		return C.FY_DONE
	})
}

// Destroyed answers the processes that are destroyed, gone for good or not, in the order of their
// numbers. Its error is ErrClosed.
func (guard *Guard) Destroyed() ([]uint32, error) {
	return guard.set(func(its *C.fy_guard, words *C.uint64_t) C.uint32_t {
		C.fy_destroyed_set(its, words, C.FY_SET_WORDS)
		return C.FY_DONE
	})
}

// Gone answers the processes that are gone for good, in the order of their numbers. Its error is
// ErrClosed.
func (guard *Guard) Gone() ([]uint32, error) {
	return guard.set(func(its *C.fy_guard, words *C.uint64_t) C.uint32_t {
		C.fy_gone_set(its, words, C.FY_SET_WORDS)
		return C.FY_DONE
	})
}

// Targets answers the processes that a kill of this key and value is about, in the order of their
// numbers: those that have the value and aren't gone for good, emptied or not. Ask before the kill,
// which may be for good.
//
// Its error is the first of ErrClosed, ErrArgument, ErrName.
func (guard *Guard) Targets(key Key, value string) ([]uint32, error) {
	text, length := bytesOf([]byte(value))
	return guard.set(func(its *C.fy_guard, words *C.uint64_t) C.uint32_t {
		return C.fy_targets(its, C.uint32_t(key), text, length, words, C.FY_SET_WORDS)
	})
}

// set answers the processes of the set that a call of the library writes.
func (guard *Guard) set(
	call func(its *C.fy_guard, words *C.uint64_t) C.uint32_t,
) ([]uint32, error) {
	var words [C.FY_SET_WORDS]C.uint64_t
	var status C.uint32_t
	err := guard.do(func(its *C.fy_guard) {
		status = call(its, &words[0])
	})
	if err == nil {
		err = errorOf(status)
	}
	if err != nil {
		return nil, err
	}
	var set []uint32
	for process := uint32(0); process < 64*C.FY_SET_WORDS; process++ {
		if words[process/64]>>(process%64)&1 != 0 {
			set = append(set, process)
		}
	}
	return set, nil
}

// What stands for a process, a record and a message where there is none.
const (
	Nobody       uint32 = C.FY_NOBODY
	NoSuchRecord uint32 = C.FY_NO_SUCH_RECORD
	Nothing      uint64 = C.FY_NOTHING
)

// State is the state of a process.
type State struct {
	// Up is: it runs.
	Up bool
	// Clogged is: its messages are held back.
	Clogged bool
	// Destroyed is: it was struck by a kind that empties its disk, and not healed since.
	Destroyed bool
	// Gone is: it was killed for good.
	Gone bool
}

// State answers the state of a process, and whether there is a process with this number. Its error
// is ErrClosed.
func (guard *Guard) State(process uint32) (State, bool, error) {
	var bits C.uint32_t
	err := guard.do(func(its *C.fy_guard) {
		bits = C.fy_state(its, C.uint32_t(process))
	})
	if err != nil || bits == C.FY_NOBODY {
		return State{}, false, err
	}
	return State{
		Up:        bits&C.FY_STATE_UP != 0,
		Clogged:   bits&C.FY_STATE_CLOGGED != 0,
		Destroyed: bits&C.FY_STATE_DESTROYED != 0,
		Gone:      bits&C.FY_STATE_GONE != 0,
	}, true, nil
}

// Needed answers the record that a process still needs before it may be healed: of its teams'
// records, the least acknowledged one that it hasn't synced. It is NoSuchRecord where there is
// none. Heal is refused with RefusalStillNeeds for it. Its error is ErrClosed.
func (guard *Guard) Needed(process uint32) (uint32, error) {
	record := NoSuchRecord
	err := guard.do(func(its *C.fy_guard) {
		record = uint32(C.fy_needed(its, C.uint32_t(process)))
	})
	return record, err
}

// Process answers the number of the process whose processid is a name, or Nobody. Its error is
// ErrClosed.
func (guard *Guard) Process(name string) (uint32, error) {
	text, length := bytesOf([]byte(name))
	process := Nobody
	err := guard.do(func(its *C.fy_guard) {
		process = uint32(C.fy_process(its, text, length))
	})
	return process, err
}

// ProcessCount answers how many processes there are; they are numbered from 0. Its error is
// ErrClosed.
func (guard *Guard) ProcessCount() (int, error) {
	var count int
	err := guard.do(func(its *C.fy_guard) {
		count = int(C.fy_process_count(its))
	})
	return count, err
}

// IsAcked says whether a record is acknowledged. Its error is ErrClosed.
func (guard *Guard) IsAcked(record uint32) (bool, error) {
	var acked bool
	err := guard.do(func(its *C.fy_guard) {
		acked = C.fy_is_acked(its, C.uint32_t(record)) != 0
	})
	return acked, err
}

// Keeper answers who keeps an acknowledged record: the least member of its team that isn't
// destroyed and has the record synced. It is Nobody for any other record. Its error is ErrClosed.
func (guard *Guard) Keeper(record uint32) (uint32, error) {
	keeper := Nobody
	err := guard.do(func(its *C.fy_guard) {
		keeper = uint32(C.fy_keeper(its, C.uint32_t(record)))
	})
	return keeper, err
}

// Sight is the time, and what there is to do next in the simulated cluster.
type Sight struct {
	// Now is the time, in ticks.
	Now uint64
	// Deliverable is the least message that a deliver would accept now, or Nothing.
	Deliverable uint64
	// Unsynced is the least process that is up and has unsynced writes, or Nobody.
	Unsynced uint32
	// Sleeping is the least process that is neither up nor gone, or Nobody.
	Sleeping uint32
}

// Sight answers the time, and what there is to do next. Its error is ErrClosed.
func (guard *Guard) Sight() (Sight, error) {
	var seen C.fy_seen
	err := guard.do(func(its *C.fy_guard) {
		C.fy_sight(its, &seen)
	})
	if err != nil {
		return Sight{}, err
	}
	return Sight{
		Now:         uint64(seen.now),
		Deliverable: uint64(seen.deliverable),
		Unsynced:    uint32(seen.unsynced),
		Sleeping:    uint32(seen.sleeping),
	}, nil
}

// Borne is how much of the cluster may still be lost: any so many processes together, whichever
// they are.
type Borne struct {
	// Emptied is how many may be emptied.
	Emptied uint32
	// Gone is how many may be killed for good.
	Gone uint32
	// EmptiedExact is: some set of one more may not be emptied. Where none was found, more may be
	// borne.
	EmptiedExact bool
	// GoneExact is the same of those killed for good.
	GoneExact bool
}

// Bears answers how much of the cluster may still be lost, as the journal left it: the numbers that
// `faultyard bears` tells first. Its error is ErrClosed or ErrNoMemory.
func (guard *Guard) Bears() (Borne, error) {
	var told C.fy_borne
	var status C.uint32_t
	err := guard.do(func(its *C.fy_guard) {
		status = C.fy_bears(its, &told)
	})
	if err == nil {
		err = errorOf(status)
	}
	if err != nil {
		return Borne{}, err
	}
	return Borne{
		Emptied:      uint32(told.emptied),
		Gone:         uint32(told.gone),
		EmptiedExact: told.emptied_exact != 0,
		GoneExact:    told.gone_exact != 0,
	}, nil
}

// JournalLen answers how many entries the journal has. Its error is ErrClosed.
func (guard *Guard) JournalLen() (int, error) {
	var count int
	err := guard.do(func(its *C.fy_guard) {
		count = int(C.fy_journal_len(its))
	})
	return count, err
}

// Entry answers the line of the entry at a place of the journal, from 0; it ends with a line feed.
//
// Its error is the first of ErrClosed, ErrNoEntry, ErrNoMemory.
func (guard *Guard) Entry(at int) ([]byte, error) {
	var line []byte
	var failed error
	err := guard.do(func(its *C.fy_guard) {
		line, failed = appendEntry(nil, its, at)
	})
	if err == nil {
		err = failed
	}
	return line, err
}

// Audit answers what `faultyard check` reads: the header and the line of each entry.
//
// Its error is ErrClosed or ErrNoMemory.
func (guard *Guard) Audit() ([]byte, error) {
	audit := []byte(Header)
	var failed error
	err := guard.do(func(its *C.fy_guard) {
		count := int(C.fy_journal_len(its))
		for at := 0; at < count && failed == nil; at++ {
			audit, failed = appendEntry(audit, its, at)
		}
	})
	if err == nil {
		err = failed
	}
	if err != nil {
		return nil, err
	}
	return audit, nil
}

// appendEntry puts the line of an entry behind a text.
func appendEntry(text []byte, its *C.fy_guard, at int) ([]byte, error) {
	if at < 0 {
		return nil, ErrNoEntry
	}
	for room := C.size_t(usualLine); ; {
		line := make([]byte, room)
		status := C.fy_audit(its, C.size_t(at), pointerTo(line), room, &room)
		if status == C.FY_SHORT {
			continue
		}
		if err := errorOf(status); err != nil {
			return nil, err
		}
		return append(text, line[:room]...), nil
	}
}

// faultOf is the error of a text that is refused with a status. It is read again to say where.
func faultOf(text *C.uint8_t, length C.size_t, refused C.uint32_t) error {
	var part C.uint32_t
	var place C.uint64_t
	status := C.fy_config_fault(text, length, &part, &place)
	if status == C.FY_NO_MEMORY {
		return ErrNoMemory
	}
	return ConfigFault{Status(refused), Part(part), uint64(place)}
}

// errorOf is the error of a status; nil where the call did what it says.
func errorOf(status C.uint32_t) error {
	if status == C.FY_DONE {
		return nil
	}
	return Status(status)
}

// reportOf is the error of a status and, where the act is refused, of its refusal.
func reportOf(status, refusal C.uint32_t) error {
	if status == C.FY_REFUSED {
		return Refusal(refusal)
	}
	return errorOf(status)
}

// bytesOf is a text for the library, whose pointer is never null, and its length.
func bytesOf(text []byte) (*C.uint8_t, C.size_t) {
	if len(text) == 0 {
		return pointerTo([]byte{0}), 0
	}
	return pointerTo(text), C.size_t(len(text))
}

// pointerTo is a pointer to the first byte of a text that has one.
func pointerTo(text []byte) *C.uint8_t {
	return (*C.uint8_t)(unsafe.Pointer(&text[0]))
}
