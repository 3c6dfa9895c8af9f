package faultyard

// #include <faultyard.h>
import "C"

import (
	"runtime"
	"sync"
)

// NoBadEntry stands for an entry where none is bad.
const NoBadEntry uint32 = C.FY_NO_BAD_ENTRY

// Check is an audit that is checked line by line, as `faultyard check` does. Goroutines may share
// it: a mutex puts their calls in order.
type Check struct {
	lock    sync.Mutex
	library C.fy_check // its pointer is nil once it is closed
}

// BeginCheck begins to check an audit of a cluster that began with this cluster file, given as its
// text. Its errors are as Open's.
func BeginCheck(config []byte) (*Check, error) {
	check := new(Check)
	text, length := bytesOf(config)
	status := C.fy_begin_check(text, length, &check.library)
	if C.FY_CONFIG_TOO_LONG <= status && status <= C.FY_CONFIG_UNMET {
		return nil, faultOf(text, length, status)
	}
	if err := errorOf(status); err != nil {
		return nil, err
	}
	// A check that nobody closed and nobody can reach is freed too.
	runtime.SetFinalizer(check, func(check *Check) { C.fy_end_check(check.library) })
	return check, nil
}

// do makes a call of the library in its turn.
func (check *Check) do(call func(*C.fy_check)) error {
	if check == nil {
		return ErrClosed
	}
	check.lock.Lock()
	defer check.lock.Unlock()
	if check.library.at == nil {
		return ErrClosed
	}
	call(&check.library)
	return nil
}

// Close frees what the check holds. Each later call answers ErrClosed, as does a second Close, and
// each call of a nil check.
func (check *Check) Close() error {
	return check.do(func(its *C.fy_check) {
		runtime.SetFinalizer(check, nil)
		C.fy_end_check(*its)
		its.at = nil
	})
}

// Line reads the next line, which ends with a line feed: the header, and then an entry each time.
// It answers the place of the first entry so far that isn't what the rules give, from 0, or
// NoBadEntry. Behind a bad entry lines are read for their faults alone.
//
// Its error is the first of ErrClosed, ErrAuditTooLong, ErrNoHeader, ErrLineTooLong, ErrLineSyntax;
// ErrNoMemory may take the place of the last. The line counts as not read then.
func (check *Check) Line(line []byte) (uint32, error) {
	text, length := bytesOf(line)
	var status, firstBad C.uint32_t
	err := check.do(func(its *C.fy_check) {
		status = C.fy_read_line(its, text, length, &firstBad)
	})
	if err == nil {
		err = errorOf(status)
	}
	if err != nil {
		return NoBadEntry, err
	}
	return uint32(firstBad), nil
}

// Finding is what is found of an audit.
type Finding struct {
	// Count is how many entries were read.
	Count uint32
	// FirstBad is the place of the first that isn't what the rules give, from 0, or NoBadEntry.
	FirstBad uint32
}

// Finding answers what is found of the lines that were read; the check goes on. Its error is the
// first of ErrClosed, ErrNoHeader.
func (check *Check) Finding() (Finding, error) {
	var status, count, firstBad C.uint32_t
	err := check.do(func(its *C.fy_check) {
		status = C.fy_finding(its, &count, &firstBad)
	})
	if err == nil {
		err = errorOf(status)
	}
	if err != nil {
		return Finding{FirstBad: NoBadEntry}, err
	}
	return Finding{uint32(count), uint32(firstBad)}, nil
}
