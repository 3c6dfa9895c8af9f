package main

import (
	"bytes"
	"errors"
	"fmt"
	"strings"

	"faultyard"
	"faultyard-serve/internal/book"
)

// The statuses by which the server ends, which are those of the program, and one of its own.
const (
	ended    = 0
	refused  = 1
	usage    = 2
	ioFailed = 3
	noMemory = 4
	badEntry = 5
	broken   = 6 // a panic: the server is at fault
)

// failure is why the server ends, and its status.
type failure struct {
	status int
	why    string
}

func (failure failure) Error() string { return failure.why }

// library is a guard of the C library, as a book asks it.
type library struct{ *faultyard.Guard }

var faults = map[error]book.Fault{
	faultyard.ErrLineTooLong: book.TooLong,
	faultyard.ErrLineSyntax:  book.Syntax,
	faultyard.ErrFloor:       book.Floor,
	faultyard.ErrJournalFull: book.JournalFull,
}

// Act makes an act. A line that the library refuses is a book.Fault. The library takes it without
// its line feed: with it the line is a byte longer, and is read as a JSON value, which takes
// longer.
func (its library) Act(text, line []byte) ([]byte, error) {
	text, err := its.Guard.AppendAct(text, bytes.TrimSuffix(line, []byte("\n")))
	return text, ofLine(err)
}

// Ask answers a question. A line that the library refuses is a book.Fault.
func (its library) Ask(line []byte) ([]byte, error) {
	told, err := its.Guard.Ask(line)
	return told, ofLine(err)
}

// ofLine is an error of the library about a line.
func ofLine(err error) error {
	if fault, is := faults[err]; is {
		return fault
	}
	return ofLibrary(err)
}

// ofLibrary is an error of the library as the server ends by it.
func ofLibrary(err error) error {
	var fault faultyard.ConfigFault
	switch {
	case errors.As(err, &fault):
		return failure{refused, strings.TrimPrefix(fault.Error(), "faultyard: ")}
	case errors.Is(err, faultyard.ErrNoMemory), errors.Is(err, faultyard.ErrUnwritten):
		return failure{noMemory, "no memory"}
	}
	return err
}

// ofAudit is why no guard goes on with an audit, in the words of `faultyard check`: a faulty line
// is told before a bad entry, wherever it stands.
func ofAudit(config, audit []byte, err error) error {
	_, isFault := auditFaults[err]
	if !isFault && err != faultyard.ErrAuditTooLong && !errors.Is(err, faultyard.ErrRefuted) {
		return ofLibrary(err)
	}
	if err := check(config, audit); err != nil {
		return err
	}
	// It is of an earlier version, which `check` takes.
	return book.Refusal{Status: refused, Why: "audit: line 1: Header"}
}

// check refuses an audit as `faultyard check` does.
func check(config, audit []byte) error {
	check, err := faultyard.BeginCheck(config)
	if err != nil {
		return ofLibrary(err)
	}
	defer check.Close()
	for number := 1; len(audit) > 0 || number == 1; number++ {
		length := bytes.IndexByte(audit, '\n') + 1
		if length == 0 {
			length = len(audit)
		}
		if _, err := check.Line(audit[:length]); err != nil {
			return ofAuditLine(err, number)
		}
		audit = audit[length:]
	}
	return found(check)
}

var auditFaults = map[error]string{
	faultyard.ErrNoHeader:    "Header",
	faultyard.ErrLineTooLong: "TooLong",
	faultyard.ErrLineSyntax:  "Syntax",
}

// ofAuditLine is why a line of an audit is refused.
func ofAuditLine(err error, number int) error {
	if word, is := auditFaults[err]; is {
		return book.Refusal{Status: refused, Why: fmt.Sprintf("audit: line %d: %s", number, word)}
	}
	if err == faultyard.ErrAuditTooLong {
		return book.Refusal{Status: refused, Why: "audit: TooLong"}
	}
	return ofLibrary(err)
}

// found is the first bad entry of an audit that was read to its end, or nil.
func found(check *faultyard.Check) error {
	finding, err := check.Finding()
	if err != nil {
		return ofLibrary(err)
	}
	if finding.FirstBad == faultyard.NoBadEntry {
		return nil
	}
	return book.Refusal{Status: badEntry, Why: fmt.Sprintf("bad entry %d", finding.FirstBad)}
}
