package faultyard

// #include <faultyard.h>
import "C"

import (
	"encoding/json"
	"fmt"
)

// Ask asks any question, given as its line, and answers the line of what is told, which ends with a
// line feed. docs/FORMATS.md has the questions. Nothing changes.
//
// Its error is the first of ErrClosed, ErrLineTooLong, ErrLineSyntax, ErrFloor; ErrNoMemory may
// take the place of any but the first two.
func (guard *Guard) Ask(line []byte) ([]byte, error) {
	asked, length := bytesOf(line)
	var told []byte
	var status C.uint32_t
	err := guard.do(func(its *C.fy_guard) {
		status, guard.told = C.FY_SHORT, usualLine
		for status == C.FY_SHORT {
			told = make([]byte, guard.told)
			status = C.fy_ask(its, asked, length, pointerTo(told), C.size_t(len(told)), &guard.told)
		}
		length = guard.told
	})
	if err == nil {
		err = errorOf(status)
	}
	if err != nil {
		return nil, err
	}
	return told[:length], nil
}

// Cluster is what the cluster file says, with its grants as they are now.
type Cluster struct {
	Actors       []Actor  `json:"actor"`
	Entries      int      `json:"entries"` // of the journal
	JournalLimit int      `json:"journal_limit"`
	Policies     []string `json:"policies"`
	Processes    []Place  `json:"process"`
}

// Actor is an actor of a cluster: its role, and what it is granted.
type Actor struct {
	Role   string `json:"role"`
	Grants []struct {
		Kinds []string        `json:"kinds"`
		Scope json.RawMessage `json:"scope"` // as audits have it
	} `json:"grants"`
}

// Place is where a process stands. What it doesn't have is empty.
type Place struct {
	Process    string `json:"processid"`
	Machine    string `json:"machineid"`
	Zone       string `json:"zoneid"`
	DataHall   string `json:"data_hall"`
	DataCenter string `json:"dcid"`
}

// ProcessState is the state of a process, and what bars acts on it.
type ProcessState struct {
	// Clogged is until when its messages are held back, or nil.
	Clogged   *uint64 `json:"clogged"`
	Destroyed bool    `json:"destroyed"`
	// Down is: it is neither up nor gone.
	Down bool `json:"down"`
	Gone bool `json:"gone"`
	// Protected are the kinds that are barred on it, for every actor.
	Protected []string `json:"protected"`
	Up        bool     `json:"up"`
}

// Record is what became of a record.
type Record struct {
	Acked bool `json:"acked"`
	// Keeper is, once it is acknowledged, the least member of its team that keeps it.
	Keeper *uint32 `json:"keeper"`
	// Synced are the processes that have it synced.
	Synced []uint32 `json:"synced"`
	Team   uint32   `json:"team"`
}

// Cluster answers what the cluster file says. Its error is ErrClosed or ErrNoMemory.
func (guard *Guard) Cluster() (Cluster, error) {
	var told struct{ Cluster Cluster }
	err := guard.read(`{"ask":{"cluster":{}}}`, &told)
	return told.Cluster, err
}

// States answers the state of each process, by its number. Its error is ErrClosed or ErrNoMemory.
func (guard *Guard) States() ([]ProcessState, error) {
	var told struct {
		State struct{ Processes []ProcessState }
	}
	err := guard.read(`{"ask":{"state":{}}}`, &told)
	return told.State.Processes, err
}

// Record answers what became of a record, or nil where there is none with this number. Its error is
// ErrClosed or ErrNoMemory.
func (guard *Guard) Record(record uint32) (*Record, error) {
	var told struct{ Record *Record }
	err := guard.read(fmt.Sprintf(`{"ask":{"record":{"record":%d}}}`, record), &told)
	return told.Record, err
}

// read reads what is told to the line of a question.
func (guard *Guard) read(line string, into any) error {
	text, err := guard.Ask([]byte(line))
	if err != nil {
		return err
	}
	return json.Unmarshal(text, &struct{ Told any }{into})
}
