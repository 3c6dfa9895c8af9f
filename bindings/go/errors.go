package faultyard

// #include <faultyard.h>
import "C"

import "fmt"

// Status is how a call ended that did not do what it says. It is an error:
//
//	if errors.Is(err, faultyard.ErrJournalFull) { .. }
//
// Unless it is ErrUnwritten, nothing changed.
type Status uint32

// The statuses.
const (
	// ErrNoMemory is: there was no memory.
	ErrNoMemory Status = C.FY_NO_MEMORY
	// ErrJournalFull is: the journal has as many entries as the cluster file allows.
	ErrJournalFull Status = C.FY_JOURNAL_FULL
	// ErrRefused is: the act is refused, and stands in the journal with its refusal. No call
	// answers it; each Refusal is it by errors.Is.
	ErrRefused Status = C.FY_REFUSED
	// ErrUnwritten is: the act is made and stands in the journal, but its line could not be
	// written. Entry reads it.
	ErrUnwritten Status = C.FY_UNWRITTEN
	// ErrNoEntry is: the journal has no entry at this place.
	ErrNoEntry Status = C.FY_NO_ENTRY
	// ErrArgument is: there is no such key, kind, set of kinds or floor, the members don't rise or
	// are too many, the payload is too long, no process has the number by which it is to be
	// killed, or a count of words is below 0. Each call says which of them it means.
	ErrArgument Status = C.FY_ARGUMENT
	// ErrName is: the value of the target is no name.
	ErrName Status = C.FY_NAME
	// ErrFloor is: the floor of the kill is above its kind.
	ErrFloor Status = C.FY_FLOOR
	// ErrLineTooLong is: the line has more than 65,536 bytes.
	ErrLineTooLong Status = C.FY_LINE_TOO_LONG
	// ErrLineSyntax is: the line is no command of a script, or no entry of an audit.
	ErrLineSyntax Status = C.FY_LINE_SYNTAX
	// ErrConfigTooLong is: the cluster file has more than 1,048,576 bytes. It and the next six are
	// answered by no call; each ConfigFault is its Status by errors.Is.
	ErrConfigTooLong Status = C.FY_CONFIG_TOO_LONG
	// ErrConfigToml is: the cluster file is no TOML document in UTF-8.
	ErrConfigToml Status = C.FY_CONFIG_TOML
	// ErrConfigField is: a key of the cluster file is missing, unknown or of another type, or a
	// word is none of those that may stand there.
	ErrConfigField Status = C.FY_CONFIG_FIELD
	// ErrConfigLimit is: a number or a length of the cluster file is outside its range.
	ErrConfigLimit Status = C.FY_CONFIG_LIMIT
	// ErrConfigName is: a text of the cluster file is no name, or names what is taken or isn't
	// there.
	ErrConfigName Status = C.FY_CONFIG_NAME
	// ErrConfigPolicy is: a text of the cluster file is no policy.
	ErrConfigPolicy Status = C.FY_CONFIG_POLICY
	// ErrConfigUnmet is: all processes of the cluster file together don't satisfy one of its
	// policies.
	ErrConfigUnmet Status = C.FY_CONFIG_UNMET
	// ErrClosed is: the guard is closed.
	ErrClosed Status = C.FY_CLOSED
	// ErrNoHeader is: the first line of the audit is no header of a version.
	ErrNoHeader Status = C.FY_NO_HEADER
	// ErrAuditTooLong is: the lines of the audit have more than 268,435,456 bytes together.
	ErrAuditTooLong Status = C.FY_AUDIT_TOO_LONG
	// ErrRefuted is: an entry of the audit isn't what the rules give. No call answers it; each
	// Refuted is it by errors.Is.
	ErrRefuted Status = C.FY_REFUTED
)

var statusTexts = []string{
	ErrNoMemory:    "there was no memory",
	ErrJournalFull: "the journal has as many entries as the cluster file allows",
	ErrRefused:     "the act is refused",
	ErrUnwritten:   "the act is made, but its line could not be written",
	ErrNoEntry:     "the journal has no entry at this place",
	ErrArgument: "there is no such key, kind or floor, or process to kill, members don't rise, " +
		"a payload is too long, or a count is below 0",
	ErrName:          "the value of the target is no name",
	ErrFloor:         "the floor of the kill is above its kind",
	ErrLineTooLong:   "the line has more than 65,536 bytes",
	ErrLineSyntax:    "the line is no command of a script, or no entry of an audit",
	ErrConfigTooLong: "the cluster file has more than 1,048,576 bytes",
	ErrConfigToml:    "the cluster file is no TOML document in UTF-8",
	ErrConfigField:   "a key of the cluster file is missing, unknown or wrong, or a word is unknown",
	ErrConfigLimit:   "a number or a length of the cluster file is outside its range",
	ErrConfigName:    "a text of the cluster file is no name, or names what is taken or isn't there",
	ErrConfigPolicy:  "a text of the cluster file is no policy",
	ErrConfigUnmet:   "all processes of the cluster file together don't satisfy one of its policies",
	ErrClosed:        "the guard is closed",
	ErrNoHeader:      "the first line of the audit is no header of a version",
	ErrAuditTooLong:  "the lines of the audit have more than 268,435,456 bytes together",
	ErrRefuted:       "an entry of the audit isn't what the rules give",
}

// Error says what the status means.
func (status Status) Error() string {
	return "faultyard: " + wordOf("status", statusTexts, uint32(status))
}

// Refuted is an audit with an entry that isn't what the rules give. It is an error, and ErrRefuted.
type Refuted struct {
	// Entry is the place of the first such entry, from 0.
	Entry uint32
}

// Error says which entry it is.
func (refuted Refuted) Error() string {
	return fmt.Sprintf("faultyard: entry %d of the audit isn't what the rules give", refuted.Entry)
}

// Unwrap says that it is ErrRefuted.
func (refuted Refuted) Unwrap() error {
	return ErrRefuted
}

// ConfigFault is why a text is no cluster file, and where. It is an error, and so is its Status:
//
//	var fault faultyard.ConfigFault
//	if errors.As(err, &fault) { .. fault.Part, fault.Place .. }
//	if errors.Is(err, faultyard.ErrConfigName) { .. } // wherever it is
type ConfigFault struct {
	// Status is one of ErrConfigTooLong to ErrConfigUnmet.
	Status Status
	// Part is the part of the cluster file that the fault is in.
	Part Part
	// Place is its place there, from 0: that of the process, actor or protection of
	// ErrConfigName, that of the policy of ErrConfigPolicy and ErrConfigUnmet, and else 0.
	Place uint64
}

// Error is the fault line of `faultyard run`, and what it means.
func (fault ConfigFault) Error() string {
	line := wordOf("config", faultWords, uint32(fault.Status))
	switch fault.Status {
	case ErrConfigField, ErrConfigLimit:
		line = fmt.Sprintf("%s %v", line, fault.Part)
	case ErrConfigName:
		line = fmt.Sprintf("%s %v %d", line, fault.Part, fault.Place)
	case ErrConfigPolicy, ErrConfigUnmet:
		line = fmt.Sprintf("%s %d", line, fault.Place)
	}
	meaning := wordOf("status", statusTexts, uint32(fault.Status))
	return fmt.Sprintf("faultyard: config: %s: %s", line, meaning)
}

// Unwrap says that the fault is its Status.
func (fault ConfigFault) Unwrap() error {
	return fault.Status
}

var faultWords = []string{
	ErrConfigTooLong: "TooLong",
	ErrConfigToml:    "Toml",
	ErrConfigField:   "Field",
	ErrConfigLimit:   "Limit",
	ErrConfigName:    "Name",
	ErrConfigPolicy:  "Policy",
	ErrConfigUnmet:   "PolicyUnmet",
}

// Refusal is why an act is refused; the act stands in the journal with it. It is an error:
//
//	if errors.Is(err, faultyard.RefusalIsUp) { .. }
//	if errors.Is(err, faultyard.ErrRefused) { .. } // whatever the reason is
type Refusal uint32

// The refusals.
const (
	RefusalStranger     Refusal = C.FY_STRANGER
	RefusalWrongRole    Refusal = C.FY_WRONG_ROLE
	RefusalTooMany      Refusal = C.FY_TOO_MANY
	RefusalNoPolicy     Refusal = C.FY_NO_POLICY
	RefusalNoProcess    Refusal = C.FY_NO_PROCESS
	RefusalGone         Refusal = C.FY_GONE
	RefusalTeamShort    Refusal = C.FY_TEAM_SHORT
	RefusalNoTeam       Refusal = C.FY_NO_TEAM
	RefusalPayload      Refusal = C.FY_PAYLOAD
	RefusalNetFull      Refusal = C.FY_NET_FULL
	RefusalNoMessage    Refusal = C.FY_NO_MESSAGE
	RefusalClogged      Refusal = C.FY_CLOGGED
	RefusalNotUp        Refusal = C.FY_NOT_UP
	RefusalNoRecord     Refusal = C.FY_NO_RECORD
	RefusalNotMember    Refusal = C.FY_NOT_MEMBER
	RefusalAcked        Refusal = C.FY_ACKED
	RefusalIsUp         Refusal = C.FY_IS_UP
	RefusalClockEnd     Refusal = C.FY_CLOCK_END
	RefusalNoActor      Refusal = C.FY_NO_ACTOR
	RefusalFull         Refusal = C.FY_FULL
	RefusalNoSuch       Refusal = C.FY_NO_SUCH
	RefusalNoCopy       Refusal = C.FY_NO_COPY
	RefusalIsMember     Refusal = C.FY_IS_MEMBER
	RefusalNotDestroyed Refusal = C.FY_NOT_DESTROYED
	RefusalStillNeeds   Refusal = C.FY_STILL_NEEDS
)

var refusalWords = []string{
	RefusalStranger:     "Stranger",
	RefusalWrongRole:    "WrongRole",
	RefusalTooMany:      "TooMany",
	RefusalNoPolicy:     "NoPolicy",
	RefusalNoProcess:    "NoProcess",
	RefusalGone:         "Gone",
	RefusalTeamShort:    "TeamShort",
	RefusalNoTeam:       "NoTeam",
	RefusalPayload:      "Payload",
	RefusalNetFull:      "NetFull",
	RefusalNoMessage:    "NoMessage",
	RefusalClogged:      "Clogged",
	RefusalNotUp:        "NotUp",
	RefusalNoRecord:     "NoRecord",
	RefusalNotMember:    "NotMember",
	RefusalAcked:        "Acked",
	RefusalIsUp:         "IsUp",
	RefusalClockEnd:     "ClockEnd",
	RefusalNoActor:      "NoActor",
	RefusalFull:         "Full",
	RefusalNoSuch:       "NoSuch",
	RefusalNoCopy:       "NoCopy",
	RefusalIsMember:     "IsMember",
	RefusalNotDestroyed: "NotDestroyed",
	RefusalStillNeeds:   "StillNeeds",
}

// String is the word of audits, which docs/FORMATS.md explains.
func (refusal Refusal) String() string {
	return wordOf("Refusal", refusalWords, uint32(refusal))
}

// Error says that the act is refused, and why.
func (refusal Refusal) Error() string {
	return "faultyard: the act is refused: " + refusal.String()
}

// Is says that each refusal is ErrRefused.
func (refusal Refusal) Is(target error) bool {
	return target == ErrRefused
}
