package faultyard_tests

import (
	"bytes"
	"errors"
	"fmt"
	"strings"
	"testing"

	"faultyard"
)

// begun is a check that is closed when the test ends.
func begun(t *testing.T) *faultyard.Check {
	t.Helper()
	check, err := faultyard.BeginCheck(six(t))
	if err != nil {
		t.Fatal(err)
	}
	t.Cleanup(func() { _ = check.Close() })
	return check
}

// reads says that a line is read, with this first bad entry so far.
func reads(t *testing.T, check *faultyard.Check, line []byte, wanted uint32) {
	t.Helper()
	bad, err := check.Line(line)
	equal(t, err, nil)
	equal(t, bad, wanted)
}

// refuses says that a line is refused by this error.
func refuses(t *testing.T, check *faultyard.Check, line string, wanted error) {
	t.Helper()
	_, err := check.Line([]byte(line))
	fails(t, err, wanted)
}

// finds says what is found.
func finds(t *testing.T, check *faultyard.Check, count, bad uint32) {
	t.Helper()
	finding, err := check.Finding()
	equal(t, err, nil)
	equal(t, finding, faultyard.Finding{Count: count, FirstBad: bad})
}

// twoZones is a guard whose second kill is lessened to a reboot, and the lines of both.
func twoZones(t *testing.T) [][]byte {
	t.Helper()
	guard := opened(t, six(t))
	for _, zone := range []string{"z0", "z1"} {
		kill(t, guard, 1, faultyard.Order{
			Key: faultyard.Zone, Value: zone,
			Kind: faultyard.KillInstantly, Floor: faultyard.Reboot,
		})
	}
	audit, err := guard.Audit()
	equal(t, err, nil)
	return bytes.SplitAfter(audit, []byte("\n"))[:3]
}

// TestCheck finds the audit of a guard legal, and a reply that goes too far bad.
func TestCheck(t *testing.T) {
	lines, check := twoZones(t), begun(t)
	for _, line := range lines {
		reads(t, check, line, faultyard.NoBadEntry)
	}
	finds(t, check, 2, faultyard.NoBadEntry)
	check = begun(t)
	reads(t, check, []byte(faultyard.Header), faultyard.NoBadEntry)
	reads(t, check, lines[1], faultyard.NoBadEntry)
	struck := []byte(`"struck":"Reboot"`)
	equal(t, bytes.Count(lines[2], struck), 1)
	bad := bytes.Replace(lines[2], struck, []byte(`"struck":"KillInstantly"`), 1)
	reads(t, check, bad, 1)
	tick := `{"act":{"tick":{"ticks":1}},"at":2,"by":0,"reply":{"time":1}}`
	reads(t, check, []byte(tick+"\n"), 1)
	finds(t, check, 3, 1)
}

// TestCheckFaults meets each error: the line counts as not read.
func TestCheckFaults(t *testing.T) {
	lines, check := twoZones(t), begun(t)
	_, err := check.Finding()
	fails(t, err, faultyard.ErrNoHeader)
	for _, line := range []string{"", "\n", `{"audit":2}`, "{\"audit\":3}\n"} {
		refuses(t, check, line, faultyard.ErrNoHeader)
	}
	reads(t, check, lines[0], faultyard.NoBadEntry)
	first := string(lines[1])
	for _, line := range []string{
		"", "\n", faultyard.Header, strings.TrimSuffix(first, "\n"), string(lines[2]),
		first + string(lines[2]),
	} {
		refuses(t, check, line, faultyard.ErrLineSyntax)
	}
	refuses(t, check, strings.Repeat(" ", 65_537), faultyard.ErrLineTooLong)
	finds(t, check, 0, faultyard.NoBadEntry)
	reads(t, check, lines[1], faultyard.NoBadEntry)
	equal(t, check.Close(), nil)
	fails(t, check.Close(), faultyard.ErrClosed)
	refuses(t, check, first, faultyard.ErrClosed)
	_, err = check.Finding()
	fails(t, err, faultyard.ErrClosed)
	var none *faultyard.Check
	fails(t, none.Close(), faultyard.ErrClosed)
	refuses(t, none, first, faultyard.ErrClosed)
}

// TestCheckOfAClusterFile meets the fault of a cluster file.
func TestCheckOfAClusterFile(t *testing.T) {
	_, err := faultyard.BeginCheck(sixWith(t, `processid = "p1"`, `processid = "p0"`))
	var fault faultyard.ConfigFault
	equal(t, errors.As(err, &fault), true)
	equal(t, fault, faultyard.ConfigFault{
		Status: faultyard.ErrConfigName, Part: faultyard.PartProcess, Place: 1,
	})
}

// TestLongAudit reads long lines, until there are more bytes than an audit may have.
func TestLongAudit(t *testing.T) {
	check := begun(t)
	reads(t, check, []byte(faultyard.Header), faultyard.NoBadEntry)
	front := `{"act":{"begin":{"payload":"` + strings.Repeat("a", 65_000)
	for at, length := 0, len(faultyard.Header); ; at++ {
		line := front + fmt.Sprintf(
			"\",\"team\":0}},\"at\":%d,\"by\":9,\"reply\":{\"no\":[\"NoTeam\"]}}\n", at)
		length += len(line)
		if length > 268_435_456 {
			refuses(t, check, line, faultyard.ErrAuditTooLong)
			return
		}
		reads(t, check, []byte(line), 0)
	}
}
