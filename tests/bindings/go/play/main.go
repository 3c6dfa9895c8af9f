// Command play plays acts through the Go binding, and tells each answer.
//
//	play CONFIG AUDIT < acts > answers
//
// tests/bindings/python/played.py says what stands on each line of both. The audit goes to AUDIT.
package main

import (
	"bufio"
	"bytes"
	"encoding/hex"
	"errors"
	"fmt"
	"io"
	"log"
	"os"
	"strconv"
	"strings"

	"faultyard"
)

func main() {
	log.SetFlags(0)
	if len(os.Args) != 3 {
		log.Fatal("usage: play CONFIG AUDIT")
	}
	config, err := os.ReadFile(os.Args[1])
	must(err)
	guard, err := faultyard.Open(config)
	must(err)
	must(play(guard, os.Stdin, os.Stdout))
	audit, err := guard.Audit()
	must(err)
	must(os.WriteFile(os.Args[2], audit, 0o644))
	must(guard.Close())
}

func must(err error) {
	if err != nil {
		log.Fatal(err)
	}
}

// play makes the act of each line, and writes a line for each.
func play(guard *faultyard.Guard, acts io.Reader, answers io.Writer) error {
	lines := bufio.NewScanner(acts)
	out := bufio.NewWriter(answers)
	for lines.Scan() {
		answer, err := answered(guard, lines.Text())
		var refusal faultyard.Refusal
		var refused faultyard.Refused
		if errors.As(err, &refused) {
			answer = fmt.Sprintf("refused %s %d", refused.Refusal.String(), refused.Named)
		} else if errors.As(err, &refusal) {
			answer = "refused " + refusal.String()
		} else if err != nil {
			return err
		}
		destroyed, left, err := losses(guard)
		if err != nil {
			return err
		}
		fmt.Fprintf(out, "%s\t%s\t%d\n", answer, destroyed, left)
	}
	if err := lines.Err(); err != nil {
		return err
	}
	return out.Flush()
}

// answered makes the act of a line, and answers what its call did.
func answered(guard *faultyard.Guard, line string) (string, error) {
	name, rest, _ := strings.Cut(line, "\t")
	if name == "act" {
		entry, err := guard.Act([]byte(rest))
		return string(bytes.TrimSuffix(entry, []byte("\n"))), err
	}
	words := strings.Split(rest, "\t")
	actor := number(words[0])
	switch name {
	case "kill":
		return killed(guard, actor, words[1:])
	case "up":
		return "done", guard.Up(actor, number(words[1]))
	case "heal":
		return "done", guard.Heal(actor, number(words[1]))
	case "clog":
		ruling, err := guard.Clog(actor, keys[words[1]], words[2], large(words[3]))
		return ruled(ruling), err
	case "unclog":
		ruling, err := guard.Unclog(actor, keys[words[1]], words[2])
		return ruled(ruling), err
	case "give", "take", "protect", "unprotect":
		return "done", allow(guard, name, actor, words[1:])
	}
	return stored(guard, name, actor, words[1:])
}

// stored makes an act of a storage actor by numbers, and answers what its call did.
func stored(
	guard *faultyard.Guard, name string, actor uint32, words []string,
) (string, error) {
	switch name {
	case "form":
		team, err := guard.Form(actor, numbers(words[0]), number(words[1]))
		return fmt.Sprintf("formed %d", team), err
	case "begin":
		payload, err := hex.DecodeString(words[1])
		must(err)
		begun, err := guard.Begin(actor, number(words[0]), payload)
		return fmt.Sprintf("begun %d %d", begun.Record, begun.First), err
	case "deliver":
		delivered, err := guard.Deliver(actor, large(words[0]))
		if !delivered.Marked {
			return "stored", err
		}
		return fmt.Sprintf("marked %v", delivered.Acked), err
	case "lose":
		return "done", guard.Lose(actor, large(words[0]))
	case "resend":
		message, err := guard.Resend(actor, number(words[0]), number(words[1]))
		return fmt.Sprintf("sent %d", message), err
	case "sync":
		synced, err := guard.Sync(actor, number(words[0]))
		return fmt.Sprintf("synced %d %d", synced.Count, synced.First), err
	case "tick":
		now, err := guard.Tick(actor, large(words[0]))
		return fmt.Sprintf("time %d", now), err
	case "copy":
		message, err := guard.Copy(actor, number(words[0]), number(words[1]), number(words[2]))
		return fmt.Sprintf("sent %d", message), err
	case "replace":
		return "done", guard.Replace(actor, number(words[0]), number(words[1]), number(words[2]))
	}
	return "", fmt.Errorf("there is no act %s", name)
}

// allow makes an act on rights by numbers.
func allow(guard *faultyard.Guard, name string, actor uint32, words []string) error {
	whom, second := number(words[0]), number(words[1])
	switch name {
	case "take":
		return guard.Take(actor, whom, second)
	case "protect":
		return guard.Protect(actor, whom, faultyard.Kinds(second))
	case "unprotect":
		return guard.Unprotect(actor, whom, faultyard.Kinds(second))
	}
	scope := faultyard.Scope{Key: faultyard.Everyone}
	if words[2] != "-" {
		scope = faultyard.Scope{Key: keys[words[2]], Value: words[3]}
	}
	return guard.Give(actor, whom, faultyard.Kinds(second), scope)
}

// ruled tells a ruling.
func ruled(ruling faultyard.Ruling) string {
	switch ruling.Rule {
	case faultyard.NoRule:
		return "ruled - -"
	case faultyard.NoTarget:
		return "ruled NoTarget -"
	}
	return fmt.Sprintf("ruled %v %d", ruling.Rule, ruling.Named)
}

func killed(guard *faultyard.Guard, actor uint32, words []string) (string, error) {
	tear, err := strconv.ParseUint(words[4], 10, 64)
	if err != nil {
		return "", err
	}
	verdict, err := guard.Kill(actor, faultyard.Order{
		Key:   keys[words[0]],
		Value: words[1],
		Kind:  kinds[words[2]],
		Floor: kinds[words[3]],
		Tear:  tear,
	})
	struck, rule, named := "-", "-", "-"
	if verdict.Struck != faultyard.None {
		struck = verdict.Struck.String()
	}
	if verdict.Rule != faultyard.NoRule {
		rule = verdict.Rule.String()
	}
	if verdict.Rule > faultyard.NoTarget {
		named = strconv.FormatUint(verdict.Named, 10)
	}
	return fmt.Sprintf("verdict %s %s %s", struck, rule, named), err
}

// losses are a digit for each of seven processes, 1 where it is destroyed, and the set of those
// that aren't gone.
func losses(guard *faultyard.Guard) (string, uint64, error) {
	destroyed := ""
	for process := uint32(0); process < 7; process++ {
		is, err := guard.IsDestroyed(process)
		if err != nil {
			return "", 0, err
		}
		if is {
			destroyed += "1"
		} else {
			destroyed += "0"
		}
	}
	left, err := guard.Left()
	set := uint64(0)
	for _, process := range left {
		set |= 1 << process
	}
	return destroyed, set, err
}

var keys = map[string]faultyard.Key{
	"processid": faultyard.Process,
	"machineid": faultyard.Machine,
	"zoneid":    faultyard.Zone,
	"data_hall": faultyard.DataHall,
	"dcid":      faultyard.DataCenter,
}

var kinds = map[string]faultyard.Kind{
	"RebootProcess":   faultyard.RebootProcess,
	"Reboot":          faultyard.Reboot,
	"RebootAndDelete": faultyard.RebootAndDelete,
	"KillInstantly":   faultyard.KillInstantly,
}

// numbers are those that commas part.
func numbers(words string) []uint32 {
	var found []uint32
	for _, word := range strings.Split(words, ",") {
		if word != "" {
			found = append(found, number(word))
		}
	}
	return found
}

func large(word string) uint64 {
	found, err := strconv.ParseUint(word, 10, 64)
	must(err)
	return found
}

func number(word string) uint32 {
	found, err := strconv.ParseUint(word, 10, 32)
	must(err)
	return uint32(found)
}
