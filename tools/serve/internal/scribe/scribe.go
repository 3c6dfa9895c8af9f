// Package scribe has a guard for tests. It enters whatever looks like an act, and answers "done".
package scribe

import (
	"encoding/json"
	"fmt"
	"strings"
	"sync"
)

// Scribe enters acts, up to Most. It is no guard of a cluster: it bars nothing, and takes lines
// alone that have the actor first.
type Scribe struct {
	Most    int
	lock    sync.Mutex
	entries [][]byte
}

// Act enters the act of a line, or says in a word why it doesn't.
func (its *Scribe) Act(line []byte) (entry []byte, fault string) {
	its.lock.Lock()
	defer its.lock.Unlock()
	text := strings.TrimSuffix(string(line), "\n")
	if len(text) > 65_536 {
		return nil, "TooLong"
	}
	var by int
	if _, err := fmt.Sscanf(text, `{"by":%d,"act":{`, &by); err != nil {
		return nil, "Syntax"
	}
	if len(its.entries) == its.Most {
		return nil, "JournalFull"
	}
	act := text[strings.Index(text, `"act":`)+len(`"act":`) : len(text)-1]
	const form = `{"act":%s,"at":%d,"by":%d,"reply":"done"}` + "\n"
	made := fmt.Sprintf(form, act, len(its.entries), by)
	its.entries = append(its.entries, []byte(made))
	return []byte(made), ""
}

// told is what is told to questions about two processes that nothing ever strikes.
var told = map[string]string{
	`{"cluster":{}}`: `{"cluster":{"actor":[],"entries":0,"journal_limit":%d,"policies":[],` +
		`"process":[{"data_hall":null,"dcid":null,"machineid":"m0","processid":"p0","zoneid":"z0"},` +
		`{"data_hall":null,"dcid":null,"machineid":"m1","processid":"p1","zoneid":"z1"}]}}`,
	`{"state":{}}`: `{"state":{"now":0,"processes":[{"clogged":null,"destroyed":false,"down":false,` +
		`"gone":false,"protected":[],"up":true},{"clogged":null,"destroyed":false,"down":false,` +
		`"gone":false,"protected":[],"up":true}]}}`,
	`{"bears":{}}`: `{"bears":{"processes":2,"destroyed":[],"gone":[],"down":[],"losses":[],` +
		`"warnings":[]}}`,
	`{"targets":{"key":"processid","value":"p1"}}`: `{"targets":[1]}`,
	`{"killable":{"actor":1}}`:                     `{"killable":[null,null]}`,
	`{"state":{"process":2}}`:                      `{"no":["NoProcess"]}`,
	`{"record":{"record":0}}`:                      `{"no":["NoRecord"]}`,
	`{"needed":{"process":0}}`:                     `{"needed":null}`,
	`{"sight":{}}`:                                 `{"sight":{"now":%d}}`,
	`{"judge":{"act":{"clog":{"key":"zoneid","value":"z1"}},"by":1}}`: `{"ruled":null}`,
}

// Ask tells what is asked about them, or says in a word why it doesn't.
func (its *Scribe) Ask(line []byte) (answer []byte, fault string) {
	if len(strings.TrimSuffix(string(line), "\n")) > 65_536 {
		return nil, "TooLong"
	}
	var question map[string]any
	err := json.Unmarshal(line, &question)
	spelled, _ := json.Marshal(question["ask"])
	form, is := told[string(spelled)]
	if err != nil || !is || len(question) > 1 {
		return nil, "Syntax"
	}
	if strings.Contains(form, "%d") {
		form = fmt.Sprintf(form, its.Most)
	}
	return []byte(`{"told":` + form + "}\n"), ""
}

// Entry is the line of an entry.
func (its *Scribe) Entry(at int) ([]byte, error) {
	its.lock.Lock()
	defer its.lock.Unlock()
	return its.entries[at], nil
}
