package book

import (
	"bytes"
	"encoding/json"
	"regexp"
	"sort"
)

var (
	onceMember = []byte(`"once"`)
	onceEnd    = []byte(`nce"`)
	onceNames  = regexp.MustCompile(`^[A-Za-z0-9_.:-]{1,64}$`)
)

// asked is an act as the guard is asked for it, and its key.
type asked struct {
	line []byte
	// once is the key of the act behind the number of its actor, or nothing.
	once string
}

// readAsk takes the key out of a line. Whatever else may be wrong with it, the guard says.
func readAsk(ask Ask) (asked, Fault) {
	if ask.Once == "" && !mayHaveOnce(ask.Line) {
		return asked{line: ask.Line}, ""
	}
	var members map[string]json.RawMessage
	if json.Unmarshal(ask.Line, &members) != nil {
		return asked{line: ask.Line}, ""
	}
	key := ask.Once
	if member, has := members["once"]; has {
		if json.Unmarshal(member, &key) != nil || !onceNames.MatchString(key) {
			return asked{}, OnceName
		}
		if ask.Once != "" && ask.Once != key {
			return asked{}, OnceName
		}
		delete(members, "once")
	}
	if key == "" {
		return asked{line: ask.Line}, ""
	}
	if !onceNames.MatchString(key) {
		return asked{}, OnceName
	}
	line, err := ByFirst(members)
	if err != nil {
		return asked{}, Syntax
	}
	return asked{line: line, once: string(members["by"]) + " " + key}, ""
}

// mayHaveOnce says whether a line may have a member `once`. Its end is looked for first: the member
// begins as each name and text of a line does, and most lines don't have that end anywhere.
func mayHaveOnce(line []byte) bool {
	return bytes.Contains(line, onceEnd) && bytes.Contains(line, onceMember)
}

// places are those of the members of an act in a line that the guard reads in one pass. Any other
// member comes behind them, for the guard to refuse.
var places = map[string]int{"by": -2, "act": -1}

// ByFirst is the line that has these members, the actor before the act.
func ByFirst(members map[string]json.RawMessage) ([]byte, error) {
	names := make([]string, 0, len(members))
	for name := range members {
		names = append(names, name)
	}
	sort.Slice(names, func(i, j int) bool {
		one, other := places[names[i]], places[names[j]]
		return one < other || one == other && names[i] < names[j]
	})
	var line bytes.Buffer
	line.WriteByte('{')
	for place, name := range names {
		quoted, err := json.Marshal(name)
		if err != nil {
			return nil, err
		}
		if place > 0 {
			line.WriteByte(',')
		}
		line.Write(quoted)
		line.WriteByte(':')
		if err := json.Compact(&line, members[name]); err != nil {
			return nil, err
		}
	}
	line.WriteByte('}')
	return line.Bytes(), nil
}

// IsOnce says whether a text may be the key of an act.
func IsOnce(key string) bool { return onceNames.MatchString(key) }

// mostReply is how many bytes the line of an entry has at most more than that of its act.
const mostReply = 128

// fits says whether the entry of a line is no longer than a line of an audit. An entry has no
// blanks.
func fits(line []byte) bool {
	if len(line)+mostReply <= mostLine {
		return true
	}
	var compact bytes.Buffer
	if json.Compact(&compact, line) != nil {
		return true // There won't be any.
	}
	return compact.Len()+mostReply <= mostLine
}

// made says whether the entry of a line is that of this act.
func (asked asked) made(entry []byte) bool {
	return canonical(asked.line) == canonical(entry)
}

// canonical is the one text of the act of a line or of an entry.
func canonical(line []byte) string {
	var members map[string]any
	reader := json.NewDecoder(bytes.NewReader(line))
	reader.UseNumber()
	if reader.Decode(&members) != nil {
		return ""
	}
	acts, _ := members["act"].(map[string]any)
	for _, act := range acts {
		if act, is := act.(map[string]any); is {
			act["kinds"] = sortedOnce(act["kinds"])
		}
	}
	text, _ := json.Marshal(acts)
	return string(text)
}

// sortedOnce is a list of words in their order, each once: a list of kinds has any order.
func sortedOnce(list any) []string {
	words, _ := list.([]any)
	var sorted []string
	seen := map[any]bool{}
	for _, word := range words {
		if text, is := word.(string); is && !seen[word] {
			seen[word] = true
			sorted = append(sorted, text)
		}
	}
	sort.Strings(sorted)
	return sorted
}
