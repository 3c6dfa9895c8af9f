package book

import (
	"bytes"
	"encoding/json"
	"hash/crc32"
)

const (
	// sumForm is how a line ends that has a sum, of which the digits are the zeros.
	sumForm = `,"sum":"00000000"}` + "\n"
	sumName = `,"sum":"`
	// sector is how many bytes a disk writes at once, or a part of those.
	sector = 512
)

var castagnoli = crc32.MakeTable(crc32.Castagnoli)

// sum is the sum of the lines of a file so far. Files of earlier servers begin with lines that
// state none, which are summed up too.
type sum struct {
	value    uint32
	isStated bool
}

// end ends the line that begins at a place of a text: its closing brace is missing.
func (its *sum) end(text []byte, from int) []byte {
	its.value = crc32.Update(its.value, castagnoli, text[from:])
	its.isStated = true
	const digits = "0123456789abcdef"
	text = append(text, sumName...)
	for shift := 28; shift >= 0; shift -= 4 {
		text = append(text, digits[its.value>>shift&15])
	}
	return append(text, "\"}\n"...)
}

// take takes in a line, and says whether its sum is right.
func (its *sum) take(line []byte) bool {
	body := len(line) - len(sumForm)
	if body < 0 || !bytes.HasPrefix(line[body:], []byte(sumName)) {
		its.value = crc32.Update(its.value, castagnoli, line)
		return !its.isStated
	}
	return bytes.Equal(its.end(append([]byte{}, line[:body]...), 0), line)
}

// isUnwritten says whether the line at a place has a sector without anything, or the front of one
// where the file ends. A power cut leaves it so, where nothing behind it was synced.
func isUnwritten(text []byte, from int) bool {
	nothing := bytes.IndexByte(text[from:], 0)
	if nothing < 0 || (from+nothing)%sector != 0 {
		return false
	}
	rest := text[from+nothing:]
	if len(rest) > sector {
		rest = rest[:sector]
	}
	return len(bytes.Trim(rest, "\x00")) == 0
}

// hasKey says whether there is a line with the key of an entry that is there. It was synced, and
// all before it.
func hasKey(text []byte, count int) bool {
	for _, line := range bytes.Split(text, []byte("\n")) {
		var event event
		if json.Unmarshal(line, &event) == nil && event.Once != "" && event.Entry != nil &&
			*event.Entry < count {
			return true
		}
	}
	return false
}
