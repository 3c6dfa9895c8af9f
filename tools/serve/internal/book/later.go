package book

import (
	"bufio"
	"bytes"
	"encoding/json"
	"fmt"
	"io"
)

// later reads events whose times are so many seconds less, and none before 0.
type later struct {
	lines *bufio.Reader
	less  float64
	text  bytes.Buffer
}

func newLater(events io.Reader, less float64) *later {
	return &later{lines: bufio.NewReader(events), less: less}
}

// Read reads a part.
func (its *later) Read(part []byte) (int, error) {
	for its.text.Len() == 0 {
		line, err := its.lines.ReadBytes('\n')
		if err != nil {
			return 0, err
		}
		var event event
		if json.Unmarshal(line, &event) != nil || event.Entry == nil {
			continue
		}
		seconds := event.T
		if event.S > seconds {
			seconds = event.S
		}
		if seconds -= its.less; seconds < 0 {
			seconds = 0
		}
		fmt.Fprintf(&its.text, "{\"entry\":%d,\"t\":%.3f}\n", *event.Entry, seconds)
	}
	return its.text.Read(part)
}
