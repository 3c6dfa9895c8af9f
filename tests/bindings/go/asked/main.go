// Command asked makes acts and asks questions through the Go binding, by their lines.
//
//	asked < lines > answers
//
// A line is the path of a cluster file, of which a guard is opened then; an act; or a question.
package main

import (
	"bufio"
	"log"
	"os"
	"strings"

	"faultyard"
)

func main() {
	log.SetFlags(0)
	lines := bufio.NewScanner(os.Stdin)
	lines.Buffer(nil, 1<<20)
	out := bufio.NewWriter(os.Stdout)
	var guard *faultyard.Guard
	for lines.Scan() {
		line := lines.Text()
		if strings.HasPrefix(line, "/") {
			config, err := os.ReadFile(line)
			must(err)
			guard, err = faultyard.Open(config)
			must(err)
			continue
		}
		answer := guard.Act
		if strings.HasPrefix(line, `{"ask"`) {
			answer = guard.Ask
		}
		text, err := answer([]byte(line))
		must(err)
		_, err = out.Write(text)
		must(err)
	}
	must(lines.Err())
	must(out.Flush())
}

func must(err error) {
	if err != nil {
		log.Fatal(err)
	}
}
