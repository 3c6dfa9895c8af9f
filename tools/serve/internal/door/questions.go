package door

import (
	"encoding/json"
	"net/http"

	"faultyard-serve/internal/book"
)

// Guard answers questions. Goroutines may share it.
type Guard interface {
	// Ask answers the line of what is told to the line of a question, or a book.Fault.
	Ask(line []byte) ([]byte, error)
}

// view calls a function while nobody acts and all that was done is on the disk.
func (web *Web) view(look func() error) (err error) {
	if stop := web.Book.View(func() { err = look() }); stop != nil {
		return stop
	}
	return err
}

// tell answers what the guard tells to a question.
func (web *Web) tell(writer http.ResponseWriter, name string, members any) {
	line, err := json.Marshal(map[string]any{"ask": map[string]any{name: members}})
	if err != nil {
		failOf(writer, book.Syntax)
		return
	}
	var told []byte
	err = web.view(func() (err error) {
		told, err = web.Guard.Ask(line)
		return err
	})
	if err != nil {
		failOf(writer, err)
		return
	}
	writer.Header().Set("Content-Type", "application/json")
	_, _ = writer.Write(told)
}

// question answers a question whose members are numbers of the query.
func question(name string, members ...string) func(*Web, http.ResponseWriter, *http.Request) {
	return func(web *Web, writer http.ResponseWriter, request *http.Request) {
		numbers := map[string]json.RawMessage{}
		for _, member := range members {
			if word := request.URL.Query().Get(member); word != "" {
				numbers[member] = json.RawMessage(word)
			}
		}
		web.tell(writer, name, numbers)
	}
}

// judge answers what the act of a body would get now, by the actor of the request's token.
func (web *Web) judge(writer http.ResponseWriter, request *http.Request) {
	if line := web.line(writer, request); line != nil {
		web.tell(writer, "judge", json.RawMessage(line))
	}
}

// read reads what the guard tells to a question now.
func (web *Web) read(question any, into any) error {
	line, err := json.Marshal(map[string]any{"ask": question})
	if err != nil {
		return err
	}
	told, err := web.Guard.Ask(line)
	if err != nil {
		return err
	}
	return json.Unmarshal(told, &struct{ Told any }{into})
}

// members is an object of JSON.
type members map[string]any

// bears answers what may still be lost, as `faultyard bears --json --after` says it.
func (web *Web) bears(writer http.ResponseWriter, _ *http.Request) {
	var told struct{ Bears json.RawMessage }
	err := web.view(func() error { return web.read(members{"bears": members{}}, &told) })
	if err != nil {
		failOf(writer, err)
		return
	}
	writeJSON(writer, http.StatusOK, told.Bears)
}

// process is a process, its place, and its state.
type process struct {
	Number int    `json:"number"`
	Name   string `json:"processid"`
	// Machine to DataCenter are empty where the cluster file has no such key.
	Machine    string `json:"machineid"`
	Zone       string `json:"zoneid"`
	DataHall   string `json:"data_hall,omitempty"`
	DataCenter string `json:"dcid,omitempty"`
	Up         bool   `json:"up"`
	Clogged    bool   `json:"clogged"`
	Destroyed  bool   `json:"destroyed"`
	Gone       bool   `json:"gone"`
}

// seen is what the guard sees now: an act that it made may not be on the disk yet.
type seen struct {
	processes []process
	limit     int // how many entries the journal may have
}

func (web *Web) seen() (its seen, err error) {
	var file struct {
		Cluster struct {
			Limit   int `json:"journal_limit"`
			Process []process
		}
	}
	var now struct {
		State struct {
			Processes []struct {
				Up, Destroyed, Gone bool
				Clogged             *uint64 // until when
			}
		}
	}
	if err = web.read(members{"cluster": members{}}, &file); err != nil {
		return its, err
	}
	if err = web.read(members{"state": members{}}, &now); err != nil {
		return its, err
	}
	its = seen{file.Cluster.Process, file.Cluster.Limit}
	for number, state := range now.State.Processes {
		process := &its.processes[number]
		process.Number, process.Clogged = number, state.Clogged != nil
		process.Up, process.Destroyed, process.Gone = state.Up, state.Destroyed, state.Gone
	}
	return its, nil
}

// targets answers whom an order of a key and a value is about.
func (web *Web) targets(writer http.ResponseWriter, request *http.Request) {
	query := request.URL.Query()
	asked := members{"key": query.Get("key"), "value": query.Get("value")}
	var told struct{ Targets []int }
	var its seen
	err := web.view(func() (err error) {
		if err = web.read(members{"targets": asked}, &told); err == nil {
			its, err = web.seen()
		}
		return err
	})
	if err != nil {
		failOf(writer, err)
		return
	}
	found := []members{}
	for _, number := range told.Targets {
		name := its.processes[number].Name
		found = append(found, members{"number": number, "processid": name})
	}
	writeJSON(writer, http.StatusOK, members{"processes": found})
}
