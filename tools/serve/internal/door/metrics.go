package door

import (
	"fmt"
	"net/http"
	"sort"
	"strings"
	"sync"
)

// requests counts requests by the status of their answers.
type requests struct {
	lock   sync.Mutex
	counts map[int]uint64
}

func (its *requests) add(status int) {
	its.lock.Lock()
	defer its.lock.Unlock()
	if its.counts == nil {
		its.counts = map[int]uint64{}
	}
	its.counts[status]++
}

// each calls a function for each status, in their order.
func (its *requests) each(call func(status int, count uint64)) {
	its.lock.Lock()
	defer its.lock.Unlock()
	statuses := make([]int, 0, len(its.counts))
	for status := range its.counts {
		statuses = append(statuses, status)
	}
	sort.Ints(statuses)
	for _, status := range statuses {
		call(status, its.counts[status])
	}
}

// states are the words of the metric of processes, and whom each counts.
var states = []struct {
	word string
	is   func(process) bool
}{
	{"up", func(its process) bool { return its.Up }},
	{"down", func(its process) bool { return !its.Up && !its.Gone }},
	{"clogged", func(its process) bool { return its.Clogged }},
	{"destroyed", func(its process) bool { return its.Destroyed }},
	{"gone", func(its process) bool { return its.Gone }},
}

// metrics answers counts in the text format of Prometheus. It doesn't wait for the disk, of which
// it tells.
func (web *Web) metrics(writer http.ResponseWriter, _ *http.Request) {
	var text strings.Builder
	metric := func(name, kind, help string) {
		fmt.Fprintf(&text, "# HELP faultyard_%s %s\n", name, help)
		fmt.Fprintf(&text, "# TYPE faultyard_%s %s\n", name, kind)
	}
	err := web.Book.Stop()
	var its seen
	if err == nil {
		its, err = web.seen()
	}
	if err != nil {
		failOf(writer, err)
		return
	}
	stats := web.Book.Stats()
	metric("entries", "gauge", "Entries of the audit.")
	fmt.Fprintf(&text, "faultyard_entries %d\n", stats.Entries)
	metric("journal_limit", "gauge", "Entries that the journal may have.")
	fmt.Fprintf(&text, "faultyard_journal_limit %d\n", its.limit)
	metric("acts_total", "counter", "Acts that were asked for, by what came of them.")
	for _, row := range []struct {
		word  string
		count uint64
	}{{"made", stats.Made}, {"refused", stats.Refused}, {"repeated", stats.Repeated}} {
		fmt.Fprintf(&text, "faultyard_acts_total{outcome=%q} %d\n", row.word, row.count)
	}
	metric("sync_seconds", "summary", "How long it took to bring entries to the disk.")
	fmt.Fprintf(&text, "faultyard_sync_seconds_sum %g\n", stats.Synced.Seconds())
	fmt.Fprintf(&text, "faultyard_sync_seconds_count %d\n", stats.Syncs)
	metric("sync_age_seconds", "gauge", "How long ago the disk answered a sync.")
	fmt.Fprintf(&text, "faultyard_sync_age_seconds %g\n", web.Book.SyncAge().Seconds())
	metric("processes", "gauge", "Processes in each state; one may be in several.")
	for _, state := range states {
		count := 0
		for _, process := range its.processes {
			if state.is(process) {
				count++
			}
		}
		fmt.Fprintf(&text, "faultyard_processes{state=%q} %d\n", state.word, count)
	}
	metric("connections", "gauge", "Clients that are connected.")
	fmt.Fprintf(&text, "faultyard_connections{door=\"socket\"} %d\n", web.Lines.Count())
	fmt.Fprintf(&text, "faultyard_connections{door=\"http\"} %d\n", web.crowd.count())
	metric("http_requests_total", "counter", "Requests that were answered, by the status.")
	web.requests.each(func(status int, count uint64) {
		fmt.Fprintf(&text, "faultyard_http_requests_total{status=\"%d\"} %d\n", status, count)
	})
	writer.Header().Set("Content-Type", "text/plain; version=0.0.4; charset=utf-8")
	_, _ = writer.Write([]byte(text.String()))
}
