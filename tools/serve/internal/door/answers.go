package door

import (
	"bytes"
	"embed"
	"encoding/json"
	"errors"
	"fmt"
	"io"
	"mime"
	"net/http"
	"strconv"
	"time"

	"faultyard-serve/internal/book"
)

//go:embed assets
var assets embed.FS

// asset answers a file of the page.
func asset(name, kind string) func(*Web, http.ResponseWriter, *http.Request) {
	return func(_ *Web, writer http.ResponseWriter, request *http.Request) {
		text, err := assets.ReadFile("assets/" + name)
		if err != nil {
			fail(writer, http.StatusInternalServerError, err.Error())
			return
		}
		writer.Header().Set("Content-Type", kind)
		_, _ = writer.Write(text)
	}
}

// act makes an act, and answers its entry.
func (web *Web) act(writer http.ResponseWriter, request *http.Request) {
	key, err := onceOf(request)
	if err != nil {
		failOf(writer, err)
		return
	}
	line := web.line(writer, request)
	if line == nil {
		return
	}
	turn := book.NewTurn()
	turn.Asks = []book.Ask{{Line: line, Once: key}}
	web.Book.Submit(turn)
	answer := turn.Answers[0]
	if answer.Err != nil {
		failOf(writer, answer.Err)
		return
	}
	writer.Header().Set("Content-Type", "application/json")
	if answer.Repeated {
		writer.Header().Set("Idempotency-Replayed", "true")
	}
	_, _ = writer.Write(answer.Line)
}

// line is the line of the act that a request asks for. Where there is none, it answers why.
func (web *Web) line(writer http.ResponseWriter, request *http.Request) []byte {
	// Another server's page can't send this type without being asked first, which isn't answered.
	kind, _, err := mime.ParseMediaType(request.Header.Get("Content-Type"))
	if err != nil || kind != "application/json" {
		fail(writer, http.StatusUnsupportedMediaType, "the body has to be application/json")
		return nil
	}
	patience(request, bodyLimit)
	body, err := io.ReadAll(http.MaxBytesReader(writer, request.Body, mostLine))
	patience(request, answerLimit)
	var tooLarge *http.MaxBytesError
	switch {
	case errors.As(err, &tooLarge):
		failOf(writer, book.TooLong)
		return nil
	case err != nil:
		fail(writer, http.StatusBadRequest, "the body ended too soon")
		return nil
	}
	line, status, why := web.lineOf(body, request)
	if why != "" {
		fail(writer, status, why)
		return nil
	}
	return line
}

// onceOf is the key of the act that a request asks for, if it has one. It may stand in quotes, as
// in the draft of that header.
func onceOf(request *http.Request) (key string, err error) {
	keys := request.Header.Values("Idempotency-Key")
	switch {
	case len(keys) == 0:
		return "", nil
	case len(keys) > 1:
		return "", book.OnceName
	}
	key = keys[0]
	if len(key) > 1 && key[0] == '"' && key[len(key)-1] == '"' {
		key = key[1 : len(key)-1]
	}
	if !book.IsOnce(key) {
		return "", book.OnceName
	}
	return key, nil
}

// lineOf is the line of the act that a body asks for, by the actor of the request's token. It says
// why there is none.
func (web *Web) lineOf(body []byte, request *http.Request) (line []byte, status int, why string) {
	var compact bytes.Buffer
	var members map[string]json.RawMessage
	if json.Compact(&compact, body) != nil || json.Unmarshal(body, &members) != nil ||
		members == nil {
		return nil, http.StatusBadRequest, faultLine(book.Syntax, 1)
	}
	actor, known := request.Context().Value(actorKey{}).(int)
	if !known {
		return compact.Bytes(), 0, ""
	}
	if actor == Reader {
		return nil, http.StatusForbidden, "the token only reads"
	}
	number := strconv.Itoa(actor)
	if by, has := members["by"]; has {
		if string(by) != number {
			return nil, http.StatusForbidden, "the token is of another actor"
		}
		return compact.Bytes(), 0, ""
	}
	members["by"] = json.RawMessage(number)
	line, err := book.ByFirst(members)
	if err != nil {
		return nil, http.StatusBadRequest, faultLine(book.Syntax, 1)
	}
	return line, 0, ""
}

// status answers who is up, down, destroyed and gone, as far as it is on the disk.
func (web *Web) status(writer http.ResponseWriter, _ *http.Request) {
	var its seen
	var entries int
	err := web.view(func() (err error) {
		entries = web.Book.Stats().Entries
		its, err = web.seen()
		return err
	})
	if err != nil {
		failOf(writer, err)
		return
	}
	writeJSON(writer, http.StatusOK, struct {
		Version   string    `json:"version"`
		Audit     string    `json:"audit"`
		Entries   int       `json:"entries"`
		Processes []process `json:"processes"`
	}{web.Version, web.Book.ID(), entries, its.processes})
}

// audit answers the audit, or its entries from one on.
func (web *Web) audit(writer http.ResponseWriter, request *http.Request) {
	from := 0
	if word := request.URL.Query().Get("from"); word != "" {
		number, err := strconv.ParseUint(word, 10, 31)
		if err != nil {
			fail(writer, http.StatusBadRequest, "from is no number of an entry")
			return
		}
		from = int(number)
	}
	writer.Header().Set("Content-Type", "application/x-ndjson")
	if from > 0 {
		web.entries(writer, request, from)
		return
	}
	text, length := web.Book.Audit()
	writer.Header().Set("Content-Length", strconv.FormatInt(length, 10))
	part := make([]byte, 1<<16)
	for {
		read, err := text.Read(part)
		patience(request, answerLimit)
		if _, failed := writer.Write(part[:read]); failed != nil || err != nil {
			return
		}
	}
}

// entries answers the lines of the entries from one on.
func (web *Web) entries(writer http.ResponseWriter, request *http.Request, from int) {
	for at, count := from, web.Book.Stats().Entries; at < count; {
		lines, next, err := web.Book.Entries(at, count, enoughOutput)
		if err != nil {
			panic(http.ErrAbortHandler) // So that nobody takes it for all.
		}
		patience(request, answerLimit)
		if _, err := writer.Write(lines); err != nil {
			return
		}
		at = next
	}
}

// healthz says whether acts are made, and the disk answers.
func (web *Web) healthz(writer http.ResponseWriter, _ *http.Request) {
	if err := web.Book.Health(book.MostWait); err != nil {
		fail(writer, http.StatusServiceUnavailable, err.Error())
		return
	}
	writeJSON(writer, http.StatusOK, map[string]string{"status": "ok"})
}

// events sends each entry as it comes, from the one behind Last-Event-ID, or from `from` on.
func (web *Web) events(writer http.ResponseWriter, request *http.Request) {
	flusher, can := writer.(*told).ResponseWriter.(http.Flusher)
	if !can {
		fail(writer, http.StatusInternalServerError, "no events can be sent")
		return
	}
	at, err := firstEvent(request)
	if err != nil {
		fail(writer, http.StatusBadRequest, "the first entry is no number")
		return
	}
	writer.Header().Set("Content-Type", "text/event-stream")
	writer.Header().Set("X-Accel-Buffering", "no") // Else a proxy keeps what comes.
	writer.WriteHeader(http.StatusOK)
	if request.Method == http.MethodHead {
		return
	}
	staysOpen(request)
	if _, err := fmt.Fprintf(writer, hello, web.Book.ID(), web.silence().Milliseconds()); err != nil {
		return
	}
	still := time.NewTicker(web.beat())
	defer still.Stop()
	for web.mayStay(request) {
		stats, grown := web.Book.Grown()
		if at, err = web.sendEvents(writer, request, at, stats.Entries); err != nil {
			return
		}
		flusher.Flush()
		select {
		case <-grown:
		case <-request.Context().Done():
			return
		case <-web.Book.Stopped():
			return
		case <-still.C:
			patience(request, answerLimit)
			if _, err := io.WriteString(writer, ": still here\n\n"); err != nil {
				return
			}
		}
	}
}

// hello is the first event of a stream: whose entries follow, and after how many milliseconds in
// which nothing comes the server is gone.
const hello = "event: audit\ndata: {\"audit\":\"%s\",\"silence\":%d}\n\n"

// usualBeat is how often a stream says that the server is there.
const usualBeat = 3 * time.Second

func (web *Web) beat() time.Duration {
	if web.Beat > 0 {
		return web.Beat
	}
	return usualBeat
}

// silence is how long nothing comes of a server that is gone.
func (web *Web) silence() time.Duration { return web.beat() * 10 / 3 }

// mayStay says whether the token of a stream is still known.
func (web *Web) mayStay(request *http.Request) bool {
	if web.Tokens == nil {
		return true
	}
	_, known := web.Tokens.actorOf(request)
	return known
}

// sendEvents sends the events of entries, and answers the one behind them.
func (web *Web) sendEvents(
	writer http.ResponseWriter, request *http.Request, at, count int,
) (int, error) {
	patience(request, answerLimit)
	for at < count {
		lines, next, err := web.Book.Entries(at, count, enoughOutput)
		if err != nil {
			return at, err
		}
		patience(request, answerLimit)
		if _, err := writer.Write(eventsOf(lines, at)); err != nil {
			return at, err
		}
		at = next
	}
	return at, nil
}

// eventsOf is the events of lines, of which the first is that of an entry.
func eventsOf(lines []byte, first int) []byte {
	text := make([]byte, 0, 2*len(lines))
	for at := first; len(lines) > 0; at++ {
		end := bytes.IndexByte(lines, '\n') + 1
		text = strconv.AppendInt(append(text, "id: "...), int64(at), 10)
		text = append(append(append(text, "\ndata: "...), lines[:end]...), '\n')
		lines = lines[end:]
	}
	return text
}

// firstEvent is the entry that a client wants first.
func firstEvent(request *http.Request) (int, error) {
	if last := request.Header.Get("Last-Event-ID"); last != "" {
		at, err := strconv.ParseUint(last, 10, 31)
		return int(at) + 1, err
	}
	word := request.URL.Query().Get("from")
	if word == "" {
		return 0, nil
	}
	at, err := strconv.ParseUint(word, 10, 31)
	return int(at), err
}
