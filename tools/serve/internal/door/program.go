package door

import (
	"bytes"
	"context"
	"errors"
	"fmt"
	"io"
	"net/http"
	"os"
	"os/exec"
	"strings"
	"sync"
	"syscall"
	"time"
)

// programLimit is how long the program may take for one answer, if nothing else is said.
const programLimit = 60 * time.Second

// Program is the command faultyard, which draws pictures.
type Program struct {
	// Path is where it is.
	Path string
	// Config is the text of the cluster file, as it was when the server began.
	Config []byte
	// Patience is how long it may take for one answer, if not a minute.
	Patience time.Duration
}

// run calls a command of the program. The cluster file and what else it reads come through pipes,
// so that it sees what is on the disk and no half line.
func (program *Program) run(stdin io.Reader, words []string, files ...io.Reader) ([]byte, error) {
	command := exec.Command(program.Path, words...)
	command.SysProcAttr = &syscall.SysProcAttr{Pdeathsig: syscall.SIGKILL, Setpgid: true}
	command.Stdin = stdin
	var out, said bytes.Buffer
	command.Stdout, command.Stderr = &out, &said
	var fed sync.WaitGroup
	defer fed.Wait()
	for _, text := range append([]io.Reader{bytes.NewReader(program.Config)}, files...) {
		reader, writer, err := os.Pipe()
		if err != nil {
			return nil, err
		}
		defer reader.Close()
		command.ExtraFiles = append(command.ExtraFiles, reader)
		fed.Add(1)
		go func(text io.Reader) {
			defer fed.Done()
			defer writer.Close()
			_, _ = io.Copy(writer, text) // The program may end before it has read all.
		}(text)
	}
	if err := program.wait(command); err != nil {
		if why := strings.TrimSpace(said.String()); why != "" {
			return nil, errors.New(why)
		}
		return nil, fmt.Errorf("%s: %w", program.Path, err)
	}
	return out.Bytes(), nil
}

// wait runs a command to its end. One that takes too long is killed with all that it has started,
// as a script may have: what it left running would keep the ends of the pipes.
func (program *Program) wait(command *exec.Cmd) error {
	if err := command.Start(); err != nil {
		return err
	}
	late := time.AfterFunc(program.patience(), func() {
		_ = syscall.Kill(-command.Process.Pid, syscall.SIGKILL)
	})
	defer late.Stop()
	return command.Wait()
}

// patience is how long the program may take.
func (program *Program) patience() time.Duration {
	if program.Patience > 0 {
		return program.Patience
	}
	return programLimit
}

// The first of the ExtraFiles of a command, and the next one.
const (
	configFile = "/dev/fd/3"
	timesFile  = "/dev/fd/4"
)

// cache keeps the last answer of the program, until there are more entries.
type cache struct {
	once    sync.Once
	turn    chan bool // has a value while somebody has its turn
	entries int
	text    []byte
}

// get answers the kept text, or has it made anew. One at a time has it made. Whoever is gone before
// its turn comes waits no longer.
func (its *cache) get(
	gone context.Context, entries int, draw func() ([]byte, error),
) ([]byte, error) {
	its.once.Do(func() { its.turn = make(chan bool, 1) })
	select {
	case its.turn <- true:
	case <-gone.Done():
		return nil, gone.Err()
	}
	defer func() { <-its.turn }()
	if its.text != nil && entries <= its.entries {
		return its.text, nil
	}
	text, err := draw()
	if err == nil {
		its.entries, its.text = entries, text
	}
	return text, err
}

// picture answers the picture of `faultyard show --times`.
func (web *Web) picture(writer http.ResponseWriter, request *http.Request) {
	if web.Program == nil {
		fail(writer, http.StatusNotImplemented, "the server found no program faultyard")
		return
	}
	entries := web.Book.Stats().Entries
	waits(request)
	text, err := web.pictures.get(request.Context(), entries, func() ([]byte, error) {
		audit, times, err := web.Book.Drawn()
		if err != nil {
			return nil, err
		}
		return web.Program.run(audit, []string{"show", configFile, "--times", timesFile}, times)
	})
	patience(request, answerLimit)
	if err != nil {
		fail(writer, http.StatusServiceUnavailable, err.Error())
		return
	}
	writer.Header().Set("Content-Type", "image/svg+xml")
	_, _ = writer.Write(text)
}
