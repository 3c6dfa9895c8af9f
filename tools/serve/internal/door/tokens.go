package door

import (
	"bufio"
	"bytes"
	"crypto/sha256"
	"crypto/subtle"
	"fmt"
	"net/http"
	"os"
	"path/filepath"
	"strconv"
	"strings"
	"sync"
)

const (
	// leastToken and mostToken are how many bytes a token has.
	leastToken = 16
	mostToken  = 512
	// Reader is the actor of a token that only reads.
	Reader = -1
)

// Tokens says which actor a token is of. A token is kept as its digest alone.
type Tokens struct {
	lock    sync.RWMutex
	digests [][sha256.Size]byte
	actors  []int
}

// ReadTokens reads a file of tokens: in each line a token and the number of its actor, or `-` for a
// token that only reads. Lines that begin with # and empty ones are passed over. The file has to be
// its owner's alone.
func ReadTokens(path string) (*Tokens, error) {
	file, err := os.Open(path)
	if err != nil {
		return nil, err
	}
	defer file.Close()
	info, err := file.Stat()
	if err != nil {
		return nil, err
	}
	// systemd lets the user of a unit read a credential by an access list, which shows as its group.
	others := os.FileMode(0o077)
	folder := os.Getenv("CREDENTIALS_DIRECTORY")
	if folder != "" && filepath.Dir(path) == filepath.Clean(folder) {
		others = 0o037
	}
	if mode := info.Mode().Perm(); mode&others != 0 {
		return nil, fmt.Errorf("%s: its mode is %04o, and has to be 0600", path, mode)
	}
	tokens := new(Tokens)
	lines := bufio.NewScanner(file)
	for number := 1; lines.Scan(); number++ {
		if err := tokens.add(lines.Text()); err != nil {
			return nil, fmt.Errorf("%s: line %d: %w", path, number, err)
		}
	}
	if err := lines.Err(); err != nil {
		return nil, fmt.Errorf("%s: %w", path, err)
	}
	if len(tokens.actors) == 0 {
		return nil, fmt.Errorf("%s: there is no token", path)
	}
	return tokens, nil
}

// Become makes them others, for requests that come from now on.
func (tokens *Tokens) Become(other *Tokens) {
	tokens.lock.Lock()
	defer tokens.lock.Unlock()
	tokens.digests, tokens.actors = other.digests, other.actors
}

// Beyond are the actors of tokens whom a cluster of so many hasn't, each once.
func (tokens *Tokens) Beyond(actors int) (beyond []int) {
	seen := map[int]bool{}
	for _, actor := range tokens.actors {
		if actor >= actors && !seen[actor] {
			seen[actor] = true
			beyond = append(beyond, actor)
		}
	}
	return beyond
}

// add takes in a line of the file.
func (tokens *Tokens) add(line string) error {
	words := strings.Fields(line)
	if len(words) == 0 || strings.HasPrefix(words[0], "#") {
		return nil
	}
	if len(words) != 2 {
		return fmt.Errorf("it isn't TOKEN ACTOR")
	}
	if len(words[0]) < leastToken || mostToken < len(words[0]) {
		return fmt.Errorf("a token has %d to %d bytes", leastToken, mostToken)
	}
	actor := Reader
	if words[1] != "-" {
		number, err := strconv.ParseUint(words[1], 10, 31)
		if err != nil {
			return fmt.Errorf("its actor is neither a number nor -")
		}
		actor = int(number)
	}
	digest := sha256.Sum256([]byte(words[0]))
	for _, other := range tokens.digests {
		if bytes.Equal(other[:], digest[:]) {
			return fmt.Errorf("an earlier line has this token")
		}
	}
	tokens.digests = append(tokens.digests, digest)
	tokens.actors = append(tokens.actors, actor)
	return nil
}

// actorOf answers whose token a request has. Each digest is compared to its end, so that the time
// says nothing about any of them.
func (tokens *Tokens) actorOf(request *http.Request) (actor int, known bool) {
	scheme, token, _ := strings.Cut(request.Header.Get("Authorization"), " ")
	if !strings.EqualFold(scheme, "Bearer") {
		return 0, false
	}
	digest := sha256.Sum256([]byte(strings.TrimSpace(token)))
	tokens.lock.RLock()
	defer tokens.lock.RUnlock()
	found := -1
	for at := range tokens.digests {
		same := subtle.ConstantTimeCompare(tokens.digests[at][:], digest[:])
		found = subtle.ConstantTimeSelect(same, at, found)
	}
	if found < 0 {
		return 0, false
	}
	return tokens.actors[found], true
}
