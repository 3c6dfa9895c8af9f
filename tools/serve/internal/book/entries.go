package book

import (
	"io"
	"sort"
)

// Entries answers the lines of entries that are on the disk, from one up to before another: one at
// least, if there is one, and no more than so many bytes of others. The next one is behind them.
//
// They are read from the file. The guard isn't asked, since those who act wait for it.
func (book *Book) Entries(from, to, most int) (lines []byte, next int, err error) {
	book.lock.Lock()
	ends := book.ends // Only what stands behind them changes.
	book.lock.Unlock()
	if to < len(ends) {
		ends = ends[:to]
	}
	if from < 0 || len(ends) <= from {
		return nil, from, nil
	}
	begin := int64(len(Header))
	if from > 0 {
		begin = ends[from-1]
	}
	next = from + 1 + sort.Search(len(ends)-from-1, func(at int) bool {
		return ends[from+1+at] > begin+int64(most)
	})
	lines = make([]byte, ends[next-1]-begin)
	_, err = book.audit.ReadAt(lines, begin)
	switch {
	case err == io.EOF:
		return nil, from, io.ErrUnexpectedEOF
	case err != nil:
		return nil, from, err
	}
	return lines, next, nil
}

// endsOf is where each line behind the header ends.
func endsOf(text []byte) (ends []int64) {
	for at, letter := range text {
		if letter == '\n' && at >= len(Header) {
			ends = append(ends, int64(at+1))
		}
	}
	return ends
}
