package book

import (
	"fmt"
	"os"
	"path/filepath"
	"syscall"
	"time"

	"faultyard-serve/internal/panics"
)

const (
	// freshFor is how long a sync says that the disk answers.
	freshFor = 2 * time.Second
	// lookEvery is how often it is looked whether the files are still there.
	lookEvery = time.Second
)

// MostWait is how long the disk may take for a sync before it counts as one that doesn't answer.
const MostWait = 5 * time.Second

// place is a file, and the path at which it has to be found.
type place struct {
	path string
	file os.FileInfo
}

// placeOf is the place of an open file.
func placeOf(file *os.File) (place, error) {
	info, err := file.Stat()
	return place{file.Name(), info}, err
}

// isThere is nil where the file still has its name. Without it nobody would find what is written.
func (its place) isThere() error {
	found, err := os.Stat(its.path)
	if err == nil && os.SameFile(found, its.file) {
		return nil
	}
	return fmt.Errorf("%s was removed or replaced while the server ran", its.path)
}

// areThere says whether the audit and its events still have their names.
func (book *Book) areThere() error {
	for _, place := range book.places {
		if err := place.isThere(); err != nil {
			return err
		}
	}
	return nil
}

// folder is where the files lie, and when it was changed last before they were looked for there.
type folder struct {
	file    *os.File
	changed [2]syscall.Timespec
}

// tick is longer than what two changes may be apart that have the same time.
const tick = 50 * time.Millisecond

// openFolder opens the folder of a book. It is nil where its times don't say whether the files
// still have their names: they have no fractions of a second, or a name is a link to elsewhere.
func (book *Book) openFolder() *folder {
	for _, place := range book.places {
		info, err := os.Lstat(place.path)
		if err != nil || !info.Mode().IsRegular() {
			return nil
		}
	}
	file, err := os.Open(filepath.Dir(book.audit.Name()))
	if err != nil {
		return nil
	}
	its := &folder{file: file}
	if changed, err := its.times(); err != nil || changed[0].Nsec == 0 && changed[1].Nsec == 0 {
		_ = file.Close()
		return nil
	}
	return its
}

// times are when its entries were changed last, and when it was.
func (its *folder) times() (changed [2]syscall.Timespec, err error) {
	var told syscall.Stat_t
	err = syscall.Fstat(int(its.file.Fd()), &told)
	return [2]syscall.Timespec{told.Mtim, told.Ctim}, err
}

// areStillThere says what areThere says, and looks at the files only where their folder was changed
// since, or just now. To find two files by their paths takes a fifth of a round trip. Whoever calls
// it leads.
func (book *Book) areStillThere() error {
	its := book.folder
	if its == nil {
		return book.areThere()
	}
	before := time.Now().Add(-tick).UnixNano()
	changed, err := its.times()
	isOld := err == nil && changed[0].Nano() < before && changed[1].Nano() < before
	if isOld && changed == its.changed {
		return nil
	}
	if err := book.areThere(); err != nil {
		return err
	}
	if isOld { // Else it may be changed again without having another time.
		its.changed = changed
	}
	return nil
}

// watch ends the book once a file is gone, also while nobody asks.
func (book *Book) watch() {
	for {
		select {
		case <-book.stopped:
			return
		case <-book.clock.After(lookEvery):
			if err := book.areThere(); err != nil {
				book.fail(err)
			}
		}
	}
}

// health is what is known of the disk. The lock of the book guards it.
type health struct {
	answered time.Time     // when it answered a sync last
	asked    time.Time     // since when it is written to; zero where it isn't
	probe    chan struct{} // closed once the probe that runs has ended; nil where none does
}

// SyncAge is how long ago the disk answered a sync.
func (book *Book) SyncAge() time.Duration {
	book.lock.Lock()
	defer book.lock.Unlock()
	return book.clock.since(book.health.answered)
}

// Health is nil where the disk answered a sync just now, or does so within a time.
func (book *Book) Health(within time.Duration) error {
	if err := book.Stop(); err != nil {
		return err
	}
	if book.SyncAge() < freshFor {
		return nil
	}
	select {
	case <-book.probed():
		return book.Stop()
	case <-book.clock.After(within):
		return book.hangs()
	}
}

// hangs is the error of a disk that doesn't answer.
func (book *Book) hangs() error {
	return fmt.Errorf("the disk has answered no sync for %.0f seconds", book.SyncAge().Seconds())
}

// isHanging says whether who waits for the disk waits for long.
func (book *Book) isHanging() bool {
	book.lock.Lock()
	defer book.lock.Unlock()
	asked := book.health.asked
	return !asked.IsZero() && book.clock.since(asked) > MostWait
}

// probed has the disk asked, one probe at a time. The channel is closed once it answered.
func (book *Book) probed() <-chan struct{} {
	book.lock.Lock()
	defer book.lock.Unlock()
	if book.health.probe == nil {
		done := make(chan struct{})
		book.health.probe = done
		go func() {
			err := panics.Caught(book.ask)
			book.lock.Lock()
			defer book.lock.Unlock()
			if err != nil {
				book.halt(err)
			} else {
				book.health.answered = book.clock.Now()
			}
			book.health.probe = nil
			close(done)
		}()
	}
	return book.health.probe
}

// ask has the disk keep when the events were looked at: a sync of what nothing changed asks it
// nothing.
func (book *Book) ask() error {
	now := syscall.NsecToTimeval(time.Now().UnixNano())
	file := book.events.file
	if err := syscall.Futimes(int(file.Fd()), []syscall.Timeval{now, now}); err != nil {
		return os.NewSyscallError("futimes", err)
	}
	return file.Sync()
}
