package book

import (
	"bytes"
	"errors"
	"fmt"
	"io"
	"io/fs"
	"os"
)

// begun is the path of the copy of the cluster file that an audit was begun under.
func (files Files) begun() string { return files.Audit + ".cluster" }

// begunUnderIt refuses an audit that was begun under another cluster file. The guard alone doesn't
// see that: all that was answered so far may be what it would answer too. An audit of a guard has
// no copy beside it, and is taken.
func (files Files) begunUnderIt() error {
	is, err := files.isBegun()
	switch {
	case is, errors.Is(err, fs.ErrNotExist):
		return nil
	case err != nil:
		return err
	}
	const why = "%s isn't the cluster file that it was begun under, which is %s"
	return Refusal{Status: 1, Why: fmt.Sprintf(why, files.Cluster, files.begun())}
}

// isBegun says whether the copy has the same bytes. What two texts mean the library doesn't
// compare.
func (files Files) isBegun() (bool, error) {
	file, err := os.Open(files.begun())
	if err != nil {
		return false, err
	}
	defer file.Close()
	text, err := io.ReadAll(io.LimitReader(file, int64(len(files.Config))+1))
	return err == nil && bytes.Equal(text, files.Config), err
}

// keepCluster keeps the copy, with the mode of the audit. It is renamed into its place once it is
// on the disk, so a crash leaves the whole of it or none. The folder has to be synced behind it.
func (book *Book) keepCluster(files Files) error {
	if is, _ := files.isBegun(); is {
		return nil
	}
	info, err := book.audit.Stat()
	if err != nil {
		return err
	}
	path := files.begun() + ".new"
	err = writeWhole(path, files.Config, info.Mode().Perm())
	if err == nil {
		err = os.Rename(path, files.begun())
	}
	if err != nil {
		_ = os.Remove(path)
	}
	return err
}

// writeWhole writes a file anew, and brings it to the disk.
func writeWhole(path string, text []byte, mode fs.FileMode) error {
	file, err := os.OpenFile(path, os.O_WRONLY|os.O_CREATE|os.O_TRUNC, mode)
	if err != nil {
		return err
	}
	_, err = file.Write(text)
	if err == nil {
		err = file.Chmod(mode) // What a crash left had another mode, and a new one lacks the mask's bits.
	}
	if err == nil {
		err = file.Sync()
	}
	if closed := file.Close(); err == nil {
		err = closed
	}
	return err
}
