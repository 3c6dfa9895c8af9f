// Package panics makes errors of panics, where one that went on would end a single client, and
// leave the others waiting: net/http catches those of its handlers.
package panics

import (
	"fmt"
	"runtime/debug"
)

// Error is a panic.
type Error struct {
	// Why is what the panic was called with.
	Why any
	// Where is the stack on which it was called.
	Where string
}

// Error says why.
func (its Error) Error() string { return fmt.Sprint("panic: ", its.Why) }

// withoutValue is made once: Caught takes no memory where nothing panics.
var withoutValue error = Error{}

// Caught is the error of a function, or an Error where it panics.
func Caught(do func() error) (err error) {
	err = withoutValue // It stays where the panic has none.
	defer func() {
		if why := recover(); why != nil {
			err = Of(why)
		}
	}()
	return do()
}

// Of is the Error of what was recovered. One that was caught before is the same again.
func Of(why any) Error {
	if its, is := why.(Error); is {
		return its
	}
	return Error{why, string(debug.Stack())}
}
