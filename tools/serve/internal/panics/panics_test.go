package panics

import (
	"errors"
	"fmt"
	"strings"
	"testing"
)

func breaks() error { panic("it breaks") }

func TestAPanicIsAnErrorThatSaysWhere(test *testing.T) {
	var its Error
	if err := Caught(breaks); !errors.As(err, &its) {
		test.Fatal(err)
	}
	if its.Error() != "panic: it breaks" || !strings.Contains(its.Where, "panics.breaks(") {
		test.Errorf("%v at %s", its, its.Where)
	}
	again := Caught(func() error { panic(its) })
	if again != error(its) {
		test.Errorf("caught again it is %v", again)
	}
}

func TestWhatDoesntPanicHasItsOwnError(test *testing.T) {
	why := errors.New("why")
	for _, wanted := range []error{nil, why} {
		if err := Caught(func() error { return wanted }); err != wanted {
			test.Errorf("%v, and not %v", err, wanted)
		}
	}
}

func TestAPanicWithoutAValueIsAnErrorToo(test *testing.T) {
	var none any
	err := Caught(func() error { panic(none) })
	if err == nil || !strings.HasPrefix(fmt.Sprint(err), "panic: ") {
		test.Errorf("%v", err)
	}
}
