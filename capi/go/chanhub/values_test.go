package chanhub_test

import (
	"bytes"
	"errors"
	"fmt"
	"testing"

	"chanhub/chanhub"
)

func TestANumberIsNoBytes(t *testing.T) {
	number := chanhub.Number(7)
	if n, isNumber := number.Number(); n != 7 || !isNumber {
		t.Errorf("number %d, %v", n, isNumber)
	}
	if b, isBytes := number.Bytes(); b != nil || isBytes {
		t.Errorf("bytes %v, %v", b, isBytes)
	}
	if number == bytesOf(t, "\a") || number != chanhub.Number(7) {
		t.Error("what is equal")
	}
}

func TestBytesAreKept(t *testing.T) {
	for _, length := range []int{0, 1, 32} {
		wanted := bytes.Repeat([]byte{0xff}, length)
		value, err := chanhub.Bytes(wanted)
		told(t, "bytes", err, nil)
		if b, isBytes := value.Bytes(); !bytes.Equal(b, wanted) || !isBytes {
			t.Errorf("bytes %v, %v", b, isBytes)
		}
		if n, isNumber := value.Number(); n != 0 || isNumber {
			t.Errorf("number %d, %v", n, isNumber)
		}
	}
	_, err := chanhub.Bytes(make([]byte, 33))
	told(t, "33 bytes", err, chanhub.ErrTooLong)
}

func TestValuesAreSpelledAsInAJournal(t *testing.T) {
	for value, wanted := range map[chanhub.Value]string{
		{}:                        "0",
		chanhub.Number(1<<64 - 1): "18446744073709551615",
		bytesOf(t, ""):            "#",
		bytesOf(t, "\x00\xff"):    "#00ff",
	} {
		if value.String() != wanted {
			t.Errorf("%s, and not %s", value, wanted)
		}
	}
}

func TestFaultsSayWhatTheirNumbersMean(t *testing.T) {
	for number, wanted := range []string{
		0:  "a number that chanhub.h does not define",
		1:  "no such process",
		2:  "the process has exited",
		3:  "a call of the process is still open",
		4:  "more than 8 cases in edition 1",
		5:  "no such port",
		6:  "the capacity is not between 0 and 1,024",
		7:  "the hub already has 64 ports",
		8:  "close of port 0",
		9:  "close of a closed port",
		10: "the hub has reached its step limit",
		11: "out of memory",
		12: "the process has no waiting call to cancel",
		13: "a process number outside 0 to 255, more than 16 cases, a call that needs another edition or timeouts, or a cut of a hub that ends",
		14: "a number that chanhub.h does not define",
		15: "a number that chanhub.h does not define",
		16: "the port is in use",
		17: "the process has not exited",
		18: "a number that chanhub.h does not define",
	} {
		wanted = fmt.Sprintf("chanhub: fault %d: %s", number, wanted)
		if said := chanhub.Fault(number).Error(); said != wanted {
			t.Errorf("%q, and not %q", said, wanted)
		}
	}
}

func TestFaultsAreFoundInWhatWrapsThem(t *testing.T) {
	wrapped := fmt.Errorf("the first job: %w", open(t, chanhub.Edition1, 1, 100).Seat(0).Close(0))
	if !errors.Is(wrapped, chanhub.FaultNilClose) || errors.Is(wrapped, chanhub.FaultNoPort) {
		t.Errorf("errors.Is of %v", wrapped)
	}
	var fault chanhub.Fault
	if !errors.As(wrapped, &fault) || fault != 8 {
		t.Errorf("errors.As of %v: %d", wrapped, fault)
	}
}
