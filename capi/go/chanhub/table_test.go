package chanhub

import (
	"math/rand"
	"testing"
)

// A table does what a map does, with numbers of several processes that come and go in any order.
func TestATableKeepsItsValues(t *testing.T) {
	values, wanted, numbers := newTable[int](), make(map[uint64]int), []uint64{0, 1}
	for i := 0; i < 100_000; i++ {
		if rand.Intn(2) == 0 && len(wanted) < 300 {
			number := uint64(100*(1+i/4) + rand.Intn(64))
			numbers = append(numbers, number)
			if _, isThere := wanted[number]; !isThere {
				values.put(number, i)
				wanted[number] = i
			}
		}
		at := rand.Intn(len(numbers))
		number := numbers[at]
		value, isThere := values.take(number)
		wantedValue, isWanted := wanted[number]
		if value != wantedValue || isThere != isWanted {
			t.Fatalf("%d: found %d, %v, wanted %d, %v", number, value, isThere, wantedValue, isWanted)
		}
		delete(wanted, number)
		if at > 1 {
			numbers = append(numbers[:at], numbers[at+1:]...)
		}
	}
	if values.count != len(wanted) {
		t.Errorf("%d values, not %d", values.count, len(wanted))
	}
}
