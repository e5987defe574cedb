package chanhub_test

import (
	"errors"
	"fmt"
	"os"
	"regexp"
	"runtime"
	"sort"
	"strings"
	"sync"
	"sync/atomic"
	"testing"
	"time"

	"chanhub/chanhub"
)

// makeChan makes a channel of values of type T.
func makeChan[T any](t *testing.T, seat *chanhub.Seat, capacity int) *chanhub.Chan[T] {
	t.Helper()
	c, err := chanhub.MakeChan[T](seat, capacity)
	if err != nil {
		t.Fatal(err)
	}
	return c
}

type job struct {
	name string
	at   []int
}

func TestAChanCarriesItsType(t *testing.T) {
	hub := open(t, chanhub.Edition1, 1, 100)
	seat := hub.Seat(0)
	c := makeChan[*job](t, seat, 2)
	if c.Port() != 1 || c.Cap() != 2 || c.Len() != 0 {
		t.Errorf("port %d, capacity %d, length %d", c.Port(), c.Cap(), c.Len())
	}
	first, second := &job{"first", []int{1}}, &job{"second", nil}
	told(t, "send", c.Send(seat, first), nil)
	told(t, "send", c.Send(seat, second), nil)
	if c.Len() != 2 {
		t.Errorf("length %d", c.Len())
	}
	told(t, "close", c.Close(seat), nil)
	for _, wanted := range []*job{first, second} {
		if got, err := c.Recv(seat); got != wanted || err != nil {
			t.Errorf("received %v, %v", got, err)
		}
	}
	got, err := c.Recv(seat)
	told(t, "receive", err, chanhub.ErrDrained)
	if got != nil {
		t.Errorf("received %v", got)
	}
	told(t, "send", c.Send(seat, first), chanhub.ErrClosed)
	told(t, "close", c.Close(seat), chanhub.FaultAlreadyClosed)
	journal, _ := hub.Journal()
	wanted := "chanhub journal 1\nprocs 1\n0 make 2\n0 send 1 100\n0 send 1 200\n0 close 1\n0 recv 1\n0 recv 1\n0 recv 1\n" +
		"0 send 1 300\n0 close 1\n"
	if string(journal) != wanted {
		t.Errorf("journal %q", journal)
	}
}

// The numbers of a process's values are its own, in all Chans and through each of its seats.
func TestNumbersOfValues(t *testing.T) {
	hub := open(t, chanhub.Edition2, 3, 100)
	two := hub.Seat(2)
	a, b := makeChan[string](t, two, 1), makeChan[int](t, two, 9)
	sent, err := a.TrySend(two, "102")
	told(t, "room", err, nil)
	unsent, err := a.TrySend(two, "202")
	told(t, "no room", err, nil)
	told(t, "send", b.Send(hub.Seat(2), 302), nil)
	told(t, "send", b.Send(hub.Seat(1), 101), nil)
	told(t, "no process", b.Send(hub.Seat(64), 64), chanhub.FaultNoProcess)
	_, err = two.SelectChan(a.SendCase("402"), b.SendCase(502), a.SendCase("602"))
	told(t, "select", err, nil)
	told(t, "send", b.Send(two, 702), nil)
	for _, wanted := range []int{302, 101, 502, 702} {
		if value, err := b.Recv(two); value != wanted || err != nil {
			t.Errorf("received %d, %v", value, err)
		}
	}
	journal, _ := hub.Journal()
	steps := regexp.MustCompile(`select \d+`).ReplaceAllString(string(journal), "select")
	wanted := "chanhub journal 2\nprocs 3\n2 make 1\n2 make 9\n2 select s1:102 default\n2 select s1:202 default\n2 send 2 302\n" +
		"1 send 2 101\n2 select s1:402 s2:502 s1:602\n2 send 2 702\n2 recv 2\n2 recv 2\n2 recv 2\n2 recv 2\n"
	if !sent || unsent || steps != wanted {
		t.Errorf("journal %q", journal)
	}
}

func TestACapacityIsRefused(t *testing.T) {
	_, err := chanhub.MakeChan[int](open(t, chanhub.Edition1, 1, 100).Seat(0), 1025)
	told(t, "make", err, chanhub.FaultBadCap)
}

func TestTriesDoNotWait(t *testing.T) {
	seat := open(t, chanhub.Edition1, 1, 100).Seat(0)
	c := makeChan[string](t, seat, 1)
	trySend := func(value string, wanted bool, wantedErr error) {
		t.Helper()
		if sent, err := c.TrySend(seat, value); sent != wanted || !errors.Is(err, wantedErr) {
			t.Errorf("sent %v, %v", sent, err)
		}
	}
	tryRecv := func(wantedValue string, wanted bool, wantedErr error) {
		t.Helper()
		value, received, err := c.TryRecv(seat)
		if value != wantedValue || received != wanted || !errors.Is(err, wantedErr) {
			t.Errorf("received %q, %v, %v", value, received, err)
		}
	}
	tryRecv("", false, nil)
	trySend("a", true, nil)
	trySend("b", false, nil)
	tryRecv("a", true, nil)
	trySend("c", true, nil)
	told(t, "close", c.Close(seat), nil)
	trySend("d", false, chanhub.ErrClosed)
	tryRecv("c", true, nil)
	tryRecv("", false, chanhub.ErrDrained)
}

func TestRangeTellsItsEnd(t *testing.T) {
	seat := open(t, chanhub.Edition1, 1, 100).Seat(0)
	c := makeChan[int](t, seat, 3)
	for i := 1; i <= 3; i++ {
		told(t, "send", c.Send(seat, i), nil)
	}
	var got []int
	add := func(value int) bool {
		got = append(got, value)
		return value != 2
	}
	told(t, "a range that is left", c.Range(seat, add), nil)
	told(t, "a range that stalls", c.Range(seat, add), chanhub.ErrStalled)
	told(t, "send", c.Send(seat, 4), nil)
	told(t, "close", c.Close(seat), nil)
	told(t, "a range to the end", c.Range(seat, add), nil)
	if fmt.Sprint(got) != "[1 2 3 4]" {
		t.Errorf("received %v", got)
	}
}

func TestASelectOfChans(t *testing.T) {
	seat := open(t, chanhub.Edition2, 1, 1000).Seat(0)
	numbers, words := makeChan[int](t, seat, 1), makeChan[string](t, seat, 1)
	var number int
	var word string
	cases := []chanhub.ChanCase{words.RecvCase(&word), numbers.SendCase(7)}
	choose := func(wanted int, wantedErr error, cases ...chanhub.ChanCase) {
		t.Helper()
		if index, err := seat.TrySelectChan(cases...); index != wanted || !errors.Is(err, wantedErr) {
			t.Errorf("case %d, %v", index, err)
		}
	}
	choose(1, nil, cases...)
	choose(-1, nil, cases...)
	told(t, "send", words.Send(seat, "word"), nil)
	if index, err := seat.SelectChan(cases...); index != 0 || err != nil || word != "word" {
		t.Errorf("case %d, %v, %q", index, err, word)
	}
	if index, err := seat.SelectChan(cases...); index != -1 || !errors.Is(err, chanhub.ErrStalled) {
		t.Errorf("case %d, %v", index, err)
	}
	choose(0, nil, numbers.RecvCase(&number))
	if number != 7 {
		t.Errorf("received %d", number)
	}
	told(t, "send", words.Send(seat, "ignored"), nil)
	choose(0, nil, words.RecvCase(nil))
	told(t, "close", numbers.Close(seat), nil)
	choose(1, chanhub.ErrClosed, words.RecvCase(&word), numbers.SendCase(8))
	choose(0, chanhub.ErrDrained, numbers.RecvCase(&number))
	choose(-1, nil)
	choose(-1, chanhub.FaultBadCall, make17(words)...)
	if number != 7 || word != "word" {
		t.Errorf("received %d and %q", number, word)
	}
}

func make17(c *chanhub.Chan[string]) (cases []chanhub.ChanCase) {
	for i := 0; i < 17; i++ {
		cases = append(cases, c.SendCase("many"))
	}
	return cases
}

func TestASelectChoosesEachCaseAtSomeTime(t *testing.T) {
	hub, err := chanhub.OpenEndless(chanhub.Edition1, 1, 100, chanhub.Chapters{})
	if err != nil {
		t.Fatal(err)
	}
	defer hub.Close()
	seat := hub.Seat(0)
	c := makeChan[int](t, seat, 0)
	told(t, "close", c.Close(seat), nil)
	for fired := [2]int{}; fired[0] == 0 || fired[1] == 0; {
		index, err := seat.SelectChan(c.RecvCase(nil), c.RecvCase(nil))
		told(t, "select", err, chanhub.ErrDrained)
		fired[index]++
	}
}

func TestAnotherHubsChanIsRefused(t *testing.T) {
	seat := open(t, chanhub.Edition1, 1, 100).Seat(0)
	other := open(t, chanhub.Edition1, 1, 100)
	stranger := other.Seat(0)
	c := makeChan[int](t, seat, 1)
	told(t, "send", c.Send(stranger, 1), chanhub.FaultBadCall)
	_, err := c.Recv(stranger)
	told(t, "receive", err, chanhub.FaultBadCall)
	_, err = c.TrySend(stranger, 1)
	told(t, "try to send", err, chanhub.FaultBadCall)
	_, _, err = c.TryRecv(stranger)
	told(t, "try to receive", err, chanhub.FaultBadCall)
	told(t, "close", c.Close(stranger), chanhub.FaultBadCall)
	if journal, _ := other.Journal(); string(journal) != "chanhub journal 1\nprocs 1\n" {
		t.Errorf("journal %q", journal)
	}
}

func TestACloseOfTheHubEndsACallOfAChan(t *testing.T) {
	hub := open(t, chanhub.Edition1, 2, 100)
	c := makeChan[string](t, hub.Seat(0), 0)
	ended := make(chan error)
	go func() {
		_, err := c.Recv(hub.Seat(1))
		ended <- err
	}()
	untilItStands(t, hub, "1 recv 1")
	told(t, "close", hub.Close(), nil)
	told(t, "receive", <-ended, chanhub.ErrHubClosed)
	told(t, "send", c.Send(hub.Seat(0), "late"), chanhub.ErrHubClosed)
	if c.Len() != 0 {
		t.Errorf("length %d", c.Len())
	}
}

func TestANumberThatNobodyPutIsAMisuse(t *testing.T) {
	seat := open(t, chanhub.Edition1, 1, 100).Seat(0)
	c := makeChan[string](t, seat, 1)
	told(t, "send", seat.Send(c.Port(), chanhub.Number(5)), nil)
	defer func() {
		if said := fmt.Sprint(recover()); !strings.Contains(said, "was not sent by it") {
			t.Errorf("said %q", said)
		}
	}()
	c.Recv(seat)
}

// A value that is not sent, and one that is received, is not kept.
func TestAChanKeepsOnlyWhatIsInTheHub(t *testing.T) {
	seat := open(t, chanhub.Edition1, 1, 100).Seat(0)
	c := makeChan[*job](t, seat, 1)
	var freed int32
	value := func() *job {
		v := &job{name: strings.Repeat("a", 100)}
		runtime.SetFinalizer(v, func(*job) { atomic.AddInt32(&freed, 1) })
		return v
	}
	told(t, "send", c.Send(seat, value()), nil)
	told(t, "send", c.Send(seat, value()), chanhub.ErrStalled)
	sent, err := c.TrySend(seat, value())
	if sent || err != nil {
		t.Errorf("sent %v, %v", sent, err)
	}
	untilFreed(t, &freed, 2)
	_, err = c.Recv(seat)
	told(t, "receive", err, nil)
	untilFreed(t, &freed, 3)
	told(t, "close", c.Close(seat), nil)
	told(t, "send", c.Send(seat, value()), chanhub.ErrClosed)
	untilFreed(t, &freed, 4)
	runtime.KeepAlive(c)
}

func untilFreed(t *testing.T, freed *int32, wanted int32) {
	t.Helper()
	for i := 0; atomic.LoadInt32(freed) < wanted; i++ {
		if i == 5000 {
			t.Fatalf("%d values were freed, and not %d", atomic.LoadInt32(freed), wanted)
		}
		runtime.GC()
		time.Sleep(time.Millisecond)
	}
}

type sentBy struct{ sender, number int }

func TestGoroutinesPassEachValueOnce(t *testing.T) {
	const senders, receivers, values = 6, 5, 1000
	opens := map[string]func() (*chanhub.Hub, error){
		"a hub that ends": func() (*chanhub.Hub, error) {
			return chanhub.Open(chanhub.Edition1, 1+senders+receivers, 1_000_000)
		},
		"an endless hub": func() (*chanhub.Hub, error) {
			return chanhub.OpenEndless(chanhub.Edition2, 1+senders+receivers, 100, chanhub.Chapters{})
		},
	}
	for name, opening := range opens {
		for _, capacity := range []int{0, 1, 7} {
			hub, err := opening()
			if err != nil {
				t.Fatal(err)
			}
			got := passed(t, hub, capacity, senders, receivers, values)
			hub.Close()
			var all []sentBy
			for _, own := range got {
				last := make(map[int]int)
				for _, value := range own {
					if before, isKnown := last[value.sender]; isKnown && before >= value.number {
						t.Errorf("%s: %d came after %d", name, value.number, before)
					}
					last[value.sender] = value.number
				}
				all = append(all, own...)
			}
			sort.Slice(all, func(i, k int) bool {
				return all[i].sender*values+all[i].number < all[k].sender*values+all[k].number
			})
			if len(all) != senders*values {
				t.Fatalf("%s: %d values", name, len(all))
			}
			for i, value := range all {
				if value != (sentBy{i / values, i % values}) {
					t.Fatalf("%s: value %d is %v", name, i, value)
				}
			}
		}
	}
}

// passed has goroutines send and receive values, every second one by selects, and returns what each receiver got.
func passed(t *testing.T, hub *chanhub.Hub, capacity, senders, receivers, values int) [][]sentBy {
	t.Helper()
	boss := hub.Seat(senders + receivers)
	c, never := makeChan[*sentBy](t, boss, capacity), makeChan[string](t, boss, 0)
	got := make([][]sentBy, receivers)
	var sending, receiving sync.WaitGroup
	for pid := 0; pid < senders; pid++ {
		sending.Add(1)
		go func(seat *chanhub.Seat) {
			defer sending.Done()
			defer seat.Exit()
			for number := 0; number < values; number++ {
				value := &sentBy{seat.Pid(), number}
				err := error(nil)
				if seat.Pid()%2 == 0 {
					err = c.Send(seat, value)
				} else {
					_, err = seat.SelectChan(never.RecvCase(nil), c.SendCase(value))
				}
				if err != nil {
					t.Errorf("send: %v", err)
					return
				}
			}
		}(hub.Seat(pid))
	}
	for i := 0; i < receivers; i++ {
		receiving.Add(1)
		go func(i int, seat *chanhub.Seat) {
			defer receiving.Done()
			defer seat.Exit()
			for {
				var value *sentBy
				err := error(nil)
				if i%2 == 0 {
					value, err = c.Recv(seat)
				} else {
					_, err = seat.SelectChan(c.RecvCase(&value), never.RecvCase(nil))
				}
				if errors.Is(err, chanhub.ErrDrained) {
					return
				}
				if err != nil {
					t.Errorf("receive: %v", err)
					return
				}
				got[i] = append(got[i], *value)
			}
		}(i, hub.Seat(senders+i))
	}
	sending.Wait()
	told(t, "close", c.Close(boss), nil)
	told(t, "exit", boss.Exit(), nil)
	receiving.Wait()
	return got
}

// linesOf counts the lines of a function of a file.
func linesOf(t *testing.T, file, head string) int {
	t.Helper()
	text, err := os.ReadFile(file)
	if err != nil {
		t.Fatal(err)
	}
	_, body, isThere := strings.Cut(string(text), "\n"+head+"\n")
	body, _, ends := strings.Cut(body, "\n}\n")
	if !isThere || !ends {
		t.Fatalf("%s has no %s", file, head)
	}
	return strings.Count(body, "\n")
}

func TestAProgramIsAtMost5LinesLongerThanWithGosChannels(t *testing.T) {
	own := linesOf(t, "example_chan_test.go", "func Example_chan() {")
	native := linesOf(t, "example_native_test.go", "func Example_native() {")
	if own > native+5 {
		t.Errorf("%d and %d lines", own, native)
	}
}
