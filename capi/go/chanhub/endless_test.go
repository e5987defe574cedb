package chanhub_test

import (
	"bytes"
	"errors"
	"fmt"
	"os"
	"os/exec"
	"path/filepath"
	"runtime"
	"strings"
	"sync"
	"syscall"
	"testing"
	"time"

	"chanhub/chanhub"
)

// openEndless opens a hub that never ends, and that is closed with the test.
func openEndless(t *testing.T, procs, keep int, chapters chanhub.Chapters) *chanhub.Hub {
	t.Helper()
	hub, err := chanhub.OpenEndless(chanhub.Edition2, procs, keep, chapters)
	if err != nil {
		t.Fatal(err)
	}
	t.Cleanup(func() { hub.Close() })
	return hub
}

// texts has the texts of the chapters that a hub gave. It needs no lock, since a hub gives one chapter at a time.
type texts []string

func (all *texts) add(text []byte) {
	*all = append(*all, string(text))
}

// are fails the test unless the chapters are wanted.
func (all texts) are(t *testing.T, wanted ...string) {
	t.Helper()
	if fmt.Sprintf("%q", all) != fmt.Sprintf("%q", wanted) {
		t.Errorf("chapters %q, and not %q", all, wanted)
	}
}

// is fails the test unless the text is wanted.
func is(t *testing.T, name string, text []byte, err error, wanted string) {
	t.Helper()
	if err != nil || string(text) != wanted {
		t.Errorf("%s: %q, %v", name, text, err)
	}
}

// numbered returns the names of so many files.
func numbered(name string, count int) []string {
	names := make([]string, count)
	for i := range names {
		names[i] = fmt.Sprintf("%s.%d", name, i)
	}
	return names
}

// areChained asks chanhub_tool whether these files are one history, if CHANHUB_TOOL names it.
func areChained(t *testing.T, files []string) {
	t.Helper()
	tool := os.Getenv("CHANHUB_TOOL")
	if tool == "" {
		return
	}
	said, err := exec.Command(tool, append([]string{"chain"}, files...)...).CombinedOutput()
	is(t, "chain", said, err, "whole\n")
}

// lineOf returns the line of a step: port 1 is made, and is then sent each number, which is received.
func lineOf(step int) string {
	switch {
	case step == 0:
		return "0 make 1\n"
	case step%2 == 1:
		return fmt.Sprintf("0 send 1 %d\n", step/2)
	}
	return "0 recv 1\n"
}

// makeSteps makes such steps.
func makeSteps(t *testing.T, seat *chanhub.Seat, steps int) chanhub.Port {
	t.Helper()
	port := makePort(t, seat, 1)
	for step := 1; step < steps; step++ {
		if step%2 == 1 {
			if err := seat.Send(port, chanhub.Number(uint64(step/2))); err != nil {
				t.Fatal(err)
			}
		} else if value, err := seat.Recv(port); err != nil || value != chanhub.Number(uint64(step/2-1)) {
			t.Fatal(value, err)
		}
	}
	return port
}

// trySelects makes so many steps that leave nothing to make again.
func trySelects(t *testing.T, seat *chanhub.Seat, steps int) {
	t.Helper()
	for i := 0; i < steps; i++ {
		if _, _, err := seat.TrySelect(0); err != nil {
			t.Fatal(err)
		}
	}
}

// A reader reads the chapters of a hub on which such steps are made, each chapter with keep of them, and the last one with an exit.
type reader struct {
	t              *testing.T
	keep, steps    int
	step, chapters int // how many it has read
}

// read fails the test unless this is the next chapter.
func (r *reader) read(text []byte) {
	var wanted strings.Builder
	wanted.WriteString("chanhub journal 2\nprocs 1\n")
	if r.step > 0 {
		wanted.WriteString(lineOf(0))
		if r.step%2 == 0 {
			wanted.WriteString(lineOf(r.step - 1))
		}
	}
	for end := r.step + r.keep; r.step < end && r.step < r.steps; r.step++ {
		wanted.WriteString(lineOf(r.step))
	}
	if r.step == r.steps {
		wanted.WriteString("0 exit\n")
	}
	if string(text) != wanted.String() {
		r.t.Errorf("chapter %d is another", r.chapters)
	}
	r.chapters++
}

// hasAll fails the test unless it has read all chapters.
func (r *reader) hasAll() {
	if wanted := (r.steps + r.keep - 1) / r.keep; r.step != r.steps || r.chapters != wanted {
		r.t.Errorf("%d steps, and not %d; %d chapters, and not %d", r.step, r.steps, r.chapters, wanted)
	}
}

// More steps than a hub of Open makes, in little memory.
func TestAHubGoesOnAfterAMillionSteps(t *testing.T) {
	const steps, mostBytes = 1_200_001, 16 << 20
	before := resident(t)
	chapters := &reader{t: t, keep: 999, steps: steps}
	hub := openEndless(t, 1, 999, chanhub.Chapters{Func: chapters.read})
	port := makeSteps(t, hub.Seat(0), steps)
	if counts, err := hub.Look(port); err != nil || counts != (chanhub.Counts{Capacity: 1, Sent: steps / 2, Received: steps / 2}) {
		t.Errorf("looked: %+v, %v", counts, err)
	}
	if more := resident(t) - before; more > mostBytes {
		t.Errorf("%d bytes more than before", more)
	}
	told(t, "close", hub.Close(), nil)
	chapters.hasAll()
}

func TestChaptersGoToFiles(t *testing.T) {
	const steps, keep = 100_001, 9_999
	folder := t.TempDir()
	name := filepath.Join(folder, "run")
	given, written := &reader{t: t, keep: keep, steps: steps}, &reader{t: t, keep: keep, steps: steps}
	hub := openEndless(t, 1, keep, chanhub.Chapters{Func: given.read, Files: name})
	makeSteps(t, hub.Seat(0), steps)
	told(t, "close", hub.Close(), nil)
	given.hasAll()
	entries, err := os.ReadDir(folder)
	if err != nil {
		t.Fatal(err)
	}
	files := numbered(name, len(entries))
	for _, file := range files {
		text, err := os.ReadFile(file)
		if err != nil {
			t.Fatal(err)
		}
		written.read(text)
	}
	written.hasAll()
	areChained(t, files)
}

// A chapter falls out with the first step of the next chapter but one.
func TestEachChapterComesBeforeItsCallReturns(t *testing.T) {
	var all texts
	hub := openEndless(t, 1, 2, chanhub.Chapters{Func: all.add})
	for i, wanted := range []int{0, 0, 0, 0, 1, 1, 2} {
		if _, _, err := hub.Seat(0).TrySelect(0); err != nil || len(all) != wanted {
			t.Errorf("after step %d: %d chapters, %v", i, len(all), err)
		}
	}
	told(t, "close", hub.Close(), nil)
	head, step := "chanhub journal 2\nprocs 1\n", "0 select 0 default\n"
	all.are(t, head+step+step, head+step+step, head+step+step, head+step+"0 exit\n")
}

func TestACallThatWaitsGivesItsChapterFirst(t *testing.T) {
	chapters := make(chan string)
	hub := openEndless(t, 2, 1, chanhub.Chapters{Func: func(text []byte) { chapters <- string(text) }})
	port := makePort(t, hub.Seat(0), 1)
	trySelects(t, hub.Seat(0), 2)
	received := make(chan error)
	go func() {
		_, err := hub.Seat(1).Recv(port)
		received <- err
	}()
	if first := <-chapters; first != "chanhub journal 2\nprocs 2\n0 make 1\n" {
		t.Errorf("chapter %q", first)
	}
	untilItStands(t, hub, "1 recv 1")
	go func() {
		for range chapters {
		}
	}()
	told(t, "send", hub.Seat(0).Send(port, chanhub.Number(7)), nil)
	told(t, "receive", <-received, nil)
	told(t, "close", hub.Close(), nil)
	close(chapters)
}

func TestAHubWithoutAFunctionKeepsTwoChapters(t *testing.T) {
	hub := openEndless(t, 1, 2, chanhub.Chapters{})
	text, err := hub.Before()
	is(t, "before", text, err, "")
	makeSteps(t, hub.Seat(0), 7)
	head := "chanhub journal 2\nprocs 1\n0 make 1\n"
	before, present := head+"0 send 1 0\n0 recv 1\n0 send 1 1\n0 recv 1\n0 send 1 2\n", head+"0 send 1 2\n0 recv 1\n"
	text, err = hub.Before()
	is(t, "before", text, err, before)
	text, err = hub.Journal()
	is(t, "journal", text, err, present)
	told(t, "cut", hub.Cut(), nil)
	text, err = hub.Before()
	is(t, "before", text, err, present)
	text, err = hub.Journal()
	is(t, "journal", text, err, head)
	told(t, "close", hub.Close(), nil)
	_, err = hub.Before()
	told(t, "before", err, chanhub.ErrHubClosed)
	told(t, "cut", hub.Cut(), chanhub.ErrHubClosed)
}

func TestACutByHandEndsAChapter(t *testing.T) {
	var all texts
	hub := openEndless(t, 1, 1000, chanhub.Chapters{Func: all.add})
	port := makePort(t, hub.Seat(0), 1)
	told(t, "cut", hub.Cut(), nil)
	told(t, "send", hub.Seat(0).Send(port, chanhub.Number(7)), nil)
	all.are(t)
	told(t, "cut", hub.Cut(), nil)
	head := "chanhub journal 2\nprocs 1\n0 make 1\n"
	all.are(t, head)
	if value, err := hub.Seat(0).Recv(port); err != nil || value != chanhub.Number(7) {
		t.Errorf("received %v, %v", value, err)
	}
	told(t, "close", hub.Close(), nil)
	all.are(t, head, head+"0 send 1 7\n", head+"0 send 1 7\n0 recv 1\n0 exit\n")
}

func TestAHubThatEndsIsNotCut(t *testing.T) {
	hub := open(t, chanhub.Edition2, 1, 100)
	makePort(t, hub.Seat(0), 1)
	told(t, "cut", hub.Cut(), chanhub.FaultBadCall)
	text, err := hub.Before()
	is(t, "before", text, err, "")
	text, err = hub.Journal()
	is(t, "journal", text, err, "chanhub journal 2\nprocs 1\n0 make 1\n")
}

func TestEndlessOpeningsAreRefused(t *testing.T) {
	discarded, given, written := chanhub.Chapters{}, chanhub.Chapters{Func: func([]byte) {}}, chanhub.Chapters{Files: "run"}
	for _, row := range []struct {
		edition     chanhub.Edition
		procs, keep int
		chapters    chanhub.Chapters
		err         error
	}{
		{1, 0, 1, discarded, chanhub.ErrProcs},
		{1, 65, 1, given, chanhub.ErrProcs},
		{1, -1, 1, written, chanhub.ErrProcs},
		{2, 1, 0, discarded, chanhub.ErrKeep},
		{2, 1, 900_001, given, chanhub.ErrKeep},
		{2, 1, -1, written, chanhub.ErrKeep},
		{2, 1, 1<<32 + 1, discarded, chanhub.ErrKeep},
		{0, 1, 1, discarded, chanhub.ErrEdition},
		{4, 1, 1, given, chanhub.ErrEdition},
		{2, 1, 1, chanhub.Chapters{Files: "a\x00b"}, chanhub.ErrFiles},
	} {
		hub, err := chanhub.OpenEndless(row.edition, row.procs, row.keep, row.chapters)
		if hub != nil || !errors.Is(err, row.err) {
			t.Errorf("%+v: %v", row, err)
		}
	}
	told(t, "close of a hub with the most", openEndless(t, 64, 900_000, discarded).Close(), nil)
}

// Close exits processes, which begins no chapter, and gives the chapters that are left.
func TestTheFunctionMayLookAtItsHub(t *testing.T) {
	var hub *chanhub.Hub
	var port chanhub.Port
	var seen []string
	looked := make(chan bool, 2)
	hub = openEndless(t, 64, 1, chanhub.Chapters{Func: func(text []byte) {
		counts, err := hub.Look(port)
		if err != nil {
			seen = append(seen, err.Error())
			return
		}
		before, beforeErr := hub.Before()
		present, presentErr := hub.Journal()
		if beforeErr != nil || presentErr != nil {
			t.Errorf("before: %v, journal: %v", beforeErr, presentErr)
		}
		seen = append(seen, fmt.Sprint(counts.Sent, bytes.Equal(text, before), bytes.Equal(before, present)))
		looked <- true
	}})
	port = makePort(t, hub.Seat(0), 2)
	for i := 0; i < 2; i++ {
		told(t, "send", hub.Seat(0).Send(port, chanhub.Number(7)), nil)
	}
	trySelects(t, hub.Seat(0), 6)
	waits := make(chan error)
	go func() {
		_, err := hub.Seat(1).Recv(0)
		waits <- err
	}()
	// Until the function has looked twice, the hub stays open.
	for i := 0; i < 2; i++ {
		<-looked
	}
	untilItStands(t, hub, "1 recv 0")
	told(t, "close", hub.Close(), nil)
	told(t, "the call that waited", <-waits, chanhub.ErrHubClosed)
	for i, wanted := range []string{"2 false false", "2 false false", "chanhub: the hub is closed"} {
		if len(seen) <= i || seen[i] != wanted {
			t.Errorf("seen %q", seen)
		}
	}
	// The make, the sends, the selects and the receive have a chapter each.
	if len(seen) != 4 {
		t.Errorf("%d chapters", len(seen))
	}
}

func TestGoexitEndsTheFunctionAlone(t *testing.T) {
	calls := 0
	hub := openEndless(t, 1, 10, chanhub.Chapters{Func: func([]byte) {
		calls++
		runtime.Goexit()
	}})
	makeSteps(t, hub.Seat(0), 101)
	told(t, "close", hub.Close(), nil)
	if calls != 11 {
		t.Errorf("%d calls", calls)
	}
}

// isApart tells whether apart runs the test.
func isApart() bool {
	return os.Getenv("CHANHUB_APART") != ""
}

// apart runs this test again, alone and in another process. It returns what that wrote to standard error, and how it ended.
func apart(t *testing.T) (said string, err error) {
	t.Helper()
	again := exec.Command(os.Args[0], "-test.run=^"+t.Name()+"$")
	again.Env = append(os.Environ(), "CHANHUB_APART=1")
	var text bytes.Buffer
	again.Stderr = &text
	err = again.Run()
	return text.String(), err
}

func TestAPanicEndsTheProgram(t *testing.T) {
	if isApart() {
		hub := openEndless(t, 1, 10, chanhub.Chapters{Func: func([]byte) { panic("no room for chapters") }})
		defer hub.Close()
		defer func() { recover() }()
		makeSteps(t, hub.Seat(0), 1001)
		time.Sleep(time.Minute)
	}
	said, err := apart(t)
	var exit *exec.ExitError
	if !errors.As(err, &exit) || exit.ExitCode() != 2 {
		t.Errorf("ended with %v", err)
	}
	// The hub may get as far as the next chapter meanwhile, whose panic is a second one.
	isRaisedAgain := strings.Contains(said, "[recovered]")
	if !strings.Contains(said, "panic: no room for chapters\n") || isRaisedAgain || !strings.Contains(said, "endless_test.go") {
		t.Errorf("said %s", said)
	}
}

func TestAnErrorOfTheDiskIsToldOnceAndStopsNoStep(t *testing.T) {
	if !isApart() {
		said, err := apart(t)
		if err != nil {
			t.Error(err)
		}
		if strings.Count(said, "chanhub: ") != 1 || !strings.HasSuffix(said, "/later/run.0: No such file or directory\n") {
			t.Errorf("said %q", said)
		}
		return
	}
	later := filepath.Join(t.TempDir(), "later")
	hub := openEndless(t, 1, 100, chanhub.Chapters{Files: filepath.Join(later, "run")})
	makeSteps(t, hub.Seat(0), 1001)
	if err := os.Mkdir(later, 0o777); err != nil {
		t.Fatal(err)
	}
	told(t, "close", hub.Close(), syscall.ENOENT)
	told(t, "a second close", hub.Close(), os.ErrNotExist)
	written, err := filepath.Glob(filepath.Join(later, "*"))
	if err != nil || len(written) != 2 || filepath.Base(written[0]) != "run.10" || filepath.Base(written[1]) != "run.9" {
		t.Errorf("written %q, %v", written, err)
	}
}

// firstSent returns the numbers that these chapters send on port 1, each where it first stands.
func firstSent(all texts) (sent []uint64) {
	known := map[uint64]bool{}
	for _, text := range all {
		for _, line := range strings.Split(text, "\n") {
			var pid, number uint64
			if n, _ := fmt.Sscanf(line, "%d send 1 %d", &pid, &number); n == 2 && !known[number] {
				known[number] = true
				sent = append(sent, number)
			}
		}
	}
	return sent
}

func TestGoroutinesMakeOneHistory(t *testing.T) {
	const pairs, values = 6, 2000
	name := filepath.Join(t.TempDir(), "run")
	var all texts
	hub := openEndless(t, 2*pairs+1, 100, chanhub.Chapters{Files: name, Func: func(text []byte) {
		time.Sleep(200 * time.Microsecond)
		all.add(text)
	}})
	boss := hub.Seat(2 * pairs)
	port := makePort(t, boss, 3)
	var senders, others sync.WaitGroup
	senders.Add(pairs)
	others.Add(pairs + 1)
	for pid := 0; pid < pairs; pid++ {
		first, sender, receiver := uint64(pid*values), hub.Seat(pid), hub.Seat(pairs+pid)
		go func() {
			defer senders.Done()
			defer sender.Exit()
			for number := first; number < first+values; number++ {
				if err := sender.Send(port, chanhub.Number(number)); err != nil {
					t.Error(err)
					return
				}
			}
		}()
		go func() {
			defer others.Done()
			defer receiver.Exit()
			drain := receiver.Drain(port)
			for drain.Next() {
			}
			told(t, "drain", drain.Err(), nil)
		}()
	}
	go func() {
		defer others.Done()
		for i := 0; i < 20; i++ {
			told(t, "cut", hub.Cut(), nil)
		}
	}()
	senders.Wait()
	told(t, "close of the port", boss.Close(port), nil)
	others.Wait()
	counts, err := hub.Look(port)
	if wanted := (chanhub.Counts{Capacity: 3, Sent: pairs * values, Received: pairs * values, Closed: true}); err != nil || counts != wanted {
		t.Errorf("looked: %+v, %v", counts, err)
	}
	told(t, "close", hub.Close(), nil)

	next := make([]uint64, pairs)
	for _, number := range firstSent(all) {
		pid := number / values
		if number%values != next[pid] {
			t.Fatalf("process %d sends %d, and not %d", pid, number%values, next[pid])
		}
		next[pid]++
	}
	for pid, count := range next {
		if count != values {
			t.Errorf("process %d sends %d values", pid, count)
		}
	}
	areChained(t, numbered(name, len(all)))
}
