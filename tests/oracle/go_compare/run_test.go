package main

import (
	"reflect"
	"strings"
	"testing"
)

// row is a journal with what Go's channels make of it, worked by hand from Go's specification.
type row struct {
	name     string
	isPlain  bool
	asked    string // without the head
	followed string // where it is not what was asked
	events   string
}

var rows = []row{
	{
		name:   "a send and a receive without a buffer meet",
		asked:  "0 make 0\n0 recv 1\n1 send 1 7\n",
		events: "0 made 1\n0 parked\n1 case 0 sent\n0 case 0 got 7\n",
	},
	{
		name:   "a full buffer lets the waiting sender in behind its value",
		asked:  "0 make 1\n0 send 1 1\n0 send 1 2\n1 recv 1\n1 recv 1\n",
		events: "0 made 1\n0 case 0 sent\n0 parked\n1 case 0 got 1\n0 case 0 sent\n1 case 0 got 2\n",
	},
	{
		name:   "a receive after a close gives the buffer, then nothing",
		asked:  "0 make 1\n0 send 1 1\n0 close 1\n1 recv 1\n1 recv 1\n1 send 1 2\n0 close 1\n0 close 0\n",
		events: "0 made 1\n0 case 0 sent\n0 done\n1 case 0 got 1\n1 case 0 drained\n1 case 0 closed\n0 fault 9\n0 fault 8\n",
	},
	{
		name:   "a waiting send panics at a close",
		asked:  "0 make 0\n0 send 1 1\n1 close 1\n",
		events: "0 made 1\n0 parked\n1 done\n0 case 0 closed\n",
	},
	{
		name:   "a default is taken where no case can proceed",
		asked:  "0 make 1\n0 select 0 r1 default\n0 select 0 s1:4 default\n0 select 0 s1:5 s0:6 default\n",
		events: "0 made 1\n0 default\n0 case 0 sent\n0 default\n",
	},
	{
		name:   "the one case that can proceed is taken",
		asked:  "0 make 1\n0 make 1\n0 send 2 3\n0 select 5 r1 r2 r0\n",
		events: "0 made 1\n0 made 2\n0 case 0 sent\n0 case 1 got 3\n",
	},
	{
		name:     "everybody waits, plain",
		isPlain:  true,
		asked:    "0 make 0\n0 recv 1\n1 select 1\n0 make 0\n",
		followed: "0 make 0\n0 recv 1\n1 select 1\n",
		events:   "0 made 1\n0 parked\n1 parked\n0 stalled\n1 stalled\n",
	},
	{
		name:   "everybody waits, whole",
		asked:  "0 make 0\n0 recv 1\n1 select 1\n0 make 0\n1 exit\n1 exit\n",
		events: "0 made 1\n0 parked\n1 parked\n0 stalled\n1 stalled\n0 made 2\n1 done\n1 fault 2\n",
	},
	{
		name:   "a cancel ends a waiting call",
		asked:  "0 make 0\n0 recv 1\n0 make 0\n1 cancel 0\n1 cancel 0\n2 exit\n",
		events: "0 made 1\n0 parked\n0 fault 3\n1 done\n0 cancelled\n1 fault 12\n2 fault 1\n",
	},
	{
		name:     "a plain run is over before a cancel",
		isPlain:  true,
		asked:    "0 make 0\n1 cancel 0\n0 recv 1\n1 cancel 0\n",
		followed: "0 make 0\n1 cancel 0\n0 recv 1\n",
		events:   "0 made 1\n1 fault 12\n0 parked\n",
	},
	{
		name:   "a process comes back",
		asked:  "0 make 0\n1 exit\n0 start 1\n1 recv 1\n0 send 1 7\n1 exit\n0 start 1\n0 recv 1\n1 send 1 8\n",
		events: "0 made 1\n1 done\n0 done\n1 parked\n0 case 0 sent\n1 case 0 got 7\n1 done\n0 done\n0 parked\n1 case 0 sent\n0 case 0 got 8\n",
	},
	{
		name:   "a process that came back is waited for",
		asked:  "0 make 0\n1 exit\n0 start 1\n0 recv 1\n1 recv 1\n1 exit\n0 recv 1\n",
		events: "0 made 1\n1 done\n0 done\n0 parked\n1 parked\n0 stalled\n1 stalled\n1 done\n0 parked\n0 stalled\n",
	},
	{
		name:    "a port opens again, plain",
		isPlain: true,
		asked:   "0 make 0\n1 recv 1\n0 close 1\n0 reopen 1 1\n1 send 1 7\n1 send 1 8\n0 recv 1\n0 close 1\n0 recv 1\n0 recv 1\n",
		events: "0 made 1\n1 parked\n0 done\n1 case 0 drained\n0 done\n1 case 0 sent\n1 parked\n0 case 0 got 7\n1 case 0 sent\n0 done\n" +
			"0 case 0 got 8\n0 case 0 drained\n",
	},
	{
		name:   "what cannot come back",
		asked:  "0 start 1\n0 start 2\n0 make 1\n0 reopen 1 0\n0 send 1 7\n0 close 1\n0 reopen 1 0\n0 reopen 2 1025\n0 reopen 0 1025\n0 reopen 0 0\n",
		events: "0 fault 17\n0 fault 17\n0 made 1\n0 fault 16\n0 case 0 sent\n0 done\n0 fault 16\n0 fault 5\n0 fault 6\n0 fault 8\n",
	},
	{
		name:   "what is refused",
		asked:  "0 make 1025\n0 recv 1\n0 close 1\n0 make 1024\n0 send 1 #00ff\n1 recv 1\n",
		events: "0 fault 6\n0 fault 5\n0 fault 5\n0 made 1\n0 case 0 sent\n1 case 0 got #00ff\n",
	},
}

const head = "chanhub journal 3\nprocs 2\n"

func TestRows(t *testing.T) {
	for _, row := range rows {
		followed, events, _ := runJournal(readJournal(head+row.asked), row.isPlain)
		wanted := row.followed
		if wanted == "" {
			wanted = row.asked
		}
		if text := followed.text(); text != head+wanted {
			t.Errorf("%s: the journal that follows Go is\n%s", row.name, text)
		}
		if text := strings.Join(events, ""); text != row.events {
			t.Errorf("%s: the events are\n%s", row.name, text)
		}
	}
}

// outcome is what a run of a journal, given without its head, makes of it.
func outcome(asked string) string {
	followed, events, _ := runJournal(readJournal(head+asked), false)
	return strings.TrimPrefix(followed.text(), head) + strings.Join(events, "")
}

// Of two cases that can proceed, and of two that wait on one port, Go takes each at some time, and the journal asks for it.
func TestDraws(t *testing.T) {
	const (
		asked   = "0 make 1\n0 select 19 s0:1 s1:2 s1:3\n1 recv 1\n0 select 0 r1 r1\n1 send 1 4\n"
		lower   = "0 made 1\n0 case 1 sent\n1 case 0 got 2\n0 parked\n1 case 0 sent\n"
		higher  = "0 made 1\n0 case 2 sent\n1 case 0 got 3\n0 parked\n1 case 0 sent\n"
		highest = "0 select 0 r0 r1"
	)
	even := strings.Replace(asked, "select 19", "select 18", 1)
	wanted := map[string]bool{
		even + lower + "0 case 0 got 4\n":                                                    true,
		asked + higher + "0 case 0 got 4\n":                                                  true,
		strings.Replace(even, "0 select 0 r1 r1", highest, 1) + lower + "0 case 1 got 4\n":   true,
		strings.Replace(asked, "0 select 0 r1 r1", highest, 1) + higher + "0 case 1 got 4\n": true,
	}
	drawn := map[string]bool{}
	for i := 0; i < 1000 && len(drawn) < len(wanted); i++ {
		drawn[outcome(asked)] = true
	}
	if !reflect.DeepEqual(drawn, wanted) {
		t.Errorf("Go drew\n%v", drawn)
	}
}

// A close that meets a send and a receive of one waiting select ends it at either, as far as Go's specification says.
func TestCloseMeetsBothSides(t *testing.T) {
	allowed := map[string]bool{
		"0 make 0\n0 select 1 s1:3 r1\n1 close 1\n0 made 1\n0 parked\n1 done\n0 case 0 closed\n":  true,
		"0 make 0\n0 select 1 s0:3 r1\n1 close 1\n0 made 1\n0 parked\n1 done\n0 case 1 drained\n": true,
	}
	if text := outcome("0 make 0\n0 select 1 s1:3 r1\n1 close 1\n"); !allowed[text] {
		t.Errorf("the close gives\n%s", text)
	}
}

// A select that is made while another waits asks for its case among those that can proceed once a case of the other has moved.
func TestSelectBeforeAClose(t *testing.T) {
	const (
		head   = "0 make 0\n0 make 1\n"
		waits  = "0 select 0 s1:3 r1\n"
		moved  = "0 select 0 s0:3 r1\n"
		close  = "1 close 1\n"
		events = "0 made 1\n0 made 2\n0 parked\n"
	)
	allowed := map[string]bool{
		head + moved + "1 select 4 s2:1 s2:2 r1\n" + close + events + "1 case 0 sent\n1 done\n0 case 1 drained\n": true,
		head + moved + "1 select 5 s2:1 s2:2 r1\n" + close + events + "1 case 1 sent\n1 done\n0 case 1 drained\n": true,
		head + waits + "1 select 3 s2:1 s2:2 r1\n" + close + events + "1 case 0 sent\n1 done\n0 case 0 closed\n":  true,
		head + waits + "1 select 4 s2:1 s2:2 r1\n" + close + events + "1 case 1 sent\n1 done\n0 case 0 closed\n":  true,
		head + waits + "1 select 5 s2:1 s2:2 r1\n" + close + events + "1 case 2 got 3\n0 case 0 sent\n1 done\n":   true,
	}
	for i := 0; i < 100; i++ {
		if text := outcome(head + waits + "1 select 4 s2:1 s2:2 r1\n" + close); !allowed[text] {
			t.Fatalf("Go drew\n%s", text)
		}
	}
}

func TestWordFor(t *testing.T) {
	const greatest = 18446744073709551615
	for _, row := range []struct {
		word   uint64
		ready  []int
		fired  int
		wanted uint64
	}{
		{0, []int{3}, 3, 0},
		{7, []int{3}, 3, 7},
		{7, []int{1, 4}, 1, 6},
		{7, []int{1, 4}, 4, 7},
		{7, []int{0, 1, 2}, 2, 8},
		{greatest, []int{0, 1, 2}, 0, greatest},
		{greatest, []int{0, 1, 2}, 2, greatest - 1},
		{7, []int{1, 4}, 2, 7},
	} {
		if word := wordFor(row.word, row.ready, row.fired); word != row.wanted {
			t.Errorf("%v: the word is %d", row, word)
		}
	}
}
