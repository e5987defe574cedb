package main

import (
	"fmt"
	"strconv"
	"strings"
)

// communication is one case of a call. A value is kept as it is spelled: no channel looks into it.
type communication struct {
	isSend bool
	port   int
	value  string
}

// entry is a process and its step, which is one of make, call, close, exit, cancel, start and reopen.
type entry struct {
	pid        int
	step       string
	number     int // the capacity, the port or the process of a step that is no call
	capacity   int // of a reopen
	cases      []communication
	hasDefault bool
	word       uint64
}

// journal is a text that is read, and written again.
type journal struct {
	edition   int
	processes int
	entries   []entry
}

// readJournal reads a journal that is well formed, and panics at one that is not.
func readJournal(text string) journal {
	lines := strings.Split(strings.TrimSuffix(text, "\n"), "\n")
	read := journal{
		edition:   number(strings.TrimPrefix(lines[0], "chanhub journal ")),
		processes: number(strings.TrimPrefix(lines[1], "procs ")),
	}
	for _, line := range lines[2:] {
		read.entries = append(read.entries, readEntry(strings.Split(line, " ")))
	}
	return read
}

func readEntry(fields []string) entry {
	read := entry{pid: number(fields[0]), step: fields[1]}
	switch fields[1] {
	case "make", "close", "cancel", "start":
		read.number = number(fields[2])
	case "reopen":
		read.number, read.capacity = number(fields[2]), number(fields[3])
	case "send":
		read.step = "call"
		read.cases = []communication{{true, number(fields[2]), fields[3]}}
	case "recv":
		read.step = "call"
		read.cases = []communication{{false, number(fields[2]), ""}}
	case "select":
		read.step = "call"
		read.word = choiceWord(fields[2])
		rest := fields[3:]
		if len(rest) > 0 && rest[len(rest)-1] == "default" {
			read.hasDefault = true
			rest = rest[:len(rest)-1]
		}
		for _, field := range rest {
			read.cases = append(read.cases, readCase(field))
		}
	}
	return read
}

func readCase(field string) communication {
	port, value, _ := strings.Cut(field[1:], ":")
	return communication{field[0] == 's', number(port), value}
}

func number(field string) int {
	read, err := strconv.Atoi(field)
	if err != nil {
		panic(err)
	}
	return read
}

func choiceWord(field string) uint64 {
	read, err := strconv.ParseUint(field, 10, 64)
	if err != nil {
		panic(err)
	}
	return read
}

func (j journal) text() string {
	var lines strings.Builder
	fmt.Fprintf(&lines, "chanhub journal %d\nprocs %d\n", j.edition, j.processes)
	for _, e := range j.entries {
		fmt.Fprintf(&lines, "%d %s\n", e.pid, e.text())
	}
	return lines.String()
}

func (e entry) text() string {
	switch e.step {
	case "call":
		return e.callText()
	case "exit":
		return "exit"
	case "reopen":
		return fmt.Sprintf("reopen %d %d", e.number, e.capacity)
	}
	return fmt.Sprintf("%s %d", e.step, e.number)
}

// callText writes a call of one case, without a default and with word 0, as a send or a receive: no call has two spellings.
func (e entry) callText() string {
	if len(e.cases) == 1 && !e.hasDefault && e.word == 0 {
		if c := e.cases[0]; c.isSend {
			return fmt.Sprintf("send %d %s", c.port, c.value)
		}
		return fmt.Sprintf("recv %d", e.cases[0].port)
	}
	fields := []string{"select", strconv.FormatUint(e.word, 10)}
	for _, c := range e.cases {
		if c.isSend {
			fields = append(fields, fmt.Sprintf("s%d:%s", c.port, c.value))
		} else {
			fields = append(fields, fmt.Sprintf("r%d", c.port))
		}
	}
	if e.hasDefault {
		fields = append(fields, "default")
	}
	return strings.Join(fields, " ")
}
