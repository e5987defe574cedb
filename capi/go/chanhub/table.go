package chanhub

// A table keeps values by their numbers, which are not 0. A Go map would do the same, and take longer than the rest of a Chan's call.
type table[T any] struct {
	entries []entry[T] // a power of 2, of which at most half have a number
	count   int
}

type entry[T any] struct {
	number uint64
	value  T
}

// place returns where the number is, or else where it would be put. The numbers from there to the next free place are near theirs too.
func (t *table[T]) place(number uint64) int {
	const ratio = 0x9e3779b97f4a7c15 // 2^64 over the golden ratio, which spreads numbers that follow one another
	i := int(number*ratio>>32) & (len(t.entries) - 1)
	for t.entries[i].number != number && t.entries[i].number != 0 {
		i = t.after(i)
	}
	return i
}

func (t *table[T]) after(i int) int {
	return (i + 1) & (len(t.entries) - 1)
}

func newTable[T any]() table[T] {
	return table[T]{entries: make([]entry[T], 8)}
}

func (t *table[T]) put(number uint64, value T) {
	if 2*t.count == len(t.entries) {
		t.grow()
	}
	t.entries[t.place(number)] = entry[T]{number, value}
	t.count++
}

func (t *table[T]) grow() {
	before := t.entries
	t.entries = make([]entry[T], 2*len(before))
	for _, e := range before {
		if e.number != 0 {
			t.entries[t.place(e.number)] = e
		}
	}
}

// take takes out the value with this number, if there is one.
func (t *table[T]) take(number uint64) (value T, isThere bool) {
	i := t.place(number)
	if t.entries[i].number == 0 {
		return value, false
	}
	value = t.entries[i].value
	t.entries[i] = entry[T]{}
	t.count--
	for i = t.after(i); t.entries[i].number != 0; i = t.after(i) {
		e := t.entries[i]
		t.entries[i] = entry[T]{}
		t.entries[t.place(e.number)] = e
	}
	return value, true
}
