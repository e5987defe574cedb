package chanhub

/*
#include <chanhub.h>

// chapters.go exports it.
extern void chanhubGiveChapter(uintptr_t handle, char *text, size_t length);

static void give_to(void *handle, const char *text, size_t length) {
	chanhubGiveChapter((uintptr_t)handle, (char *)text, length);
}

static int open_with(chanhub **hub, chanhub_options options, uintptr_t handle) {
	options.chapters = handle ? give_to : NULL;
	options.pointer = (void *)handle;
	return chanhub_open_with(hub, &options);
}
*/
import "C"

// Options says how [OpenWith] opens a hub. A field that is not set has its usual meaning.
type Options struct {
	Procs    int      // the number of processes: 1 to 64, or 1 to 63 with Timeouts
	Edition  Edition  // Edition2 if it is not set
	Limit    int      // the most steps that the hub makes, as for [Open]; 1,000,000 if it is not set
	Keep     int      // if it is set, the hub never ends, as one of [OpenEndless], and has no Limit
	Chapters Chapters // as for OpenEndless; only with Keep

	// Timeouts lets calls take a context: [Seat.SendContext], [Chan.RecvContext] and so on. This needs Edition2 or Edition3.
	//
	// The hub then has one more process, the clock, whose number is Procs. The library makes its steps, so that the journal tells
	// which calls gave up: the clock cancels them. While a call waits whose context may be done, no deadlock is reported, since
	// something can still happen. Such a call makes at most 5 steps if it waits. They count towards the limit. One step is kept for
	// each such call, so that a full journal delays none.
	Timeouts bool
}

// OpenWith opens a hub with these options. Call [Hub.Close] to free its memory.
//
// If no goroutine calls as one of the processes, call [Seat.Exit] for it, as with [Open].
//
// OpenWith returns [ErrProcs], [ErrLimit], [ErrKeep], [ErrEdition], [ErrFiles] or [ErrMemory] if it fails.
func OpenWith(options Options) (*Hub, error) {
	handler, err := newHandler(options.Chapters)
	if err != nil {
		return nil, err
	}
	var at *C.chanhub
	refusal := C.open_with(&at, C.chanhub_options{
		edition: within(int(options.Edition)),
		procs:   within(options.Procs),
		limit:   C.uint32_t(within(options.Limit)),
		keep:    C.uint32_t(within(options.Keep)),
		clock:   C.bool(options.Timeouts),
	}, handler.number())
	if refusal != 0 {
		handler.end()
		if options.Keep != 0 || handler != nil {
			return nil, refusalOf(refusal, ErrKeep)
		}
		return nil, refusalOf(refusal, ErrLimit)
	}
	hub := newHub(at, options.Procs)
	hub.isEndless, hub.handler = options.Keep != 0, handler
	return hub, nil
}
