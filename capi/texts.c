/* What the library says in words: its version, and what its numbers mean. */
#include "chanhub.h"

#define TEXT_OF(number) #number
#define VERSION_OF(major, minor) TEXT_OF(major) "." TEXT_OF(minor)

const char *chanhub_version(void) {
    return VERSION_OF(CHANHUB_VERSION_MAJOR, CHANHUB_VERSION_MINOR);
}

/* The text with this number in a table of so many. */
static const char *text_at(const char *const *texts, size_t count, int number) {
    bool is_there = number >= 0 && (size_t)number < count && texts[number];
    return is_there ? texts[number] : "a number that chanhub.h does not define";
}

const char *chanhub_strerror(int error) {
    static const char *const texts[] = {
        "no error",
        "the number of processes must be between 1 and 64, or 63 with a clock",
        "the step limit must be between 1 and 1,000,000, or the number of steps to keep between 1 and 900,000",
        "out of memory",
        "the edition must be 1, 2 or 3, and 2 or 3 with a clock",
        "the journal to follow is malformed",
        "the journal to follow has a step that no hub admits there",
        "a hub that follows a journal has no limit and no chapters, and a clock only if the journal has one",
    };
    return text_at(texts, sizeof texts / sizeof *texts, error);
}

const char *chanhub_strfault(int fault) {
    static const char *const texts[] = {
        "no fault",
        [CHANHUB_NO_PROCESS] = "no such process",
        [CHANHUB_GONE] = "the process has exited",
        [CHANHUB_BUSY] = "a call of the process is still open",
        [CHANHUB_TOO_MANY_CASES] = "more than 8 cases in edition 1",
        [CHANHUB_NO_PORT] = "no such port",
        [CHANHUB_BAD_CAP] = "the capacity is above 1,024",
        [CHANHUB_TOO_MANY_PORTS] = "the hub already has 64 ports",
        [CHANHUB_NIL_CLOSE] = "close of port 0",
        [CHANHUB_ALREADY_CLOSED] = "close of a closed port",
        [CHANHUB_JOURNAL_FULL] = "the hub has reached its step limit",
        [CHANHUB_NO_MEMORY] = "out of memory",
        [CHANHUB_NOT_PARKED] = "the process has no waiting call",
        [CHANHUB_BAD_CALL] = "no hub, a number out of range, more than 16 cases or 32 bytes, or a call that needs another edition or a clock",
        [CHANHUB_DIVERGED] = "the journal that the hub follows has another step here",
        [CHANHUB_NOT_YET] = "other steps come first in the journal that the hub follows",
        [CHANHUB_IN_USE] = "the port is in use",
        [CHANHUB_NOT_GONE] = "the process has not exited",
    };
    return text_at(texts, sizeof texts / sizeof *texts, fault);
}

const char *chanhub_what_name(int what) {
    static const char *const names[] = {
        [CHANHUB_MADE] = "made",
        [CHANHUB_SENT] = "sent",
        [CHANHUB_GOT] = "got",
        [CHANHUB_DRAINED] = "drained",
        [CHANHUB_CLOSED] = "closed",
        [CHANHUB_DEFAULT] = "default",
        [CHANHUB_DONE] = "done",
        [CHANHUB_WAITING] = "parked",
        [CHANHUB_STALLED] = "stalled",
        [CHANHUB_FAULT] = "fault",
        [CHANHUB_CANCELLED] = "cancelled",
        [CHANHUB_TIMED_OUT] = "timed out",
    };
    return text_at(names, sizeof names / sizeof *names, what);
}
