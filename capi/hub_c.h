/* hub_c.h: what the proved library exports, crates/hub_c/src/lib.rt, and the structs that it shares with C,
 * crates/hub_session/src/structs.rt.
 *
 * A struct hub of zeros is not open. Once it is open it owns the hub, so it is never copied, and its members are left alone. The calls on
 * one hub are ordered by a lock. Whatever else is passed, the answers are proved, if the pointers point to what they say and what is
 * written overlaps with nothing else. No bool is passed to the library: a number that is not 0 is true.
 */
#ifndef HUB_C_H
#define HUB_C_H

#include "chanhub.h"

struct hub {
    void *at;
    bool is_open;
};

/* What a step or a take came to. Its members are written, and what lies between them stays. */
struct told {
    chanhub_told it;
    uint64_t ended; /* the processes whose calls the step ended */
    bool chapter;   /* whether a chapter waits to be read */
};

struct cut {
    bool cut, chapter; /* whether it was made; whether a chapter waits to be read */
};

/* What a reading of pieces of a text came to, by number. */
enum { NO_PIECE, WRITTEN, NO_ROOM, NO_MEMORY };

struct piece {
    uint8_t what;
    uint32_t count;  /* how many pieces were written */
    uint64_t length; /* how many bytes were written; if there was no room, how many the first wants */
};

/* What an opening of a hub that follows a journal came to. */
struct followed {
    uint8_t refusal; /* 0, 3 for memory, 5 if the text is malformed, 6 if one of its steps is not admitted */
    uint32_t line;   /* that line, from 1; else 0 */
};

/* What a step of the journal that a hub follows is. A call of one case without a default is a send or a receive, whatever its choice word. */
enum { STEP_MAKE = 1, STEP_SEND, STEP_RECV, STEP_SELECT, STEP_SELECT_DEFAULT, STEP_CLOSE, STEP_EXIT, STEP_CANCEL, STEP_START, STEP_REOPEN };

/* A process's next step of that journal. All is 0 if there is none. */
struct next {
    uint32_t number; /* its number in the journal, from 1 */
    uint8_t what;
    uint8_t other; /* whom a cancel cancels, or a start starts; else 0 */
    uint16_t port; /* of a send, a receive, a close or a reopen; else 0 */
};

/* Reads pieces of a text, from this number on, as many whole ones as have room, up to some bound: of the journal, of the chapter before
 * the present one, of the one that waits, of the journal that is followed; or the line of the step at which the hub diverged from that,
 * as piece 0. */
typedef struct piece reader(struct hub *hub, uint64_t number, uint8_t *place, size_t room);

uint8_t hub_c_open(struct hub *hub, uint8_t edition, uint8_t procs, uint32_t limit);
uint8_t hub_c_open_endless(struct hub *hub, uint8_t edition, uint8_t procs, uint32_t keep, uint8_t hands_out);
struct followed hub_c_open_following(struct hub *hub, const uint8_t *text, size_t length, uint8_t goes_on);
void hub_c_end(struct hub *hub);
void hub_c_make(struct hub *hub, uint8_t pid, uint32_t cap, struct told *told);
void hub_c_send(struct hub *hub, uint8_t pid, uint16_t port, const chanhub_value *value, struct told *told);
void hub_c_recv(struct hub *hub, uint8_t pid, uint16_t port, struct told *told);
void hub_c_call(struct hub *hub, uint8_t pid, const chanhub_case *cases, size_t count, uint8_t has_default, uint64_t word,
                struct told *told);
void hub_c_close(struct hub *hub, uint8_t pid, uint16_t port, struct told *told);
void hub_c_exit(struct hub *hub, uint8_t pid, struct told *told);
void hub_c_cancel(struct hub *hub, uint8_t pid, uint8_t other, struct told *told);
void hub_c_start(struct hub *hub, uint8_t pid, uint8_t other, struct told *told);
void hub_c_reopen(struct hub *hub, uint8_t pid, uint16_t port, uint32_t cap, struct told *told);
void hub_c_take(struct hub *hub, uint8_t pid, struct told *told);
uint64_t hub_c_next(struct hub *hub); /* the process whose step is next, as a set */
struct next hub_c_step_of(struct hub *hub, uint8_t pid);
uint8_t hub_c_clock(struct hub *hub); /* the process that is the clock in the journal that is followed; 64 if there is none */
chanhub_counts hub_c_look(struct hub *hub, uint16_t port);
uint64_t hub_c_entries(struct hub *hub);
reader hub_c_present, hub_c_before, hub_c_waiting, hub_c_given, hub_c_asked;
struct cut hub_c_cut(struct hub *hub);
bool hub_c_let_go(struct hub *hub);

/* The layouts that crates/hub_session has. */
_Static_assert(sizeof(struct hub) == 16 && sizeof(struct piece) == 16 && sizeof(struct cut) == 2 && sizeof(struct followed) == 8, "");
_Static_assert(offsetof(struct piece, count) == 4 && offsetof(struct piece, length) == 8, "");
_Static_assert(sizeof(chanhub_value) == 48 && offsetof(chanhub_value, is_bytes) == 8 && offsetof(chanhub_value, bytes) == 10, "");
_Static_assert(sizeof(chanhub_case) == 56 && offsetof(chanhub_case, port) == 2 && offsetof(chanhub_case, value) == 8, "");
_Static_assert(sizeof(chanhub_told) == 56 && offsetof(chanhub_told, port) == 4 && offsetof(chanhub_told, value) == 8, "");
_Static_assert(sizeof(struct told) == 72 && offsetof(struct told, ended) == 56 && offsetof(struct told, chapter) == 64, "");
_Static_assert(sizeof(struct next) == 8 && offsetof(struct next, what) == 4 && offsetof(struct next, port) == 6, "");
_Static_assert(sizeof(chanhub_counts) == 24 && offsetof(chanhub_counts, cap) == 4 && offsetof(chanhub_counts, sent) == 8, "");

#endif
