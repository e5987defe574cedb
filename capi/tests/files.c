/* files FOLDER: chapters that are written to files in this empty folder, and what is told where that fails. */
#include "tally.h"

#include <errno.h>
#include <fcntl.h>
#include <stdlib.h>
#include <sys/stat.h>

enum { MOST_PATH = 1000, TOO_LONG = 10000 };

static const char *folder;

static const char *const texts[4] = {
    "chanhub journal 1\nprocs 1\n0 make 1\n0 send 1 1\n",
    "chanhub journal 1\nprocs 1\n0 make 1\n0 send 1 1\n0 recv 1\n0 send 1 3\n0 recv 1\n0 send 1 5\n",
    "chanhub journal 1\nprocs 1\n0 make 1\n0 send 1 5\n0 recv 1\n0 send 1 7\n0 recv 1\n0 send 1 9\n",
    "chanhub journal 1\nprocs 1\n0 make 1\n0 send 1 9\n0 recv 1\n0 send 1 11\n",
};

/* The path of this name in the folder, until the next one is asked for. */
static const char *in_folder(const char *name) {
    static char path[MOST_PATH + TOO_LONG];
    snprintf(path, sizeof path, "%s/%s", folder, name);
    return path;
}

/* The file of this name holds this text; it is not there where that is NULL. */
static void holds(const char *name, const char *wanted) {
    char found[2 * MOST_PATH];
    int file = open(in_folder(name), O_RDONLY);
    ssize_t length = file < 0 ? -1 : read(file, found, sizeof found);
    if (file >= 0) close(file);
    is(name, length, wanted ? (long long)strlen(wanted) : -1);
    if (wanted && length > 0) is(name, memcmp(found, wanted, (size_t)length), 0);
}

/* Sends what is told on standard error to the file `errors`, and returns what does so no longer. */
static int begin_errors(void) {
    int standard = dup(STDERR_FILENO), file = open(in_folder("errors"), O_WRONLY | O_CREAT | O_TRUNC, 0666);
    if (standard < 0 || file < 0 || dup2(file, STDERR_FILENO) < 0) exit(2);
    close(file);
    return standard;
}

static void end_errors(int standard) {
    if (dup2(standard, STDERR_FILENO) < 0) exit(2);
    close(standard);
}

/* Just this is told: of the file of this name, or nothing. */
static void is_told(const char *name, const char *why) {
    char line[2 * MOST_PATH] = "";
    if (name) snprintf(line, sizeof line, "chanhub: %s: %s\n", in_folder(name), why);
    holds("errors", line);
}

/* Makes the steps of a hub that leave the four chapters, under this name. */
static chanhub_files leave_four(const char *name) {
    static char path[MOST_PATH + TOO_LONG];
    snprintf(path, sizeof path, "%s", in_folder(name));
    int standard = begin_errors();
    chanhub_files files = { .name = path };
    chanhub *hub;
    if (chanhub_open_endless(&hub, 1, 1, 2, chanhub_write_chapter, &files)) exit(2);
    is("made", chanhub_make(hub, 0, 1).port, 1);
    for (unsigned i = 1; i < 12; i += 2) {
        is("sent", chanhub_send(hub, 0, 1, chanhub_number(i)).what, CHANHUB_SENT);
        if (i < 11) is("got", (long long)chanhub_recv(hub, 0, 1).value.number, i);
    }
    chanhub_free(hub);
    end_errors(standard);
    is("chapters", (long long)files.next, 4);
    return files;
}

static void all_written(void) {
    is("no error", leave_four("all").error, 0);
    is_told(NULL, NULL);
    holds("all.0", texts[0]), holds("all.1", texts[1]), holds("all.2", texts[2]), holds("all.3", texts[3]);
    holds("all.0.tmp", NULL);
}

static void written_over(void) {
    is("no error", leave_four("all").error, 0);
    holds("all.0", texts[0]), holds("all.3", texts[3]);
}

/* None can be written, of which the first tells. */
static void no_folder(void) {
    is("error", leave_four("missing/all").error, ENOENT);
    is_told("missing/all.0", "No such file or directory");
}

/* The second meets a full disk, and is left out. */
static void full_disk(void) {
    if (symlink("/dev/full", in_folder("some.1.tmp"))) exit(2);
    is("error", leave_four("some").error, ENOSPC);
    is_told("some.1", "No space left on device");
    holds("some.0", texts[0]), holds("some.1", NULL), holds("some.2", texts[2]), holds("some.3", texts[3]);
    holds("some.1.tmp", NULL);
}

/* Something else has the name of the third. */
static void taken(void) {
    if (mkdir(in_folder("taken.2"), 0777)) exit(2);
    is("error", leave_four("taken").error, EISDIR);
    is_told("taken.2", "Is a directory");
    holds("taken.1", texts[1]), holds("taken.3", texts[3]);
    holds("taken.2.tmp", NULL);
}

static void long_name(void) {
    static char name[TOO_LONG];
    memset(name, 'n', sizeof name - 1);
    is("error", leave_four(name).error, ENAMETOOLONG);
}

/* A text for which there was no memory. It has a number as the others have. */
static void no_text(void) {
    int standard = begin_errors();
    char path[MOST_PATH];
    snprintf(path, sizeof path, "%s", in_folder("short"));
    chanhub_files files = { .name = path };
    chanhub_write_chapter(&files, NULL, 0);
    chanhub_write_chapter(&files, texts[1], strlen(texts[1]));
    chanhub_write_chapter(&files, NULL, 0);
    end_errors(standard);
    is("error", files.error, ENOMEM), is("chapters", (long long)files.next, 3);
    is_told("short.0", "Cannot allocate memory");
    holds("short.0", NULL), holds("short.1", texts[1]), holds("short.2", NULL);
}

int main(int argc, char **argv) {
    if (argc != 2 || strlen(argv[1]) > MOST_PATH / 2) return 2;
    folder = argv[1];
    all_written();
    written_over();
    no_folder();
    full_disk();
    taken();
    long_name();
    no_text();
    return tally("files");
}
