/* A writer of whole files, and of chapters to files. It allocates nothing, so it works on when memory is short. */
#include "hub.h"

#include <errno.h>
#include <fcntl.h>
#include <inttypes.h>
#include <stdio.h>
#include <string.h>
#include <unistd.h>

enum { WORDS_ROOM = 256 };

/* Writes all of it. Returns 0, or the errno of what went wrong, as do the next two. */
static int write_all(int file, const char *text, size_t length) {
    while (length) {
        ssize_t written = write(file, text, length);
        if (written < 0 && errno != EINTR) return errno;
        if (written < 0) continue;
        text += written;
        length -= (size_t)written;
    }
    return 0;
}

static int write_file(const char *path, const char *text, size_t length) {
    int file = open(path, O_WRONLY | O_CREAT | O_TRUNC | O_CLOEXEC, 0666);
    if (file < 0) return errno;
    int error = write_all(file, text, length);
    if (close(file) != 0 && !error) error = errno;
    return error;
}

/* Writes under the name of a part first, which nobody else writes to meanwhile, so that a file of this name is whole. */
int write_whole(const char *path, const char *part, const char *text, size_t length) {
    int error = write_file(part, text, length);
    if (!error && rename(part, path) != 0) error = errno;
    if (error) unlink(part);
    return error;
}

/* Says why a file could not be written. */
void tell_error(const char *path, int error) {
    char words[WORDS_ROOM];
    if (strerror_r(error, words, sizeof words) != 0) snprintf(words, sizeof words, "error %d", error);
    fprintf(stderr, "chanhub: %s: %s\n", path, words);
}

void chanhub_write_chapter(void *pointer, const char *text, size_t length) {
    chanhub_files *files = pointer;
    char path[PATH_ROOM], part[PATH_ROOM + sizeof ".tmp"];
    snprintf(path, sizeof path, "%s.%" PRIu64, files->name, files->next++);
    snprintf(part, sizeof part, "%s.tmp", path);
    int error = text ? write_whole(path, part, text, length) : ENOMEM;
    if (!error || files->error) return;
    files->error = error;
    tell_error(path, error);
}
