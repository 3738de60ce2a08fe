#define _POSIX_C_SOURCE 200809L

#include "index_file.h"

#include <errno.h>
#include <fcntl.h>
#include <inttypes.h>
#include <stdio.h>
#include <stdlib.h>
#include <sys/stat.h>
#include <unistd.h>

#include "nerupazhil.h"

/* Reads until the room is full or the file ends: one read may give less than was asked for. */
static bool read_all(int file, struct bytes *into, size_t room)
{
    while (into->length < room) {
        ssize_t got = read(file, into->data + into->length, room - into->length);
        if (got == 0)
            return true;
        if (got < 0 && errno != EINTR)
            return false;
        if (got > 0)
            into->length += (size_t)got;
    }
    return true;
}

/* How many bytes to make room for: the file's and one more, which shows whether it has grown since. */
static bool room_for(int file, size_t *room)
{
    struct stat status;

    if (fstat(file, &status) != 0)
        return false;
    if (!S_ISREG(status.st_mode)) {
        errno = S_ISDIR(status.st_mode) ? EISDIR : EINVAL;
        return false;
    }
    *room = status.st_size < (off_t)NERUPAZHIL_FILE ? (size_t)status.st_size + 1 : NERUPAZHIL_FILE + 1;
    return true;
}

static bool load_open(int file, struct bytes *into)
{
    size_t room;

    if (!room_for(file, &room))
        return false;
    into->length = 0;
    into->data = malloc(room);
    if (into->data == NULL)
        return false;
    if (read_all(file, into, room))
        return true;
    free(into->data);
    return false;
}

bool load_file(const char *path, struct bytes *file)
{
    int error, opened = open(path, O_RDONLY | O_CLOEXEC);
    bool good;

    if (opened < 0)
        return false;
    good = load_open(opened, file);
    error = errno;
    close(opened); /* nothing was written through it */
    errno = error;
    return good;
}

void tell_refusal(const char *program, const char *path, uint64_t refusal, uint64_t place)
{
    fprintf(stderr, "%s: %s: refused %" PRIu64 " at %" PRIu64 ": %s\n", program, path, refusal, place,
            nerupazhil_refusal_text(refusal));
}
