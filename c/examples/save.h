/*
 * Saves an index so that a reader, and the disk after a loss of power, has the old one or the new one whole: never a
 * part. For POSIX systems; it needs nothing but the library's header.
 *
 *   struct save save;
 *   if (save_begin(&save, path) == SAVE_DONE) {
 *       ...load the index, make the new one...
 *       if (all went well)
 *           save_commit(&save, bytes, length);
 *       else
 *           save_abandon(&save);
 *   }
 *   if (save.result != SAVE_DONE)
 *       save_explain(&save, path, stderr);
 *   save_free(&save);
 *
 * The new index is first written to INDEX.lock beside it. That is also Git's own lock: while the file is there, Git
 * and other users of this code do not change the index. So the lock is taken before the index is read, else a change
 * that another program makes in between would be lost.
 *
 * A program that is killed, and a device that loses its power, leaves the file behind, as Git does, and nothing removes
 * it by itself: each save stops with SAVE_LOCKED for as long as it is there. A client that is the only one to change
 * the index on its device removes it when it starts, before its first save, and tells its user that the last save was
 * not finished. Elsewhere a person removes it, once no other program is at work. What is in it is of no use: the
 * index beside it is whole.
 */
#ifndef SAVE_H
#define SAVE_H

#include <stdbool.h>
#include <stddef.h>
#include <stdint.h>
#include <stdio.h>

#include "nerupazhil.h"

enum save_result {
    SAVE_DONE,
    SAVE_LOCKED,  /* INDEX.lock is there already; index and lock are as they were */
    SAVE_REFUSED, /* the bytes are no sound index with a checksum; the index is as it was, the lock is given back */
    SAVE_FAILED,  /* a step failed; the index is as it was, the lock is given back */
    SAVE_UNSURE   /* the new index is in place, but a loss of power may bring back the old one */
};

struct save {
    enum save_result result;             /* of the last call */
    char *path;                          /* the index, symbolic links resolved */
    char *lock;                          /* the same with ".lock" behind it */
    int folder;                          /* the open folder of both */
    int file;                            /* the open lock, or -1 */
    const char *step;                    /* the step that failed, in words */
    int error;                           /* and its errno */
    bool lock_left;                      /* the lock was to be given back and could not be removed */
    struct nerupazhil_check_reply check; /* what the library says of the bytes to be saved */
};

/* Takes the lock. On SAVE_DONE it is held, and one of the two calls below is to follow; else nothing is held. */
enum save_result save_begin(struct save *save, const char *path);

/* Replaces the index with these bytes and gives the lock back, whatever the result. It checks the bytes first, and
   takes the stack of that call and 8 KiB. */
enum save_result save_commit(struct save *save, const uint8_t *bytes, size_t length);

/* Gives the lock back. The index is as it was. SAVE_FAILED where the lock cannot be removed. */
enum save_result save_abandon(struct save *save);

/* Prints a line that says how the last call went; `path` is the one that save_begin was given. */
void save_explain(const struct save *save, const char *path, FILE *stream);

/* Frees the memory of a save, after the calls above. */
void save_free(struct save *save);

#endif
