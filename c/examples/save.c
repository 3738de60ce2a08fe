#define _XOPEN_SOURCE 700 /* realpath and the rest of POSIX.1-2008 */

#include "save.h"

#include <errno.h>
#include <fcntl.h>
#include <inttypes.h>
#include <stdlib.h>
#include <string.h>
#include <sys/stat.h>
#include <unistd.h>

/* Notes the step that is tried, so that its failure can be told, and answers whether it went well. */
static bool step(struct save *save, const char *words, bool good)
{
    save->step = words;
    save->error = good ? 0 : errno;
    return good;
}

/* ---- the steps */

/* A link is followed: renaming over it would leave the file behind it as it was. */
static bool find_paths(struct save *save, const char *path)
{
    static const char suffix[] = ".lock";

    save->path = realpath(path, NULL);
    if (save->path == NULL)
        return false;
    save->lock = malloc(strlen(save->path) + sizeof suffix);
    if (save->lock == NULL)
        return false;
    strcpy(save->lock, save->path);
    strcat(save->lock, suffix);
    return true;
}

/* The folder is opened before anything changes, so that after the rename only its sync can fail. */
static bool open_folder(struct save *save)
{
    char *slash = strrchr(save->path, '/');
    const char *folder = slash == save->path ? "/" : save->path;

    *slash = '\0';
    save->folder = open(folder, O_RDONLY | O_DIRECTORY | O_CLOEXEC);
    *slash = '/';
    return save->folder >= 0;
}

/* O_EXCL: of several programs that try, one creates the file. No other user can read it before it has its mode. */
static bool create_lock(struct save *save)
{
    save->file = open(save->lock, O_WRONLY | O_CREAT | O_EXCL | O_CLOEXEC, S_IRUSR | S_IWUSR);
    return save->file >= 0;
}

/* The new file is to have the permission bits of the old one, whatever the umask says. */
static bool keep_permissions(struct save *save)
{
    struct stat status;

    return stat(save->path, &status) == 0 && fchmod(save->file, status.st_mode & 0777) == 0;
}

/* A write may take fewer bytes than it was given, or none when a signal comes. */
static bool write_all(int file, const uint8_t *bytes, size_t length)
{
    while (length > 0) {
        ssize_t taken = write(file, bytes, length);
        if (taken < 0 && errno == EINTR)
            continue;
        if (taken == 0)
            errno = ENOSPC; /* no reason was given */
        if (taken <= 0)
            return false;
        bytes += taken;
        length -= (size_t)taken;
    }
    return true;
}

static bool sync_all(int file)
{
    int failed;

    do
        failed = fsync(file);
    while (failed && errno == EINTR);
    return failed == 0;
}

/* Some file systems tell only here that a write has failed. The file counts as closed whatever is told. */
static bool close_lock(struct save *save)
{
    int file = save->file;

    save->file = -1;
    return close(file) == 0;
}

/* ---- the calls */

static enum save_result end(struct save *save, enum save_result result)
{
    if (save->folder >= 0)
        close(save->folder);
    return save->result = result;
}

enum save_result save_begin(struct save *save, const char *path)
{
    memset(save, 0, sizeof *save);
    save->folder = save->file = -1;
    if (!step(save, "find the index", find_paths(save, path)) ||
        !step(save, "open the folder of the index", open_folder(save)))
        return end(save, SAVE_FAILED);
    if (!step(save, "create the lock", create_lock(save)))
        return end(save, save->error == EEXIST ? SAVE_LOCKED : SAVE_FAILED);
    return save->result = SAVE_DONE;
}

enum save_result save_abandon(struct save *save)
{
    if (save->file >= 0)
        close_lock(save); /* what was written is of no use */
    save->lock_left = !step(save, "remove the lock", unlink(save->lock) == 0);
    return end(save, save->lock_left ? SAVE_FAILED : SAVE_DONE);
}

/* Gives the lock back after a failure, and keeps what has failed first. */
static enum save_result give_up(struct save *save, enum save_result result)
{
    const char *first = save->step;
    int error = save->error;

    save_abandon(save);
    save->step = first;
    save->error = error;
    return save->result = result;
}

enum save_result save_commit(struct save *save, const uint8_t *bytes, size_t length)
{
    uint8_t work[NERUPAZHIL_WORKSPACE];

    /* Whatever made these bytes: what is no sound index does not replace one. The library writes a checksum, so one
       that was left out is a sign of bytes that were lost. */
    nerupazhil_check(NERUPAZHIL_SHA1, bytes, length, work, sizeof work, &save->check);
    if (save->check.refusal != NERUPAZHIL_DONE || save->check.checksum_left_out)
        return give_up(save, SAVE_REFUSED);
    /* The bytes are on the disk before the name leads to them: else a loss of power after the rename could leave an
       empty or a cut index. */
    if (!step(save, "keep the permission bits of the index", keep_permissions(save)) ||
        !step(save, "write the new index", write_all(save->file, bytes, length)) ||
        !step(save, "sync the new index", sync_all(save->file)) || !step(save, "close the new index", close_lock(save)))
        return give_up(save, SAVE_FAILED);
    /* A rename is made whole or not at all. It gives back the lock, too. */
    if (!step(save, "rename the new index", rename(save->lock, save->path) == 0))
        return give_up(save, SAVE_FAILED);
    /* Until the folder is synced, a loss of power can undo the rename. */
    if (!step(save, "sync the folder of the index", sync_all(save->folder)))
        return end(save, SAVE_UNSURE);
    return end(save, SAVE_DONE);
}

static void explain_refused(const struct nerupazhil_check_reply *check, FILE *stream)
{
    fprintf(stream, "not changed: ");
    if (check->checksum_left_out)
        fprintf(stream, "the checksum of the new index was left out");
    else
        fprintf(stream, "the new index is refused %" PRIu64 " at %" PRIu64 ": %s", check->refusal, check->place,
                nerupazhil_refusal_text(check->refusal));
}

void save_explain(const struct save *save, const char *path, FILE *stream)
{
    fprintf(stream, "%s: ", path);
    switch (save->result) {
    case SAVE_DONE:
        fprintf(stream, "done");
        break;
    case SAVE_LOCKED:
        fprintf(stream, "not changed: %s exists: another program is at work, or one ended in a save; ", save->lock);
        fprintf(stream, "if none is at work, remove that file and try again");
        break;
    case SAVE_REFUSED:
        explain_refused(&save->check, stream);
        break;
    case SAVE_FAILED:
        fprintf(stream, "not changed: cannot %s: %s", save->step, strerror(save->error));
        break;
    case SAVE_UNSURE:
        fprintf(stream, "changed, but a loss of power may undo that: cannot %s: %s", save->step, strerror(save->error));
        break;
    }
    if (save->lock_left)
        fprintf(stream, "; %s is left behind", save->lock);
    fprintf(stream, "\n");
}

void save_free(struct save *save)
{
    free(save->path);
    free(save->lock);
}
