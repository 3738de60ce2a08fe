/*
 * Loaded before the C library (LD_PRELOAD), it numbers the calls of a program that touch one folder and the files in
 * it, and ends the program or lets a call fail at a chosen one. Calls that touch nothing there are made as they are.
 * run_save.py sets the variables:
 *
 *   CUT_FOLDER   the folder, an absolute path without links; without it nothing is done
 *   CUT_LOG      a file: a line for each call that was made, with its number, its name and what it did
 *   CUT_BEFORE   ends the program (SIGKILL) before the call of this number, from 1
 *   CUT_AFTER    ends it after that call
 *   CUT_BYTE     ends it once this many bytes are written; the write that would go past them is made as far as that
 *   CUT_FAIL     lets the call of this number fail, with the errno of CUT_ERROR
 *   CUT_ALL      set with CUT_FAIL: lets all later calls fail too
 *   CUT_FULL     after this many bytes the disk is full: a write is short, then fails with ENOSPC
 *   CUT_SHORT    a read or a write takes at most this many bytes
 *
 * A sync is noted and not made: no test cuts the power, and what a sync is good for is looked at in the log. A close
 * that fails has closed the file all the same, as on Linux. For programs with one thread.
 */
#define _GNU_SOURCE

#include <errno.h>
#include <fcntl.h>
#include <limits.h>
#include <signal.h>
#include <stdarg.h>
#include <stdio.h>
#include <stdlib.h>
#include <string.h>
#include <sys/stat.h>
#include <sys/syscall.h>
#include <sys/uio.h>
#include <unistd.h>

#define NONE LONG_MAX /* a variable that is not set */

static long calls;   /* made so far */
static long written; /* bytes, so far */

static long setting(const char *name)
{
    const char *text = getenv(name);

    return text == NULL ? NONE : atol(text);
}

static void die(void)
{
    syscall(SYS_kill, getpid(), SIGKILL);
}

/* ---- which calls count */

/* The path of an open file; empty where there is none. */
static void path_of_file(int file, char path[PATH_MAX])
{
    char link[64];
    ssize_t length;

    snprintf(link, sizeof link, "/proc/self/fd/%d", file);
    length = readlink(link, path, PATH_MAX - 1);
    path[length < 0 ? 0 : length] = '\0';
}

/* An absolute path of what a call names. */
static void path_of_name(int folder, const char *name, char path[2 * PATH_MAX])
{
    char base[PATH_MAX] = "";

    if (name[0] != '/' && folder == AT_FDCWD && getcwd(base, sizeof base) == NULL)
        base[0] = '\0';
    if (name[0] != '/' && folder != AT_FDCWD)
        path_of_file(folder, base);
    snprintf(path, 2 * PATH_MAX, "%s%s%s", base, base[0] == '\0' ? "" : "/", name);
}

/* The name of a path inside the folder, "." for the folder itself, NULL for what lies outside. */
static const char *inside(const char *path)
{
    const char *folder = getenv("CUT_FOLDER");
    size_t length = folder == NULL ? 0 : strlen(folder);

    if (length == 0 || strncmp(path, folder, length) != 0)
        return NULL;
    if (path[length] == '\0')
        return ".";
    return path[length] == '/' ? path + length + 1 : NULL;
}

/* ---- a call that counts */

static void note(const char *format, ...)
{
    static int log = -1;
    char line[64 + 2 * PATH_MAX];
    va_list values;
    int length;

    if (getenv("CUT_LOG") == NULL)
        return;
    if (log < 0)
        log = (int)syscall(SYS_openat, AT_FDCWD, getenv("CUT_LOG"), O_WRONLY | O_CREAT | O_APPEND | O_CLOEXEC, 0600);
    va_start(values, format);
    length = vsnprintf(line, sizeof line, format, values);
    va_end(values);
    syscall(SYS_write, log, line, (size_t)length);
}

/* Numbers a call and ends the program before it where that is asked for. Answers whether the call is to fail. */
static int begin(void)
{
    long fail = setting("CUT_FAIL");

    calls++;
    if (calls == setting("CUT_BEFORE"))
        die();
    if (calls != fail && !(calls > fail && getenv("CUT_ALL") != NULL))
        return 0;
    errno = (int)setting("CUT_ERROR");
    return 1;
}

static long end(long result)
{
    if (calls == setting("CUT_AFTER"))
        die();
    return result;
}

/* Notes a call that was made and has done one thing to one name. */
static long done(long result, const char *call, const char *name, long value)
{
    if (result >= 0)
        note("%ld %s %s %ld\n", calls, call, name, value);
    return end(result);
}

/* ---- open and close */

static int open_at(int folder, const char *name, int flags, mode_t mode)
{
    char path[2 * PATH_MAX];
    const char *counts;
    long file;

    path_of_name(folder, name, path);
    counts = inside(path);
    if (counts != NULL && begin())
        return -1;
    file = syscall(SYS_openat, folder, name, flags, mode);
    if (counts == NULL)
        return (int)file;
    if (flags & O_TRUNC)
        return (int)done(file, "truncate", counts, 0);
    return (int)done(file, flags & O_CREAT ? "create" : "open", counts, flags & O_EXCL);
}

/* The mode is there only where a file may be created. */
#define OPEN(function, parameters, folder)                                                                             \
    int function parameters                                                                                            \
    {                                                                                                                  \
        mode_t mode = 0;                                                                                               \
        va_list values;                                                                                                \
                                                                                                                       \
        va_start(values, flags);                                                                                       \
        if (flags & O_CREAT)                                                                                           \
            mode = va_arg(values, mode_t);                                                                             \
        va_end(values);                                                                                                \
        return open_at(folder, name, flags, mode);                                                                     \
    }
OPEN(open, (const char *name, int flags, ...), AT_FDCWD)
OPEN(open64, (const char *name, int flags, ...), AT_FDCWD)
OPEN(openat, (int folder, const char *name, int flags, ...), folder)
OPEN(openat64, (int folder, const char *name, int flags, ...), folder)

/* Makes a call on an open file, unless it is to fail, and notes it. */
static long on_file(int file, const char *call, long number, long value)
{
    char path[PATH_MAX];
    const char *name;
    int fails;

    path_of_file(file, path);
    name = inside(path);
    if (name == NULL)
        return syscall(number, file, value);
    fails = begin();
    if (fails && number == SYS_close)
        syscall(SYS_close, file);
    if (fails)
        return -1;
    return done(number == SYS_fsync ? 0 : syscall(number, file, value), call, name, value);
}

int close(int file)
{
    return (int)on_file(file, "close", SYS_close, 0);
}

int fsync(int file)
{
    return (int)on_file(file, "sync", SYS_fsync, 0);
}

int fdatasync(int file)
{
    return (int)on_file(file, "sync", SYS_fsync, 0);
}

int ftruncate(int file, off_t length)
{
    return (int)on_file(file, "truncate", SYS_ftruncate, length);
}

int ftruncate64(int file, off64_t length)
{
    return (int)on_file(file, "truncate", SYS_ftruncate, length);
}

int fchmod(int file, mode_t mode)
{
    return (int)on_file(file, "chmod", SYS_fchmod, mode);
}

/* ---- read and write */

static size_t least(size_t a, long b)
{
    return b < 0 ? 0 : (size_t)b < a ? (size_t)b : a;
}

ssize_t read(int file, void *into, size_t length)
{
    char path[PATH_MAX];

    path_of_file(file, path);
    if (inside(path) == NULL)
        return syscall(SYS_read, file, into, length);
    if (begin())
        return -1;
    return done(syscall(SYS_read, file, into, least(length, setting("CUT_SHORT"))), "read", inside(path), 0);
}

/* Where a write without a place begins. */
static off_t place_of(int file)
{
    return lseek(file, 0, fcntl(file, F_GETFL) & O_APPEND ? SEEK_END : SEEK_CUR);
}

/* Notes the bytes that were written, in hex. */
static void note_bytes(const char *name, off_t at, const unsigned char *bytes, ssize_t length)
{
    note("%ld write %s %ld ", calls, name, (long)at);
    for (ssize_t k = 0; k < length; k++)
        note("%02x", bytes[k]);
    note("\n");
}

/* Writes at a place and moves the file's own place where that is the one. */
static ssize_t write_at(int file, const void *bytes, size_t length, off_t at, int moves)
{
    long full = setting("CUT_FULL"), cut = setting("CUT_BYTE");
    char path[PATH_MAX];
    ssize_t taken;

    path_of_file(file, path);
    if (begin())
        return -1;
    length = least(length, setting("CUT_SHORT"));
    if (full != NONE && length > 0 && written >= full) {
        errno = ENOSPC;
        return -1;
    }
    length = full == NONE ? length : least(length, full - written);
    length = cut == NONE ? length : least(length, cut - written);
    taken = syscall(SYS_pwrite64, file, bytes, length, at);
    if (taken > 0) {
        note_bytes(inside(path), at, bytes, taken);
        written += taken;
        if (moves)
            lseek(file, at + taken, SEEK_SET);
    }
    if (written >= cut)
        die();
    return end(taken);
}

static int file_counts(int file)
{
    char path[PATH_MAX];

    path_of_file(file, path);
    return inside(path) != NULL;
}

ssize_t write(int file, const void *bytes, size_t length)
{
    if (!file_counts(file))
        return syscall(SYS_write, file, bytes, length);
    return write_at(file, bytes, length, place_of(file), 1);
}

ssize_t pwrite(int file, const void *bytes, size_t length, off_t at)
{
    if (!file_counts(file))
        return syscall(SYS_pwrite64, file, bytes, length, at);
    return write_at(file, bytes, length, at, 0);
}

ssize_t pwrite64(int file, const void *bytes, size_t length, off64_t at)
{
    return pwrite(file, bytes, length, at);
}

/* A file gets the first part alone, which is a short write. */
ssize_t writev(int file, const struct iovec *parts, int count)
{
    if (!file_counts(file))
        return syscall(SYS_writev, file, parts, count);
    return count == 0 ? 0 : write(file, parts[0].iov_base, parts[0].iov_len);
}

/* ---- names */

int renameat2(int from_folder, const char *from, int to_folder, const char *to, unsigned flags)
{
    char from_path[2 * PATH_MAX], to_path[2 * PATH_MAX];
    const char *from_name, *to_name;
    long result;

    path_of_name(from_folder, from, from_path);
    path_of_name(to_folder, to, to_path);
    from_name = inside(from_path);
    to_name = inside(to_path);
    if (from_name == NULL && to_name == NULL)
        return (int)syscall(SYS_renameat2, from_folder, from, to_folder, to, flags);
    if (begin())
        return -1;
    result = syscall(SYS_renameat2, from_folder, from, to_folder, to, flags);
    if (result == 0)
        note("%ld rename %s %s\n", calls, from_name == NULL ? "?" : from_name, to_name == NULL ? "?" : to_name);
    return (int)end(result);
}

int renameat(int from_folder, const char *from, int to_folder, const char *to)
{
    return renameat2(from_folder, from, to_folder, to, 0);
}

int rename(const char *from, const char *to)
{
    return renameat2(AT_FDCWD, from, AT_FDCWD, to, 0);
}

/* Makes a call on a name, unless it is to fail, and notes it. */
static int on_name(int folder, const char *name, const char *call, long number, long value)
{
    char path[2 * PATH_MAX];

    path_of_name(folder, name, path);
    if (inside(path) == NULL)
        return (int)syscall(number, folder, name, value);
    if (begin())
        return -1;
    return (int)done(syscall(number, folder, name, value), call, inside(path), value);
}

int unlinkat(int folder, const char *name, int flags)
{
    return on_name(folder, name, "unlink", SYS_unlinkat, flags);
}

int unlink(const char *name)
{
    return unlinkat(AT_FDCWD, name, 0);
}

int chmod(const char *name, mode_t mode)
{
    return on_name(AT_FDCWD, name, "chmod", SYS_fchmodat, mode);
}
