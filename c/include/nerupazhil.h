/*
 * Nerupazhil for C and C++: Git's index file, checked, read and written by functions that are proved.
 * Link with libnerupazhil.a, which needs memcpy and memset and nothing else. c/examples has two programs.
 *
 * The boundary. Only integers and pointers to bytes and to numbers of one width cross it, and no struct goes by value:
 * these prototypes are right under every C calling convention with 64-bit pointers. A struct below is laid over an
 * array of numbers; its size and the place of each member are asserted. Bindings from Swift, Kotlin or Dart can lend
 * plain arrays: of uint64_t for a reply, of uint32_t for the fields of an entry, of uint8_t for bytes.
 *
 * Kind. The hash function that gives the object names of a repository, and the checksum of its index: NERUPAZHIL_SHA1
 * or NERUPAZHIL_SHA256. A digest has 20 bytes or 32; all else holds for both. The index does not say of which kind it
 * is, but its repository does (`git rev-parse --show-object-format`): a caller has to know, and passes the same number
 * with a file in every call. Any other number is refused with 29. An index of the other kind is refused, nearly always
 * with 5; but with its checksum left out the same bytes may be read as both.
 *
 * Checksum. An index ends with the hash of all bytes before it; with any other bytes it is refused with 5. But where
 * these are zeros, as Git's setting index.skipHash writes them, the checksum was left out: every call takes such a
 * file, and nerupazhil_check alone says so. Nothing guards it: a change in the middle of the file can't be told by its
 * checksum, and a file that lost its tail to zeros may look like one. So show the list, say that it is unguarded, and
 * rewrite it: a file that is written here always has a real checksum.
 *
 * Stages. A path is merged, with one entry at stage 0, or in conflict, with entries at some of the stages 1 to 3, and
 * never both. Entries are in the order of their names, and those of one name in the order of their stages. An index
 * that breaks this is refused with 11 at the first entry that shows it; a put that would make a path both is refused
 * with 11 at place 0.
 *
 * Slices. A buffer is a pointer and its number of bytes. NULL with length 0 is an empty slice.
 *   file    the whole index, as its bytes are on the disk
 *   work    a workspace, at least NERUPAZHIL_WORKSPACE bytes; what is in it before a call is of no importance
 *   out     where a call that writes puts the new index; NERUPAZHIL_FILE bytes are always enough
 *   name    the name of an entry, 1 to NERUPAZHIL_NAME bytes, no NUL at its end
 *
 * Replies. Each call but the hashes writes all of its `reply`, whatever was there. `refusal` is 0 of a success;
 * else it is a number of enum nerupazhil_refusal and `place` says where: the first byte of the entry, extension or
 * checksum in the file, or 0 where it is about the whole file or the request. All members that do not apply are 0; on a
 * refusal that is all but these two, `fields` and object names included. A member that says yes or no is 1 or 0.
 *
 * Object names. NERUPAZHIL_OBJECT bytes are lent for each. A SHA-256 name is all of them. A SHA-1 name is the first 20,
 * and the last 12 are zero; in a record that is given to nerupazhil_put these 12 are not read.
 *
 * Workspace. On refusal 19 nothing is written. On every other answer the first NERUPAZHIL_WORKSPACE bytes are zero,
 * but for the name of an entry of version 4, which nerupazhil_entry leaves at the start, with zeros after it. Bytes
 * past these are never touched.
 *
 * Output. A refusal leaves it as it was. A success fills the first `length` bytes, and no more.
 *
 * Cost. Each call but nerupazhil_walk_next and the hashes checks the whole file first, so reading all entries by their
 * numbers takes a check for each; a step of a walk reads one entry. Nothing is allocated.
 *
 * Threads. There is no global state: calls may run at the same time as long as they write to different buffers.
 *
 * What no proof covers, since only the caller can see to it:
 *   - a length is not more than the bytes that are there, and these are not freed
 *   - workspace, output, reply, fields and object names that are written overlap nothing else that is passed; what is
 *     only read may overlap
 *   - no other thread changes a buffer during a call
 *   - a reply, fields and an object name are not NULL, aligned as their type, and as long as it says
 *   - there is enough stack: in tests, a thread with 64 KiB runs every call on the files that take most of those tried,
 *     and one with 32 KiB on those whose cache tree has at most 16 levels, the root included (Linux on x86-64, and on
 *     AArch64 under an emulator; a thread's start takes 4 to 6 KiB of these)
 *
 * What can be added without a change of a prototype or of a struct's size: another version that may be asked for, and
 * a wish beside it as a bit of the same number (every number above 4 is refused with 4); what check tells more, in the
 * last six numbers of its reply, which are 0. So ask for a version by its name, not by its number.
 *
 * What was changed: 0 meant the lowest version before, which is 1 now. What was compiled with that header, and a caller
 * that passes a plain 0, asks for version 4 now.
 */
#ifndef NERUPAZHIL_H
#define NERUPAZHIL_H

#include <stddef.h>
#include <stdint.h>

#ifdef __cplusplus
extern "C" {
#endif

/* ---- numbers */

#define NERUPAZHIL_WORKSPACE 8192u   /* least length of a workspace */
#define NERUPAZHIL_FILE 16777216u    /* greatest length of an index */
#define NERUPAZHIL_NAME 8192u        /* greatest length of an entry's name */
#define NERUPAZHIL_DIGEST 20u        /* length of a SHA-1 digest, and of an object name that is one */
#define NERUPAZHIL_DIGEST_SHA256 32u /* length of a SHA-256 digest, and of an object name that is one */
#define NERUPAZHIL_OBJECT 32u        /* bytes that are lent for an object name of either kind */

/* The kinds of object names. */
#define NERUPAZHIL_SHA1 1u
#define NERUPAZHIL_SHA256 2u

/* The versions that may be asked for. The lowest is for an older reader, and for a walk. */
#define NERUPAZHIL_VERSION_DEFAULT 0u /* writes version 4 */
#define NERUPAZHIL_VERSION_LOWEST 1u  /* writes 2 if no entry needs the extended word, else 3 */
#define NERUPAZHIL_VERSION_2 2u
#define NERUPAZHIL_VERSION_3 3u
#define NERUPAZHIL_VERSION_4 4u

/* The modes that an entry can have. */
#define NERUPAZHIL_MODE_REGULAR 0100644u
#define NERUPAZHIL_MODE_EXECUTABLE 0100755u
#define NERUPAZHIL_MODE_LINK 0120000u    /* a symbolic link */
#define NERUPAZHIL_MODE_GITLINK 0160000u /* a commit of another repository */

/* Why a call refuses; nerupazhil_refusal_text says each in a sentence. Every call that takes a workspace gives 19
   first, then 29, then what the file breaks, 1 to 5 and then from left to right 6 to 17, then what is wrong with the
   request. */
enum nerupazhil_refusal {
    NERUPAZHIL_DONE = 0,
    NERUPAZHIL_TOO_SHORT = 1,
    NERUPAZHIL_TOO_LONG = 2, /* the file; or the result of a call that writes, whatever the output's length */
    NERUPAZHIL_SIGNATURE = 3,
    NERUPAZHIL_VERSION = 4, /* of the file; or one above 4 was asked for; or a walk over version 4 */
    NERUPAZHIL_CHECKSUM = 5, /* a wrong one; one that was left out is taken */
    NERUPAZHIL_ENTRY_CUT = 6,
    NERUPAZHIL_ENTRY_MODE = 7,
    NERUPAZHIL_ENTRY_FLAGS = 8,
    NERUPAZHIL_ENTRY_NAME = 9,
    NERUPAZHIL_ENTRY_LAYOUT = 10,
    NERUPAZHIL_ENTRY_ORDER = 11, /* of the file's entries; or a put would make a path both merged and in conflict */
    NERUPAZHIL_EXTENSION_CUT = 12,
    NERUPAZHIL_EXTENSION_UNKNOWN = 13,
    NERUPAZHIL_EXTENSION_TWICE = 14,
    NERUPAZHIL_TREE_MALFORMED = 15,
    NERUPAZHIL_TREE_COUNT = 16,
    NERUPAZHIL_UNDO_MALFORMED = 17,
    NERUPAZHIL_NOT_THERE = 18,
    NERUPAZHIL_WORKSPACE_SHORT = 19,
    NERUPAZHIL_OUTPUT_SHORT = 20,
    NERUPAZHIL_NEEDS_VERSION_3 = 21, /* version 2 was asked for: ask for 3, 4, the default or the lowest */
    NERUPAZHIL_KIND = 29
};

/* Where the bytes of a name stand. */
enum nerupazhil_buffer { NERUPAZHIL_NOWHERE = 0, NERUPAZHIL_IN_FILE = 1, NERUPAZHIL_IN_WORK = 2 };

/* ---- replies */

struct nerupazhil_check_reply { /* uint64_t[16] */
    uint64_t refusal;           /* 0, or a number of enum nerupazhil_refusal */
    uint64_t place;             /* of the refusal */
    uint64_t version;           /* 2, 3 or 4 */
    uint64_t entries;           /* how many entries there are */
    uint64_t end;               /* the byte of the file where entries end */
    uint64_t has_tree;          /* whether the file has a cache tree */
    uint64_t nodes;             /* how many nodes that has */
    uint64_t has_undo;          /* whether the file has a resolve-undo extension */
    uint64_t records;           /* how many records that has; 0 is possible also with has_undo */
    uint64_t checksum_left_out; /* whether the checksum was left out: zeros are in its place */
    uint64_t later[6];          /* 0 */
};

/* Where a name stands: nerupazhil_name_bytes gives its first byte. No NUL ends it. It lies in its buffer, also where it
   is empty: offset + length is at most the buffer's length. */
struct nerupazhil_name {
    uint64_t buffer; /* a number of enum nerupazhil_buffer */
    uint64_t offset; /* its first byte in that buffer */
    uint64_t length; /* its number of bytes */
};

/* An entry but for its object name and its name. The times, dev, ino, uid, gid and size are what stat said of the file,
   modulo 2^32: Git compares them to see whether the file has changed; each may have any value. */
struct nerupazhil_fields { /* uint32_t[14] */
    uint32_t ctime_seconds;     /* when the file's metadata changed last */
    uint32_t ctime_nanoseconds; /* and the part of a second */
    uint32_t mtime_seconds;     /* when the file's bytes changed last */
    uint32_t mtime_nanoseconds; /* and the part of a second */
    uint32_t dev;               /* the device that the file is on */
    uint32_t ino;               /* its inode */
    uint32_t mode;              /* one of NERUPAZHIL_MODE_* */
    uint32_t uid;               /* its owner */
    uint32_t gid;               /* its group */
    uint32_t size;              /* its number of bytes */
    uint32_t assume_valid;      /* not 0: Git is not to look whether the file has changed */
    uint32_t stage;             /* 0, or 1 to 3 in a conflict: the common ancestor, ours, theirs */
    uint32_t skip_worktree;     /* not 0: the file is not to stand in the working tree */
    uint32_t intent_to_add;     /* not 0: the file is to be added later */
};

struct nerupazhil_entry_reply { /* uint64_t[5] */
    uint64_t refusal;            /* 0, or a number of enum nerupazhil_refusal */
    uint64_t place;              /* of the refusal */
    struct nerupazhil_name name; /* a part of the file, or of the workspace for version 4 */
};

struct nerupazhil_node_reply { /* uint64_t[9] */
    uint64_t refusal;            /* 0, or a number of enum nerupazhil_refusal */
    uint64_t place;              /* of the refusal */
    struct nerupazhil_name name; /* the directory's last component, a part of the file; empty for the root */
    uint64_t level;              /* 1 for the root, at most 128 */
    uint64_t valid;              /* whether count and object name hold */
    uint64_t count;              /* how many entries stand below it; 0 if it is invalid */
    uint64_t subtrees;           /* how many nodes stand one level below it */
};

/* A mode is one of NERUPAZHIL_MODE_*, or 0 where the stage is missing. */
struct nerupazhil_undo_reply { /* uint64_t[8] */
    uint64_t refusal;            /* 0, or a number of enum nerupazhil_refusal */
    uint64_t place;              /* of the refusal */
    struct nerupazhil_name path; /* a part of the file */
    uint64_t first_mode;         /* the common ancestor */
    uint64_t second_mode;        /* ours */
    uint64_t third_mode;         /* theirs */
};

struct nerupazhil_write_reply { /* uint64_t[3] */
    uint64_t refusal; /* 0, or a number of enum nerupazhil_refusal */
    uint64_t place;   /* of the refusal */
    uint64_t length;  /* how many bytes were written, from the output's start */
};

struct nerupazhil_start_reply { /* uint64_t[4] */
    uint64_t refusal; /* 0, or a number of enum nerupazhil_refusal */
    uint64_t place;   /* of the refusal */
    uint64_t at;      /* the place of the first entry */
    uint64_t left;    /* how many entries there are */
};

struct nerupazhil_step_reply { /* uint64_t[7] */
    uint64_t refusal;            /* 0, or a number of enum nerupazhil_refusal */
    uint64_t place;              /* always 0 */
    struct nerupazhil_name name; /* a part of the file */
    uint64_t at;                 /* the place after this entry, for the next step */
    uint64_t left;               /* how many entries remain there */
};

/* ---- the layout of the arrays, which the library is proved for */

#ifdef __cplusplus
#define NERUPAZHIL_ASSERT(name, fact) static_assert(fact, #name)
#elif defined(__STDC_VERSION__) && __STDC_VERSION__ >= 201112L
#define NERUPAZHIL_ASSERT(name, fact) _Static_assert(fact, #name)
#else
#define NERUPAZHIL_ASSERT(name, fact) typedef char nerupazhil_assert_##name[(fact) ? 1 : -1]
#endif
/* A member is number k of the array, whose numbers have w bytes; the whole has n of them. */
#define NERUPAZHIL_MEMBER(type, member, w, k) \
    NERUPAZHIL_ASSERT(type##_##member, offsetof(struct nerupazhil_##type, member) == (w) * (k))
#define NERUPAZHIL_ARRAY(type, w, n) NERUPAZHIL_ASSERT(type, sizeof(struct nerupazhil_##type) == (w) * (n))

NERUPAZHIL_ASSERT(pointers, sizeof(void *) == 8 && sizeof(size_t) == 8);
NERUPAZHIL_ARRAY(check_reply, 8, 16);
NERUPAZHIL_MEMBER(check_reply, refusal, 8, 0);
NERUPAZHIL_MEMBER(check_reply, place, 8, 1);
NERUPAZHIL_MEMBER(check_reply, version, 8, 2);
NERUPAZHIL_MEMBER(check_reply, entries, 8, 3);
NERUPAZHIL_MEMBER(check_reply, end, 8, 4);
NERUPAZHIL_MEMBER(check_reply, has_tree, 8, 5);
NERUPAZHIL_MEMBER(check_reply, nodes, 8, 6);
NERUPAZHIL_MEMBER(check_reply, has_undo, 8, 7);
NERUPAZHIL_MEMBER(check_reply, records, 8, 8);
NERUPAZHIL_MEMBER(check_reply, checksum_left_out, 8, 9);
NERUPAZHIL_MEMBER(check_reply, later, 8, 10);
NERUPAZHIL_ARRAY(name, 8, 3);
NERUPAZHIL_MEMBER(name, buffer, 8, 0);
NERUPAZHIL_MEMBER(name, offset, 8, 1);
NERUPAZHIL_MEMBER(name, length, 8, 2);
NERUPAZHIL_ARRAY(fields, 4, 14);
NERUPAZHIL_MEMBER(fields, ctime_seconds, 4, 0);
NERUPAZHIL_MEMBER(fields, ctime_nanoseconds, 4, 1);
NERUPAZHIL_MEMBER(fields, mtime_seconds, 4, 2);
NERUPAZHIL_MEMBER(fields, mtime_nanoseconds, 4, 3);
NERUPAZHIL_MEMBER(fields, dev, 4, 4);
NERUPAZHIL_MEMBER(fields, ino, 4, 5);
NERUPAZHIL_MEMBER(fields, mode, 4, 6);
NERUPAZHIL_MEMBER(fields, uid, 4, 7);
NERUPAZHIL_MEMBER(fields, gid, 4, 8);
NERUPAZHIL_MEMBER(fields, size, 4, 9);
NERUPAZHIL_MEMBER(fields, assume_valid, 4, 10);
NERUPAZHIL_MEMBER(fields, stage, 4, 11);
NERUPAZHIL_MEMBER(fields, skip_worktree, 4, 12);
NERUPAZHIL_MEMBER(fields, intent_to_add, 4, 13);
NERUPAZHIL_ARRAY(entry_reply, 8, 5);
NERUPAZHIL_MEMBER(entry_reply, refusal, 8, 0);
NERUPAZHIL_MEMBER(entry_reply, place, 8, 1);
NERUPAZHIL_MEMBER(entry_reply, name, 8, 2);
NERUPAZHIL_ARRAY(node_reply, 8, 9);
NERUPAZHIL_MEMBER(node_reply, refusal, 8, 0);
NERUPAZHIL_MEMBER(node_reply, place, 8, 1);
NERUPAZHIL_MEMBER(node_reply, name, 8, 2);
NERUPAZHIL_MEMBER(node_reply, level, 8, 5);
NERUPAZHIL_MEMBER(node_reply, valid, 8, 6);
NERUPAZHIL_MEMBER(node_reply, count, 8, 7);
NERUPAZHIL_MEMBER(node_reply, subtrees, 8, 8);
NERUPAZHIL_ARRAY(undo_reply, 8, 8);
NERUPAZHIL_MEMBER(undo_reply, refusal, 8, 0);
NERUPAZHIL_MEMBER(undo_reply, place, 8, 1);
NERUPAZHIL_MEMBER(undo_reply, path, 8, 2);
NERUPAZHIL_MEMBER(undo_reply, first_mode, 8, 5);
NERUPAZHIL_MEMBER(undo_reply, second_mode, 8, 6);
NERUPAZHIL_MEMBER(undo_reply, third_mode, 8, 7);
NERUPAZHIL_ARRAY(write_reply, 8, 3);
NERUPAZHIL_MEMBER(write_reply, refusal, 8, 0);
NERUPAZHIL_MEMBER(write_reply, place, 8, 1);
NERUPAZHIL_MEMBER(write_reply, length, 8, 2);
NERUPAZHIL_ARRAY(start_reply, 8, 4);
NERUPAZHIL_MEMBER(start_reply, refusal, 8, 0);
NERUPAZHIL_MEMBER(start_reply, place, 8, 1);
NERUPAZHIL_MEMBER(start_reply, at, 8, 2);
NERUPAZHIL_MEMBER(start_reply, left, 8, 3);
NERUPAZHIL_ARRAY(step_reply, 8, 7);
NERUPAZHIL_MEMBER(step_reply, refusal, 8, 0);
NERUPAZHIL_MEMBER(step_reply, place, 8, 1);
NERUPAZHIL_MEMBER(step_reply, name, 8, 2);
NERUPAZHIL_MEMBER(step_reply, at, 8, 5);
NERUPAZHIL_MEMBER(step_reply, left, 8, 6);
#undef NERUPAZHIL_ARRAY
#undef NERUPAZHIL_MEMBER
#undef NERUPAZHIL_ASSERT

/* ---- calls that read */

/* Checks the file: 0 says that it is a sound index, what is in it, and whether its checksum was left out. */
void nerupazhil_check(uint32_t kind, const uint8_t *file, size_t file_length, uint8_t *work, size_t work_length,
                      struct nerupazhil_check_reply *reply);

/* Entry k, from 0; 18 where there is none. Its name may stand in the workspace: use it before the next call. */
void nerupazhil_entry(uint32_t kind, const uint8_t *file, size_t file_length, uint8_t *work, size_t work_length,
                      uint32_t k, struct nerupazhil_entry_reply *reply, struct nerupazhil_fields *fields,
                      uint8_t *object);

/* Node k of the cache tree, from 0, each before those below it; 18 where there is none. `object` is the name of the
   tree object; zeros if the node is invalid. */
void nerupazhil_tree_node(uint32_t kind, const uint8_t *file, size_t file_length, uint8_t *work, size_t work_length,
                          uint32_t k, struct nerupazhil_node_reply *reply, uint8_t *object);

/* Resolve-undo record k, from 0; 18 where there is none. The object names of its three stages are zeros where a stage
   is missing. */
void nerupazhil_undo_record(uint32_t kind, const uint8_t *file, size_t file_length, uint8_t *work, size_t work_length,
                            uint32_t k, struct nerupazhil_undo_reply *reply, uint8_t *first, uint8_t *second,
                            uint8_t *third);

/* ---- a walk over the entries of a file of version 2 or 3: checked once, then one entry a step */

/* Checks the file and answers where a walk begins; 4 for version 4, which can be rewritten in the lowest one first. */
void nerupazhil_walk_start(uint32_t kind, const uint8_t *file, size_t file_length, uint8_t *work, size_t work_length,
                           struct nerupazhil_start_reply *reply);

/* The entry at the place `at`, where `left` remain: pass both on from the reply before. 18 where none remains.
   The file is not checked again: where it, `at` or `left` is not what a walk gave, the answer is 18 or what can be
   read there as an entry. */
void nerupazhil_walk_next(uint32_t kind, const uint8_t *file, size_t file_length, size_t at, uint32_t left,
                          struct nerupazhil_step_reply *reply, struct nerupazhil_fields *fields, uint8_t *object);

/* ---- calls that write: the records of the file, with a change, as a new index in the output
 *
 * `asked` is the version to write: one of NERUPAZHIL_VERSION_*, whatever the file's own is. A number above 4 is refused
 * with 4. The default is version 4, which leaves out what a name has in common with the one before it: long paths take
 * less room. The lowest is 2 if no entry of the result needs the extended word (skip-worktree or intent-to-add), else
 * 3: ask for it where an older reader has to take the file, and before a walk.
 *
 * Cache tree and resolve undo are kept, other extensions dropped. A checksum is written, also where the file's was left
 * out. Nothing is saved: that is the caller's, and c/examples/save.c shows how to do it safely.
 */

/* The records as they are. */
void nerupazhil_rewrite(uint32_t kind, const uint8_t *file, size_t file_length, uint8_t *work, size_t work_length,
                        uint8_t *out, size_t out_length, uint32_t asked, struct nerupazhil_write_reply *reply);

/* With one entry in place of the one of its name and stage, or added. The nodes of the cache tree from the root to
   its directory become invalid.
   The request is refused, at place 0 and in this order, with 4 for the version; 7, 8 or 9 for the entry's mode, stage
   or name; 11 where the file has the name at stage 0 and the entry is of another stage, or the other way round; 21, 2
   or 20. To settle a conflict, remove those of the name's stages 1 to 3 that are there, then put stage 0: each call
   takes the output of the one before as its file, so that two outputs are used by turns, and only the last is saved.
   That a name is not also a directory of another entry is for the caller to see to. */
void nerupazhil_put(uint32_t kind, const uint8_t *file, size_t file_length, uint8_t *work, size_t work_length,
                    uint8_t *out, size_t out_length, uint32_t asked, const uint8_t *name, size_t name_length,
                    const struct nerupazhil_fields *fields, const uint8_t *object,
                    struct nerupazhil_write_reply *reply);

/* Without the entry of a name and stage; 18 where there is none. The same nodes become invalid. */
void nerupazhil_remove(uint32_t kind, const uint8_t *file, size_t file_length, uint8_t *work, size_t work_length,
                       uint8_t *out, size_t out_length, uint32_t asked, const uint8_t *name, size_t name_length,
                       uint32_t stage, struct nerupazhil_write_reply *reply);

/* ---- the hashes: the digest of bytes, of any number; they refuse nothing */

/* Writes the SHA-1 digest to the NERUPAZHIL_DIGEST bytes at `out`. */
void nerupazhil_sha1(const uint8_t *bytes, size_t length, uint8_t *out);

/* Writes the SHA-256 digest to the NERUPAZHIL_DIGEST_SHA256 bytes at `out`. */
void nerupazhil_sha256(const uint8_t *bytes, size_t length, uint8_t *out);

/* ---- helpers, which are C and not proved */

/* The first of name.length bytes of a name, from the buffers of the call that gave it; NULL if there is none. `work`
   is used after nerupazhil_entry only, and may be NULL after other calls. */
static inline const uint8_t *nerupazhil_name_bytes(struct nerupazhil_name name, const uint8_t *file,
                                                   const uint8_t *work)
{
    if (name.buffer == NERUPAZHIL_IN_FILE)
        return file + (size_t)name.offset;
    if (name.buffer == NERUPAZHIL_IN_WORK)
        return work + (size_t)name.offset;
    return NULL;
}

/* What a refusal means, as a sentence without a full stop. */
static inline const char *nerupazhil_refusal_text(uint64_t refusal)
{
    static const char *const text[] = {
        "done: nothing was refused",
        "the file is shorter than an empty index: 32 bytes with SHA-1 names, 44 with SHA-256",
        "the file, or the one that would be written, is longer than 16777216 bytes",
        "the file does not begin with DIRC, as an index does",
        "the version of the file, or the one asked for, is not one that this call takes",
        "the file is damaged: its checksum is neither that of its bytes nor left out",
        "an entry runs past the end of the file",
        "the mode of an entry is not 100644, 100755, 120000 or 160000",
        "the flags of an entry are wrong: a bit that its version does not have, or a stage above 3",
        "the name of an entry is empty, too long, unlike its length field, or has a part that no name may have",
        "an entry has wrong padding, or drops more of the name before it than there is",
        "an entry does not come after the one before it by name and stage, or its path is both at stage 0 and "
        "in conflict (stages 1 to 3)",
        "an extension runs past the end of the file",
        "the file has an extension that a reader must know, and this one does not",
        "the file has a second cache tree or a second resolve-undo extension",
        "the cache tree is malformed",
        "a count of the cache tree is not that of the entries",
        "the resolve-undo extension is malformed",
        "there is no such entry, node or record",
        "the workspace is shorter than 8192 bytes",
        "the output is too short for the result",
        "version 2 was asked for, but an entry is marked skip-worktree or intent-to-add, which needs version 3 or 4",
    };
    if (refusal == NERUPAZHIL_KIND)
        return "the kind of object names is not one that the library knows";
    return refusal < sizeof text / sizeof text[0] ? text[refusal] : "a refusal that this header does not know";
}

#ifdef __cplusplus
}
#endif

#endif
