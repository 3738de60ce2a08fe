/*
 * Lists an index of up to 16 MiB, with the lines of the listing program.
 *
 *   gcc -std=c99 -Ic/include c/examples/list.c c/examples/index_file.c target/staticlib/libnerupazhil.a -o list
 *   ./list .git/index
 *
 * Exit status: 0 listed, 1 refused or failed, 2 wrong use. After a refusal the listing is the line 'refused NUMBER at
 * PLACE' alone; what it means is told on standard error.
 */
#include <errno.h>
#include <inttypes.h>
#include <stdio.h>
#include <stdlib.h>
#include <string.h>

#include "index_file.h"
#include "nerupazhil.h"

/* An entry but for its name. */
struct entry {
    struct nerupazhil_fields fields;
    uint8_t object[NERUPAZHIL_OBJECT];
};

static uint8_t work[NERUPAZHIL_WORKSPACE];

static int refuse(const char *path, uint64_t refusal, uint64_t place)
{
    printf("refused %" PRIu64 " at %" PRIu64 "\n", refusal, place);
    tell_refusal("list", path, refusal, place);
    return 1;
}

/* ---- lines */

static void print_name(const uint8_t *name, size_t length)
{
    for (size_t k = 0; k < length; k++) {
        if (name[k] < 32 || name[k] == '\\' || name[k] > 126)
            printf("\\%03o", (unsigned)name[k]);
        else
            putchar(name[k]);
    }
}

static void print_entry(const struct entry *entry, struct nerupazhil_name name, const uint8_t *file)
{
    printf("%" PRIo32 " ", entry->fields.mode);
    for (size_t k = 0; k < NERUPAZHIL_DIGEST; k++)
        printf("%02x", (unsigned)entry->object[k]);
    printf(" %" PRIu32 "\t", entry->fields.stage);
    print_name(nerupazhil_name_bytes(name, file, work), (size_t)name.length);
    putchar('\n');
}

static void print_extensions(const struct nerupazhil_check_reply *checked)
{
    if (checked->has_tree)
        printf("cache tree %" PRIu64 " nodes\n", checked->nodes);
    else
        puts("cache tree none");
    if (checked->has_undo)
        printf("resolve-undo %" PRIu64 " paths\n", checked->records);
    else
        puts("resolve-undo none");
}

/* ---- entries: each way answers the first refusal, and there is none in a file that was accepted */

/* Version 2 or 3: one check, then one entry a step. */
static uint64_t walk(struct bytes file)
{
    struct nerupazhil_start_reply start;
    struct nerupazhil_step_reply step;
    struct entry entry;

    nerupazhil_walk_start(NERUPAZHIL_SHA1, file.data, file.length, work, sizeof work, &start);
    if (start.refusal != NERUPAZHIL_DONE)
        return start.refusal;
    for (step.at = start.at, step.left = start.left; step.left > 0;) {
        nerupazhil_walk_next(NERUPAZHIL_SHA1, file.data, file.length, (size_t)step.at, (uint32_t)step.left, &step,
                             &entry.fields, entry.object);
        if (step.refusal != NERUPAZHIL_DONE)
            return step.refusal;
        print_entry(&entry, step.name, file.data);
    }
    return NERUPAZHIL_DONE;
}

/* Any version, but each entry takes a check of the whole file. */
static uint64_t one_by_one(struct bytes file, uint64_t entries)
{
    for (uint32_t k = 0; k < entries; k++) {
        struct nerupazhil_entry_reply reply;
        struct entry entry;

        nerupazhil_entry(NERUPAZHIL_SHA1, file.data, file.length, work, sizeof work, k, &reply, &entry.fields,
                         entry.object);
        if (reply.refusal != NERUPAZHIL_DONE)
            return reply.refusal;
        print_entry(&entry, reply.name, file.data);
    }
    return NERUPAZHIL_DONE;
}

/* Version 4: rewritten in version 2 or 3 it has the same records and can be walked over. Names that version 4 shortens
   may make that too long for the library; then its entries are read one by one. */
static uint64_t walk_rewritten(struct bytes file, uint64_t entries, uint8_t *out)
{
    struct nerupazhil_write_reply written;
    struct bytes rewritten = {out, 0};

    nerupazhil_rewrite(NERUPAZHIL_SHA1, file.data, file.length, work, sizeof work, out, NERUPAZHIL_FILE,
                       NERUPAZHIL_VERSION_LOWEST, &written);
    if (written.refusal == NERUPAZHIL_TOO_LONG)
        return one_by_one(file, entries);
    if (written.refusal != NERUPAZHIL_DONE)
        return written.refusal;
    rewritten.length = (size_t)written.length;
    return walk(rewritten);
}

static uint64_t print_entries(struct bytes file, const struct nerupazhil_check_reply *checked, uint8_t *out)
{
    return checked->version == NERUPAZHIL_VERSION_4 ? walk_rewritten(file, checked->entries, out) : walk(file);
}

/* ---- the program */

static int list(const char *path, struct bytes file, uint8_t *out)
{
    struct nerupazhil_check_reply checked;
    uint64_t refusal;

    nerupazhil_check(NERUPAZHIL_SHA1, file.data, file.length, work, sizeof work, &checked);
    if (checked.refusal != NERUPAZHIL_DONE)
        return refuse(path, checked.refusal, checked.place);
    printf("version %" PRIu64 " entries %" PRIu64 "%s\n", checked.version, checked.entries,
           checked.checksum_left_out ? " checksum left out" : "");
    refusal = print_entries(file, &checked, out);
    if (refusal != NERUPAZHIL_DONE)
        return refuse(path, refusal, 0);
    print_extensions(&checked);
    return 0;
}

static int fail(const char *what)
{
    fprintf(stderr, "list: %s: %s\n", what, strerror(errno));
    return 1;
}

int main(int count, char **arguments)
{
    struct bytes file;
    uint8_t *out;
    int status;

    if (count != 2) {
        fprintf(stderr, "usage: list INDEX\n");
        return 2;
    }
    if (!load_file(arguments[1], &file))
        return fail(arguments[1]);
    out = malloc(NERUPAZHIL_FILE);
    status = out == NULL ? fail("memory") : list(arguments[1], file, out);
    free(out);
    free(file.data);
    /* A listing that did not get out whole is a failure. */
    if (fflush(stdout) != 0 || ferror(stdout))
        return fail("standard output");
    return status;
}
