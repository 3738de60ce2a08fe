/*
 * Puts a record into an index and saves it.
 *
 *   gcc -std=c99 -Ic/include c/examples/put.c c/examples/save.c c/examples/index_file.c \
 *       target/staticlib/libnerupazhil.a -o put
 *   ./put .git/index 100644 ce013625030ba8dba906f756967f9e9ca394464a saw/cut.txt
 *
 * The record takes the place of the one of its name and stage, or is added. As after 'git update-index --cacheinfo',
 * its times and the like are zero, so that Git looks at the file itself when it is asked next. A version 4 index stays
 * one; another becomes 2 or 3, as it needs, since it may be there for an older reader. Stage 0 beside a conflict of
 * that name, and a stage of a conflict beside stage 0, are refused with 11: what is there has to be removed first.
 *
 * Exit status: 0 saved, 1 refused or failed, 2 wrong use. After 1 the index is as it was, unless the message says that
 * it is changed.
 */
#include <errno.h>
#include <stdio.h>
#include <stdlib.h>
#include <string.h>

#include "index_file.h"
#include "nerupazhil.h"
#include "save.h"

struct record {
    const char *name;
    struct nerupazhil_fields fields;
    uint8_t object[NERUPAZHIL_OBJECT];
};

static uint8_t work[NERUPAZHIL_WORKSPACE];

/* ---- the command line */

/* A number in digits of a base up to 10, below 2^32. */
static bool parse_number(const char *text, uint32_t base, uint32_t *number)
{
    uint64_t value = 0;

    if (*text == '\0')
        return false;
    for (; *text != '\0'; text++) {
        if (*text < '0' || *text >= (char)('0' + base))
            return false;
        value = value * base + (uint64_t)(*text - '0');
        if (value > UINT32_MAX)
            return false;
    }
    *number = (uint32_t)value;
    return true;
}

/* The value of a hex digit, or -1. */
static int hex_digit(char digit)
{
    if (digit >= '0' && digit <= '9')
        return digit - '0';
    if (digit >= 'a' && digit <= 'f')
        return digit - 'a' + 10;
    if (digit >= 'A' && digit <= 'F')
        return digit - 'A' + 10;
    return -1;
}

static bool parse_object(const char *text, uint8_t *object)
{
    if (strlen(text) != 2 * NERUPAZHIL_DIGEST)
        return false;
    for (size_t k = 0; k < NERUPAZHIL_DIGEST; k++) {
        int high = hex_digit(text[2 * k]), low = hex_digit(text[2 * k + 1]);
        if (high < 0 || low < 0)
            return false;
        object[k] = (uint8_t)(16 * high + low);
    }
    return true;
}

/* Whether a mode or a stage is one that a record can have is left to the library. */
static const char *parse_record(int count, char **arguments, struct record *record)
{
    memset(record, 0, sizeof *record);
    if (count != 5 && count != 6)
        return "four or five arguments are needed";
    if (!parse_number(arguments[2], 8, &record->fields.mode))
        return "MODE is not an octal number such as 100644";
    if (!parse_object(arguments[3], record->object))
        return "OBJECT is not 40 hex digits";
    if (count == 6 && !parse_number(arguments[5], 10, &record->fields.stage))
        return "STAGE is not a number from 0 to 3";
    record->name = arguments[4];
    return NULL;
}

/* ---- the change */

static int refuse(const char *path, uint64_t refusal, uint64_t place)
{
    tell_refusal("put", path, refusal, place);
    return 1;
}

static int fail(const char *what)
{
    fprintf(stderr, "put: %s: %s\n", what, strerror(errno));
    return 1;
}

/* Makes the new index in the output, which has room for any. */
static int make(const char *path, struct bytes file, const struct record *record, struct bytes *out)
{
    struct nerupazhil_check_reply checked;
    struct nerupazhil_write_reply written;
    uint32_t asked;

    nerupazhil_check(NERUPAZHIL_SHA1, file.data, file.length, work, sizeof work, &checked);
    if (checked.refusal != NERUPAZHIL_DONE)
        return refuse(path, checked.refusal, checked.place);
    asked = checked.version == NERUPAZHIL_VERSION_4 ? NERUPAZHIL_VERSION_4 : NERUPAZHIL_VERSION_LOWEST;
    nerupazhil_put(NERUPAZHIL_SHA1, file.data, file.length, work, sizeof work, out->data, NERUPAZHIL_FILE, asked,
                   (const uint8_t *)record->name, strlen(record->name), &record->fields, record->object, &written);
    if (written.refusal != NERUPAZHIL_DONE)
        return refuse(path, written.refusal, written.place);
    out->length = (size_t)written.length;
    return 0;
}

static int load_and_make(const char *path, const struct record *record, struct bytes *out)
{
    struct bytes file;
    int status;

    if (out->data == NULL)
        return fail("memory");
    if (!load_file(path, &file))
        return fail(path);
    status = make(path, file, record, out);
    free(file.data);
    return status;
}

/* The lock is held from before the index is read until it is replaced. */
static int save_new(struct save *save, const struct record *record)
{
    struct bytes out = {malloc(NERUPAZHIL_FILE), 0};
    int status = load_and_make(save->path, record, &out);

    if (status == 0)
        status = save_commit(save, out.data, out.length) == SAVE_DONE ? 0 : 1;
    else
        save_abandon(save);
    free(out.data);
    return status;
}

static int put(const char *path, const struct record *record)
{
    struct save save;
    int status = save_begin(&save, path) == SAVE_DONE ? save_new(&save, record) : 1;

    if (save.result != SAVE_DONE) {
        fputs("put: ", stderr);
        save_explain(&save, path, stderr);
    }
    save_free(&save);
    return status;
}

int main(int count, char **arguments)
{
    struct record record;
    const char *wrong = parse_record(count, arguments, &record);

    if (wrong != NULL) {
        fprintf(stderr, "put: %s\nusage: put INDEX MODE OBJECT NAME [STAGE]\n", wrong);
        return 2;
    }
    return put(arguments[1], &record);
}
