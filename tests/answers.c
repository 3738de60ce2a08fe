/*
 * Makes every call of the library on each file of a stream, and prints all that a call gave, so that two processors can
 * be compared. Standard output has a line for each file, and a line for each call: what was called; the numbers of the
 * reply and of the fields; the object names; a hash of the workspace, one of the output, and one of all the rest.
 *
 * Before a call all that it may write is filled with a mark, and so are the bytes before and after it. All of them are
 * printed or hashed afterwards. A number that is still the mark is printed as a full stop.
 *
 *   answers         prints the answers
 *   answers PART    prints them with one bit changed in the first PART that a call gave: reply, fields, object, work,
 *                   output or guard (a byte behind the output); for the test that a difference is noticed
 */
#include <stdio.h>
#include <stdlib.h>
#include <string.h>

#include "nerupazhil.h"
#include "reply.h"
#include "stream.h"

#define MARK 0xa5
#define GUARD 64    /* bytes before and after what is lent */
#define SPARE 100   /* bytes of a workspace that are too many */
#define STEPS 40    /* of a walk, at most */
#define LARGE 10000 /* bytes of a file with which few calls are made */
#define NAME_MOST (NERUPAZHIL_NAME + 1)

/* ---- what is lent */

static uint8_t work[GUARD + NERUPAZHIL_WORKSPACE + SPARE + GUARD];
static uint8_t *out; /* GUARD, NERUPAZHIL_FILE and GUARD bytes, of which `room` and the guards are used */
static size_t room;

static struct {
    uint8_t before[GUARD];
    union reply reply;
    uint8_t between[GUARD];
    union {
        uint32_t numbers[16];
        struct nerupazhil_fields fields;
    } fields;
    uint8_t object[3][NERUPAZHIL_OBJECT + 8];
} given;

/* How the next calls are made. */
static uint32_t kind;
static size_t work_length, out_length;

/* What a call may write, besides the reply. */
enum { FIELDS = 1, OBJECT = 2, OBJECTS = 4, WORK = 8, OUT = 16 };

static void begin(int parts)
{
    memset(&given, MARK, sizeof given);
    if (parts & WORK)
        memset(work, MARK, sizeof work);
    if (parts & OUT)
        memset(out, MARK, room + 2 * GUARD);
}

/* ---- what is printed */

static char text[1 << 16];
static size_t text_length;

static void flush(void)
{
    if (fwrite(text, 1, text_length, stdout) != text_length)
        exit(1);
    text_length = 0;
}

static void put_text(const char *words)
{
    while (*words != '\0')
        text[text_length++] = *words++;
}

static void put_hex(uint64_t number, int digits)
{
    while (digits-- > 0)
        text[text_length++] = "0123456789abcdef"[number >> (4 * digits) & 15];
}

static void put_number(uint64_t number)
{
    int digits = 1;

    while (digits < 16 && number >> (4 * digits) != 0)
        digits++;
    text[text_length++] = ' ';
    put_hex(number, digits);
}

/* A number of a reply or of fields, which was filled with the mark. */
static void put_given(uint64_t number, uint64_t untouched)
{
    if (number == untouched)
        put_text(" .");
    else
        put_number(number);
}

static void put_objects(int count)
{
    for (int k = 0; k < count; k++) {
        put_text(" ");
        for (size_t at = 0; at < sizeof given.object[k]; at++)
            put_hex(given.object[k][at], 2);
    }
}

static uint64_t hash(const uint8_t *bytes, size_t length)
{
    uint64_t sum = length, word;
    size_t at;

    for (at = 0; at + sizeof word <= length; at += sizeof word) {
        memcpy(&word, bytes + at, sizeof word);
        sum = (sum ^ word) * UINT64_C(0xff51afd7ed558ccd);
        sum ^= sum >> 29;
    }
    for (; at < length; at++)
        sum = (sum ^ bytes[at]) * UINT64_C(0x100000001b3);
    return sum;
}

/* ---- one wrong bit, where a part is named on the command line */

static const char *wrong = "";

static int is_wrong(const char *part)
{
    if (strcmp(wrong, part) != 0)
        return 0;
    wrong = "";
    return 1;
}

static void spoil(int parts)
{
    if (is_wrong("reply"))
        given.reply.numbers[1] ^= 1;
    if (parts & FIELDS && is_wrong("fields"))
        given.fields.numbers[9] ^= 0x10000;
    if (parts & (OBJECT | OBJECTS) && is_wrong("object"))
        given.object[0][31] ^= 1;
    if (parts & WORK && is_wrong("work"))
        work[GUARD + 8191] ^= 0x80;
    if (parts & OUT && is_wrong("output"))
        out[GUARD] ^= 1;
    if (parts & OUT && is_wrong("guard"))
        out[GUARD + room + GUARD - 1] ^= 1;
}

/* ---- each call, printed */

static void tell(const char *call, uint64_t first, uint64_t second, int parts)
{
    spoil(parts);
    put_text(call);
    put_number(first);
    put_number(second);
    put_text(" =");
    for (size_t k = 0; k < sizeof given.reply.numbers / sizeof given.reply.numbers[0]; k++)
        put_given(given.reply.numbers[k], UINT64_C(0x0101010101010101) * MARK);
    if (parts & FIELDS) {
        put_text(" fields");
        for (size_t k = 0; k < sizeof given.fields.numbers / sizeof given.fields.numbers[0]; k++)
            put_given(given.fields.numbers[k], UINT32_C(0x01010101) * MARK);
    }
    put_objects(parts & OBJECTS ? 3 : parts & OBJECT ? 1 : 0);
    if (parts & WORK) {
        put_text(" work");
        put_number(hash(work, sizeof work));
    }
    if (parts & OUT) {
        put_text(" out");
        put_number(hash(out, room + 2 * GUARD));
    }
    put_text(" all");
    put_number(hash((const uint8_t *)&given, sizeof given));
    put_text("\n");
    if (text_length > sizeof text / 2)
        flush();
}

#define GIVEN_FILE kind, file, file_length, work + GUARD, work_length

static void check(void)
{
    begin(WORK);
    nerupazhil_check(GIVEN_FILE, &given.reply.check);
    tell("check", kind, work_length, WORK);
}

static void entry(uint32_t k)
{
    begin(FIELDS | OBJECT | WORK);
    nerupazhil_entry(GIVEN_FILE, k, &given.reply.entry, &given.fields.fields, given.object[0]);
    tell("entry", k, kind, FIELDS | OBJECT | WORK);
}

static void tree_node(uint32_t k)
{
    begin(OBJECT | WORK);
    nerupazhil_tree_node(GIVEN_FILE, k, &given.reply.node, given.object[0]);
    tell("tree_node", k, kind, OBJECT | WORK);
}

static void undo_record(uint32_t k)
{
    begin(OBJECTS | WORK);
    nerupazhil_undo_record(GIVEN_FILE, k, &given.reply.undo, given.object[0], given.object[1], given.object[2]);
    tell("undo_record", k, kind, OBJECTS | WORK);
}

static void walk_start(void)
{
    begin(WORK);
    nerupazhil_walk_start(GIVEN_FILE, &given.reply.start);
    tell("walk_start", kind, work_length, WORK);
}

static void walk_next(size_t at, uint32_t left)
{
    begin(FIELDS | OBJECT);
    nerupazhil_walk_next(kind, file, file_length, at, left, &given.reply.step, &given.fields.fields, given.object[0]);
    tell("walk_next", at, left, FIELDS | OBJECT);
}

static void rewrite(uint32_t asked)
{
    begin(WORK | OUT);
    nerupazhil_rewrite(GIVEN_FILE, out + GUARD, out_length, asked, &given.reply.write);
    tell("rewrite", asked, out_length, WORK | OUT);
}

/* An entry that may be put. Its name may have any bytes and its fields any values. */
struct record {
    const uint8_t *name;
    size_t length;
    struct nerupazhil_fields fields;
};

static void put(uint32_t asked, struct record record)
{
    uint8_t object[NERUPAZHIL_OBJECT];

    for (size_t k = 0; k < sizeof object; k++)
        object[k] = (uint8_t)(7 * k + 3);
    begin(WORK | OUT);
    nerupazhil_put(GIVEN_FILE, out + GUARD, out_length, asked, record.name, record.length, &record.fields, object,
                   &given.reply.write);
    tell("put", asked, record.fields.stage, WORK | OUT);
}

static void remove_entry(uint32_t asked, const uint8_t *name, size_t length, uint32_t stage)
{
    begin(WORK | OUT);
    nerupazhil_remove(GIVEN_FILE, out + GUARD, out_length, asked, name, length, stage, &given.reply.write);
    tell("remove", asked, stage, WORK | OUT);
}

static void sha1(void)
{
    begin(OBJECT);
    nerupazhil_sha1(file, file_length, given.object[0]);
    tell("sha1", file_length, 0, OBJECT);
}

static void sha256(void)
{
    begin(OBJECT);
    nerupazhil_sha256(file, file_length, given.object[0]);
    tell("sha256", file_length, 0, OBJECT);
}

/* ---- the calls on one file */

static struct record a_record(const uint8_t *name, size_t length)
{
    struct record record;
    uint32_t *number = (uint32_t *)(void *)&record.fields;

    for (uint32_t k = 0; k < sizeof record.fields / sizeof *number; k++)
        number[k] = UINT32_C(0x89abcdef) * (k + 1);
    record.fields.mode = NERUPAZHIL_MODE_EXECUTABLE;
    record.fields.stage = 0;
    record.fields.skip_worktree = 0;
    record.fields.intent_to_add = 0;
    record.name = name;
    record.length = length;
    return record;
}

static struct record named(const char *name)
{
    return a_record((const uint8_t *)name, strlen(name));
}

/* The name and stage of an entry: the one in the middle, or 'none' where there is none. */
static uint8_t old_name[NAME_MOST];
static size_t old_length;
static uint32_t old_stage;

static void find_old(uint32_t entries)
{
    memcpy(old_name, "none", 4);
    old_length = 4;
    old_stage = 0;
    if (entries == 0)
        return;
    nerupazhil_entry(GIVEN_FILE, entries / 2, &given.reply.entry, &given.fields.fields, given.object[0]);
    old_length = (size_t)given.reply.entry.name.length;
    memcpy(old_name, nerupazhil_name_bytes(given.reply.entry.name, file, work + GUARD), old_length);
    old_stage = given.fields.fields.stage;
}

/* One call of each: for the last entry, node and record. */
static void each_call(struct nerupazhil_check_reply counts, uint32_t asked)
{
    check();
    entry((uint32_t)counts.entries - 1);
    tree_node((uint32_t)counts.nodes - 1);
    undo_record((uint32_t)counts.records - 1);
    walk_start();
    walk_next(12, 1);
    rewrite(asked);
    put(asked, named("new/in/folder"));
    remove_entry(asked, old_name, old_length, old_stage);
}

/* A call for the first, one in the middle, the last, none, and none by far. */
static void by_number(void (*call)(uint32_t), uint64_t count)
{
    call(0);
    if (count > 2)
        call((uint32_t)count / 2);
    if (count > 1)
        call((uint32_t)count - 1);
    if (count > 0)
        call((uint32_t)count);
    call(UINT32_MAX);
}

static void walk(void)
{
    size_t at;
    uint32_t left;

    walk_start();
    at = (size_t)given.reply.start.at;
    left = (uint32_t)given.reply.start.left;
    for (int k = 0; k < STEPS && left > 0; k++) {
        walk_next(at, left);
        at = (size_t)given.reply.step.at;
        left = (uint32_t)given.reply.step.left;
    }
    walk_next(at, left);
    walk_next(12, 0);
    walk_next(13, 2);
    walk_next(file_length, 1);
    walk_next(SIZE_MAX, UINT32_MAX);
}

/* What is asked for: each version that there is, and two that there are not. */
static const uint32_t versions[] = {0, 1, 2, 3, 4, 5, UINT32_MAX};
#define VERSIONS (sizeof versions / sizeof versions[0])

static void rewrites(void)
{
    size_t written;

    for (size_t k = 0; k < VERSIONS; k++)
        rewrite(versions[k]);
    out_length = room;
    rewrite(NERUPAZHIL_VERSION_LOWEST);
    written = given.reply.write.refusal == 0 ? (size_t)given.reply.write.length : 32;
    out_length = written;
    rewrite(NERUPAZHIL_VERSION_LOWEST);
    out_length = written - 1;
    rewrite(NERUPAZHIL_VERSION_LOWEST);
    out_length = 0;
    rewrite(NERUPAZHIL_VERSION_DEFAULT);
    out_length = room;
}

static void good_puts(void)
{
    struct record record = named("new/in/folder");

    for (size_t k = 0; k < VERSIONS; k++)
        put(versions[k], record);
    for (record.fields.stage = 1; record.fields.stage < 4; record.fields.stage++)
        put(NERUPAZHIL_VERSION_LOWEST, record);
    record = named("~");
    record.fields.skip_worktree = 1;
    put(NERUPAZHIL_VERSION_LOWEST, record);
    put(2, record);
    put(4, record);
    record = a_record(old_name, old_length);
    record.fields.stage = old_stage;
    record.fields.intent_to_add = 8;
    put(NERUPAZHIL_VERSION_LOWEST, record);
    put(NERUPAZHIL_VERSION_DEFAULT, record);
    record.fields.mode = NERUPAZHIL_MODE_GITLINK;
    record.fields.stage = old_stage == 0 ? 0 : old_stage % 3 + 1;
    put(NERUPAZHIL_VERSION_LOWEST, record);
}

/* The old name, at stage 0 beside a conflict or at stage 2 beside stage 0. */
static void mixed_puts(void)
{
    struct record record = a_record(old_name, old_length);

    record.fields.stage = old_stage == 0 ? 2 : 0;
    put(NERUPAZHIL_VERSION_LOWEST, record);
    record.fields.skip_worktree = 1;
    put(2, record);
    record.fields.mode = 0100600;
    put(NERUPAZHIL_VERSION_LOWEST, record);
}

static void bad_puts(void)
{
    static const char *const names[] = {"", "/a", "a//b", "a/../b", ".git", "a/.git/b"};
    static uint8_t name[NAME_MOST];
    struct record record = named("a");

    for (size_t k = 0; k < sizeof names / sizeof names[0]; k++)
        put(NERUPAZHIL_VERSION_LOWEST, named(names[k]));
    record.fields.stage = 4;
    put(NERUPAZHIL_VERSION_LOWEST, record);
    record = named("a");
    record.fields.mode = 0100600;
    put(NERUPAZHIL_VERSION_LOWEST, record);
    memset(name, 'n', sizeof name);
    put(4, a_record(name, NERUPAZHIL_NAME));
    put(4, a_record(name, NERUPAZHIL_NAME + 1));
    out_length = 40;
    put(NERUPAZHIL_VERSION_LOWEST, named("a"));
    out_length = room;
}

static void removals(void)
{
    for (size_t k = 0; k < VERSIONS; k++)
        remove_entry(versions[k], old_name, old_length, old_stage);
    remove_entry(NERUPAZHIL_VERSION_LOWEST, old_name, old_length, (old_stage + 1) % 4);
    remove_entry(NERUPAZHIL_VERSION_LOWEST, old_name, old_length, UINT32_MAX);
    remove_entry(NERUPAZHIL_VERSION_LOWEST, old_name, old_length - 1, old_stage);
    remove_entry(NERUPAZHIL_VERSION_LOWEST, NULL, 0, 0);
    out_length = 40;
    remove_entry(NERUPAZHIL_VERSION_LOWEST, old_name, old_length, old_stage);
    out_length = room;
}

/* Too small a workspace, one that is longer than it must be, the other kind, and kinds that there are not. */
static void other_settings(struct nerupazhil_check_reply counts)
{
    work_length = NERUPAZHIL_WORKSPACE - 1;
    each_call(counts, 2);
    work_length = NERUPAZHIL_WORKSPACE + SPARE;
    each_call(counts, 3);
    kind = NERUPAZHIL_SHA1 + NERUPAZHIL_SHA256 - file_kind;
    each_call(counts, 3);
    kind = 0;
    each_call(counts, 4);
    kind = UINT32_MAX;
    work_length = NERUPAZHIL_WORKSPACE;
    each_call(counts, NERUPAZHIL_VERSION_DEFAULT);
}

/* Sets `room` so that it is enough for every call that is made. */
static void find_room(void)
{
    nerupazhil_rewrite(GIVEN_FILE, out + GUARD, NERUPAZHIL_FILE, NERUPAZHIL_VERSION_3, &given.reply.write);
    room = (size_t)given.reply.write.length + NERUPAZHIL_NAME + 200;
    if (room > NERUPAZHIL_FILE)
        room = NERUPAZHIL_FILE;
    out_length = room;
}

static void all_calls(uint64_t number)
{
    struct nerupazhil_check_reply counts;

    kind = file_kind;
    work_length = NERUPAZHIL_WORKSPACE;
    put_text("file");
    put_number(number);
    put_number(file_length);
    put_text("\n");
    nerupazhil_check(GIVEN_FILE, &counts);
    find_old((uint32_t)counts.entries);
    find_room();
    each_call(counts, 4);
    sha1();
    sha256();
    if (file_length > LARGE) {
        put(2, named("new/in/folder"));
    } else {
        by_number(entry, counts.entries);
        by_number(tree_node, counts.nodes);
        by_number(undo_record, counts.records);
        walk();
        rewrites();
        good_puts();
        mixed_puts();
        bad_puts();
        removals();
        other_settings(counts);
    }
    put_text("unchanged");
    put_number(hash(file, file_length));
    put_text("\n");
}

int main(int count, char **arguments)
{
    if (count > 1)
        wrong = arguments[1];
    out = (uint8_t *)malloc(NERUPAZHIL_FILE + 2 * GUARD);
    if (out == NULL)
        return 1;
    for (uint64_t number = 0; next_file(); number++)
        all_calls(number);
    flush();
    return fflush(stdout) == 0 ? 0 : 1;
}
