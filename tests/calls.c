/*
 * Makes every call of the library from C or C++, with each kind of object names. All that a call may write to is filled
 * with marks before it, and compared whole after it: the reply, fields and object names, workspace, output, and the bytes
 * around each. The files are laid here byte for byte. The last line is 'N passed, M failed'.
 */
#include <stdio.h>
#include <string.h>

#include "nerupazhil.h"
#include "reply.h"

#define MARK 0xa5
#define SPARE 64 /* bytes around what a call may write */
#define ROOM 512 /* more than a file here has */

/* The kinds of object names. In the example, which has entries 'a' and 'b/c', the second entry begins and the last one
   ends at these bytes. */
static const struct kind {
    const char *name;
    uint32_t number;
    size_t width; /* of an object name, and of the checksum */
    void (*hash)(const uint8_t *, size_t, uint8_t *);
    size_t second, end;
} kinds[] = {
    {"SHA-1", NERUPAZHIL_SHA1, NERUPAZHIL_DIGEST, nerupazhil_sha1, 76, 148},
    {"SHA-256", NERUPAZHIL_SHA256, NERUPAZHIL_DIGEST_SHA256, nerupazhil_sha256, 92, 172},
};
static const struct kind *kind; /* of the files and the calls */

#define FIRST 12u                         /* the first byte of the first entry */
#define NUMBERS 40u                       /* bytes of an entry before its object name */
#define FIXED (NUMBERS + kind->width + 2) /* bytes of an entry before its name */

static int passed, failed;

static void test(const char *call, const char *what, int good)
{
    if (good)
        passed++;
    else
        failed++;
    if (!good)
        printf("FAILED %s, %s: %s\n", kind->name, call, what);
}

/* ---- files */

struct laid {
    uint8_t bytes[ROOM];
    size_t length;
    const char *before; /* the last entry's name */
};

static void lay(struct laid *file, const void *bytes, size_t length)
{
    memcpy(file->bytes + file->length, bytes, length);
    file->length += length;
}

static void lay_all(struct laid *file, uint8_t byte, size_t length)
{
    memset(file->bytes + file->length, byte, length);
    file->length += length;
}

/* A number in so many bytes, the highest first. */
static void lay_number(struct laid *file, uint32_t number, int width)
{
    while (width-- > 0)
        lay_all(file, (uint8_t)(number >> (8 * width)), 1);
}

static void lay_start(struct laid *file, uint32_t version, uint32_t entries)
{
    memset(file, 0, sizeof *file);
    file->before = "";
    lay(file, "DIRC", 4);
    lay_number(file, version, 4);
    lay_number(file, entries, 4);
}

static void lay_checksum(struct laid *file)
{
    kind->hash(file->bytes, file->length, file->bytes + file->length);
    file->length += kind->width;
}

static void lay_flags(struct laid *file, const struct nerupazhil_fields *f, size_t name_length)
{
    uint32_t extended = f->skip_worktree || f->intent_to_add;

    lay_number(file, (uint32_t)name_length | f->stage << 12 | extended << 14 | f->assume_valid << 15, 2);
    if (extended)
        lay_number(file, f->intent_to_add << 13 | f->skip_worktree << 14, 2);
}

/* Lays how many bytes of the name before are dropped in version 4. Answers what is then left of this name. */
static const char *lay_dropped(struct laid *file, const char *name)
{
    const char *before = file->before;

    while (*name != '\0' && *name == *before) {
        name++;
        before++;
    }
    lay_number(file, (uint32_t)strlen(before), 1);
    return name;
}

/* The object name is one byte many times. */
static void lay_entry(struct laid *file, const struct nerupazhil_fields *f, uint8_t object, const char *name)
{
    const uint32_t numbers[] = {f->ctime_seconds, f->ctime_nanoseconds, f->mtime_seconds, f->mtime_nanoseconds,
                                f->dev,           f->ino,               f->mode,          f->uid,
                                f->gid,           f->size};
    size_t start = file->length;
    const char *text = name;

    for (size_t k = 0; k < sizeof numbers / sizeof numbers[0]; k++)
        lay_number(file, numbers[k], 4);
    lay_all(file, object, kind->width);
    lay_flags(file, f, strlen(name));
    if (file->bytes[7] == 4)
        text = lay_dropped(file, name);
    lay(file, text, strlen(text) + 1);
    while (file->bytes[7] != 4 && (file->length - start) % 8 != 0)
        lay_all(file, 0, 1);
    file->before = name;
}

/* An entry of which all but the mode is zero. */
static void lay_plain(struct laid *file, uint32_t mode, uint8_t object, const char *name)
{
    struct nerupazhil_fields fields;

    memset(&fields, 0, sizeof fields);
    fields.mode = mode;
    lay_entry(file, &fields, object, name);
}

/* An index of 'a' at these stages, which are digits. One of them may be the stage that was put, with the record of
   give_example. */
static struct laid laid_at(uint32_t version, const char *stages, char put)
{
    struct laid file;
    struct nerupazhil_fields fields;

    memset(&fields, 0, sizeof fields);
    lay_start(&file, version, (uint32_t)strlen(stages));
    for (; *stages != '\0'; stages++) {
        fields.mode = *stages == put ? NERUPAZHIL_MODE_LINK : NERUPAZHIL_MODE_REGULAR;
        fields.stage = (uint32_t)(*stages - '0');
        lay_entry(&file, &fields, *stages == put ? 0x33 : 0x11, "a");
    }
    lay_checksum(&file);
    return file;
}

/* A cache tree of 'a' and 'b/c', with a valid or an invalid root. */
static void lay_tree(struct laid *file, int valid)
{
    lay(file, "TREE", 4);
    lay_number(file, (uint32_t)(valid ? 11 + 2 * kind->width : 12 + kind->width), 4);
    lay(file, valid ? "\0002 1\n" : "\0-1 1\n", valid ? 5 : 6);
    lay_all(file, 0x44, valid ? kind->width : 0);
    lay(file, "b\0001 0\n", 6);
    lay_all(file, 0x55, kind->width);
}

/* A resolve-undo record without a second stage. */
static void lay_undo(struct laid *file)
{
    lay(file, "REUC", 4);
    lay_number(file, (uint32_t)(20 + 2 * kind->width), 4);
    lay(file, "b/c\000100644\0000\000120000", 20);
    lay_all(file, 0x66, kind->width);
    lay_all(file, 0x77, kind->width);
}

static struct nerupazhil_fields full;             /* numbers that differ; the flags are set */
static struct laid example, example_3, example_4; /* the example of document 01, in versions 2, 3 and 4 */
static struct laid changed, added;                /* with another record 'a'; with a record 'b' of all fields */
static struct laid extended, invalid;             /* with extensions; the same after a put of 'a' */
static struct laid changed_4, added_4;            /* in version 4 */
static struct laid extended_4, invalid_4;         /* in version 4 */
static struct laid damaged;                       /* with a wrong checksum */
static struct laid zeroed;                        /* with a checksum that was left out */

static void lay_example(struct laid *file, uint32_t version)
{
    lay_start(file, version, 2);
    lay_plain(file, NERUPAZHIL_MODE_REGULAR, 0x11, "a");
    lay_plain(file, NERUPAZHIL_MODE_EXECUTABLE, 0x22, "b/c");
    lay_checksum(file);
}

/* The example with 'a' as a link. */
static void lay_changed(struct laid *file, uint32_t version)
{
    lay_start(file, version, 2);
    lay_plain(file, NERUPAZHIL_MODE_LINK, 0x33, "a");
    lay_plain(file, NERUPAZHIL_MODE_EXECUTABLE, 0x22, "b/c");
    lay_checksum(file);
}

static void lay_added(struct laid *file, uint32_t version, const struct nerupazhil_fields *fields)
{
    lay_start(file, version, 3);
    lay_plain(file, NERUPAZHIL_MODE_REGULAR, 0x11, "a");
    lay_entry(file, fields, 0x33, "b");
    lay_plain(file, NERUPAZHIL_MODE_EXECUTABLE, 0x22, "b/c");
    lay_checksum(file);
}

/* The entries of another file, with extensions. */
static void lay_extended(struct laid *file, const struct laid *entries, int valid)
{
    memset(file, 0, sizeof *file);
    lay(file, entries->bytes, entries->length - kind->width);
    lay_tree(file, valid);
    lay_undo(file);
    lay_checksum(file);
}

/* Another file with zeros in place of its checksum. */
static void lay_zeroed(struct laid *file, const struct laid *from)
{
    *file = *from;
    memset(file->bytes + file->length - kind->width, 0, kind->width);
}

static void lay_files(void)
{
    const struct nerupazhil_fields numbers = {0x01020304, 0x11121314, 0x21222324, 0x31323334, 0x41424344,
                                              0x51525354, 0160000,    0x71727374, 0x81828384, 0x91929394,
                                              1,          2,          1,          1};

    full = numbers;
    lay_example(&example, 2);
    lay_example(&example_3, 3);
    lay_example(&example_4, 4);
    lay_changed(&changed, 2);
    lay_changed(&changed_4, 4);
    lay_added(&added, 3, &full);
    lay_added(&added_4, 4, &full);
    lay_extended(&extended, &example, 1);
    lay_extended(&extended_4, &example_4, 1);
    lay_extended(&invalid, &changed, 0);
    lay_extended(&invalid_4, &changed_4, 0);
    damaged = example;
    damaged.bytes[damaged.length - 1] ^= 1;
    lay_zeroed(&zeroed, &example);
}

/* ---- what a call may write to, as it is after the call and as it should be */

static struct memory {
    uint8_t before[SPARE];
    union reply reply;
    struct nerupazhil_fields fields;
    uint8_t between[SPARE];
    uint8_t objects[3][NERUPAZHIL_OBJECT + SPARE];
    uint8_t work[NERUPAZHIL_WORKSPACE + SPARE];
    uint8_t out[ROOM];
    uint8_t after[SPARE];
} now, expected;

/* ---- the calls, with what each is given */

static struct given {
    uint32_t kind;
    const uint8_t *file;
    size_t file_length;
    uint8_t *work;
    size_t work_length;
    uint8_t *out;
    size_t out_length;
    uint32_t number; /* of an entry, a node or a record */
    uint32_t asked;
    const uint8_t *name;
    size_t name_length;
    uint32_t stage;
    struct nerupazhil_fields fields;
    uint8_t object[NERUPAZHIL_OBJECT];
    size_t at;
    uint32_t left;
} given;

static void make_check(void)
{
    nerupazhil_check(given.kind, given.file, given.file_length, given.work, given.work_length, &now.reply.check);
}

static void make_entry(void)
{
    nerupazhil_entry(given.kind, given.file, given.file_length, given.work, given.work_length, given.number,
                     &now.reply.entry, &now.fields, now.objects[0]);
}

static void make_node(void)
{
    nerupazhil_tree_node(given.kind, given.file, given.file_length, given.work, given.work_length, given.number,
                         &now.reply.node, now.objects[0]);
}

static void make_undo(void)
{
    nerupazhil_undo_record(given.kind, given.file, given.file_length, given.work, given.work_length, given.number,
                           &now.reply.undo, now.objects[0], now.objects[1], now.objects[2]);
}

static void make_start(void)
{
    nerupazhil_walk_start(given.kind, given.file, given.file_length, given.work, given.work_length, &now.reply.start);
}

static void make_step(void)
{
    nerupazhil_walk_next(given.kind, given.file, given.file_length, given.at, given.left, &now.reply.step, &now.fields,
                         now.objects[0]);
}

static void make_rewrite(void)
{
    nerupazhil_rewrite(given.kind, given.file, given.file_length, given.work, given.work_length, given.out,
                       given.out_length, given.asked, &now.reply.write);
}

static void make_put(void)
{
    nerupazhil_put(given.kind, given.file, given.file_length, given.work, given.work_length, given.out,
                   given.out_length, given.asked, given.name, given.name_length, &given.fields, given.object,
                   &now.reply.write);
}

static void make_remove(void)
{
    nerupazhil_remove(given.kind, given.file, given.file_length, given.work, given.work_length, given.out,
                      given.out_length, given.asked, given.name, given.name_length, given.stage, &now.reply.write);
}

enum { CHECK, ENTRY, NODE, UNDO, START, REWRITE, PUT, REMOVE, STEP }; /* numbers of the calls */
#define WITH_WORK STEP                                               /* those before it take a workspace */

static const struct call {
    const char *name;
    void (*make)(void);
    size_t numbers; /* of its reply */
    size_t objects; /* how many object names it writes */
    int fields;     /* whether it writes fields */
} calls[] = {
    {"check", make_check, 16, 0, 0},
    {"entry", make_entry, 5, 1, 1},
    {"tree_node", make_node, 9, 1, 0},
    {"undo_record", make_undo, 8, 3, 0},
    {"walk_start", make_start, 4, 0, 0},
    {"rewrite", make_rewrite, 3, 0, 0},
    {"put", make_put, 3, 0, 0},
    {"remove", make_remove, 3, 0, 0},
    {"walk_next", make_step, 7, 1, 1},
};
static const struct call *current;

/* ---- a test: begin(call), changes of what is given and expected, then succeed or refuse */

static void give_file(const struct laid *file)
{
    given.file = file->bytes;
    given.file_length = file->length;
}

static void give_name(const char *name)
{
    given.name = (const uint8_t *)name;
    given.name_length = strlen(name);
}

/* The example, entry 0, and 'a' as a link. */
static void give_example(void)
{
    memset(&given, 0, sizeof given);
    given.kind = kind->number;
    give_file(&example);
    given.work = now.work;
    given.work_length = sizeof now.work;
    given.out = now.out;
    given.out_length = sizeof now.out;
    given.asked = NERUPAZHIL_VERSION_LOWEST;
    give_name("a");
    given.fields.mode = NERUPAZHIL_MODE_LINK;
    memset(given.object, 0x33, kind->width);
    given.at = FIRST;
    given.left = 2;
}

/* Marks everywhere; expected are zeros where the call has to write, and marks elsewhere. */
static void begin(int call)
{
    current = &calls[call];
    memset(&now, MARK, sizeof now);
    memset(&expected, MARK, sizeof expected);
    memset(&expected.reply, 0, current->numbers * sizeof expected.reply.numbers[0]);
    if (current->fields)
        memset(&expected.fields, 0, sizeof expected.fields);
    for (size_t k = 0; k < current->objects; k++)
        memset(expected.objects[k], 0, NERUPAZHIL_OBJECT);
    if (call < WITH_WORK)
        memset(expected.work, 0, NERUPAZHIL_WORKSPACE);
    give_example();
}

static void succeed(const char *what)
{
    current->make();
    test(current->name, what, memcmp(&now, &expected, sizeof now) == 0);
}

static void refuse(const char *what, uint64_t refusal, uint64_t place)
{
    expected.reply.numbers[0] = refusal;
    expected.reply.numbers[1] = place;
    if (refusal == NERUPAZHIL_WORKSPACE_SHORT)
        memset(expected.work, MARK, sizeof expected.work);
    succeed(what);
}

/* Each call that takes a workspace refuses what it is given after a change. */
static void all_refuse(const char *what, void (*change)(void), uint64_t refusal, uint64_t place)
{
    for (int call = 0; call < WITH_WORK; call++) {
        begin(call);
        change();
        refuse(what, refusal, place);
    }
}

static void step_refuses(const char *what, void (*change)(void), uint64_t refusal)
{
    begin(STEP);
    change();
    refuse(what, refusal, 0);
}

static void expect_name(struct nerupazhil_name *name, uint64_t buffer, uint64_t offset, uint64_t length)
{
    name->buffer = buffer;
    name->offset = offset;
    name->length = length;
}

static void expect_object(size_t number, uint8_t byte)
{
    memset(expected.objects[number], byte, kind->width);
}

static void write_file(const char *what, const struct laid *file)
{
    expected.reply.write.length = file->length;
    memcpy(expected.out, file->bytes, file->length);
    succeed(what);
}

/* ---- empty slices, and a workspace that is too short */

static void no_file(void)
{
    given.file = NULL;
    given.file_length = 0;
}

static void no_work(void)
{
    given.work = NULL;
    given.work_length = 0;
}

static void no_out(void)
{
    given.out = NULL;
    given.out_length = 0;
}

static void no_name(void)
{
    given.name = NULL;
    given.name_length = 0;
}

static void nothing(void)
{
    no_file();
    no_work();
    no_out();
    no_name();
}

static void short_work(void)
{
    given.work_length = NERUPAZHIL_WORKSPACE - 1;
}

static void empty_slices(void)
{
    all_refuse("nothing", nothing, NERUPAZHIL_WORKSPACE_SHORT, 0);
    step_refuses("nothing", nothing, NERUPAZHIL_NOT_THERE);
    all_refuse("no file", no_file, NERUPAZHIL_TOO_SHORT, 0);
    all_refuse("no workspace", no_work, NERUPAZHIL_WORKSPACE_SHORT, 0);
    all_refuse("a workspace one byte too short", short_work, NERUPAZHIL_WORKSPACE_SHORT, 0);
    for (int call = REWRITE; call <= REMOVE; call++) {
        begin(call);
        no_out();
        refuse("no output", NERUPAZHIL_OUTPUT_SHORT, 0);
    }
    begin(PUT);
    no_name();
    refuse("no name", NERUPAZHIL_ENTRY_NAME, 0);
    begin(REMOVE);
    no_name();
    refuse("no name", NERUPAZHIL_NOT_THERE, 0);
}

/* ---- other kinds: 29 after 19 and before all that is wrong with file and request */

static uint32_t other_kind;

static void kind_alone(void)
{
    given.kind = other_kind;
}

static void kind_and_short_work(void)
{
    given.kind = other_kind;
    short_work();
}

static void kind_and_no_file(void)
{
    given.kind = other_kind;
    no_file();
}

static void kind_and_damage(void)
{
    given.kind = other_kind;
    give_file(&damaged);
}

static void kind_and_request(void)
{
    given.kind = other_kind;
    given.number = UINT32_MAX;
    given.asked = 5;
    given.left = 0;
    no_name();
    no_out();
}

static void unknown_kinds(void)
{
    const uint32_t others[] = {0, 3, UINT32_MAX};

    for (size_t k = 0; k < sizeof others / sizeof others[0]; k++) {
        other_kind = others[k];
        all_refuse("another kind", kind_alone, NERUPAZHIL_KIND, 0);
        all_refuse("another kind, a short workspace", kind_and_short_work, NERUPAZHIL_WORKSPACE_SHORT, 0);
        all_refuse("another kind, no file", kind_and_no_file, NERUPAZHIL_KIND, 0);
        all_refuse("another kind, a damaged file", kind_and_damage, NERUPAZHIL_KIND, 0);
        all_refuse("another kind, a wrong request", kind_and_request, NERUPAZHIL_KIND, 0);
        step_refuses("another kind", kind_alone, NERUPAZHIL_KIND);
        step_refuses("another kind, no file", kind_and_no_file, NERUPAZHIL_KIND);
        step_refuses("another kind, no entry left", kind_and_request, NERUPAZHIL_KIND);
    }
}

static void kind_and_zeros(void)
{
    given.kind = other_kind;
    give_file(&zeroed);
}

/* The kind that the file does not have: the checksum is looked for in other bytes. The last 20 of 32 zeros are one that
   was left out, too; then bytes of an object name are taken for a name's length, and it runs past the end. */
static void exchanged_kinds(void)
{
    const struct kind *other = &kinds[kind == kinds];
    size_t place = example.length - other->width;
    int fewer = other->width < kind->width;

    other_kind = other->number;
    all_refuse("the kind that the file does not have", kind_alone, NERUPAZHIL_CHECKSUM, place);
    all_refuse("the same, no checksum", kind_and_zeros, fewer ? NERUPAZHIL_ENTRY_CUT : NERUPAZHIL_CHECKSUM,
               fewer ? FIRST : place);
}

/* ---- files that are refused */

static void damage(void)
{
    give_file(&damaged);
}

static void cut(void)
{
    given.file_length = FIRST + kind->width - 1;
}

static struct laid staged; /* 'a' at some stages */

static void give_staged(void)
{
    give_file(&staged);
}

/* A path at stage 0 and at another one, which the second entry shows; and stages that do not rise. */
static void refused_stages(void)
{
    const char *const wrong[] = {"01", "02", "03", "012", "00", "10", "22", "31"};

    for (size_t k = 0; k < sizeof wrong / sizeof wrong[0]; k++) {
        staged = laid_at(2, wrong[k], 0);
        all_refuse("stages that no path has", give_staged, NERUPAZHIL_ENTRY_ORDER, kind->second);
        staged = laid_at(4, wrong[k], 0);
        all_refuse("stages that no path has, version 4", give_staged, NERUPAZHIL_ENTRY_ORDER, FIRST + FIXED + 3);
    }
}

static void refused_files(void)
{
    all_refuse("a wrong checksum", damage, NERUPAZHIL_CHECKSUM, kind->end);
    all_refuse("a byte less than an empty index", cut, NERUPAZHIL_TOO_SHORT, 0);
    begin(START);
    give_file(&example_4);
    refuse("version 4", NERUPAZHIL_VERSION, 0);
    begin(STEP);
    give_file(&example_4);
    refuse("version 4", NERUPAZHIL_NOT_THERE, 0);
}

/* ---- a checksum that was left out */

static void zeros(void)
{
    give_file(&zeroed);
}

/* Zeros but for one byte are a wrong checksum. */
static void other_than_zeros(void)
{
    for (size_t at = zeroed.length - kind->width; at < zeroed.length; at++) {
        zeroed.bytes[at] = 1;
        all_refuse("zeros but for one byte", zeros, NERUPAZHIL_CHECKSUM, kind->end);
        zeroed.bytes[at] = 0;
    }
}

/* A fault after the checksum is refused, and nothing is said of the checksum: the header counts an entry too many. */
static void zeros_and_a_fault(void)
{
    zeroed.bytes[FIRST - 1]++;
    all_refuse("no checksum, an entry too many", zeros, NERUPAZHIL_ENTRY_CUT, kind->end);
    zeroed.bytes[FIRST - 1]--;
}

/* All calls but check answer what they do with the checksum, and what they write has one. */
static void same_answers(const struct laid *file)
{
    static struct memory with;
    struct laid without;

    lay_zeroed(&without, file);
    for (int call = ENTRY; call <= STEP; call++) {
        begin(call);
        give_file(file);
        current->make();
        with = now;
        begin(call);
        give_file(&without);
        expected = with;
        succeed("no checksum");
    }
}

static void left_out(void)
{
    other_than_zeros();
    zeros_and_a_fault();
    same_answers(&example);
    same_answers(&example_3);
    same_answers(&example_4);
    same_answers(&added);
    same_answers(&extended);
}

/* ---- calls that read */

static void expect_example(uint64_t checksum_left_out)
{
    expected.reply.check.version = 2;
    expected.reply.check.entries = 2;
    expected.reply.check.end = kind->end;
    expected.reply.check.checksum_left_out = checksum_left_out;
}

static void expect_extensions(void)
{
    expected.reply.check.has_tree = 1;
    expected.reply.check.nodes = 2;
    expected.reply.check.has_undo = 1;
    expected.reply.check.records = 1;
}

static void read_checked(void)
{
    begin(CHECK);
    given.work_length = NERUPAZHIL_WORKSPACE;
    expect_example(0);
    succeed("the example, with the least workspace");
    begin(CHECK);
    give_file(&extended);
    expect_example(0);
    expect_extensions();
    succeed("both extensions");
}

static void read_left_out(void)
{
    struct laid file;

    begin(CHECK);
    give_file(&zeroed);
    expect_example(1);
    succeed("no checksum");
    lay_zeroed(&file, &extended);
    begin(CHECK);
    give_file(&file);
    expect_example(1);
    expect_extensions();
    succeed("both extensions, no checksum");
    lay_zeroed(&file, &example_4);
    begin(CHECK);
    give_file(&file);
    expect_example(1);
    expected.reply.check.version = 4;
    expected.reply.check.end = file.length - kind->width;
    succeed("version 4, no checksum");
}

static void read_entries(void)
{
    const struct nerupazhil_name *name = &now.reply.entry.name;
    size_t place = kind->second + FIXED;

    begin(ENTRY);
    given.number = 1;
    expect_name(&expected.reply.entry.name, NERUPAZHIL_IN_FILE, place, 3);
    expected.fields.mode = NERUPAZHIL_MODE_EXECUTABLE;
    expect_object(0, 0x22);
    succeed("entry 1");
    test("name_bytes", "in the file", nerupazhil_name_bytes(*name, given.file, NULL) == given.file + place);
    begin(ENTRY);
    give_file(&added);
    given.number = 1;
    expect_name(&expected.reply.entry.name, NERUPAZHIL_IN_FILE, place + 2, 1);
    expected.fields = full;
    expect_object(0, 0x33);
    succeed("all fields");
    begin(ENTRY);
    given.number = 2;
    refuse("entry 2", NERUPAZHIL_NOT_THERE, 0);
    test("name_bytes", "nowhere", nerupazhil_name_bytes(*name, given.file, given.work) == NULL);
}

/* The name stands at the start of the workspace, with zeros after it. */
static void read_entry_of_4(void)
{
    begin(ENTRY);
    give_file(&example_4);
    given.number = 1;
    expect_name(&expected.reply.entry.name, NERUPAZHIL_IN_WORK, 0, 3);
    expected.fields.mode = NERUPAZHIL_MODE_EXECUTABLE;
    expect_object(0, 0x22);
    memcpy(expected.work, "b/c", 3);
    succeed("entry 1 of version 4");
    test("name_bytes", "in the workspace",
         nerupazhil_name_bytes(now.reply.entry.name, given.file, given.work) == now.work);
}

static void expect_node(uint64_t level, uint64_t valid, uint64_t count, uint64_t subtrees)
{
    expected.reply.node.level = level;
    expected.reply.node.valid = valid;
    expected.reply.node.count = count;
    expected.reply.node.subtrees = subtrees;
}

static void read_nodes(void)
{
    size_t root = kind->end + 8;

    begin(NODE);
    give_file(&extended);
    expect_name(&expected.reply.node.name, NERUPAZHIL_IN_FILE, root, 0);
    expect_node(1, 1, 2, 1);
    expect_object(0, 0x44);
    succeed("the root");
    begin(NODE);
    give_file(&extended);
    given.number = 1;
    expect_name(&expected.reply.node.name, NERUPAZHIL_IN_FILE, root + 5 + kind->width, 1);
    expect_node(2, 1, 1, 0);
    expect_object(0, 0x55);
    succeed("node 1");
    begin(NODE);
    give_file(&invalid);
    expect_name(&expected.reply.node.name, NERUPAZHIL_IN_FILE, root, 0);
    expect_node(1, 0, 0, 1);
    succeed("an invalid root");
    begin(NODE);
    give_file(&extended);
    given.number = 2;
    refuse("node 2", NERUPAZHIL_NOT_THERE, 0);
    begin(NODE);
    refuse("a file without a tree", NERUPAZHIL_NOT_THERE, 0);
}

static void read_records(void)
{
    begin(UNDO);
    give_file(&extended);
    expect_name(&expected.reply.undo.path, NERUPAZHIL_IN_FILE, kind->end + 27 + 2 * kind->width, 3);
    expected.reply.undo.first_mode = NERUPAZHIL_MODE_REGULAR;
    expected.reply.undo.third_mode = NERUPAZHIL_MODE_LINK;
    expect_object(0, 0x66);
    expect_object(2, 0x77);
    succeed("record 0");
    begin(UNDO);
    give_file(&extended);
    given.number = 1;
    refuse("record 1", NERUPAZHIL_NOT_THERE, 0);
    begin(UNDO);
    refuse("a file without records", NERUPAZHIL_NOT_THERE, 0);
}

/* ---- a walk */

static void expect_step(uint64_t offset, uint64_t length, uint64_t at, uint64_t left)
{
    expect_name(&expected.reply.step.name, NERUPAZHIL_IN_FILE, offset, length);
    expected.reply.step.at = at;
    expected.reply.step.left = left;
}

static void walk(void)
{
    begin(START);
    expected.reply.start.at = FIRST;
    expected.reply.start.left = 2;
    succeed("the example");
    begin(STEP);
    expect_step(FIRST + FIXED, 1, kind->second, 1);
    expected.fields.mode = NERUPAZHIL_MODE_REGULAR;
    expect_object(0, 0x11);
    succeed("entry 0");
    begin(STEP);
    given.at = kind->second;
    given.left = 1;
    expect_step(kind->second + FIXED, 3, kind->end, 0);
    expected.fields.mode = NERUPAZHIL_MODE_EXECUTABLE;
    expect_object(0, 0x22);
    succeed("entry 1");
    begin(STEP);
    give_file(&added);
    given.at = kind->second;
    expect_step(kind->second + FIXED + 2, 1, kind->end, 1);
    expected.fields = full;
    expect_object(0, 0x33);
    succeed("all fields");
}

static void walk_past_the_end(void)
{
    begin(STEP);
    given.at = kind->end;
    given.left = 0;
    refuse("none left", NERUPAZHIL_NOT_THERE, 0);
    begin(STEP);
    given.at = SIZE_MAX;
    given.left = UINT32_MAX;
    refuse("far outside", NERUPAZHIL_NOT_THERE, 0);
}

/* ---- calls that write */

static void rewrite_in(const char *what, const struct laid *from, uint32_t asked, const struct laid *to)
{
    begin(REWRITE);
    give_file(from);
    given.asked = asked;
    given.out_length = to->length;
    write_file(what, to);
}

static void write_again(void)
{
    rewrite_in("the example", &example, NERUPAZHIL_VERSION_LOWEST, &example);
    rewrite_in("in version 2", &example_4, NERUPAZHIL_VERSION_2, &example);
    rewrite_in("in version 3", &example, NERUPAZHIL_VERSION_3, &example_3);
    rewrite_in("in version 4", &example, NERUPAZHIL_VERSION_4, &example_4);
    rewrite_in("in the lowest version", &example_4, NERUPAZHIL_VERSION_LOWEST, &example);
    rewrite_in("in the lowest version, from version 3", &example_3, NERUPAZHIL_VERSION_LOWEST, &example);
    rewrite_in("what needs version 3", &added, NERUPAZHIL_VERSION_LOWEST, &added);
    rewrite_in("what needs version 3, from version 4", &added_4, NERUPAZHIL_VERSION_LOWEST, &added);
    rewrite_in("both extensions", &extended, NERUPAZHIL_VERSION_LOWEST, &extended);
    rewrite_in("with a checksum", &zeroed, NERUPAZHIL_VERSION_LOWEST, &example);
    rewrite_in("in version 4, with a checksum", &zeroed, NERUPAZHIL_VERSION_4, &example_4);
}

/* Each number that may be asked for, and what is then written. */
static void write_by_number(void)
{
    const struct laid *const files[] = {&example_4, &example, &example, &example_3, &example_4};

    for (uint32_t asked = 0; asked < sizeof files / sizeof files[0]; asked++)
        rewrite_in("by the number of a version", &example, asked, files[asked]);
}

/* Puts 'a' as a link, puts 'b' with all fields, which need the extended word, and removes 'b'. */
static void put_a(const char *what, const struct laid *from, uint32_t asked, const struct laid *to)
{
    begin(PUT);
    give_file(from);
    given.asked = asked;
    write_file(what, to);
}

static void put_b(const char *what, const struct laid *from, uint32_t asked, const struct laid *to)
{
    begin(PUT);
    give_file(from);
    give_name("b");
    given.fields = full;
    given.asked = asked;
    write_file(what, to);
}

static void remove_b(const char *what, const struct laid *from, uint32_t asked, const struct laid *to)
{
    begin(REMOVE);
    give_file(from);
    give_name("b");
    given.stage = full.stage;
    given.asked = asked;
    write_file(what, to);
}

static void write_default(void)
{
    rewrite_in("by default", &example, NERUPAZHIL_VERSION_DEFAULT, &example_4);
    rewrite_in("by default, from version 4", &example_4, NERUPAZHIL_VERSION_DEFAULT, &example_4);
    rewrite_in("by default, the extended word", &added, NERUPAZHIL_VERSION_DEFAULT, &added_4);
    rewrite_in("by default, both extensions", &extended, NERUPAZHIL_VERSION_DEFAULT, &extended_4);
    rewrite_in("by default, with a checksum", &zeroed, NERUPAZHIL_VERSION_DEFAULT, &example_4);
    put_a("by default, in place of another", &example, NERUPAZHIL_VERSION_DEFAULT, &changed_4);
    put_a("by default, the tree's root becomes invalid", &extended, NERUPAZHIL_VERSION_DEFAULT, &invalid_4);
    put_b("by default, all fields", &example, NERUPAZHIL_VERSION_DEFAULT, &added_4);
    remove_b("by default, what was put", &added, NERUPAZHIL_VERSION_DEFAULT, &example_4);
}

static void write_changed(void)
{
    put_a("in place of another", &example, NERUPAZHIL_VERSION_LOWEST, &changed);
    put_a("the tree's root becomes invalid", &extended, NERUPAZHIL_VERSION_LOWEST, &invalid);
    put_b("all fields", &example, NERUPAZHIL_VERSION_LOWEST, &added);
    put_b("all fields, from version 4", &example_4, NERUPAZHIL_VERSION_LOWEST, &added);
    remove_b("what was put", &added, NERUPAZHIL_VERSION_LOWEST, &example);
    remove_b("what was put, from version 4", &added_4, NERUPAZHIL_VERSION_LOWEST, &example);
}

/* The lowest version is that of the result: an entry that needs the extended word stays, or is replaced. */
static void write_lowest(void)
{
    struct nerupazhil_fields fields = full;
    struct laid rest, plain;

    lay_start(&rest, 3, 2);
    lay_entry(&rest, &full, 0x33, "b");
    lay_plain(&rest, NERUPAZHIL_MODE_EXECUTABLE, 0x22, "b/c");
    lay_checksum(&rest);
    begin(REMOVE);
    give_file(&added_4);
    write_file("what needs version 3 stays", &rest);
    fields.skip_worktree = 0;
    fields.intent_to_add = 0;
    lay_added(&plain, 2, &fields);
    begin(PUT);
    give_file(&added_4);
    give_name("b");
    given.fields = fields;
    write_file("what needed version 3 is replaced", &plain);
}

/* The bytes after an object name, 12 or none, are not read. */
static void write_other_object_bytes(void)
{
    begin(PUT);
    memset(given.object + kind->width, 0xee, NERUPAZHIL_OBJECT - kind->width);
    write_file("other bytes after the object name", &changed);
}

/* Any number but 0 sets a flag. */
static void write_other_flags(void)
{
    const uint32_t set[] = {1, 7, 256, 0x10000, 0x80000000, UINT32_MAX};

    for (size_t k = 0; k < 3 * sizeof set / sizeof set[0]; k++) {
        begin(PUT);
        give_name("b");
        given.fields = full;
        if (k % 3 == 0)
            given.fields.assume_valid = set[k / 3];
        else if (k % 3 == 1)
            given.fields.skip_worktree = set[k / 3];
        else
            given.fields.intent_to_add = set[k / 3];
        write_file("another number of a flag", &added);
    }
}

/* Puts and removes stages of 'a': the index of the first ones becomes that of the others. */
static void put_stage(const char *what, const char *from, char stage, const char *to)
{
    struct laid result = laid_at(2, to, stage);

    begin(PUT);
    staged = laid_at(4, from, 0);
    give_staged();
    given.fields.stage = (uint32_t)(stage - '0');
    write_file(what, &result);
}

static void remove_stage(const char *what, const char *from, char stage, const char *to)
{
    struct laid result = laid_at(2, to, 0);

    begin(REMOVE);
    staged = laid_at(4, from, 0);
    give_staged();
    given.stage = (uint32_t)(stage - '0');
    write_file(what, &result);
}

static void write_stages(void)
{
    put_stage("stage 0 in place of itself", "0", '0', "0");
    put_stage("a stage of a conflict in place of itself", "13", '3', "13");
    put_stage("one more stage of a conflict", "13", '2', "123");
    remove_stage("a conflict is settled, stage 1", "13", '1', "3");
    remove_stage("a conflict is settled, stage 3", "3", '3', "");
    put_stage("a conflict is settled, stage 0", "", '0', "0");
}

/* A put of 'a' at a stage, into an index that has it at others. */
static void begin_beside(const char *stages, uint32_t stage)
{
    begin(PUT);
    staged = laid_at(2, stages, 0);
    give_staged();
    given.fields.stage = stage;
}

static void put_wrong_stages(void)
{
    const char *const conflicts[] = {"1", "2", "3", "13", "123"};

    for (size_t k = 0; k < sizeof conflicts / sizeof conflicts[0]; k++) {
        begin_beside(conflicts[k], 0);
        refuse("stage 0 beside a conflict", NERUPAZHIL_ENTRY_ORDER, 0);
    }
    for (uint32_t stage = 1; stage <= 3; stage++) {
        begin_beside("0", stage);
        refuse("a stage of a conflict beside stage 0", NERUPAZHIL_ENTRY_ORDER, 0);
    }
}

/* The version, then the record itself, then its stage beside others, then the result. */
static void put_wrong_stages_in_order(void)
{
    begin_beside("13", 0);
    given.asked = 5;
    refuse("a version that there is not, before the stages", NERUPAZHIL_VERSION, 0);
    begin_beside("13", 0);
    given.fields.mode = 0100600;
    refuse("a wrong mode, before the stages", NERUPAZHIL_ENTRY_MODE, 0);
    begin_beside("0", 4);
    refuse("a wrong stage, before the stages", NERUPAZHIL_ENTRY_FLAGS, 0);
    begin_beside("0", 2);
    give_name("a/.git");
    refuse("a wrong name, before the stages", NERUPAZHIL_ENTRY_NAME, 0);
    begin_beside("13", 0);
    given.fields.intent_to_add = 1;
    given.asked = NERUPAZHIL_VERSION_2;
    refuse("the stages, before a flag that needs version 3", NERUPAZHIL_ENTRY_ORDER, 0);
    begin_beside("0", 2);
    no_out();
    refuse("the stages, before a short output", NERUPAZHIL_ENTRY_ORDER, 0);
    begin_beside("0", 2);
    staged.bytes[staged.length - 1] ^= 1;
    refuse("a wrong checksum, before the stages", NERUPAZHIL_CHECKSUM, staged.length - kind->width);
}

static void put_wrong_fields(void)
{
    begin(PUT);
    given.fields.mode = 0100600;
    refuse("a wrong mode", NERUPAZHIL_ENTRY_MODE, 0);
    begin(PUT);
    given.fields.stage = 4;
    refuse("a wrong stage", NERUPAZHIL_ENTRY_FLAGS, 0);
    begin(PUT);
    given.fields.intent_to_add = 7;
    given.asked = NERUPAZHIL_VERSION_2;
    refuse("a flag that needs version 3", NERUPAZHIL_NEEDS_VERSION_3, 0);
    begin(REMOVE);
    given.stage = 3;
    refuse("a stage that is not there", NERUPAZHIL_NOT_THERE, 0);
}

static void write_wrong_output(void)
{
    const size_t needed[] = {example.length, changed.length, example.length - (kind->second - FIRST)};

    for (int call = REWRITE; call <= REMOVE; call++) {
        begin(call);
        given.out_length = needed[call - REWRITE] - 1;
        refuse("an output one byte too short", NERUPAZHIL_OUTPUT_SHORT, 0);
    }
}

static void write_wrong_version(void)
{
    const uint32_t above[] = {5, 256, UINT32_MAX};

    for (size_t k = 0; k < sizeof above / sizeof above[0]; k++)
        for (int call = REWRITE; call <= REMOVE; call++) {
            begin(call);
            given.asked = above[k];
            refuse("a version that there is not", NERUPAZHIL_VERSION, 0);
        }
}

/* ---- the hashes */

/* The digests of no bytes. */
static const uint8_t sha1_of_nothing[NERUPAZHIL_DIGEST] = {0xda, 0x39, 0xa3, 0xee, 0x5e, 0x6b, 0x4b, 0x0d, 0x32, 0x55,
                                                           0xbf, 0xef, 0x95, 0x60, 0x18, 0x90, 0xaf, 0xd8, 0x07, 0x09};
static const uint8_t sha256_of_nothing[NERUPAZHIL_DIGEST_SHA256] = {
    0xe3, 0xb0, 0xc4, 0x42, 0x98, 0xfc, 0x1c, 0x14, 0x9a, 0xfb, 0xf4, 0xc8, 0x99, 0x6f, 0xb9, 0x24,
    0x27, 0xae, 0x41, 0xe4, 0x64, 0x9b, 0x93, 0x4c, 0xa4, 0x95, 0x99, 0x1b, 0x78, 0x52, 0xb8, 0x55};

static void hash(void)
{
    uint8_t digest[NERUPAZHIL_OBJECT + SPARE], marks[NERUPAZHIL_OBJECT + SPARE];

    memset(digest, MARK, sizeof digest);
    memset(marks, MARK, sizeof marks);
    memcpy(marks, kind == kinds ? sha1_of_nothing : sha256_of_nothing, kind->width);
    kind->hash(NULL, 0, digest);
    test("the hash", "nothing", memcmp(digest, marks, sizeof digest) == 0);
}

/* ---- sentences */

static int is_known(uint64_t refusal)
{
    return refusal <= NERUPAZHIL_NEEDS_VERSION_3 || refusal == NERUPAZHIL_KIND;
}

static void sentences(void)
{
    const char *unknown = nerupazhil_refusal_text(UINT64_MAX);

    for (uint64_t n = 0; n < 64; n++) {
        const char *text = nerupazhil_refusal_text(n);
        int good = strlen(text) > 10 && (strcmp(text, unknown) != 0) == is_known(n);
        for (uint64_t m = 0; m < n && is_known(n); m++)
            good = good && strcmp(text, nerupazhil_refusal_text(m)) != 0;
        test("refusal_text", "a sentence for each refusal", good);
    }
}

static void test_kind(void)
{
    lay_files();
    empty_slices();
    unknown_kinds();
    exchanged_kinds();
    refused_files();
    refused_stages();
    left_out();
    read_checked();
    read_left_out();
    read_entries();
    read_entry_of_4();
    read_nodes();
    read_records();
    walk();
    walk_past_the_end();
    write_again();
    write_by_number();
    write_default();
    write_changed();
    write_lowest();
    write_other_object_bytes();
    write_other_flags();
    write_stages();
    put_wrong_fields();
    put_wrong_stages();
    put_wrong_stages_in_order();
    write_wrong_output();
    write_wrong_version();
    hash();
    sentences();
}

int main(void)
{
    for (kind = kinds; kind < kinds + sizeof kinds / sizeof kinds[0]; kind++)
        test_kind();
    printf("%d passed, %d failed\n", passed, failed);
    return failed == 0 && passed > 0 ? 0 : 1;
}
