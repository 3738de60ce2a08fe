/*
 * Makes the library's calls on each file of a stream, with a stack of their own.
 *
 *   stack        prints how many bytes of stack each call takes: a line with the names of the calls, then a line for
 *                each file. A call runs on a stack that was painted before, and what lost the paint is counted.
 *   stack KIB    makes all calls on a file in a thread that has so many KiB, its start included, and prints a line with
 *                their refusals. Below the stack is memory that can't be used: a call that needs more ends the program
 *                with a signal.
 */
#define _GNU_SOURCE

#include <pthread.h>
#include <stdio.h>
#include <stdlib.h>
#include <string.h>
#include <sys/mman.h>
#include <ucontext.h>

#include "nerupazhil.h"
#include "reply.h"
#include "stream.h"

#define ROOM (256u << 10) /* bytes of stack: far more than any call takes */
#define COUNT(array) (sizeof(array) / sizeof(array)[0])

static void stop(const char *words)
{
    fprintf(stderr, "stack: %s\n", words);
    exit(1);
}

/* ---- what the calls are asked */

static uint8_t work[NERUPAZHIL_WORKSPACE];
static uint8_t *out;
static struct nerupazhil_check_reply counts;
static uint8_t old_name[NERUPAZHIL_NAME]; /* the last entry, or a file in the deepest directory of the first chain */
static uint8_t new_name[NERUPAZHIL_NAME]; /* one beside it */
static size_t name_length;

static union reply reply;
static struct nerupazhil_fields fields;
static uint8_t object[3][NERUPAZHIL_OBJECT];

#define GIVEN_FILE file_kind, file, file_length, work, sizeof work

static uint32_t last(uint64_t count)
{
    return count == 0 ? 0 : (uint32_t)count - 1;
}

static void check(void)
{
    nerupazhil_check(GIVEN_FILE, &reply.check);
}

static void entry(void)
{
    nerupazhil_entry(GIVEN_FILE, last(counts.entries), &reply.entry, &fields, object[0]);
}

static void tree_node(void)
{
    nerupazhil_tree_node(GIVEN_FILE, last(counts.nodes), &reply.node, object[0]);
}

static void undo_record(void)
{
    nerupazhil_undo_record(GIVEN_FILE, last(counts.records), &reply.undo, object[0], object[1], object[2]);
}

static void walk_start(void)
{
    nerupazhil_walk_start(GIVEN_FILE, &reply.start);
}

static void walk_next(void)
{
    nerupazhil_walk_next(file_kind, file, file_length, 12, (uint32_t)counts.entries, &reply.step, &fields, object[0]);
}

static void rewrite(uint32_t asked)
{
    nerupazhil_rewrite(GIVEN_FILE, out, NERUPAZHIL_FILE, asked, &reply.write);
}

static void put(uint32_t asked)
{
    struct nerupazhil_fields given;

    memset(&given, 0, sizeof given);
    given.mode = NERUPAZHIL_MODE_REGULAR;
    nerupazhil_put(GIVEN_FILE, out, NERUPAZHIL_FILE, asked, new_name, name_length, &given, object[0], &reply.write);
}

static void remove_entry(uint32_t asked)
{
    nerupazhil_remove(GIVEN_FILE, out, NERUPAZHIL_FILE, asked, old_name, name_length, 0, &reply.write);
}

static void rewrite_in_2(void)
{
    rewrite(2);
}
static void rewrite_in_4(void)
{
    rewrite(4);
}
static void put_in_2(void)
{
    put(2);
}
static void put_in_4(void)
{
    put(4);
}
static void remove_in_2(void)
{
    remove_entry(2);
}
static void remove_in_4(void)
{
    remove_entry(4);
}

static void sha1(void)
{
    nerupazhil_sha1(file, file_length, object[0]);
    reply.numbers[0] = 0;
}

static void sha256(void)
{
    nerupazhil_sha256(file, file_length, object[0]);
    reply.numbers[0] = 0;
}

static const struct call {
    const char *name;
    void (*make)(void);
} calls[] = {
    {"check", check},
    {"entry", entry},
    {"tree_node", tree_node},
    {"undo_record", undo_record},
    {"rewrite", rewrite_in_2},
    {"rewrite", rewrite_in_4},
    {"put", put_in_2},
    {"put", put_in_4},
    {"remove", remove_in_2},
    {"remove", remove_in_4},
    {"walk_start", walk_start},
    {"walk_next", walk_next},
    {"sha1", sha1},
    {"sha256", sha256},
};

/* ---- the request for a file */

static void add_name(struct nerupazhil_name name, const char *end)
{
    memcpy(old_name + name_length, nerupazhil_name_bytes(name, file, work), (size_t)name.length);
    name_length += (size_t)name.length;
    memcpy(old_name + name_length, end, strlen(end));
    name_length += strlen(end);
}

/* The last entry. Where there is none, a file in the directory that the nodes lead down to, from the root. */
static void choose_names(void)
{
    name_length = 0;
    if (counts.entries > 0) {
        entry();
        add_name(reply.entry.name, "");
    } else {
        for (uint32_t k = 1; k < counts.nodes; k++) {
            nerupazhil_tree_node(GIVEN_FILE, k, &reply.node, object[0]);
            if (reply.node.level != k + 1)
                break;
            add_name(reply.node.name, "/");
        }
        old_name[name_length++] = 'x';
    }
    memcpy(new_name, old_name, name_length);
    new_name[name_length - 1] = '~';
}

/* Reads the next file, and chooses what the calls are asked. 0 says that there is none. */
static int next_request(void)
{
    if (!next_file())
        return 0;
    nerupazhil_check(GIVEN_FILE, &counts);
    if (counts.refusal != 0)
        stop("a file is refused");
    choose_names();
    return 1;
}

/* ---- how much stack a call takes */

static uint64_t *stack; /* ROOM bytes */

/* The paint differs from word to word, so that nothing that is written is like it. */
static uint64_t paint(size_t word)
{
    return (word + 1) * UINT64_C(0x9e3779b97f4a7c15);
}

/* Runs a call on the stack. */
static void run(void (*call)(void))
{
    static ucontext_t caller, called;

    getcontext(&called);
    called.uc_stack.ss_sp = stack;
    called.uc_stack.ss_size = ROOM;
    called.uc_link = &caller;
    makecontext(&called, call, 0);
    swapcontext(&caller, &called);
}

static size_t depth(void (*call)(void))
{
    size_t words = ROOM / sizeof *stack, untouched = 0;

    for (size_t k = 0; k < words; k++)
        stack[k] = paint(k);
    run(call);
    while (untouched < words && stack[untouched] == paint(untouched))
        untouched++;
    if (untouched == 0)
        stop("a call took all of its stack");
    return ROOM - untouched * sizeof *stack;
}

static void measure(void)
{
    for (size_t k = 0; k < COUNT(calls); k++)
        printf("%s%c", calls[k].name, k + 1 < COUNT(calls) ? ' ' : '\n');
    for (int first = 1; next_request(); first = 0) {
        /* At its first use a function of the C library may be looked for, which takes stack of the caller. */
        for (size_t k = 0; first && k < COUNT(calls); k++)
            calls[k].make();
        for (size_t k = 0; k < COUNT(calls); k++)
            printf("%zu%c", depth(calls[k].make), k + 1 < COUNT(calls) ? ' ' : '\n');
        fflush(stdout);
    }
}

/* ---- the calls in a thread with little stack */

static void *all_calls(void *refusals)
{
    for (size_t k = 0; k < COUNT(calls); k++) {
        calls[k].make();
        ((uint64_t *)refusals)[k] = reply.numbers[0];
    }
    return NULL;
}

static void in_threads(size_t bytes)
{
    uint64_t refusals[COUNT(calls)];
    pthread_attr_t attributes;
    pthread_t thread;

    /* The C library takes no stack below a limit of its own, so the lower part of a larger one is made unusable. */
    if (bytes >= ROOM || mprotect(stack, ROOM - bytes, PROT_NONE) != 0)
        stop("no memory for so small a stack");
    pthread_attr_init(&attributes);
    if (pthread_attr_setstack(&attributes, stack, ROOM) != 0)
        stop("no thread with a stack of its own");
    while (next_request()) {
        if (pthread_create(&thread, &attributes, all_calls, refusals) != 0 || pthread_join(thread, NULL) != 0)
            stop("no thread");
        for (size_t k = 0; k < COUNT(calls); k++)
            printf("%d%c", (int)refusals[k], k + 1 < COUNT(calls) ? ' ' : '\n');
        fflush(stdout);
    }
}

int main(int count, char **arguments)
{
    out = (uint8_t *)malloc(NERUPAZHIL_FILE);
    stack = (uint64_t *)mmap(NULL, ROOM, PROT_READ | PROT_WRITE, MAP_PRIVATE | MAP_ANONYMOUS, -1, 0);
    if (out == NULL || stack == MAP_FAILED)
        stop("no memory");
    if (count > 1)
        in_threads((size_t)atoi(arguments[1]) << 10);
    else
        measure();
    return 0;
}
