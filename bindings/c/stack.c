/*
 * How much stack a command takes: the deepest commands that we know how to make, each on a thread whose stack is painted first.
 * A chain of 64 computeds, each with a formula nested 16 deep and its read innermost, is evaluated in one command: first, after
 * a write, and anew when nothing of it is linked any more, by a new effect and by one that a write makes run. It prints the most
 * bytes of stack that a call took; more than 512 KiB is a failure.
 * Build: cc -Iinclude bindings/c/stack.c target/staticlib/libhost.a -lpthread -o stack
 */
#define _POSIX_C_SOURCE 200809L
#include <inttypes.h>
#include <pthread.h>
#include <stdio.h>
#include <stdlib.h>
#include <string.h>

#include "simmerthread.h"

#define NODES 128
#define LINKS 512
#define CELLS 4096
#define STACK (1u << 20)
#define PAINT 0xA5
#define NESTING 16
#define HEIGHT 64

static uint64_t *nodes, *links;
static int64_t *values, *cells, *rows;
static int64_t command[2 + 2 * 2 * NESTING], reply[SIMMER_REPLY];
static size_t length;
static unsigned char *stack;

static void *words(size_t count) {
    void *made = calloc(count, 8);
    if (count == 0 || made == NULL) {
        fputs("stack: no room\n", stderr);
        exit(1);
    }
    return made;
}

static void *sends(void *nothing) {
    if (length > 0)
        simmer_command(nodes, simmer_node_words(NODES), links, simmer_link_words(LINKS), values, simmer_value_words(NODES), cells,
                       simmer_cell_words(CELLS), rows, simmer_log_words(NODES), command, length, reply, SIMMER_REPLY);
    return nothing;
}

/* How many bytes of its stack a thread has touched that sends the command. */
static size_t touched(void) {
    pthread_attr_t own;
    pthread_t thread;
    memset(stack, PAINT, STACK);
    if (pthread_attr_init(&own) != 0 || pthread_attr_setstack(&own, stack, STACK) != 0 ||
        pthread_create(&thread, &own, sends, NULL) != 0 || pthread_join(thread, NULL) != 0) {
        fputs("stack: no thread\n", stderr);
        exit(1);
    }
    size_t clean = 0;
    while (clean < STACK && stack[clean] == PAINT)
        clean++;
    return STACK - clean;
}

static size_t idle, most;

static int64_t sent(void) {
    size_t taken = touched() - idle;
    if (taken > most)
        most = taken;
    if (reply[SIMMER_REPLY_CODE] != 0) {
        fprintf(stderr, "stack: refused, %" PRId64 "\n", reply[SIMMER_REPLY_CODE]);
        exit(1);
    }
    return reply[SIMMER_REPLY_VALUE];
}

static void word(int64_t w) { command[length++] = w; }

static int64_t send_words(int64_t code, int64_t first, int64_t second, size_t count) {
    length = 0;
    word(code);
    word(first);
    word(second);
    length = count;
    return sent();
}

/* 1 + (1 + .. (node)), nested so deep. */
static void deep(int nesting, int64_t node) {
    for (int i = 1; i < nesting; i++) {
        word(SIMMER_CELL_SUM);
        word(0);
        word(SIMMER_CELL_CONSTANT);
        word(1);
    }
    word(SIMMER_CELL_NODE);
    word(node);
}

static int64_t effect_on(int64_t node) {
    length = 0;
    word(SIMMER_EFFECT);
    word(SIMMER_NO_OWNER);
    deep(NESTING, node);
    return sent();
}

/* It reads the node only while the lever is not 0. */
static int64_t effect_behind(int64_t lever, int64_t node) {
    length = 0;
    word(SIMMER_EFFECT);
    word(SIMMER_NO_OWNER);
    word(SIMMER_CELL_CHOOSE);
    word(0);
    word(SIMMER_CELL_NODE);
    word(lever);
    deep(NESTING - 1, node);
    word(SIMMER_CELL_CONSTANT);
    word(0);
    return sent();
}

int main(void) {
    nodes = words(simmer_node_words(NODES));
    links = words(simmer_link_words(LINKS));
    values = words(simmer_value_words(NODES));
    cells = words(simmer_cell_words(CELLS));
    rows = words(simmer_log_words(NODES));
    if (posix_memalign((void **)&stack, 4096, STACK) != 0)
        return 1;
    simmer_empty(nodes, simmer_node_words(NODES), links, simmer_link_words(LINKS), values, simmer_value_words(NODES), cells,
                 simmer_cell_words(CELLS));
    touched(); /* the first thread of a process takes more */
    idle = touched();

    int64_t top = send_words(SIMMER_SIGNAL, 5, 0, 2);
    for (int i = 0; i < HEIGHT; i++) {
        length = 0;
        word(SIMMER_COMPUTED);
        deep(NESTING, top);
        top = sent();
    }
    send_words(SIMMER_READ, top, 0, 2);
    int64_t payout = effect_on(top);
    send_words(SIMMER_SET, 0, 6, 3);
    send_words(SIMMER_DISPOSE, payout, 0, 2);
    payout = effect_on(top);
    send_words(SIMMER_DISPOSE, payout, 0, 2);
    int64_t lever = send_words(SIMMER_SIGNAL, 0, 0, 2);
    effect_behind(lever, top);
    send_words(SIMMER_SET, lever, 1, 3);
    printf("%zu bytes of stack\n", most);
    return most > 512 * 1024;
}
