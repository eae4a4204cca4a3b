/*
 * The README's seller through the library. It prints each answer as ./simmer does.
 * Build: cc -Iinclude bindings/c/seller.c target/staticlib/libhost.a -o seller
 */
#include <inttypes.h>
#include <stdio.h>
#include <stdlib.h>

#include "simmerthread.h"

/* The tables, which the program owns: here on the heap, at the sizes of ./simmer. */
struct tables {
    size_t nodes_len, links_len, values_len, cells_len, log_len;
    uint64_t *nodes, *links;
    int64_t *values, *cells, *log;
};

static void *words(size_t count) {
    void *made = calloc(count, 8);
    if (count == 0 || made == NULL) {
        fputs("seller: no room for the tables\n", stderr);
        exit(1);
    }
    return made;
}

static struct tables made(uint64_t nodes, uint64_t links, uint64_t cells, uint64_t rows) {
    struct tables t;
    t.nodes = words(t.nodes_len = simmer_node_words(nodes));
    t.links = words(t.links_len = simmer_link_words(links));
    t.values = words(t.values_len = simmer_value_words(nodes));
    t.cells = words(t.cells_len = simmer_cell_words(cells));
    t.log = words(t.log_len = simmer_log_words(rows));
    if (simmer_empty(t.nodes, t.nodes_len, t.links, t.links_len, t.values, t.values_len, t.cells, t.cells_len) != 0) {
        fputs("seller: these lengths carry no capacities\n", stderr);
        exit(1);
    }
    return t;
}

static void freed(struct tables *t) {
    free(t->nodes);
    free(t->links);
    free(t->values);
    free(t->cells);
    free(t->log);
}

/* Prints an answer. A host would hand each row on as a payout here. */
static void shown(int64_t code, int64_t value, int64_t runs, const int64_t *rows) {
    printf("code=%" PRId64 "\nvalue=%" PRId64 "\nruns=%" PRId64 "\n", code, value, runs);
    for (int64_t i = 0; i < runs; i++)
        printf("run=%" PRId64 ":%" PRId64 "\n", rows[SIMMER_ROW * i], rows[SIMMER_ROW * i + 1]);
}

/* Sends one command, prints its answer, and returns the value. */
static int64_t sent(struct tables *t, const int64_t *command, size_t length) {
    int64_t reply[SIMMER_REPLY];
    simmer_command(t->nodes, t->nodes_len, t->links, t->links_len, t->values, t->values_len, t->cells, t->cells_len, t->log,
                   t->log_len, command, length, reply, SIMMER_REPLY);
    shown(reply[SIMMER_REPLY_CODE], reply[SIMMER_REPLY_VALUE], reply[SIMMER_REPLY_RUNS], t->log);
    return reply[SIMMER_REPLY_VALUE];
}

/* Sends many, each behind its number of words, and prints their answers. */
static void sent_all(struct tables *t, const int64_t *list, size_t length) {
    int64_t reply[SIMMER_REPLY], answers[4 * SIMMER_ANSWER];
    size_t used = 0;
    uint64_t why;
    do {
        why = simmer_commands(t->nodes, t->nodes_len, t->links, t->links_len, t->values, t->values_len, t->cells, t->cells_len, t->log,
                              t->log_len, list + used, length - used, answers, 4 * SIMMER_ANSWER, reply, SIMMER_REPLY);
        const int64_t *rows = t->log;
        for (const int64_t *a = answers; a < answers + SIMMER_ANSWER * reply[SIMMER_REPLY_DONE]; a += SIMMER_ANSWER) {
            shown(a[SIMMER_REPLY_CODE], a[SIMMER_REPLY_VALUE], a[SIMMER_REPLY_RUNS], rows);
            rows += SIMMER_ROW * a[SIMMER_REPLY_RUNS];
        }
        used += (size_t)reply[SIMMER_REPLY_USED];
    } while (reply[SIMMER_REPLY_DONE] > 0 && (why == SIMMER_FULL_ANSWERS || why == SIMMER_FULL_ROWS));
    if (why != SIMMER_ALL_DONE) {
        fprintf(stderr, "seller: stopped at word %zu of the list\n", used);
        exit(1);
    }
}

#define SEND(t, ...) sent(t, (const int64_t[]){__VA_ARGS__}, sizeof((const int64_t[]){__VA_ARGS__}) / sizeof(int64_t))
#define SEND_ALL(t, ...) sent_all(t, (const int64_t[]){__VA_ARGS__}, sizeof((const int64_t[]){__VA_ARGS__}) / sizeof(int64_t))

int main(void) {
    struct tables t = made(256, 1024, 2048, 256);

    int64_t seller = SEND(&t, SIMMER_SCOPE, SIMMER_NO_OWNER);
    int64_t sale = SEND(&t, SIMMER_SIGNAL, 4000);
    int64_t other = SEND(&t, SIMMER_SIGNAL, 2500);
    int64_t balance = SEND(&t, SIMMER_COMPUTED, SIMMER_CELL_SUM, 0, SIMMER_CELL_NODE, sale, SIMMER_CELL_NODE, other);
    int64_t hold = SEND(&t, SIMMER_COMPUTED, SIMMER_CELL_CHOOSE, 0, SIMMER_CELL_LESS, 0, SIMMER_CELL_NODE, balance,
                        SIMMER_CELL_CONSTANT, 8000, SIMMER_CELL_CONSTANT, 1000, SIMMER_CELL_CONSTANT, 0);
    int64_t payout = SEND(&t, SIMMER_EFFECT, seller, SIMMER_CELL_DIFFERENCE, 0, SIMMER_CELL_NODE, balance, SIMMER_CELL_NODE, hold);

    /* 1,000 from one sale to the other: the balance is what it was, and nobody is paid. Then 1,500 more. Six commands in one list. */
    SEND_ALL(&t, 1, SIMMER_START, 3, SIMMER_SET, sale, 5000, 3, SIMMER_SET, other, 1500, 1, SIMMER_END, 3, SIMMER_ADD, other, 1500, 2,
             SIMMER_READ, balance);

    /* The seller leaves, and the payout with it; a second goodbye is refused. */
    SEND(&t, SIMMER_DISPOSE, seller);
    SEND(&t, SIMMER_SET, sale, 0);
    SEND(&t, SIMMER_DISPOSE, payout);

    freed(&t);
    return 0;
}
