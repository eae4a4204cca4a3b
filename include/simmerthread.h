/*
 * simmerthread.h: the engine behind C's calls.
 *
 * PROVISIONAL. Names, sizes and the layout of replies and log rows may still change, until the change requests that follow the
 * base have landed. Take sizes from the functions below, never from your own arithmetic, and relink when the library changes.
 *
 * The library keeps nothing between calls, allocates nothing, prints nothing and never fails: every call answers, whatever numbers
 * and words it is given. What it answers, and every word it leaves in the lent tables, is determined by document 01 and proved
 * (docs/PROMISES.md). What C cannot promise it, you must:
 *
 *   - each pointer is not null, also where its length is 0, and has room for as many words as the length beside it says, aligned as
 *     its type;
 *   - nothing that is lent to one call overlaps: tables, log or rows, words or list, answers, reply;
 *   - nobody else touches these during a call. Two threads may work on two sets of tables, not on one;
 *   - the calling thread has stack enough, which no proof bounds: 1 MiB is six times what we measured (docs/HOST.md).
 *
 * Build: `tools/build library` writes target/staticlib/libhost.a (x86-64 Linux). Then
 *
 *   cc -Iinclude program.c target/staticlib/libhost.a
 *
 * docs/HOST.md says how to embed it, and how never to pay twice across a crash.
 */
#ifndef SIMMERTHREAD_H
#define SIMMERTHREAD_H

#include <stddef.h>
#include <stdint.h>

#ifdef __cplusplus
extern "C" {
#endif

/* ---- Capacities ---- */

#define SIMMER_MOST_NODES 1024
#define SIMMER_MOST_LINKS 8192
#define SIMMER_MOST_CELLS 8192

/*
 * How many words a table has for so many nodes, link slots, formula cells or log rows. 0 means that the number is no capacity: it is
 * 0, or more than the most. A node has a row in two tables, `nodes` and `values`. No command wants more log rows than there are nodes.
 */
uint64_t simmer_node_words(uint64_t nodes);
uint64_t simmer_value_words(uint64_t nodes);
uint64_t simmer_link_words(uint64_t links);
uint64_t simmer_cell_words(uint64_t cells);
uint64_t simmer_log_words(uint64_t rows);

/* ---- Emptying ---- */

/*
 * Makes lent words into empty tables: no nodes, no open batch. Answers 0; or 1, and nothing is touched, if the lengths are not those
 * that the functions above name. Lengths are in words, not in bytes.
 */
uint64_t simmer_empty(uint64_t *nodes, size_t nodes_len,
                      uint64_t *links, size_t links_len,
                      int64_t *values, size_t values_len,
                      int64_t *cells, size_t cells_len);

/* ---- Commands ---- */

/* The first word of a command; behind it the words that follow here. An owner is an effect or a scope, or SIMMER_NO_OWNER. */
#define SIMMER_SIGNAL 1   /* v              makes a signal worth v; value: its number                            */
#define SIMMER_COMPUTED 2 /* cells          makes a computed; value: its number                                  */
#define SIMMER_EFFECT 3   /* owner, cells   makes an effect, which runs at once; value: its number               */
#define SIMMER_SCOPE 4    /* owner          makes a scope; value: its number                                     */
#define SIMMER_SET 5      /* n, v           sets signal n to v                                                   */
#define SIMMER_ADD 6      /* n, d           sets signal n to d more than it was worth when last read             */
#define SIMMER_READ 7     /* n              value: what signal or computed n is worth                            */
#define SIMMER_DISPOSE 8  /* n              disposes of effect or scope n and of all that it owns                */
#define SIMMER_START 9    /*                starts a batch: effects wait                                         */
#define SIMMER_END 10     /*                ends it: they run, if no batch is open around it                     */

#define SIMMER_NO_OWNER (-1)

/*
 * A formula is 1 to 64 cells of two words in prefix order, exactly one expression, nested at most 16 deep. So the six words
 * 4 0 2 3 2 4 are node 3 minus node 4.
 */
#define SIMMER_CELL_CONSTANT 1   /* k  the number k                                                              */
#define SIMMER_CELL_NODE 2       /* n  what node n is worth                                                      */
#define SIMMER_CELL_SUM 3        /* 0  of two; stops at the ends of the range                                    */
#define SIMMER_CELL_DIFFERENCE 4 /* 0  of two; the same                                                          */
#define SIMMER_CELL_MINIMUM 5    /* 0  of two                                                                    */
#define SIMMER_CELL_MAXIMUM 6    /* 0  of two                                                                    */
#define SIMMER_CELL_LESS 7       /* 0  of two: 1 if the first is smaller, else 0                                 */
#define SIMMER_CELL_CHOOSE 8     /* 0  of three: the second if the first is not 0, else the third                */

/* A lent reply has at least SIMMER_REPLY words. The first three are written; the others are spare, and stay as they are. */
#define SIMMER_REPLY 8
#define SIMMER_REPLY_CODE 0  /* 0, or the number of the refusal                                                  */
#define SIMMER_REPLY_VALUE 1 /* the value returned; 0 if refused                                                 */
#define SIMMER_REPLY_RUNS 2  /* how many effects ran: so many rows of the log are written; 0 if refused          */

/* A row of the log, from its start, in the order of the runs: the effect's number, then what its formula was worth. */
#define SIMMER_ROW 2

/* The nine refusals, tried in this order. A refused command has changed nothing. */
#define SIMMER_BAD_TABLES 1  /* the lent tables are not well formed                                              */
#define SIMMER_BAD_COMMAND 2 /* unknown command code, or wrong word count                                        */
#define SIMMER_BAD_NODE 3    /* node or owner unknown, or of a kind that the command does not take               */
#define SIMMER_GONE 4        /* the node to dispose of, or the owner, is gone                                    */
#define SIMMER_BAD_FORMULA 5 /* the formula breaks a rule                                                        */
#define SIMMER_TOO_HIGH 6    /* a computed of height over 64, or an owner depth over 16                          */
#define SIMMER_NO_ROOM 7     /* node table full, too few cells left, or no links left to keep in reserve         */
#define SIMMER_BAD_BATCH 8   /* an end with no batch open, or a start inside 64 batches                          */
#define SIMMER_SHORT_LOG 9   /* too few log rows                                                                 */

/* Not a refusal, but a reply of less than SIMMER_REPLY words: nothing was looked at, done or written. */
#define SIMMER_SHORT_REPLY 255

/*
 * One command on lent tables. Answers 0 if it was done, else the number of the refusal (the reply's first word is the same), or
 * SIMMER_SHORT_REPLY. Take the rows out of the log before the next call: it writes from the start again. The log may have any length,
 * and needs not be emptied; an effect made wants one row, a write outside a batch and the end of the last batch want as many as
 * effects are live.
 */
uint64_t simmer_command(uint64_t *nodes, size_t nodes_len,
                        uint64_t *links, size_t links_len,
                        int64_t *values, size_t values_len,
                        int64_t *cells, size_t cells_len,
                        int64_t *log, size_t log_len,
                        const int64_t *words, size_t words_len,
                        int64_t *reply, size_t reply_len);

/* ---- Many commands ---- */

/*
 * A list has for each command the number of its words, then these. So 3 5 1 700 2 7 4 is a set of signal 1 to 700, then a read of
 * node 4. An answer is SIMMER_ANSWER words: code, value, number of runs. The rows of all commands stand one after another.
 */
#define SIMMER_ANSWER 3

/* The reply to many commands: the first four words are written, the others are spare. */
#define SIMMER_REPLY_WHY 0  /* why it stopped, one of the four below                                             */
#define SIMMER_REPLY_USED 1 /* words of the list that are done with: go on from there                            */
#define SIMMER_REPLY_DONE 2 /* commands that were answered, refusals too: so many answers are written            */
#define SIMMER_REPLY_ROWS 3 /* rows that they wrote, together                                                    */

/* The four stops, tried in this order before each command. */
#define SIMMER_ALL_DONE 0     /* the list is over                                                                */
#define SIMMER_BAD_LIST 1     /* the next word of the list is below 0, or more words than are left               */
#define SIMMER_FULL_ANSWERS 2 /* no room for one more answer                                                     */
#define SIMMER_FULL_ROWS 3    /* the next command is refused for too few log rows alone, and was not answered    */

/*
 * Commands on lent tables, one after another, until one of the four says stop. Each is answered as simmer_command answers it, given
 * what is left of the rows as its log; but all of the tables are tested once, and not for each command. What it stopped before has
 * changed nothing: take the answers and the rows, and go on with the rest of the list. If it stops with SIMMER_FULL_ROWS and nothing
 * done, the rows are too few for that command alone. The rows may be any number, SIMMER_ROW words each; a write outside a batch wants
 * as many as effects are live, so lend more than that, or it stops early. Answers one of the four (the reply's first word is the same),
 * or SIMMER_SHORT_REPLY.
 */
uint64_t simmer_commands(uint64_t *nodes, size_t nodes_len,
                         uint64_t *links, size_t links_len,
                         int64_t *values, size_t values_len,
                         int64_t *cells, size_t cells_len,
                         int64_t *rows, size_t rows_len,
                         const int64_t *list, size_t list_len,
                         int64_t *answers, size_t answers_len,
                         int64_t *reply, size_t reply_len);

#ifdef __cplusplus
}
#endif

#endif
