/* Bagwezin: the condition monitor of the trap stations.
 *
 * Link with libbagwezin.a (rt lib --cpu=x86-64 in crates/bagwezin). The archive is for x86-64 with the calling convention of Linux (System V), uses no instructions
 * beyond SSE2 and is position-independent. It needs memcpy and memset and nothing else: no other function, no start-up code, no heap.
 *
 * The functions keep no state: the archive has no variables, and all that a call knows is what it is lent. So calls on different areas may run on
 * different threads at the same time, also with the same network's bytes; and so may calls that only read the same areas (checks, reports, and folds
 * and takings on different pending areas), as long as none of the calls at that time writes what another one is lent.
 *
 * SLICES. A slice is a pointer and a count of elements. A pointer to words is aligned to 4 bytes. A pointer whose count is 0 is never looked at and
 * may be null; any other points to as many elements as its count says. A range that a call may write (a parameter without const) overlaps no other
 * range lent to that call; ranges that it only reads may overlap. C cannot check any of this, and the proofs rest on it.
 *
 * ANSWERS. Each function returns one number of 64 bits. Its upper 32 bits are 0, or the number of the refusal. Its lower 32 bits are the place of a
 * refusal; else the value: the length of a report, 1 (coherent) or 0 of the check, the node of a taking, and 0 of the others. A refusal writes
 * nothing. Every number is below 27, and every place and value fits 32 bits, for every input: no bit is lost. This is proved.
 *
 * AREAS. The caller lends four areas of 32-bit words: rows, gained and lost of at least BAGWEZIN_AREA words, head of at least BAGWEZIN_HEAD. Longer
 * ones will do; words past these are never read or written. Opening sets all named words to 0, whatever they were. Between calls the areas may be
 * stored, moved and copied like any other bytes: apply, check, report, fold and take look at their words afresh each time, and refuse words that are
 * not of good form (8); bagwezin_check says whether stored words are coherent. In rows, gained and lost, field k of row j of node i is word
 * 256 i + 4 j + k: bagwezin_word. Rows ascend in each place, and unused words are 0.
 *
 * PENDING. Alerts that wait for the adviser stand in an area of their own, of at least BAGWEZIN_PENDING words: rows of the nodes watched with sign 1
 * or 3, laid out as in rows, then 32 counts, by node, from word BAGWEZIN_PENDING_COUNTS on. As in rows they ascend, and unused words, all those of
 * other nodes among them, are 0; longer areas will do, and words past the named ones are never read or written. The caller sets the named words to 0
 * at opening, since opening does not know them. From then on call bagwezin_fold once after each accepted batch, before any taking and before the next
 * batch, and never after a refused one, hand all calls the same network and let nobody else write to the areas: then, except between a batch and its
 * folding, a row of such a node is pending exactly if it was gained since opening and neither lost nor taken since. A fold cannot tell whether there
 * was a new batch: folding twice folds twice. Like the areas, the pending area may be stored, moved and copied: its words are looked at afresh (17).
 *
 * RECORDS are little-endian: 2 bytes length of the whole record, 2 bytes kind, then the fields. A watch has the node and the sign in 2 bytes each and
 * may have a priority, 0 to BAGWEZIN_PRIORITY, in 2 more: it is 8 bytes long, or 10. Without it the priority is 0; with sign 2 it has no effect. An
 * event has the table in 2 bytes, then the row, 4 bytes a field. A report's record has the node in 2 bytes, then the row, 4 bytes a field:
 * 6 + 4 x width bytes, at most 22. A report has the gained rows, then the lost ones, as the watch's sign allows, each ascending: at most 64 and 64
 * records, BAGWEZIN_REPORT bytes.
 */
#ifndef BAGWEZIN_H
#define BAGWEZIN_H

#include <stddef.h>
#include <stdint.h>

#ifdef __cplusplus
extern "C" {
#endif

/* Sizes. */
enum {
    BAGWEZIN_NODES = 32,     /* the most nodes of a network */
    BAGWEZIN_ROWS = 64,      /* the most rows of a node */
    BAGWEZIN_FIELDS = 4,     /* the most fields of a row, and the words of a taking's answer */
    BAGWEZIN_EVENTS = 64,    /* the most events of a batch */
    BAGWEZIN_PRIORITY = 9,   /* the highest priority of a watch */
    BAGWEZIN_AREA = 8192,    /* named words of rows, gained and lost */
    BAGWEZIN_HEAD = 162,     /* named words of head */
    BAGWEZIN_PENDING = 8224, /* named words of the pending area */
    BAGWEZIN_ANSWER = 97,    /* words of the reader's answer */
    BAGWEZIN_REPORT = 2816   /* the most bytes of a report */
};

/* Words of the head. */
enum {
    BAGWEZIN_HEAD_NUMBER = 0,         /* the batch number */
    BAGWEZIN_HEAD_ROWS = 1,           /* 32 row counts, by node */
    BAGWEZIN_HEAD_STAMPS = 33,        /* 32 change stamps, by node: the number of the last batch that changed it */
    BAGWEZIN_HEAD_GAINED = 65,        /* 32 counts of gained rows, by node */
    BAGWEZIN_HEAD_LOST = 97,          /* 32 counts of lost rows, by node */
    BAGWEZIN_HEAD_WORKED_COUNT = 129, /* how many nodes the last batch worked on */
    BAGWEZIN_HEAD_WORKED = 130        /* their numbers, by level, then number */
};

/* Words of the pending area. */
enum {
    BAGWEZIN_PENDING_COUNTS = 8192 /* 32 counts of pending rows, by node; the rows stand before them */
};

/* Words of the reader's answer. */
enum {
    BAGWEZIN_ANSWER_COUNT = 0,   /* the node count */
    BAGWEZIN_ANSWER_KINDS = 1,   /* 32 kinds, by node; 0 past the last, as for widths and levels */
    BAGWEZIN_ANSWER_WIDTHS = 33, /* 32 widths */
    BAGWEZIN_ANSWER_LEVELS = 65  /* 32 levels */
};

/* Kinds of records. */
enum {
    BAGWEZIN_TABLE = 1,         /* kinds of nodes: in networks, and in the reader's answer */
    BAGWEZIN_SELECT = 2,        /* a column compared with a constant */
    BAGWEZIN_SELECT_COLUMN = 3, /* a column compared with a column */
    BAGWEZIN_PROJECT = 4,
    BAGWEZIN_JOIN = 5,
    BAGWEZIN_UNION = 6,
    BAGWEZIN_WITHOUT = 7,
    BAGWEZIN_INTERSECTION = 8,
    BAGWEZIN_WATCH = 9,         /* in networks, no node: 8 bytes, or 10 with a priority */
    BAGWEZIN_NO_MATCH = 10,     /* a node: the left rows with which no right row agrees on all pairs */
    BAGWEZIN_PUT = 32,          /* events */
    BAGWEZIN_REMOVE = 33,
    BAGWEZIN_MARK = 34,         /* ends a batch in a file of batches; part of no batch */
    BAGWEZIN_GAINED = 64,       /* in reports */
    BAGWEZIN_LOST = 65
};

/* Refusals, in checking order. The place is the record's offset in bytes for 3 to 7 and 10 to 13, the node for 14, else 0. */
enum {
    BAGWEZIN_SHORT_AREA = 1,      /* one of the four areas, or the answer of the reader or of a taking, is shorter than stated */
    BAGWEZIN_NO_NETWORK = 2,      /* the network has no bytes */
    BAGWEZIN_NETWORK_LENGTH = 3,  /* 1 to 3 bytes remain in the network, or a length is below 4 or beyond the end */
    BAGWEZIN_NETWORK_KIND = 4,    /* the record has a kind outside 1 to 10 */
    BAGWEZIN_NETWORK_NODES = 5,   /* it would be the 33rd node */
    BAGWEZIN_NETWORK_SIZE = 6,    /* its length is not its kind's, or a count is out of range or not inside the record */
    BAGWEZIN_NETWORK_FIELD = 7,   /* another of its fields breaks a rule */
    BAGWEZIN_FORM = 8,            /* the areas are not of good form */
    BAGWEZIN_LAST_NUMBER = 9,     /* the batch number is 4294967295 */
    BAGWEZIN_EVENT_LENGTH = 10,   /* 1 to 3 bytes remain in the batch, or a length is below 4 or beyond the end */
    BAGWEZIN_EVENT_KIND = 11,     /* the event's kind is neither 32 nor 33 */
    BAGWEZIN_EVENT_COUNT = 12,    /* it is the 65th event */
    BAGWEZIN_EVENT_TABLE = 13,    /* it names no table, or its length does not fit the table's width */
    BAGWEZIN_OVER = 14,           /* after the batch a node has more than 64 rows; the place is the lowest such node */
    BAGWEZIN_NO_WATCH = 15,       /* the node of a report does not exist or has no watch */
    BAGWEZIN_SHORT_REPORT = 16,   /* the report's buffer is shorter than the report */
    BAGWEZIN_PENDING_FORM = 17,   /* the pending area is shorter than stated or not of good form, or folding would take a node above 64 rows */
    BAGWEZIN_NOTHING_PENDING = 18 /* a taking with nothing pending */
};

/* The most bytes of stack that a call takes, for every input: below its caller's stack pointer, its return address included, and what memcpy and
 * memset take below theirs not. By the machine code (tests/stack_bounds) and measured (tests/c); here rounded up to 1024. */
enum {
    BAGWEZIN_STACK_READ = 16 * 1024,
    BAGWEZIN_STACK_OPEN = 13 * 1024,
    BAGWEZIN_STACK_APPLY = 64 * 1024,
    BAGWEZIN_STACK_CHECK = 23 * 1024,
    BAGWEZIN_STACK_REPORT = 21 * 1024,
    BAGWEZIN_STACK_FOLD = 20 * 1024,
    BAGWEZIN_STACK_TAKE = 19 * 1024
};

/* The number of an answer (0: not refused), and its lower half. */
static inline uint32_t bagwezin_number(uint64_t answer) { return (uint32_t)(answer >> 32); }
static inline uint32_t bagwezin_value(uint64_t answer) { return (uint32_t)answer; }

/* The word of a field in rows, gained, lost or pending. */
static inline size_t bagwezin_word(uint32_t node, uint32_t row, uint32_t field) { return (size_t)256 * node + (size_t)4 * row + field; }

/* Reads a network: 1 to 7. Writes the node count, then 32 kinds, 32 widths and 32 levels, 0 past the last node. Fewer than BAGWEZIN_ANSWER lent words
 * are refused by 1 before anything else; words past these are never read or written. */
uint64_t bagwezin_read(const uint8_t *net, size_t net_len, uint32_t *answer, size_t answer_len);

/* Opens the areas for a network: 1 to 7. Sets every named word to 0. */
uint64_t bagwezin_open(const uint8_t *net, size_t net_len,
                       uint32_t *rows, size_t rows_len, uint32_t *gained, size_t gained_len,
                       uint32_t *lost, size_t lost_len, uint32_t *head, size_t head_len);

/* Applies a batch: 1 to 14. No bytes are the empty batch. */
uint64_t bagwezin_apply(const uint8_t *net, size_t net_len, const uint8_t *batch, size_t batch_len,
                        uint32_t *rows, size_t rows_len, uint32_t *gained, size_t gained_len,
                        uint32_t *lost, size_t lost_len, uint32_t *head, size_t head_len);

/* Whether the areas are coherent: 1 to 8. Writes nothing. */
uint64_t bagwezin_check(const uint8_t *net, size_t net_len,
                        const uint32_t *rows, size_t rows_len, const uint32_t *gained, size_t gained_len,
                        const uint32_t *lost, size_t lost_len, const uint32_t *head, size_t head_len);

/* Writes the report of a watched node from the first byte of out on: 1 to 8, 15, 16. The bytes after it keep their values. */
uint64_t bagwezin_report(const uint8_t *net, size_t net_len, uint32_t node,
                         const uint32_t *rows, size_t rows_len, const uint32_t *gained, size_t gained_len,
                         const uint32_t *lost, size_t lost_len, const uint32_t *head, size_t head_len,
                         uint8_t *out, size_t out_len);

/* Folds the last batch's changes into the pending area: 1 to 8, 17. At each node watched with sign 1 or 3 the lost rows go out, then the gained ones
 * come in. A node above 64 rows after both is 17. */
uint64_t bagwezin_fold(const uint8_t *net, size_t net_len,
                       const uint32_t *rows, size_t rows_len, const uint32_t *gained, size_t gained_len,
                       const uint32_t *lost, size_t lost_len, const uint32_t *head, size_t head_len,
                       uint32_t *pending, size_t pending_len);

/* Takes the next alert out of the pending area: 1 to 8, 17, 18. Goes to the highest priority with something pending, there to the lowest node, and
 * removes its lowest row. The value is the node; the row is written to answer, BAGWEZIN_FIELDS words, 0 past its width. Fewer lent words are refused
 * by 1 before anything else; words past these are never read or written. */
uint64_t bagwezin_take(const uint8_t *net, size_t net_len,
                       const uint32_t *rows, size_t rows_len, const uint32_t *gained, size_t gained_len,
                       const uint32_t *lost, size_t lost_len, const uint32_t *head, size_t head_len,
                       uint32_t *pending, size_t pending_len, uint32_t *answer, size_t answer_len);

#ifdef __cplusplus
}
#endif

#endif
