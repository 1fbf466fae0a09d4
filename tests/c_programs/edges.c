/* What the header promises beside the rules: null pointers with a count of 0, names and layout, lent words past the named ones, the largest report,
 * calls on several threads. */
#define _GNU_SOURCE
#include <pthread.h>
#include <stdio.h>
#include <string.h>
#include <sys/mman.h>

#include "bagwezin.h"

static int passed, failed;

#define EXPECT(what)                                                  \
    do {                                                              \
        if (what) {                                                   \
            passed += 1;                                              \
        } else {                                                      \
            failed += 1;                                              \
            printf("edges.c:%d: not so: %s\n", __LINE__, #what);      \
        }                                                             \
    } while (0)

struct areas { uint32_t rows[BAGWEZIN_AREA], gained[BAGWEZIN_AREA], lost[BAGWEZIN_AREA], head[BAGWEZIN_HEAD]; };

#define LENT(a) (a)->rows, BAGWEZIN_AREA, (a)->gained, BAGWEZIN_AREA, (a)->lost, BAGWEZIN_AREA, (a)->head, BAGWEZIN_HEAD
#define SHORT(a, k, at) \
    (k) == 0 ? (at) : (a)->rows, (k) == 0 ? 0 : BAGWEZIN_AREA, (k) == 1 ? (at) : (a)->gained, (k) == 1 ? 0 : BAGWEZIN_AREA, \
    (k) == 2 ? (at) : (a)->lost, (k) == 2 ? 0 : BAGWEZIN_AREA, (k) == 3 ? (at) : (a)->head, (k) == 3 ? 0 : BAGWEZIN_HEAD

/* The order's network N, and batches on it. */
static const uint8_t N[] = {
    6, 0, BAGWEZIN_TABLE, 0, 2, 0,
    14, 0, BAGWEZIN_SELECT, 0, 0, 0, 1, 0, 5, 0, 8, 0, 0, 0,
    10, 0, BAGWEZIN_PROJECT, 0, 1, 0, 1, 0, 0, 0,
    6, 0, BAGWEZIN_TABLE, 0, 1, 0,
    8, 0, BAGWEZIN_WITHOUT, 0, 2, 0, 3, 0,
    8, 0, BAGWEZIN_WATCH, 0, 4, 0, 3, 0,
};
static const uint8_t CATCH[] = {14, 0, BAGWEZIN_PUT, 0, 0, 0, 5, 0, 0, 0, 9, 0, 0, 0};
static const uint8_t SPRAY[] = {10, 0, BAGWEZIN_PUT, 0, 3, 0, 5, 0, 0, 0};
static const uint8_t UNSPRAY[] = {10, 0, BAGWEZIN_REMOVE, 0, 3, 0, 5, 0, 0, 0};

static uint64_t refusal(uint32_t number) { return (uint64_t)number << 32; }

/* Pointers whose count is 0: null, and into a page that nobody may touch. */
static void nothing_is_looked_at(void *at)
{
    static struct areas a, before;
    uint32_t answer[BAGWEZIN_ANSWER];
    EXPECT(bagwezin_read(at, 0, answer, BAGWEZIN_ANSWER) == refusal(BAGWEZIN_NO_NETWORK));
    EXPECT(bagwezin_read(N, sizeof N, at, 0) == refusal(BAGWEZIN_SHORT_AREA));
    EXPECT(bagwezin_read(at, 0, at, 0) == refusal(BAGWEZIN_SHORT_AREA));
    EXPECT(bagwezin_open(at, 0, LENT(&a)) == refusal(BAGWEZIN_NO_NETWORK));
    EXPECT(bagwezin_open(N, sizeof N, LENT(&a)) == 0);
    EXPECT(bagwezin_apply(at, 0, CATCH, sizeof CATCH, LENT(&a)) == refusal(BAGWEZIN_NO_NETWORK));
    EXPECT(bagwezin_apply(N, sizeof N, CATCH, sizeof CATCH, LENT(&a)) == 0);
    EXPECT(bagwezin_check(at, 0, LENT(&a)) == refusal(BAGWEZIN_NO_NETWORK));
    EXPECT(bagwezin_report(at, 0, 4, LENT(&a), at, 0) == refusal(BAGWEZIN_NO_NETWORK));
    EXPECT(bagwezin_report(N, sizeof N, 4, LENT(&a), at, 0) == refusal(BAGWEZIN_SHORT_REPORT));
    EXPECT(bagwezin_report(N, sizeof N, 3, LENT(&a), at, 0) == refusal(BAGWEZIN_NO_WATCH));
    /* the empty batch, and the empty report after it */
    EXPECT(bagwezin_apply(N, sizeof N, at, 0, LENT(&a)) == 0 && a.head[BAGWEZIN_HEAD_NUMBER] == 2);
    EXPECT(bagwezin_report(N, sizeof N, 4, LENT(&a), at, 0) == 0);
    EXPECT(bagwezin_check(N, sizeof N, LENT(&a)) == 1);
    /* no pending area, and no words for a row: 17 comes after 8, the row's 1 before anything else */
    static uint32_t pending[BAGWEZIN_PENDING], row[BAGWEZIN_FIELDS];
    memcpy(&before, &a, sizeof a);
    EXPECT(bagwezin_fold(N, sizeof N, LENT(&a), at, 0) == refusal(BAGWEZIN_PENDING_FORM));
    EXPECT(bagwezin_fold(at, 0, LENT(&a), at, 0) == refusal(BAGWEZIN_NO_NETWORK));
    EXPECT(bagwezin_take(N, sizeof N, LENT(&a), at, 0, row, BAGWEZIN_FIELDS) == refusal(BAGWEZIN_PENDING_FORM));
    EXPECT(bagwezin_take(at, 0, LENT(&a), at, 0, row, BAGWEZIN_FIELDS) == refusal(BAGWEZIN_NO_NETWORK));
    EXPECT(bagwezin_take(N, sizeof N, LENT(&a), pending, BAGWEZIN_PENDING, at, 0) == refusal(BAGWEZIN_SHORT_AREA));
    EXPECT(bagwezin_take(at, 0, LENT(&a), at, 0, at, 0) == refusal(BAGWEZIN_SHORT_AREA));
    /* an area that is not lent at all */
    for (int k = 0; k < 4; k += 1) {
        uint64_t short_area = refusal(BAGWEZIN_SHORT_AREA);
        EXPECT(bagwezin_open(N, sizeof N, SHORT(&a, k, at)) == short_area);
        EXPECT(bagwezin_apply(N, sizeof N, at, 0, SHORT(&a, k, at)) == short_area);
        EXPECT(bagwezin_check(N, sizeof N, SHORT(&a, k, at)) == short_area);
        EXPECT(bagwezin_report(N, sizeof N, 4, SHORT(&a, k, at), at, 0) == short_area);
        EXPECT(bagwezin_fold(N, sizeof N, SHORT(&a, k, at), pending, BAGWEZIN_PENDING) == short_area);
        EXPECT(bagwezin_take(N, sizeof N, SHORT(&a, k, at), pending, BAGWEZIN_PENDING, row, BAGWEZIN_FIELDS) == short_area);
    }
    EXPECT(bagwezin_open(at, 0, at, 0, at, 0, at, 0, at, 0) == refusal(BAGWEZIN_SHORT_AREA));
    EXPECT(bagwezin_apply(at, 0, at, 0, at, 0, at, 0, at, 0, at, 0) == refusal(BAGWEZIN_SHORT_AREA));
    EXPECT(bagwezin_check(at, 0, at, 0, at, 0, at, 0, at, 0) == refusal(BAGWEZIN_SHORT_AREA));
    EXPECT(bagwezin_report(at, 0, 0, at, 0, at, 0, at, 0, at, 0, at, 0) == refusal(BAGWEZIN_SHORT_AREA));
    EXPECT(bagwezin_fold(at, 0, at, 0, at, 0, at, 0, at, 0, at, 0) == refusal(BAGWEZIN_SHORT_AREA));
    EXPECT(bagwezin_take(at, 0, at, 0, at, 0, at, 0, at, 0, at, 0, at, 0) == refusal(BAGWEZIN_SHORT_AREA));
    EXPECT(memcmp(&before, &a, sizeof a) == 0);
}

static void names_and_layout(void)
{
    static struct areas a;
    uint32_t answer[BAGWEZIN_ANSWER];
    EXPECT(bagwezin_read(N, sizeof N, answer, BAGWEZIN_ANSWER) == 0);
    EXPECT(answer[BAGWEZIN_ANSWER_COUNT] == 5);
    EXPECT(answer[BAGWEZIN_ANSWER_KINDS + 4] == BAGWEZIN_WITHOUT && answer[BAGWEZIN_ANSWER_KINDS + 5] == 0);
    EXPECT(answer[BAGWEZIN_ANSWER_WIDTHS] == 2 && answer[BAGWEZIN_ANSWER_LEVELS + 4] == 3);
    EXPECT(BAGWEZIN_ANSWER_LEVELS + BAGWEZIN_NODES == BAGWEZIN_ANSWER && BAGWEZIN_HEAD_WORKED + BAGWEZIN_NODES == BAGWEZIN_HEAD);
    EXPECT(bagwezin_word(BAGWEZIN_NODES, 0, 0) == BAGWEZIN_AREA && bagwezin_word(0, BAGWEZIN_ROWS, 0) == bagwezin_word(1, 0, 0));
    memset(&a, 7, sizeof a);
    EXPECT(bagwezin_open(N, sizeof N, LENT(&a)) == 0);
    EXPECT(bagwezin_apply(N, sizeof N, CATCH, sizeof CATCH, LENT(&a)) == 0);
    EXPECT(bagwezin_apply(N, sizeof N, SPRAY, sizeof SPRAY, LENT(&a)) == 0);
    EXPECT(a.head[BAGWEZIN_HEAD_NUMBER] == 2 && a.head[BAGWEZIN_HEAD_STAMPS] == 1 && a.head[BAGWEZIN_HEAD_STAMPS + 4] == 2);
    EXPECT(a.head[BAGWEZIN_HEAD_ROWS] == 1 && a.rows[bagwezin_word(0, 0, 0)] == 5 && a.rows[bagwezin_word(0, 0, 1)] == 9);
    EXPECT(a.head[BAGWEZIN_HEAD_GAINED + 3] == 1 && a.gained[bagwezin_word(3, 0, 0)] == 5);
    EXPECT(a.head[BAGWEZIN_HEAD_LOST + 4] == 1 && a.lost[bagwezin_word(4, 0, 0)] == 5);
    EXPECT(a.head[BAGWEZIN_HEAD_WORKED_COUNT] == 1 && a.head[BAGWEZIN_HEAD_WORKED] == 4);
    uint8_t out[BAGWEZIN_REPORT + 1];
    memset(out, 7, sizeof out);
    EXPECT(bagwezin_report(N, sizeof N, 4, LENT(&a), out, sizeof out) == 10);
    EXPECT(out[0] == 10 && out[2] == BAGWEZIN_LOST && out[4] == 4 && out[6] == 5 && out[10] == 7);
    uint64_t bad = bagwezin_apply(N, sizeof N, CATCH, 1, LENT(&a));
    EXPECT(bagwezin_number(bad) == BAGWEZIN_EVENT_LENGTH && bagwezin_value(bad) == 0);
}

/* Blocks without a spray entry (week, block): one comes back with the loss of its last entry. */
static const uint8_t UNSPRAYED[] = {
    6, 0, BAGWEZIN_TABLE, 0, 1, 0,
    6, 0, BAGWEZIN_TABLE, 0, 2, 0,
    14, 0, BAGWEZIN_NO_MATCH, 0, 0, 0, 1, 0, 1, 0, 0, 0, 1, 0,
};

static void no_match(void)
{
    static struct areas a;
    uint32_t answer[BAGWEZIN_ANSWER];
    EXPECT(bagwezin_read(UNSPRAYED, sizeof UNSPRAYED, answer, BAGWEZIN_ANSWER) == 0);
    EXPECT(answer[BAGWEZIN_ANSWER_KINDS + 2] == BAGWEZIN_NO_MATCH);
    EXPECT(answer[BAGWEZIN_ANSWER_WIDTHS + 2] == 1 && answer[BAGWEZIN_ANSWER_LEVELS + 2] == 1);
    uint8_t both[] = {10, 0, BAGWEZIN_PUT, 0, 0, 0, 5, 0, 0, 0, 14, 0, BAGWEZIN_PUT, 0, 1, 0, 21, 0, 0, 0, 5, 0, 0, 0};
    uint8_t last[] = {14, 0, BAGWEZIN_REMOVE, 0, 1, 0, 21, 0, 0, 0, 5, 0, 0, 0};
    EXPECT(bagwezin_open(UNSPRAYED, sizeof UNSPRAYED, LENT(&a)) == 0);
    EXPECT(bagwezin_apply(UNSPRAYED, sizeof UNSPRAYED, both, sizeof both, LENT(&a)) == 0);
    EXPECT(a.head[BAGWEZIN_HEAD_ROWS + 2] == 0 && a.head[BAGWEZIN_HEAD_STAMPS + 2] == 0);
    EXPECT(bagwezin_apply(UNSPRAYED, sizeof UNSPRAYED, last, sizeof last, LENT(&a)) == 0);
    EXPECT(a.head[BAGWEZIN_HEAD_GAINED + 2] == 1 && a.gained[bagwezin_word(2, 0, 0)] == 5);
    EXPECT(bagwezin_check(UNSPRAYED, sizeof UNSPRAYED, LENT(&a)) == 1);
}

/* Three tables, watched: 0 gained, without a priority; 1 lost, where the priority has no effect; 2 gained and lost, with priority 1. */
static const uint8_t WATCHED[] = {
    6, 0, BAGWEZIN_TABLE, 0, 2, 0,
    6, 0, BAGWEZIN_TABLE, 0, 1, 0,
    6, 0, BAGWEZIN_TABLE, 0, 1, 0,
    8, 0, BAGWEZIN_WATCH, 0, 0, 0, 1, 0,
    10, 0, BAGWEZIN_WATCH, 0, 1, 0, 2, 0, BAGWEZIN_PRIORITY, 0,
    10, 0, BAGWEZIN_WATCH, 0, 2, 0, 3, 0, 1, 0,
};

/* A pending area and a row's words, each with a word more than is named. */
struct alerts { uint32_t pending[BAGWEZIN_PENDING + 1], row[BAGWEZIN_FIELDS + 1]; };

#define FOLD(words) bagwezin_fold(WATCHED, sizeof WATCHED, LENT(&a), w.pending, words)
#define TAKE(words, fields) bagwezin_take(WATCHED, sizeof WATCHED, LENT(&a), w.pending, words, w.row, fields)

static void alerts(void)
{
    enum { PAST = 0x7fffffff };
    static struct areas a, unread;
    static struct alerts zero, w, kept;
    uint8_t puts[] = {
        14, 0, BAGWEZIN_PUT, 0, 0, 0, 3, 0, 0, 0, 9, 0, 0, 0, 14, 0, BAGWEZIN_PUT, 0, 0, 0, 3, 0, 0, 0, 8, 0, 0, 0,
        10, 0, BAGWEZIN_PUT, 0, 1, 0, 4, 0, 0, 0, 10, 0, BAGWEZIN_PUT, 0, 2, 0, 5, 0, 0, 0,
    };
    uint8_t loses[] = {14, 0, BAGWEZIN_REMOVE, 0, 0, 0, 3, 0, 0, 0, 8, 0, 0, 0};
    EXPECT(bagwezin_word(BAGWEZIN_NODES, 0, 0) == BAGWEZIN_PENDING_COUNTS && BAGWEZIN_PENDING_COUNTS + BAGWEZIN_NODES == BAGWEZIN_PENDING);
    EXPECT(bagwezin_open(WATCHED, sizeof WATCHED, LENT(&a)) == 0);
    EXPECT(bagwezin_apply(WATCHED, sizeof WATCHED, puts, sizeof puts, LENT(&a)) == 0);
    memcpy(&unread, &a, sizeof a);
    zero.pending[BAGWEZIN_PENDING] = zero.row[BAGWEZIN_FIELDS] = PAST;
    memcpy(&w, &zero, sizeof w);
    for (size_t k = 0; k < BAGWEZIN_FIELDS; k += 1) {
        w.row[k] = 7;
    }

    /* nothing pending, a pending area of a word too few, three words for a row: nothing is written */
    memcpy(&kept, &w, sizeof w);
    EXPECT(TAKE(BAGWEZIN_PENDING + 1, BAGWEZIN_FIELDS + 1) == refusal(BAGWEZIN_NOTHING_PENDING));
    EXPECT(TAKE(BAGWEZIN_PENDING - 1, BAGWEZIN_FIELDS) == refusal(BAGWEZIN_PENDING_FORM));
    EXPECT(FOLD(BAGWEZIN_PENDING - 1) == refusal(BAGWEZIN_PENDING_FORM));
    EXPECT(TAKE(BAGWEZIN_PENDING, BAGWEZIN_FIELDS - 1) == refusal(BAGWEZIN_SHORT_AREA));
    EXPECT(memcmp(&kept, &w, sizeof w) == 0);

    /* the gained rows of the nodes watched with sign 1 and 3 */
    EXPECT(FOLD(BAGWEZIN_PENDING + 1) == 0);
    memcpy(&kept, &zero, sizeof kept);
    memcpy(kept.row, w.row, sizeof kept.row);
    kept.pending[bagwezin_word(0, 0, 0)] = 3, kept.pending[bagwezin_word(0, 0, 1)] = 8;
    kept.pending[bagwezin_word(0, 1, 0)] = 3, kept.pending[bagwezin_word(0, 1, 1)] = 9;
    kept.pending[bagwezin_word(2, 0, 0)] = 5;
    kept.pending[BAGWEZIN_PENDING_COUNTS] = 2, kept.pending[BAGWEZIN_PENDING_COUNTS + 2] = 1;
    EXPECT(memcmp(&kept, &w, sizeof w) == 0);

    /* the higher priority first: node 2, and its row with zeros past its width */
    EXPECT(TAKE(BAGWEZIN_PENDING + 1, BAGWEZIN_FIELDS + 1) == 2);
    kept.row[0] = 5, kept.row[1] = kept.row[2] = kept.row[3] = 0;
    kept.pending[bagwezin_word(2, 0, 0)] = kept.pending[BAGWEZIN_PENDING_COUNTS + 2] = 0;
    EXPECT(memcmp(&kept, &w, sizeof w) == 0);
    EXPECT(memcmp(&unread, &a, sizeof a) == 0);

    /* a lost row is pending no longer; the other is taken, and its place is 0 */
    EXPECT(bagwezin_apply(WATCHED, sizeof WATCHED, loses, sizeof loses, LENT(&a)) == 0);
    EXPECT(FOLD(BAGWEZIN_PENDING) == 0);
    EXPECT(TAKE(BAGWEZIN_PENDING, BAGWEZIN_FIELDS) == 0);
    memcpy(&kept, &zero, sizeof kept);
    kept.row[0] = 3, kept.row[1] = 9;
    EXPECT(memcmp(&kept, &w, sizeof w) == 0);
    uint64_t none = TAKE(BAGWEZIN_PENDING, BAGWEZIN_FIELDS);
    EXPECT(bagwezin_number(none) == BAGWEZIN_NOTHING_PENDING && bagwezin_value(none) == 0);

    /* rows of a node watched with sign 2 */
    w.pending[BAGWEZIN_PENDING_COUNTS + 1] = 1;
    EXPECT(FOLD(BAGWEZIN_PENDING) == refusal(BAGWEZIN_PENDING_FORM));
    EXPECT(TAKE(BAGWEZIN_PENDING, BAGWEZIN_FIELDS) == refusal(BAGWEZIN_PENDING_FORM));
}

/* 64 rows of width 3 beside the one row of another table: when that row is exchanged, the product loses and gains 64 rows of width 4. */
static const uint8_t PRODUCT[] = {
    6, 0, BAGWEZIN_TABLE, 0, 3, 0,
    6, 0, BAGWEZIN_TABLE, 0, 1, 0,
    20, 0, BAGWEZIN_JOIN, 0, 0, 0, 1, 0, 0, 0, 4, 0, 0, 0, 1, 0, 2, 0, 3, 0,
    8, 0, BAGWEZIN_WATCH, 0, 2, 0, 3, 0,
};

static void the_largest_report(void)
{
    static struct areas a;
    static uint8_t many[18 * BAGWEZIN_ROWS], out[BAGWEZIN_REPORT];
    for (uint8_t i = 0; i < BAGWEZIN_ROWS; i += 1) {
        uint8_t event[18] = {18, 0, BAGWEZIN_PUT, 0, 0, 0, i};
        memcpy(many + 18 * i, event, sizeof event);
    }
    uint8_t one[] = {10, 0, BAGWEZIN_PUT, 0, 1, 0, 8, 0, 0, 0};
    uint8_t other[] = {10, 0, BAGWEZIN_REMOVE, 0, 1, 0, 8, 0, 0, 0, 10, 0, BAGWEZIN_PUT, 0, 1, 0, 9, 0, 0, 0};
    EXPECT(bagwezin_open(PRODUCT, sizeof PRODUCT, LENT(&a)) == 0);
    EXPECT(bagwezin_apply(PRODUCT, sizeof PRODUCT, many, sizeof many, LENT(&a)) == 0);
    EXPECT(bagwezin_apply(PRODUCT, sizeof PRODUCT, one, sizeof one, LENT(&a)) == 0);
    EXPECT(bagwezin_apply(PRODUCT, sizeof PRODUCT, other, sizeof other, LENT(&a)) == 0);
    EXPECT(bagwezin_report(PRODUCT, sizeof PRODUCT, 2, LENT(&a), out, BAGWEZIN_REPORT - 1) == refusal(BAGWEZIN_SHORT_REPORT));
    EXPECT(out[0] == 0);
    EXPECT(bagwezin_report(PRODUCT, sizeof PRODUCT, 2, LENT(&a), out, BAGWEZIN_REPORT) == BAGWEZIN_REPORT);
    EXPECT(out[2] == BAGWEZIN_GAINED && out[BAGWEZIN_REPORT - 22] == 22 && out[BAGWEZIN_REPORT - 20] == BAGWEZIN_LOST);
}

enum { THREADS = 4, BATCHES = 3000 };
static struct areas own[THREADS], shared, kept;

static void *writes(void *mine)
{
    struct areas *a = mine;
    uint64_t bad = bagwezin_open(N, sizeof N, LENT(a)) | bagwezin_apply(N, sizeof N, CATCH, sizeof CATCH, LENT(a));
    for (int i = 0; i < BATCHES; i += 1) {
        bad |= i % 2 == 0 ? bagwezin_apply(N, sizeof N, SPRAY, sizeof SPRAY, LENT(a)) : bagwezin_apply(N, sizeof N, UNSPRAY, sizeof UNSPRAY, LENT(a));
    }
    return bad == 0 && a->head[BAGWEZIN_HEAD_NUMBER] == BATCHES + 1 ? mine : NULL;
}

/* Checks, reports, folds and takings on the same areas, with a pending area of its own. */
static void *reads(void *mine)
{
    int good = 1;
    uint8_t out[BAGWEZIN_REPORT];
    uint32_t pending[BAGWEZIN_PENDING] = {0}, row[BAGWEZIN_FIELDS];
    for (int i = 0; i < BATCHES; i += 1) {
        good &= bagwezin_check(N, sizeof N, LENT(&shared)) == 1 && bagwezin_report(N, sizeof N, 4, LENT(&shared), out, sizeof out) == 10 && out[6] == 5;
        good &= bagwezin_fold(N, sizeof N, LENT(&shared), pending, BAGWEZIN_PENDING) == 0 && pending[BAGWEZIN_PENDING_COUNTS + 4] == 1;
        good &= bagwezin_take(N, sizeof N, LENT(&shared), pending, BAGWEZIN_PENDING, row, BAGWEZIN_FIELDS) == 4 && row[0] == 5;
    }
    return good ? mine : NULL;
}

static void threads(void)
{
    pthread_t writing[THREADS], reading[THREADS];
    EXPECT(bagwezin_open(N, sizeof N, LENT(&shared)) == 0);
    EXPECT(bagwezin_apply(N, sizeof N, CATCH, sizeof CATCH, LENT(&shared)) == 0);
    memcpy(&kept, &shared, sizeof shared);
    for (int i = 0; i < THREADS; i += 1) {
        EXPECT(pthread_create(&writing[i], NULL, writes, &own[i]) == 0 && pthread_create(&reading[i], NULL, reads, &own[i]) == 0);
    }
    for (int i = 0; i < THREADS; i += 1) {
        void *wrote = NULL, *read = NULL;
        EXPECT(pthread_join(writing[i], &wrote) == 0 && wrote != NULL);
        EXPECT(pthread_join(reading[i], &read) == 0 && read != NULL);
        EXPECT(memcmp(&own[i], &own[0], sizeof own[0]) == 0);
    }
    EXPECT(memcmp(&kept, &shared, sizeof shared) == 0);
}

int main(void)
{
    nothing_is_looked_at(NULL);
    void *page = mmap(NULL, 4096, PROT_NONE, MAP_PRIVATE | MAP_ANONYMOUS, -1, 0);
    EXPECT(page != MAP_FAILED);
    nothing_is_looked_at(page);
    names_and_layout();
    no_match();
    alerts();
    the_largest_report();
    threads();
    printf("edges: %d passed, %d failed\n", passed, failed);
    return failed != 0;
}
