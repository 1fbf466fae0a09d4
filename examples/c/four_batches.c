/* The order's example: network N, four batches, and after each the report of node 4. */
#include <inttypes.h>
#include <stdio.h>

#include "bagwezin.h"

static const uint8_t NETWORK[] = {
    6, 0, 1, 0, 2, 0,                               /* node 0: table of width 2 (block, catch) */
    14, 0, 2, 0, 0, 0, 1, 0, 5, 0, 8, 0, 0, 0,      /* node 1: rows of 0 with catch at least 8 */
    10, 0, 4, 0, 1, 0, 1, 0, 0, 0,                  /* node 2: their blocks */
    6, 0, 1, 0, 1, 0,                               /* node 3: table of width 1 (sprayed block) */
    8, 0, 7, 0, 2, 0, 3, 0,                         /* node 4: 2 without 3 */
    8, 0, 9, 0, 4, 0, 3, 0,                         /* watch on 4, gained and lost */
};

#define CATCH(kind, block, count) 14, 0, kind, 0, 0, 0, block, 0, 0, 0, count, 0, 0, 0
#define SPRAY(kind, block) 10, 0, kind, 0, 3, 0, block, 0, 0, 0

static const uint8_t FIRST[] = {CATCH(BAGWEZIN_PUT, 5, 9), CATCH(BAGWEZIN_PUT, 5, 12)};
static const uint8_t SECOND[] = {CATCH(BAGWEZIN_REMOVE, 5, 9)};
static const uint8_t THIRD[] = {SPRAY(BAGWEZIN_PUT, 5)};
static const uint8_t FOURTH[] = {CATCH(BAGWEZIN_REMOVE, 5, 12), SPRAY(BAGWEZIN_REMOVE, 5)};

static uint32_t rows[BAGWEZIN_AREA], gained[BAGWEZIN_AREA], lost[BAGWEZIN_AREA], head[BAGWEZIN_HEAD];

#define AREAS rows, BAGWEZIN_AREA, gained, BAGWEZIN_AREA, lost, BAGWEZIN_AREA, head, BAGWEZIN_HEAD

static int refused(const char *call, uint64_t answer)
{
    if (bagwezin_number(answer) == 0) {
        return 0;
    }
    printf("%s refused %" PRIu32 " %" PRIu32 "\n", call, bagwezin_number(answer), bagwezin_value(answer));
    return 1;
}

static uint32_t u16_at(const uint8_t *at) { return at[0] + 256u * at[1]; }
static uint32_t u32_at(const uint8_t *at) { return u16_at(at) + 65536u * u16_at(at + 2); }

/* One record of a report: + or -, the node, the row. */
static void print_change(const uint8_t *record)
{
    printf("%c %" PRIu32, u16_at(record + 2) == BAGWEZIN_GAINED ? '+' : '-', u16_at(record + 4));
    for (uint32_t field = 6; field < u16_at(record); field += 4) {
        printf(" %" PRIu32, u32_at(record + field));
    }
    printf("\n");
}

static int apply(const uint8_t *batch, size_t size)
{
    uint8_t report[BAGWEZIN_REPORT];
    if (refused("apply", bagwezin_apply(NETWORK, sizeof NETWORK, batch, size, AREAS))) {
        return 1;
    }
    printf("batch %" PRIu32 "\n", head[BAGWEZIN_HEAD_NUMBER]);
    uint64_t answer = bagwezin_report(NETWORK, sizeof NETWORK, 4, AREAS, report, sizeof report);
    if (refused("report", answer)) {
        return 1;
    }
    for (uint32_t at = 0; at < bagwezin_value(answer); at += u16_at(report + at)) {
        print_change(report + at);
    }
    return 0;
}

int main(void)
{
    uint32_t shape[BAGWEZIN_ANSWER];
    if (refused("read", bagwezin_read(NETWORK, sizeof NETWORK, shape, BAGWEZIN_ANSWER))) {
        return 1;
    }
    printf("nodes %" PRIu32 ", levels", shape[BAGWEZIN_ANSWER_COUNT]);
    for (uint32_t i = 0; i < shape[BAGWEZIN_ANSWER_COUNT]; i += 1) {
        printf(" %" PRIu32, shape[BAGWEZIN_ANSWER_LEVELS + i]);
    }
    printf("\n");
    if (refused("open", bagwezin_open(NETWORK, sizeof NETWORK, AREAS))) {
        return 1;
    }
    if (apply(FIRST, sizeof FIRST) || apply(SECOND, sizeof SECOND) || apply(THIRD, sizeof THIRD) || apply(FOURTH, sizeof FOURTH)) {
        return 1;
    }
    uint64_t answer = bagwezin_check(NETWORK, sizeof NETWORK, AREAS);
    printf("coherent %s\n", bagwezin_number(answer) == 0 && bagwezin_value(answer) == 1 ? "yes" : "no");
    /* a report for a node without a watch is refused */
    answer = bagwezin_report(NETWORK, sizeof NETWORK, 3, AREAS, NULL, 0);
    return refused("report", answer) && bagwezin_number(answer) == BAGWEZIN_NO_WATCH ? 0 : 1;
}
