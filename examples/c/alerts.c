/* Alerts that wait for the adviser: after each accepted batch a fold, and once a day the alerts are taken, the most pressing first. */
#include <inttypes.h>
#include <stdio.h>

#include "bagwezin.h"

static const uint8_t NETWORK[] = {
    6, 0, 1, 0, 2, 0,                          /* node 0: table of width 2 (block, catch) */
    6, 0, 1, 0, 1, 0,                          /* node 1: table of width 1 (trap that is silent) */
    14, 0, 2, 0, 0, 0, 1, 0, 5, 0, 8, 0, 0, 0, /* node 2: rows of 0 with catch at least 8 */
    8, 0, 9, 0, 2, 0, 3, 0,                    /* watch on 2, gained and lost: without a priority, 0 */
    10, 0, 9, 0, 1, 0, 1, 0, 5, 0,             /* watch on 1, gained: priority 5 */
};

#define CATCH(kind, block, count) 14, 0, kind, 0, 0, 0, block, 0, 0, 0, count, 0, 0, 0
#define SILENT(kind, trap) 10, 0, kind, 0, 1, 0, trap, 0, 0, 0

static const uint8_t MORNING[] = {CATCH(BAGWEZIN_PUT, 6, 9), CATCH(BAGWEZIN_PUT, 5, 12), CATCH(BAGWEZIN_PUT, 7, 3)};
static const uint8_t NOON[] = {SILENT(BAGWEZIN_PUT, 31), CATCH(BAGWEZIN_PUT, 8, 8)};
static const uint8_t EVENING[] = {CATCH(BAGWEZIN_REMOVE, 6, 9)};

static uint32_t rows[BAGWEZIN_AREA], gained[BAGWEZIN_AREA], lost[BAGWEZIN_AREA], head[BAGWEZIN_HEAD];
static uint32_t pending[BAGWEZIN_PENDING]; /* 0 from the start, as it has to be at opening */

#define AREAS rows, BAGWEZIN_AREA, gained, BAGWEZIN_AREA, lost, BAGWEZIN_AREA, head, BAGWEZIN_HEAD
#define PENDING pending, BAGWEZIN_PENDING

static int refused(const char *call, uint64_t answer)
{
    if (bagwezin_number(answer) == 0) {
        return 0;
    }
    printf("%s refused %" PRIu32 " %" PRIu32 "\n", call, bagwezin_number(answer), bagwezin_value(answer));
    return 1;
}

/* A batch, folded once it is accepted: before any taking, and before the next. */
static int apply(const uint8_t *batch, size_t size)
{
    if (refused("apply", bagwezin_apply(NETWORK, sizeof NETWORK, batch, size, AREAS)) ||
        refused("fold", bagwezin_fold(NETWORK, sizeof NETWORK, AREAS, PENDING))) {
        return 1;
    }
    printf("batch %" PRIu32 ": pending catches %" PRIu32 ", silent traps %" PRIu32 "\n", head[BAGWEZIN_HEAD_NUMBER],
           pending[BAGWEZIN_PENDING_COUNTS + 2], pending[BAGWEZIN_PENDING_COUNTS + 1]);
    return 0;
}

int main(void)
{
    if (refused("open", bagwezin_open(NETWORK, sizeof NETWORK, AREAS))) {
        return 1;
    }
    if (apply(MORNING, sizeof MORNING) || apply(NOON, sizeof NOON) || apply(EVENING, sizeof EVENING)) {
        return 1;
    }
    /* until nothing is pending, which is refused by 18 */
    for (;;) {
        uint32_t row[BAGWEZIN_FIELDS];
        uint64_t answer = bagwezin_take(NETWORK, sizeof NETWORK, AREAS, PENDING, row, BAGWEZIN_FIELDS);
        if (refused("take", answer)) {
            return bagwezin_number(answer) == BAGWEZIN_NOTHING_PENDING ? 0 : 1;
        }
        if (bagwezin_value(answer) == 1) {
            printf("trap %" PRIu32 " is silent\n", row[0]);
        } else {
            printf("block %" PRIu32 " has a catch of %" PRIu32 "\n", row[0], row[1]);
        }
    }
}
