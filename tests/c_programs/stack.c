/* How much stack each call takes: measured on a painted stack, and held to what the header states.
 *
 * stack [BOUNDS] FOLDER..: runs every call on the network.bin and batch.bin of each folder, on stacks filled with a pattern, and prints for each call
 * the most bytes below its caller's stack pointer that it changed, return address included. BOUNDS is a file of lines 'NAME BYTES' that says how much
 * each function can take by its machine code (tests/stack_bounds). Fails where a call changed more than the header states or than its bound, or where
 * a bound is above what the header states. */
#include <inttypes.h>
#include <stdio.h>
#include <stdlib.h>
#include <string.h>
#include <ucontext.h>

#include "bagwezin.h"

enum { ROOM = 256 * 1024, FILE_MOST = 65536 };

static const uint64_t PAINT = 0x9e3779b97f4a7c15;

static uint64_t stack[ROOM / 8];
static uint32_t rows[BAGWEZIN_AREA], gained[BAGWEZIN_AREA], lost[BAGWEZIN_AREA], head[BAGWEZIN_HEAD];
static uint32_t answer[BAGWEZIN_ANSWER], pending[BAGWEZIN_PENDING], row[BAGWEZIN_FIELDS];
static uint8_t report[BAGWEZIN_REPORT];
static uint8_t network[FILE_MOST], file[FILE_MOST];
static const uint8_t *batch;
static size_t network_size, batch_size;
static uint32_t node;

#define AREAS rows, BAGWEZIN_AREA, gained, BAGWEZIN_AREA, lost, BAGWEZIN_AREA, head, BAGWEZIN_HEAD
#define PENDING pending, BAGWEZIN_PENDING

/* The calls: their names, what the header states, how often they ran, and the most that they took. */
enum { READ, OPEN, APPLY, CHECK, REPORT, FOLD, TAKE, CALLS };

static struct { const char *name; size_t stated, runs, most; } calls[CALLS] = {
    {"bagwezin_read", BAGWEZIN_STACK_READ, 0, 0},     {"bagwezin_open", BAGWEZIN_STACK_OPEN, 0, 0},
    {"bagwezin_apply", BAGWEZIN_STACK_APPLY, 0, 0},   {"bagwezin_check", BAGWEZIN_STACK_CHECK, 0, 0},
    {"bagwezin_report", BAGWEZIN_STACK_REPORT, 0, 0}, {"bagwezin_fold", BAGWEZIN_STACK_FOLD, 0, 0},
    {"bagwezin_take", BAGWEZIN_STACK_TAKE, 0, 0},
};

/* Called in place of each call to learn its caller's stack pointer: the frame pointer and the return address stand below it. */
static const char *caller;

__attribute__((noinline)) static uint64_t mark(void)
{
    caller = (const char *)__builtin_frame_address(0) + 16;
    return 0;
}

/* One place each calls a function twice, first as the mark, so that both have the same stack pointer. */
#define TWICE(function, ...)                                                              \
    do {                                                                                  \
        __typeof__(&function) volatile which = (__typeof__(&function))(void (*)(void))mark; \
        for (int k = 0; k < 2; k += 1) {                                                  \
            given = which(__VA_ARGS__);                                                   \
            which = function;                                                             \
        }                                                                                 \
    } while (0)

static int chosen;
static uint64_t given;
static ucontext_t here, there;

static void on_painted_stack(void)
{
    switch (chosen) {
    case READ: TWICE(bagwezin_read, network, network_size, answer, BAGWEZIN_ANSWER); break;
    case OPEN: TWICE(bagwezin_open, network, network_size, AREAS); break;
    case APPLY: TWICE(bagwezin_apply, network, network_size, batch, batch_size, AREAS); break;
    case CHECK: TWICE(bagwezin_check, network, network_size, AREAS); break;
    case REPORT: TWICE(bagwezin_report, network, network_size, node, AREAS, report, sizeof report); break;
    case FOLD: TWICE(bagwezin_fold, network, network_size, AREAS, PENDING); break;
    default: TWICE(bagwezin_take, network, network_size, AREAS, PENDING, row, BAGWEZIN_FIELDS); break;
    }
}

/* Runs one call on a freshly painted stack. */
static uint64_t run(int call)
{
    chosen = call;
    for (size_t i = 0; i < ROOM / 8; i += 1) {
        stack[i] = PAINT;
    }
    getcontext(&there);
    there.uc_stack.ss_sp = stack;
    there.uc_stack.ss_size = sizeof stack;
    there.uc_link = &here;
    makecontext(&there, on_painted_stack, 0);
    swapcontext(&here, &there);
    size_t lowest = 0;
    while (stack[lowest] == PAINT) {
        lowest += 1;
    }
    size_t took = (size_t)(caller - (const char *)&stack[lowest]);
    calls[call].runs += 1;
    if (took > calls[call].most) {
        calls[call].most = took;
    }
    return given;
}

static size_t load(const char *folder, const char *name, uint8_t *bytes)
{
    char path[4096];
    snprintf(path, sizeof path, "%s/%s", folder, name);
    FILE *f = fopen(path, "rb");
    if (f == NULL) {
        return 0;
    }
    size_t size = fread(bytes, 1, FILE_MOST, f);
    fclose(f);
    return size;
}

static void apply_and_look(const uint8_t *bytes, size_t size)
{
    batch = bytes;
    batch_size = size;
    if (run(APPLY) == 0) {
        run(FOLD);
        run(TAKE);
    }
    run(CHECK);
    for (node = 0; node <= BAGWEZIN_NODES; node += 1) {
        run(REPORT);
    }
}

/* The calls on a folder's files; at most so many batches, and every fortieth of a long file after those. */
static void folder(const char *path)
{
    network_size = load(path, "network.bin", network);
    size_t size = load(path, "batch.bin", file), start = 0, at = 0, count = 0;
    memset(pending, 0, sizeof pending);
    run(READ);
    run(OPEN);
    while (at + 4 <= size) {
        size_t length = file[at] + 256u * file[at + 1];
        if (length < 4 || at + length > size) {
            break;
        }
        if (length == 4 && file[at + 2] == BAGWEZIN_MARK && file[at + 3] == 0) {
            count += 1;
            if (count < 40 || count % 40 == 0) {
                apply_and_look(file + start, at - start);
            } else if (bagwezin_apply(network, network_size, file + start, at - start, AREAS) == 0) {
                bagwezin_fold(network, network_size, AREAS, PENDING);
            }
            start = at + 4;
        }
        at += length;
    }
    apply_and_look(file + start, size - start);
    while (run(TAKE) >> 32 == 0) { /* all that is pending */
    }
    pending[BAGWEZIN_PENDING_COUNTS] = BAGWEZIN_ROWS + 1; /* not of good form */
    run(FOLD);
    run(TAKE);
    head[BAGWEZIN_HEAD_ROWS] = BAGWEZIN_ROWS + 1; /* not of good form */
    apply_and_look(file, 0);
    run(FOLD);
    run(TAKE);
}

/* The bound of a function in a file of bounds, or 0. */
static size_t bound_of(const char *path, const char *name)
{
    char word[256];
    size_t bytes, found = 0;
    FILE *f = path == NULL ? NULL : fopen(path, "r");
    while (f != NULL && fscanf(f, "%255s %zu", word, &bytes) == 2) {
        if (strcmp(word, name) == 0) {
            found = bytes;
        }
    }
    if (f != NULL) {
        fclose(f);
    }
    return found;
}

int main(int count, char **words)
{
    int bad = 0;
    const char *bounds = count > 1 && strcmp(words[1], "-") != 0 ? words[1] : NULL;
    for (int i = 2; i < count; i += 1) {
        folder(words[i]);
    }
    printf("%-16s %8s %9s %9s %9s\n", "stack of", "runs", "measured", "bound", "stated");
    for (int c = 0; c < CALLS; c += 1) {
        size_t bound = bound_of(bounds, calls[c].name);
        int wrong = calls[c].runs == 0 || calls[c].most > calls[c].stated || (bounds != NULL && (bound < calls[c].most || bound > calls[c].stated));
        printf("%-16s %8zu %9zu %9zu %9zu%s\n", calls[c].name, calls[c].runs, calls[c].most, bound, calls[c].stated, wrong ? "  WRONG" : "");
        bad |= wrong;
    }
    return bad;
}
