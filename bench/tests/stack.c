/* The stack: each call is made in a thread that has exactly as much stack below the call as the header says, S57_STACK_.., and below that memory which nobody
   may touch. The stack is painted before, so that the deepest byte that the call wrote is seen afterwards. Ordinary, largest and hostile files, and of each
   call one that gets less than it takes, which must be seen.
   usage: stack [SEEDS]   how many generated cells, and pairs of a cell and an update, are tried besides the large files */
#define _GNU_SOURCE /* for anonymous memory, and for the signals' own stack */
#include "../../host/s57loader.h"
#include "../generators/generate_apply.h"

#include <limits.h>
#include <pthread.h>
#include <setjmp.h>
#include <signal.h>
#include <stdio.h>
#include <stdlib.h>
#include <string.h>
#include <sys/mman.h>

/* The barrier is wider than any frame, so that none steps over it. */
enum { DEFAULT_SEEDS = 100, BARRIER = 4 << 20, ABOVE = 1 << 16, ALIGNED = 64, PAINT = 0xA5, LESS = 4096 };

/* ---- the calls */

enum call { NOTHING, JUDGE, ADMIT, APPLY, CALLS };

static const char *const call_names[CALLS] = {"nothing", "s57_judge", "s57_admit", "s57_apply"};
static const size_t call_stacks[CALLS] = {0, S57_STACK_JUDGE, S57_STACK_ADMIT, S57_STACK_APPLY};

struct files {
    struct buffer cell, update;
};

static uint8_t out[S57_LONGEST], work[S57_WORK_BOTH], area[S57_ANSWER];

/* All of a work area is made zero by each call: it gets no more than always suffices for its files. */
static uint32_t make_call(enum call call, const struct files *files)
{
    const struct buffer *cell = &files->cell, *update = &files->update;
    size_t work_length = S57_WORK_FOR(cell->length) + S57_WORK_FOR(update->length);
    if (call == JUDGE)
        return s57_judge(cell->bytes, cell->length, work, work_length, area, sizeof area);
    if (call == ADMIT)
        return s57_admit(cell->bytes, cell->length, out, sizeof out, work, work_length, area, sizeof area);
    if (call == APPLY)
        return s57_apply(cell->bytes, cell->length, update->bytes, update->length, out, sizeof out, work, work_length, area, sizeof area);
    return 0;
}

/* ---- a thread with a stack of ours */

static uint8_t *bottom;   /* of the stack; below it the barrier */
static size_t above_call; /* how much of a stack is taken already where the call is made: by the thread library, and by the functions below */

struct run {
    enum call call;
    const struct files *files;
    size_t stack;  /* for the call alone */
    uint8_t *from; /* where that begins, downwards */
    uint32_t code;
    size_t used;
    bool over; /* it came to the barrier */
};

static sigjmp_buf before_call;

static void on_barrier(int number, siginfo_t *about, void *context)
{
    const uint8_t *at = about->si_addr;
    (void)context;
    if (at < bottom && at >= bottom - BARRIER)
        siglongjmp(before_call, 1);
    signal(number, SIG_DFL); /* another fault: it comes again at once, and ends the program */
}

/* The frame begins where the caller's ends. */
__attribute__((noinline)) static void enter(struct run *run)
{
    run->from = __builtin_frame_address(0);
    run->code = make_call(run->call, run->files);
}

static void *run_thread(void *context)
{
    static uint8_t signals[ABOVE];
    stack_t other = {.ss_sp = signals, .ss_size = sizeof signals}, none = {.ss_flags = SS_DISABLE};
    struct run *run = context;
    sigaltstack(&other, NULL);
    if (sigsetjmp(before_call, 1) == 0)
        enter(run);
    else
        run->over = true;
    const uint8_t *deepest = bottom;
    while (deepest < run->from && *deepest == PAINT)
        deepest++;
    run->used = (size_t)(run->from - deepest);
    sigaltstack(&none, NULL);
    return NULL;
}

static void must(bool done, const char *what)
{
    if (!done) {
        printf("%s can't be done\n0 passed, 1 failed\n", what);
        exit(1);
    }
}

/* One call in a thread of its own. */
static void perform(struct run *run)
{
    size_t whole = run->stack + above_call;
    pthread_attr_t attributes;
    pthread_t thread;
    memset(bottom, PAINT, whole);
    must(pthread_attr_init(&attributes) == 0 && pthread_attr_setstack(&attributes, bottom, whole) == 0, "setting a thread's stack");
    must(pthread_create(&thread, &attributes, run_thread, run) == 0 && pthread_join(thread, NULL) == 0, "running a thread");
    pthread_attr_destroy(&attributes);
}

/* The memory, what catches those who go below it, and what a thread takes before the call. Its stack always ends at a multiple of ALIGNED, which the thread
   library keeps, so that it always takes the same. */
static void prepare(void)
{
    struct sigaction action = {.sa_sigaction = on_barrier, .sa_flags = SA_SIGINFO | SA_ONSTACK};
    size_t whole = S57_STACK_APPLY + ABOVE;
    uint8_t *memory = mmap(NULL, BARRIER + whole, PROT_NONE, MAP_PRIVATE | MAP_ANONYMOUS, -1, 0);
    must(memory != MAP_FAILED && mprotect(memory + BARRIER, whole, PROT_READ | PROT_WRITE) == 0, "getting memory");
    must(sigaction(SIGSEGV, &action, NULL) == 0 && sigaction(SIGBUS, &action, NULL) == 0, "catching signals");
    bottom = memory + BARRIER;
    above_call = ABOVE;
    struct files no_files = {.cell = {0}};
    struct run run = {.call = NOTHING, .files = &no_files};
    perform(&run);
    above_call = ((size_t)(bottom + ABOVE - run.from) + ALIGNED - 1) / ALIGNED * ALIGNED;
}

/* ---- what is tried */

struct result {
    unsigned passed, failed;
    size_t deepest[CALLS];
};

static void count(struct result *result, bool good)
{
    result->passed += good;
    result->failed += !good;
}

static struct run try_files(struct result *result, enum call call, const struct files *files, const char *name)
{
    struct run run = {.call = call, .files = files, .stack = call_stacks[call]};
    perform(&run);
    bool good = !run.over && run.used <= run.stack;
    if (!good)
        printf("FAILED: %s takes more than the %zu bytes that the header says: %s\n", call_names[call], run.stack, name);
    count(result, good);
    if (run.used > result->deepest[call])
        result->deepest[call] = run.used;
    return run;
}

static void try_large(struct result *result, enum call call, struct files files, const char *name)
{
    struct run run = try_files(result, call, &files, name);
    printf("| %s | %s | %u | %zu |\n", call_names[call], name, (unsigned)run.code, run.used);
}

/* The large cells and pairs, by their places in the generators' tables. */
static void try_all_large(struct result *result)
{
    static const size_t cells[] = {0, 2}, pairs[] = {8, 10, 12};
    for (size_t i = 0; i < sizeof cells / sizeof cells[0]; i++) {
        struct judge_case made = heavy_cell_make(cells[i]);
        try_large(result, JUDGE, (struct files){.cell = made.cell}, made.kind);
        try_large(result, ADMIT, (struct files){.cell = made.cell}, made.kind);
        buffer_free(&made.cell);
    }
    for (size_t i = 0; i < sizeof pairs / sizeof pairs[0]; i++) {
        struct apply_case made = heavy_apply_make(pairs[i]);
        try_large(result, APPLY, (struct files){made.cell, made.update}, made.kind);
        apply_case_free(&made);
    }
}

/* Good and broken ones of every kind; record 0 says its formats with up to five levels of brackets, which is the deepest way that there is. */
static void try_generated(struct result *result, uint64_t seeds)
{
    for (uint64_t seed = 0; seed < seeds; seed++) {
        struct judge_case cell = judge_case_make(seed);
        struct apply_case pair = apply_case_make(seed);
        try_files(result, JUDGE, &(struct files){.cell = cell.cell}, cell.kind);
        try_files(result, ADMIT, &(struct files){.cell = cell.cell}, cell.kind);
        try_files(result, APPLY, &(struct files){pair.cell, pair.update}, pair.kind);
        buffer_free(&cell.cell);
        apply_case_free(&pair);
    }
    for (enum call call = JUDGE; call < CALLS; call++)
        printf("| %s | the deepest of %u generated ones too | | %zu |\n", call_names[call], (unsigned)seeds, result->deepest[call]);
}

/* A stack that is too short for what a small cell takes: the barrier is there, and the paint shows what was used. */
static void try_short(struct result *result)
{
    for (enum call call = JUDGE; call < CALLS; call++) {
        struct judge_case made = judge_case_make(0);
        struct files files = {.cell = made.cell, .update = made.cell};
        struct run whole = {.call = call, .files = &files, .stack = call_stacks[call]};
        perform(&whole);
        struct run shorter = {.call = call, .files = &files, .stack = (whole.used - LESS) / ALIGNED * ALIGNED};
        perform(&shorter);
        bool good = !whole.over && shorter.over;
        if (!good)
            printf("FAILED: %s takes %zu bytes of stack, and of %zu it isn't seen that they are too few\n", call_names[call], whole.used, shorter.stack);
        count(result, good);
        buffer_free(&made.cell);
    }
}

int main(int words, char **word)
{
    struct result result = {0};
    prepare();
    printf("The stack, in bytes. Before the call %zu are taken, most of them by the thread library; PTHREAD_STACK_MIN is %ld.\n\n", above_call,
           (long)PTHREAD_STACK_MIN);
    count(&result, above_call <= (size_t)PTHREAD_STACK_MIN);
    printf("| call | file | code | used |\n|---|---|---:|---:|\n");
    try_all_large(&result);
    try_generated(&result, words > 1 ? strtoull(word[1], NULL, 10) : DEFAULT_SEEDS);
    try_short(&result);
    for (enum call call = JUDGE; call < CALLS; call++)
        printf("%s: %zu of the %zu that the header says\n", call_names[call], result.deepest[call], call_stacks[call]);
    printf("%u passed, %u failed\n", result.passed, result.failed);
    return result.failed != 0;
}
