/*
 * The stack that the header promises. Each call runs in a thread that has just so much below its caller, and beneath that a guard; and the deepest
 * byte that it touches is found by painting the stack beforehand. Each thread runs in a process of its own, so that one which goes too deep is a
 * failed test. Prints what was measured; the last line is 'N passed, M failed'.
 */
#define _DEFAULT_SOURCE
#include "moqresam.h"

#include <limits.h>
#include <pthread.h>
#include <signal.h>
#include <stdio.h>
#include <stdlib.h>
#include <string.h>
#include <sys/mman.h>
#include <sys/resource.h>
#include <sys/wait.h>
#include <unistd.h>

#define PAINT 0xa5
#define PAGE 4096u
/* No frame is larger than the guard, so none can step over it. */
#define GUARD ((size_t)4 << 20)
#define ROOMY ((size_t)2 << 20)
/* The start of a thread rounds the top of its stack to a multiple of the first; a frame begins at a multiple of the second. */
#define ROUNDING 64u
#define FRAME_ROUNDING 16u
#define LOW_SIGNALS UINT32_C(0x0000ffff)
#define HIGH_SIGNALS UINT32_C(0xffff0000)
#define LAST_SIGNAL (MOQRESAM_SIGNALS - 1)
#define LAST_STATE (MOQRESAM_MAX_STATES - 1)

/* ---- the calls, on these tables and buffers; each gives the number of its reply, and 1 is a wrong count */

static uint8_t a_cells[MOQRESAM_MAX_STATES * MOQRESAM_STATE_BYTES], b_cells[MOQRESAM_MAX_STATES * MOQRESAM_STATE_BYTES];
static uint8_t flags[MOQRESAM_MAX_PAIRS];
static moqresam_table a, b;
static size_t flags_length;

typedef uint32_t call(void);

static uint32_t fit(void)
{
    return moqresam_fit_tables(&a, &b, flags, flags_length).number;
}

static uint32_t refine(void)
{
    return moqresam_refine_tables(&a, &b, flags, flags_length).number;
}

static uint32_t follow(void)
{
    return moqresam_follow_table(&a, LAST_STATE, LAST_SIGNAL).number;
}

static uint32_t follow_record(void)
{
    moqresam_follower follower = {LAST_STATE};

    return moqresam_follow_table_record(&a, &follower, LAST_SIGNAL).number;
}

static uint32_t count_kept(void)
{
    return moqresam_count_kept(flags, flags_length) == flags_length ? 0 : 1;
}

static uint32_t nothing(void)
{
    return 0;
}

/* ---- tables that need the most: every state has a step for every signal */

static moqresam_table dense(uint8_t *cells, size_t states, uint32_t inputs, uint32_t outputs)
{
    moqresam_table table = moqresam_blank_table(cells, states, inputs, outputs);
    size_t k;

    for (k = 0; k < states * MOQRESAM_SIGNALS; k++)
        moqresam_write_cell(cells, k / MOQRESAM_SIGNALS, k % MOQRESAM_SIGNALS, k * 7 % states);
    return table;
}

/*
 * Two dense tables for the call, of which the second lacks one step in its last state: for fit the first table sends there what the second does not
 * take, for refinement it sends what the second does not. So there is a pair to be dropped, and dropping goes along all steps.
 */
static void make_tables(call *what, size_t states_a, size_t states_b)
{
    a = dense(a_cells, states_a, LOW_SIGNALS, HIGH_SIGNALS);
    b = what == fit ? dense(b_cells, states_b, HIGH_SIGNALS, LOW_SIGNALS) : dense(b_cells, states_b, LOW_SIGNALS, HIGH_SIGNALS);
    moqresam_write_cell(b_cells, states_b - 1, LAST_SIGNAL, MOQRESAM_NO_STEP);
    flags_length = states_a * states_b;
}

/* Spoils the tables or the buffer such that the call on two tables is refused with this number. */
static void spoil(uint32_t number)
{
    switch (number) {
    case MOQRESAM_REFUSED_STATES: b.states = 0; break;
    case MOQRESAM_REFUSED_INITIAL: b.initial = b.states; break;
    case MOQRESAM_REFUSED_SHARED: b.inputs = b.outputs = LOW_SIGNALS; break;
    case MOQRESAM_REFUSED_CELL_COUNT: b.cells_length--; break;
    case MOQRESAM_REFUSED_CELL: moqresam_write_cell(b_cells, b.states - 1, LAST_SIGNAL, b.states); break;
    case MOQRESAM_REFUSED_UNDECLARED: b.inputs = b.outputs = 0; break;
    case MOQRESAM_REFUSED_OUTPUT_OF_BOTH: b.inputs = a.inputs, b.outputs = a.outputs; break;
    case MOQRESAM_REFUSED_PAIRS: make_tables(fit, MOQRESAM_MAX_STATES, MOQRESAM_MAX_STATES); break;
    default: flags_length--; break;
    }
}

/* ---- a call in a thread of its own, in a process of its own */

/* What the process leaves for its parent: whether it came to its end, the reply, the caller's frame, the bytes below that frame, and those used. */
struct outcome {
    bool done;
    uint32_t number;
    uint8_t *frame;
    size_t room;
    size_t used;
};

static struct outcome *outcome;

/* A call, and the bytes of its thread's stack that it is not to have. */
struct job {
    call *call;
    size_t spare;
};

/* The caller, whose frame a promise counts from; so it has a frame of its own. */
static __attribute__((noinline)) void make_call(const struct job *job)
{
    outcome->frame = __builtin_frame_address(0);
    outcome->number = job->call();
}

/* Uses up the spare stack and makes the call. A byte that is read after the call keeps all of them in use until then. */
static void *start(void *argument)
{
    const struct job *job = argument;
    volatile uint8_t spare[job->spare + 1];

    spare[0] = 0;
    make_call(job);
    (void)spare[0];
    return NULL;
}

/* Runs a job in a thread with a painted stack of this size. */
static void run_in_thread(struct job job, size_t size)
{
    size_t pages = (size + PAGE - 1) / PAGE * PAGE;
    uint8_t *guard = mmap(NULL, GUARD + pages, PROT_NONE, MAP_PRIVATE | MAP_ANONYMOUS, -1, 0);
    uint8_t *stack = guard + GUARD, *deepest = stack;
    pthread_attr_t attributes;
    pthread_t thread;

    if (guard == MAP_FAILED || mprotect(stack, pages, PROT_READ | PROT_WRITE) != 0)
        return;
    memset(stack, PAINT, pages);
    if (pthread_attr_init(&attributes) != 0 || pthread_attr_setstack(&attributes, stack, size) != 0)
        return;
    if (pthread_create(&thread, &attributes, start, &job) != 0 || pthread_join(thread, NULL) != 0)
        return;
    while (*deepest == PAINT)
        deepest++;
    outcome->room = (size_t)(outcome->frame - stack);
    outcome->used = (size_t)(outcome->frame - deepest);
    outcome->done = true;
}

/* Runs a job with so much stack; returns the signal that ended it, or 0. */
static int run(struct job job, size_t size)
{
    const struct rlimit no_core = {0, 0};
    int status;
    pid_t child;

    memset(outcome, 0, sizeof *outcome);
    fflush(stdout);
    child = fork();
    if (child == 0) {
        setrlimit(RLIMIT_CORE, &no_core);
        run_in_thread(job, size);
        _exit(0);
    }
    if (child < 0 || waitpid(child, &status, 0) != child)
        return -1;
    return WIFSIGNALED(status) ? WTERMSIG(status) : 0;
}

/* What a thread uses of its stack above the caller of a call: its start, and the caller's own. */
static size_t above;

/* Runs a call with more stack than it needs. As much is spare, so that what the thread's own start and end touch lies above the caller. */
static int run_roomy(call *what)
{
    struct job job = {what, ROOMY};

    return run(job, 2 * ROOMY);
}

/* Runs a call with so much stack below its caller. Where a thread may not have so little, the rest is spare. */
static int run_below(call *what, size_t room)
{
    size_t wanted = (room + above + ROUNDING - 1) / ROUNDING * ROUNDING;
    size_t size = wanted < PTHREAD_STACK_MIN ? PTHREAD_STACK_MIN : wanted;
    struct job job = {what, (size - above - room) / FRAME_ROUNDING * FRAME_ROUNDING};

    return run(job, size);
}

/* ---- the tests */

static int passed;
static int failed;

static void check(const char *what, const char *part, bool good)
{
    if (good) {
        passed++;
    } else {
        failed++;
        printf("failed: %s, %s\n", what, part);
    }
}

/* A promise of the header, and the most that a call under it has been seen to use. */
struct promise {
    const char *of;
    size_t bytes;
    size_t most;
};

static struct promise two_tables = {"two tables", MOQRESAM_STACK_OF_TWO_TABLES, 0};
static struct promise refusal = {"two tables, refused", MOQRESAM_STACK_OF_REFUSAL, 0};
static struct promise one_table = {"one table", MOQRESAM_STACK_OF_ONE_TABLE, 0};

/* With just what is promised a call works; with less than it uses, by one step of a frame, it runs into the guard. */
static void test_call(const char *what, call *made, uint32_t number, struct promise *promise)
{
    size_t used;

    check(what, "is answered", run_roomy(made) == 0 && outcome->done && outcome->number == number);
    used = outcome->used;
    check(what, "uses no more than is promised", used <= promise->bytes);
    if (used > promise->most)
        promise->most = used;
    check(what, "works with what is promised", run_below(made, promise->bytes) == 0 && outcome->done && outcome->number == number);
    check(what, "has no more than that", outcome->room >= promise->bytes && outcome->room < promise->bytes + FRAME_ROUNDING);
    check(what, "cannot work with less than it uses", run_below(made, used - FRAME_ROUNDING) == SIGSEGV && !outcome->done);
}

static void test_two_tables(const char *name, call *made)
{
    static const size_t sizes[][2] = {{1, 1}, {64, 64}, {65, 63}, {32, 128}, {1, 4096}, {4096, 1}};
    char what[80];
    size_t k;

    for (k = 0; k < sizeof sizes / sizeof sizes[0]; k++) {
        sprintf(what, "%s, %d by %d states", name, (int)sizes[k][0], (int)sizes[k][1]);
        make_tables(made, sizes[k][0], sizes[k][1]);
        test_call(what, made, MOQRESAM_ACCEPTED, &two_tables);
    }
}

static void test_refusals(const char *name, call *made, const uint32_t *numbers, size_t count)
{
    char what[80];
    size_t k;

    for (k = 0; k < count; k++) {
        sprintf(what, "%s, refused %d", name, (int)numbers[k]);
        make_tables(made, 1, MOQRESAM_MAX_STATES);
        spoil(numbers[k]);
        test_call(what, made, numbers[k], &refusal);
    }
}

static void test_one_table(const char *name, call *made)
{
    static const struct {
        size_t cell;
        uint32_t number;
    } cases[] = {{0, MOQRESAM_ACCEPTED}, {MOQRESAM_NO_STEP, MOQRESAM_ACCEPTED}, {MOQRESAM_MAX_STATES, MOQRESAM_REFUSED_CELL}};
    char what[80];
    size_t k;

    a = dense(a_cells, MOQRESAM_MAX_STATES, LOW_SIGNALS, HIGH_SIGNALS);
    for (k = 0; k < sizeof cases / sizeof cases[0]; k++) {
        moqresam_write_cell(a_cells, LAST_STATE, LAST_SIGNAL, cases[k].cell);
        sprintf(what, "%s, a cell of %d", name, (int)cases[k].cell);
        test_call(what, made, cases[k].number, &one_table);
    }
    a.outputs = 0;
    test_call(name, made, MOQRESAM_REFUSED_SIGNAL, &one_table);
    a.cells_length--;
    test_call(name, made, MOQRESAM_REFUSED_CELL_COUNT, &one_table);
}

static void test_count(void)
{
    memset(flags, 1, sizeof flags);
    for (flags_length = 0; flags_length <= sizeof flags; flags_length += 1365)
        test_call("count", count_kept, 0, &one_table);
}

/* A promise that is far too large tells a caller nothing. */
static void report(const struct promise *promise, size_t least)
{
    printf("stack of %s: %zu bytes used, %zu promised\n", promise->of, promise->most, promise->bytes);
    check(promise->of, "is not promised far more than it uses", promise->most >= least);
}

int main(void)
{
    static const uint32_t of_fit[] = {1, 2, 3, 4, 5, 6, 7, 9, 10}, of_refine[] = {1, 2, 3, 4, 5, 6, 9, 10};

    outcome = mmap(NULL, sizeof *outcome, PROT_READ | PROT_WRITE, MAP_SHARED | MAP_ANONYMOUS, -1, 0);
    if (outcome == MAP_FAILED)
        return 1;
    check("a thread", "starts", run_roomy(nothing) == 0 && outcome->done);
    above = ROOMY - outcome->room;

    test_two_tables("fit", fit);
    test_two_tables("refine", refine);
    test_refusals("fit", fit, of_fit, sizeof of_fit / sizeof of_fit[0]);
    test_refusals("refine", refine, of_refine, sizeof of_refine / sizeof of_refine[0]);
    test_one_table("follow", follow);
    test_one_table("follow, by record", follow_record);
    test_count();

    report(&two_tables, two_tables.bytes / 20 * 19);
    report(&refusal, refusal.bytes / 20 * 19);
    /* Frames of some words change with each version of a compiler: eight times what they use is little yet. */
    report(&one_table, one_table.bytes / 8);
    printf("%d passed, %d failed\n", passed, failed);
    return failed == 0 ? 0 : 1;
}
