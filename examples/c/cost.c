/* What a call costs, by itself and in a run: its time on tables of four sizes, with no block in use and with all, and the
 * most stack that any call takes. cost CALLS says over how many calls each time is taken. It fails if a call takes more
 * stack than the header says. cost CALLS FRAMES RECORDS TABLES none (or all) makes so many calls on tables of one size
 * and prints nothing; with "run" as the last word they are a run. bench/cost counts their instructions so. */
#include <stdio.h>
#include <stdlib.h>
#include <string.h>
#include <time.h>

#include "reefnettle.h"

#ifdef WITHOUT_RUNS /* bench/cost may bring an earlier header, whose only runs are single calls */
typedef char reefnettle_run;
#define reefnettle_run_begin(model) 0
#define reefnettle_run_ask(model, run, request) reefnettle_ask_model(model, request)
#define reefnettle_run_end(model, run) (void)run
#endif

enum { STACK_BYTES = 1 << 16, STACK_BYTES_PROMISED = 4096, PAINT = 0xa5 };

static uint64_t frames[REEFNETTLE_FRAMES_WORDS(REEFNETTLE_FRAMES_MOST)];
static uint64_t domains[REEFNETTLE_DOMAINS_WORDS(REEFNETTLE_RECORDS_MOST)];
static uint64_t stock[REEFNETTLE_STOCK_WORDS(REEFNETTLE_RECORDS_MOST, REEFNETTLE_TABLES_MOST)];
static uint32_t entries[REEFNETTLE_ENTRIES_WORDS(REEFNETTLE_RECORDS_MOST, REEFNETTLE_TABLES_MOST)];
static reefnettle_gauge gauge;

static reefnettle_model lend(size_t window_frames, size_t records, size_t tables)
{
    return (reefnettle_model){
        .base = {REEFNETTLE_BASE_BYTES_LEAST},
        .frames = frames,
        .frames_words = REEFNETTLE_FRAMES_WORDS(window_frames),
        .domains = domains,
        .domains_words = REEFNETTLE_DOMAINS_WORDS(records),
        .stock = stock,
        .stock_words = REEFNETTLE_STOCK_WORDS(records, tables),
        .entries = entries,
        .entries_words = REEFNETTLE_ENTRIES_WORDS(records, tables),
        .gauge = &gauge,
    };
}

/* Every table in use and empty, every record in use. */
static void use_all(const reefnettle_model *model)
{
    const reefnettle_record_fields fresh = {.key = {REEFNETTLE_KEY_LEAST}, .epoch = 1};
    for (size_t table = 0; table < reefnettle_tables(model); table++)
        reefnettle_set_in_use(model, reefnettle_table_block(table), true);
    for (size_t record = 0; record < reefnettle_records(model); record++) {
        reefnettle_set_in_use(model, reefnettle_root_block(model, record), true);
        reefnettle_pack_record(fresh, &domains[REEFNETTLE_RECORD_WORDS * record]);
    }
}

static void must(reefnettle_answer answer)
{
    if (answer.number != REEFNETTLE_ANSWER_ACCEPTED) {
        fprintf(stderr, "cost: answer %llu\n", (unsigned long long)answer.number);
        exit(1);
    }
}

/* The call is readpage, which writes no table. */
static void make_calls(const reefnettle_model *model, long calls)
{
    for (long call = 0; call < calls; call++)
        must(reefnettle_readpage(model, model->base));
}

static void make_run(const reefnettle_model *model, long calls)
{
    reefnettle_request readpage = reefnettle_request_of(REEFNETTLE_CALL_READPAGE);
    reefnettle_run run = reefnettle_run_begin(model);
    readpage.frame = model->base;
    for (long call = 0; call < calls; call++)
        must(reefnettle_run_ask(model, &run, readpage));
    reefnettle_run_end(model, &run);
}

typedef void maker(const reefnettle_model *model, long calls);

/* Microseconds of one call. A run's beginning is shared out among its calls. */
static double time_call(maker *make, const reefnettle_model *model, long calls)
{
    const clock_t begin = clock();
    make(model, calls);
    return 1e6 * (double)(clock() - begin) / CLOCKS_PER_SEC / (double)calls;
}

static void time_sizes(size_t window_frames, size_t records, size_t tables, long calls)
{
    const reefnettle_model model = lend(window_frames, records, tables);
    must(reefnettle_reset(&model));
    printf("frames %zu, records %zu, tables %zu: ", window_frames, records, tables);
    printf("microseconds %.2f with no block in use, ", time_call(make_calls, &model, calls));
    printf("in a run %.2f; ", time_call(make_run, &model, calls));
    use_all(&model);
    printf("microseconds %.2f with all, ", time_call(make_calls, &model, calls));
    printf("in a run %.2f\n", time_call(make_run, &model, calls));
}

#define HPA(frame) {REEFNETTLE_BASE_BYTES_LEAST + REEFNETTLE_FRAME_BYTES * UINT64_C(frame)}
#define TDR .domain = HPA(0)

/* A domain's life, with every call in it and all accepted. Its control pages are frames 1 to 4, its tables frames 5 to 7,
 * its pages frames 8 and 9. */
static const reefnettle_request life[] = {
    {.call = REEFNETTLE_CALL_RESET},
    {.call = REEFNETTLE_CALL_SET_MARKS, .raise = 0.75, .clear = 0.5},
    {.call = REEFNETTLE_CALL_CREATE, .frame = HPA(0), .key = {REEFNETTLE_KEY_LEAST}},
    {.call = REEFNETTLE_CALL_KEYCONFIG, TDR},
    {.call = REEFNETTLE_CALL_ADDCX, TDR, .frame = HPA(1)},
    {.call = REEFNETTLE_CALL_ADDCX, TDR, .frame = HPA(2)},
    {.call = REEFNETTLE_CALL_ADDCX, TDR, .frame = HPA(3)},
    {.call = REEFNETTLE_CALL_ADDCX, TDR, .frame = HPA(4)},
    {.call = REEFNETTLE_CALL_INIT, TDR},
    {.call = REEFNETTLE_CALL_SEPTADD, TDR, .level = {3}, .frame = HPA(5)},
    {.call = REEFNETTLE_CALL_SEPTADD, TDR, .level = {2}, .frame = HPA(6)},
    {.call = REEFNETTLE_CALL_SEPTADD, TDR, .level = {1}, .frame = HPA(7)},
    {.call = REEFNETTLE_CALL_PAGEADD, TDR, .frame = HPA(8)},
    {.call = REEFNETTLE_CALL_FINALIZE, TDR},
    {.call = REEFNETTLE_CALL_PAGEAUG, TDR, .gpa = {REEFNETTLE_FRAME_BYTES}, .frame = HPA(9)},
    {.call = REEFNETTLE_CALL_READPAGE, .frame = HPA(9)},
    {.call = REEFNETTLE_CALL_READENTRY, TDR},
    {.call = REEFNETTLE_CALL_BLOCK, TDR},
    {.call = REEFNETTLE_CALL_TRACK, TDR},
    {.call = REEFNETTLE_CALL_UNBLOCK, TDR},
    {.call = REEFNETTLE_CALL_BLOCK, TDR},
    {.call = REEFNETTLE_CALL_BLOCK, TDR, .gpa = {REEFNETTLE_FRAME_BYTES}},
    {.call = REEFNETTLE_CALL_TRACK, TDR},
    {.call = REEFNETTLE_CALL_PAGEREMOVE, TDR},
    {.call = REEFNETTLE_CALL_PAGEREMOVE, TDR, .gpa = {REEFNETTLE_FRAME_BYTES}},
    {.call = REEFNETTLE_CALL_BLOCK, TDR, .level = {1}},
    {.call = REEFNETTLE_CALL_TRACK, TDR},
    {.call = REEFNETTLE_CALL_SEPTREMOVE, TDR, .level = {1}},
    {.call = REEFNETTLE_CALL_FLUSHDONE, TDR},
#if REEFNETTLE_VERSION >= 3 /* bench/cost may bring an earlier header, which lacks the call and needs none */
    {.call = REEFNETTLE_CALL_CACHEWB},
#endif
    {.call = REEFNETTLE_CALL_KEYFREE, TDR},
    {.call = REEFNETTLE_CALL_RECLAIM, .frame = HPA(6)},
};

static _Alignas(16) unsigned char stack[STACK_BYTES];
static reefnettle_model asked;
static reefnettle_request request;
static reefnettle_answer answer;

typedef void deed(void);

static void ask(void)
{
    answer = reefnettle_ask_model(&asked, request);
}

static void do_on_own_stack(deed *what)
{
    __asm__ volatile("movq %%rsp, %%rbx\n\tmovq %0, %%rsp\n\tcall *%1\n\tmovq %%rbx, %%rsp"
                     :
                     : "r"(stack + sizeof stack), "r"(what)
                     : "rax", "rbx", "rcx", "rdx", "rsi", "rdi", "r8", "r9", "r10", "r11", "cc", "memory", "xmm0", "xmm1",
                       "xmm2", "xmm3", "xmm4", "xmm5", "xmm6", "xmm7", "xmm8", "xmm9", "xmm10", "xmm11", "xmm12", "xmm13",
                       "xmm14", "xmm15");
}

/* How far down a painted stack the paint is gone after a deed. The frame of the deed's own function counts too. */
static size_t stack_bytes_of(deed *what)
{
    size_t untouched = 0;
    memset(stack, PAINT, sizeof stack);
    do_on_own_stack(what);
    while (untouched < sizeof stack && stack[untouched] == PAINT)
        untouched++;
    return sizeof stack - untouched;
}

/* The most of the domain's life, each call asked by the deed. */
static size_t stack_bytes_of_life(deed *by)
{
    size_t most = 0;
    for (size_t step = 0; step < sizeof life / sizeof life[0]; step++) {
        size_t bytes;
        request = life[step];
        bytes = stack_bytes_of(by);
        must(answer);
        most = bytes > most ? bytes : most;
    }
    return most;
}

static reefnettle_run known;

static void begin(void)
{
    known = reefnettle_run_begin(&asked);
}

static void next(void)
{
    answer = reefnettle_run_ask(&asked, &known, request);
}

static size_t stack_bytes_of_run(void)
{
    const size_t beginning = stack_bytes_of(begin), calls = stack_bytes_of_life(next);
    return beginning > calls ? beginning : calls;
}

static void time_all_sizes(long calls)
{
    time_sizes(REEFNETTLE_FRAMES_LEAST, REEFNETTLE_RECORDS_LEAST, REEFNETTLE_TABLES_LEAST, calls);
    time_sizes(1024, 4, 12, calls);
    time_sizes(4096, 16, 64, calls);
    time_sizes(REEFNETTLE_FRAMES_MOST, REEFNETTLE_RECORDS_MOST, REEFNETTLE_TABLES_MOST, calls);
}

/* Whether each call keeps to the stack that the header promises. A life unmeasured comes first: it may bind the C
 * library's functions, which takes stack of its own. */
static bool tell_stack(void)
{
    size_t alone, in_run;
    asked = lend(REEFNETTLE_FRAMES_LEAST, REEFNETTLE_RECORDS_LEAST, REEFNETTLE_TABLES_LEAST);
    stack_bytes_of_life(ask);
    alone = stack_bytes_of_life(ask);
    in_run = stack_bytes_of_run();
    printf("stack of one call: bytes %zu at most, in a run bytes %zu at most\n", alone, in_run);
    return alone <= STACK_BYTES_PROMISED && in_run <= STACK_BYTES_PROMISED;
}

static size_t number(const char *digits)
{
    return (size_t)strtoul(digits, NULL, 10);
}

static void call_quietly(maker *make, long calls, char **sizes, bool all)
{
    const reefnettle_model model = lend(number(sizes[0]), number(sizes[1]), number(sizes[2]));
    must(reefnettle_reset(&model));
    if (all)
        use_all(&model);
    make(&model, calls);
}

int main(int words, char **word)
{
    const long calls = words > 1 ? atol(word[1]) : 0;
    if (calls > 0 && words == 2) {
        time_all_sizes(calls);
        return tell_stack() ? 0 : 1;
    }
    if (calls > 0 && (words == 6 || words == 7)) {
        call_quietly(words == 7 ? make_run : make_calls, calls, word + 2, strcmp(word[5], "all") == 0);
        return 0;
    }
    fprintf(stderr, "usage: cost CALLS [FRAMES RECORDS TABLES none|all [run]], at least calls 1\n");
    return 2;
}
