/* Rehearses a list of calls on a copy of the tables and the gauge, and goes on to metal only if all are accepted. On a
 * refusal nothing is done: metal isn't asked, and the real tables stay as they were. */
#include <inttypes.h>
#include <stdio.h>
#include <string.h>

#include "reefnettle.h"

enum { FRAMES = 1024, RECORDS = 4, TABLES = 12 };

/* All that is lent in one struct, so that a copy is an assignment. */
typedef struct {
    uint64_t frames[REEFNETTLE_FRAMES_WORDS(FRAMES)];
    uint64_t domains[REEFNETTLE_DOMAINS_WORDS(RECORDS)];
    uint64_t stock[REEFNETTLE_STOCK_WORDS(RECORDS, TABLES)];
    uint32_t entries[REEFNETTLE_ENTRIES_WORDS(RECORDS, TABLES)];
    reefnettle_gauge gauge;
} lent_tables;

typedef struct {
    const char *name;
    reefnettle_request request;
} planned_call;

#define HPA(frame) {REEFNETTLE_BASE_BYTES_LEAST + REEFNETTLE_FRAME_BYTES * UINT64_C(frame)}
#define CREATE(tdr, key_number) {"create", {.call = REEFNETTLE_CALL_CREATE, .frame = HPA(tdr), .key = {key_number}}}
#define KEYCONFIG(tdr) {"keyconfig", {.call = REEFNETTLE_CALL_KEYCONFIG, .domain = HPA(tdr)}}
#define ADDCX(tdr, page) {"addcx", {.call = REEFNETTLE_CALL_ADDCX, .domain = HPA(tdr), .frame = HPA(page)}}

static const planned_call first_list[] = {CREATE(0, 32), KEYCONFIG(0), ADDCX(0, 1)};

/* With a slip in call 3: frame 1 is a control page already. */
static const planned_call second_list[] = {CREATE(2, 33), KEYCONFIG(2), ADDCX(2, 1), ADDCX(2, 3)};

#define CALLS_OF(list) (sizeof(list) / sizeof(list)[0])

static lent_tables real, copy, before;

static reefnettle_model lend(lent_tables *tables)
{
    return (reefnettle_model){
        .base = {REEFNETTLE_BASE_BYTES_LEAST},
        .frames = tables->frames,
        .frames_words = REEFNETTLE_FRAMES_WORDS(FRAMES),
        .domains = tables->domains,
        .domains_words = REEFNETTLE_DOMAINS_WORDS(RECORDS),
        .stock = tables->stock,
        .stock_words = REEFNETTLE_STOCK_WORDS(RECORDS, TABLES),
        .entries = tables->entries,
        .entries_words = REEFNETTLE_ENTRIES_WORDS(RECORDS, TABLES),
        .gauge = &tables->gauge,
    };
}

static bool same(const lent_tables *a, const lent_tables *b)
{
    return memcmp(a->frames, b->frames, sizeof a->frames) == 0 && memcmp(a->domains, b->domains, sizeof a->domains) == 0 &&
           memcmp(a->stock, b->stock, sizeof a->stock) == 0 && memcmp(a->entries, b->entries, sizeof a->entries) == 0 &&
           memcmp(&a->gauge, &b->gauge, offsetof(reefnettle_gauge, lamp)) == 0 && a->gauge.lamp == b->gauge.lamp;
}

/* In one run, so that a long list costs one check of the tables: nobody else touches the copy. After a refusal neither
 * the copy nor its gauge is looked at again, and the run needs no end. */
static bool rehearse(const planned_call *calls, size_t number_of_calls)
{
    copy = real;
    const reefnettle_model model = lend(&copy);
    reefnettle_run run = reefnettle_run_begin(&model);
    for (size_t call = 0; call < number_of_calls; call++) {
        const reefnettle_answer answer = reefnettle_run_ask(&model, &run, calls[call].request);
        if (answer.number != REEFNETTLE_ANSWER_ACCEPTED) {
            printf("rehearsal: call %zu, %s: answer %" PRIu64 ", %s\n", call + 1, calls[call].name, answer.number,
                   reefnettle_answer_text(answer.number));
            return false;
        }
    }
    reefnettle_run_end(&model, &run);
    printf("rehearsal: calls %zu, all accepted\n", number_of_calls);
    return true;
}

/* Stands in for the SEAMCALL. */
static void ask_metal(const planned_call *call)
{
    printf("metal: %s\n", call->name);
}

/* The real tables follow the metal, call by call. */
static bool carry_out(const planned_call *calls, size_t number_of_calls)
{
    const reefnettle_model model = lend(&real);
    for (size_t call = 0; call < number_of_calls; call++) {
        ask_metal(&calls[call]);
        if (reefnettle_ask_model(&model, calls[call].request).number != REEFNETTLE_ANSWER_ACCEPTED)
            return false;
    }
    return true;
}

static bool work_through(const planned_call *calls, size_t number_of_calls)
{
    before = real;
    const bool done = rehearse(calls, number_of_calls) && carry_out(calls, number_of_calls);
    printf("the real tables: %s, frames %.0f used\n", same(&real, &before) ? "as before" : "changed", real.gauge.fill * FRAMES);
    return done;
}

int main(void)
{
    const reefnettle_model model = lend(&real);
    if (!reefnettle_fits() || reefnettle_reset(&model).number != REEFNETTLE_ANSWER_ACCEPTED)
        return 1;
    const bool first_done = work_through(first_list, CALLS_OF(first_list));
    const bool second_done = work_through(second_list, CALLS_OF(second_list));
    return first_done && !second_done ? 0 : 1;
}
