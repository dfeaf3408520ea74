/* Stands in for the library and prints what reaches it in a run: the helpers of a run must send the model's arrays, what
 * the run knows, and the request. C and C++ alike, as requests.c. */
#include <inttypes.h>
#include <stdio.h>

#include "reefnettle.h"

static uint64_t frames[2], domains[3], stock[4];
static uint32_t entries[5];
static reefnettle_gauge gauge;

static bool is_lent(reefnettle_hpa base, const uint64_t *lent_frames, size_t frames_words,
                    const uint64_t *lent_domains, size_t domains_words, const uint64_t *lent_stock, size_t stock_words,
                    const uint32_t *lent_entries, size_t entries_words)
{
    return base.bytes == 1 && lent_frames == frames && frames_words == 2 &&
           lent_domains == domains && domains_words == 3 && lent_stock == stock && stock_words == 4 &&
           lent_entries == entries && entries_words == 5;
}

static void show(reefnettle_request request, bool as_lent)
{
    printf("call %" PRIu64 " domain %" PRIu64 " gpa %" PRIu64 " level %d frame %" PRIu64 " key %" PRIu64
           " raise %.2f clear %.2f lent %s\n",
           request.call, request.domain.bytes, request.gpa.bytes, (int)request.level.number, request.frame.bytes,
           request.key.number, request.raise, request.clear, as_lent ? "right" : "wrong");
}

/* What it gives is seen to come back with the run's next request: used 1 after the beginning, one more with each. */
reefnettle_run reefnettle_begin(reefnettle_hpa base,
                                const uint64_t *lent_frames, size_t frames_words,
                                const uint64_t *lent_domains, size_t domains_words,
                                const uint64_t *lent_stock, size_t stock_words,
                                const uint32_t *lent_entries, size_t entries_words,
                                reefnettle_gauge lent_gauge)
{
    const bool as_lent = is_lent(base, lent_frames, frames_words, lent_domains, domains_words, lent_stock, stock_words,
                                 lent_entries, entries_words);
    const reefnettle_run run = {lent_gauge, 1, true, true};
    printf("begin raise %.2f lent %s\n", lent_gauge.raise, as_lent ? "right" : "wrong");
    return run;
}

reefnettle_next_answer reefnettle_next(reefnettle_hpa base,
                                       uint64_t *lent_frames, size_t frames_words,
                                       uint64_t *lent_domains, size_t domains_words,
                                       uint64_t *lent_stock, size_t stock_words,
                                       uint32_t *lent_entries, size_t entries_words,
                                       reefnettle_run known, reefnettle_request request)
{
    const bool as_lent = is_lent(base, lent_frames, frames_words, lent_domains, domains_words, lent_stock, stock_words,
                                 lent_entries, entries_words);
    reefnettle_next_answer next = {{request.call, 0, {0}, {0}, 0, {0}}, known};
    printf("next used %" PRIu64 " ", known.used);
    show(request, as_lent);
    next.run.used = known.used + 1;
    next.run.gauge.raise = request.raise;
    return next;
}

/* A run's helpers send the model's arrays, what is known, and the request; the model has the run's gauge at the end. */
static void show_run(const reefnettle_model *model)
{
    reefnettle_request request = reefnettle_request_of(REEFNETTLE_CALL_SET_MARKS);
    reefnettle_run run;
    int turn;
    gauge.raise = 0.25;
    run = reefnettle_run_begin(model);
    for (turn = 0; turn < 2; turn++) {
        request.raise = 0.5 * (turn + 1);
        printf("answer %d\n", (int)reefnettle_run_ask(model, &run, request).number);
    }
    printf("raise %.2f before the end", gauge.raise);
    reefnettle_run_end(model, &run);
    printf(", raise %.2f after it\n", gauge.raise);
}

int main(void)
{
    const reefnettle_hpa base = {1};
    const reefnettle_model model = {base, frames, 2, domains, 3, stock, 4, entries, 5, &gauge};
    show_run(&model);
    return 0;
}
