/* Stands in for the library and prints what reaches it: each function of the header must send its own call number and
 * operands. C and C++ alike, so that the header is seen to be both. */
#include <inttypes.h>
#include <stdio.h>

#include "reefnettle.h"

static uint64_t frames[2], domains[3], stock[4];
static uint32_t entries[5];
static reefnettle_gauge gauge;

reefnettle_answer reefnettle_ask(reefnettle_hpa base,
                                 uint64_t *lent_frames, size_t frames_words,
                                 uint64_t *lent_domains, size_t domains_words,
                                 uint64_t *lent_stock, size_t stock_words,
                                 uint32_t *lent_entries, size_t entries_words,
                                 reefnettle_gauge *lent_gauge, reefnettle_request request)
{
    const bool as_lent = base.bytes == 1 && lent_frames == frames && frames_words == 2 &&
                         lent_domains == domains && domains_words == 3 && lent_stock == stock && stock_words == 4 &&
                         lent_entries == entries && entries_words == 5 && lent_gauge == &gauge;
    const reefnettle_answer answer = {request.call, 0, {0}, {0}, 0, {0}};
    printf("call %" PRIu64 " domain %" PRIu64 " gpa %" PRIu64 " level %d frame %" PRIu64 " key %" PRIu64
           " raise %.2f clear %.2f lent %s\n",
           request.call, request.domain.bytes, request.gpa.bytes, (int)request.level.number, request.frame.bytes,
           request.key.number, request.raise, request.clear, as_lent ? "right" : "wrong");
    return answer;
}

static uint64_t version;

uint64_t reefnettle_version(void)
{
    return version;
}

static void show_fit(uint64_t of_archive)
{
    version = of_archive;
    printf("archive of version %" PRIu64 " %s\n", version, reefnettle_fits() ? "fits" : "doesn't fit");
}

int main(void)
{
    const reefnettle_hpa base = {1}, domain = {6}, frame = {7};
    const reefnettle_gpa gpa = {8};
    const reefnettle_key key = {32};
    const reefnettle_level level = {3};
    const reefnettle_model model = {base, frames, 2, domains, 3, stock, 4, entries, 5, &gauge};
    reefnettle_reset(&model);
    reefnettle_set_marks(&model, 0.75, 0.5);
    reefnettle_create(&model, frame, key);
    reefnettle_keyconfig(&model, domain);
    reefnettle_addcx(&model, domain, frame);
    reefnettle_init(&model, domain);
    reefnettle_septadd(&model, domain, gpa, level, frame);
    reefnettle_pageadd(&model, domain, gpa, frame);
    reefnettle_finalize(&model, domain);
    reefnettle_pageaug(&model, domain, gpa, frame);
    reefnettle_block(&model, domain, gpa, level);
    reefnettle_track(&model, domain);
    reefnettle_unblock(&model, domain, gpa, level);
    reefnettle_pageremove(&model, domain, gpa);
    reefnettle_septremove(&model, domain, gpa, level);
    reefnettle_flushdone(&model, domain);
    reefnettle_keyfree(&model, domain);
    reefnettle_reclaim(&model, frame);
    reefnettle_readpage(&model, frame);
    reefnettle_readentry(&model, domain, gpa, level);
    reefnettle_cachewb(&model);
    show_fit(REEFNETTLE_VERSION);
    show_fit(REEFNETTLE_VERSION + 1);
    return 0;
}
