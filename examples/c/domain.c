/* Builds a domain on the model, adds two pages, reads one back, and shows what a refusal looks like. */
#include <inttypes.h>
#include <stdio.h>

#include "reefnettle.h"

enum { FRAMES = 1024, RECORDS = 4, TABLES = 12 };

static uint64_t frames[REEFNETTLE_FRAMES_WORDS(FRAMES)];
static uint64_t domains[REEFNETTLE_DOMAINS_WORDS(RECORDS)];
static uint64_t stock[REEFNETTLE_STOCK_WORDS(RECORDS, TABLES)];
static uint32_t entries[REEFNETTLE_ENTRIES_WORDS(RECORDS, TABLES)];
static reefnettle_gauge gauge;

static const reefnettle_model model = {
    .base = {REEFNETTLE_BASE_BYTES_LEAST},
    .frames = frames,
    .frames_words = REEFNETTLE_FRAMES_WORDS(FRAMES),
    .domains = domains,
    .domains_words = REEFNETTLE_DOMAINS_WORDS(RECORDS),
    .stock = stock,
    .stock_words = REEFNETTLE_STOCK_WORDS(RECORDS, TABLES),
    .entries = entries,
    .entries_words = REEFNETTLE_ENTRIES_WORDS(RECORDS, TABLES),
    .gauge = &gauge,
};

static bool show(const char *what, reefnettle_answer answer)
{
    printf("%s: answer %" PRIu64 ", %s\n", what, answer.number, reefnettle_answer_text(answer.number));
    return answer.number == REEFNETTLE_ANSWER_ACCEPTED;
}

static reefnettle_hpa hpa_of(uint64_t frame)
{
    return reefnettle_hpa_of_frame(&model, (reefnettle_frame){frame});
}

/* Frame 0 becomes the TDR, frames 1 to 4 its control pages. */
static bool build(reefnettle_hpa domain)
{
    bool built = show("create", reefnettle_create(&model, domain, (reefnettle_key){REEFNETTLE_KEY_LEAST})) &&
                 show("keyconfig", reefnettle_keyconfig(&model, domain));
    for (uint64_t page = 1; built && page <= REEFNETTLE_CONTROL_PAGES; page++)
        built = show("addcx", reefnettle_addcx(&model, domain, hpa_of(page)));
    return built && show("init", reefnettle_init(&model, domain));
}

/* Tables from the top down in frames 5 to 7, then pages in frames 8 and 9. */
static bool add_pages(reefnettle_hpa domain)
{
    const reefnettle_gpa first = {0}, second = {REEFNETTLE_FRAME_BYTES};
    bool added = true;
    for (reefnettle_level level = {REEFNETTLE_LEVEL_MOST}; added && level.number > 0; level.number--)
        added = show("septadd", reefnettle_septadd(&model, domain, first, level, hpa_of(8 - level.number)));
    return added &&
           show("pageadd", reefnettle_pageadd(&model, domain, first, hpa_of(8))) &&
           show("pageadd", reefnettle_pageadd(&model, domain, second, hpa_of(9)));
}

static bool read_back(reefnettle_hpa domain)
{
    const reefnettle_gpa second = {REEFNETTLE_FRAME_BYTES};
    reefnettle_answer entry = reefnettle_readentry(&model, domain, second, (reefnettle_level){0});
    if (!show("readentry", entry))
        return false;
    printf("  level %zu state %" PRIu64 " hpa %" PRIu64 "\n", entry.level.number, entry.state, entry.hpa.bytes);
    reefnettle_answer page = reefnettle_readpage(&model, entry.hpa);
    if (!show("readpage", page))
        return false;
    printf("  type %" PRIu64 " owner %" PRIu64 "\n", page.kind, page.owner.bytes);
    return true;
}

/* Gpa 0 is taken, so the entry's level and state are read out, and nothing is changed. */
static bool show_refusal(reefnettle_hpa domain)
{
    const reefnettle_gpa taken = {0};
    reefnettle_answer refused = reefnettle_pageadd(&model, domain, taken, hpa_of(10));
    show("pageadd", refused);
    printf("  level %zu state %" PRIu64 "\n", refused.level.number, refused.state);
    return refused.number == REEFNETTLE_ANSWER_WRONG_STATE;
}

int main(void)
{
    const reefnettle_hpa domain = hpa_of(0);
    if (!reefnettle_fits()) {
        fprintf(stderr, "header of version %d, archive of version %" PRIu64 "\n", REEFNETTLE_VERSION, reefnettle_version());
        return 1;
    }
    printf("lent: bytes %zu\n", REEFNETTLE_LENT_BYTES(FRAMES, RECORDS, TABLES));
    bool as_planned = show("reset", reefnettle_reset(&model)) &&
                      show("set_marks", reefnettle_set_marks(&model, 0.75, 0.5)) &&
                      build(domain) && add_pages(domain) && read_back(domain) && show_refusal(domain);
    printf("used: frames %.0f, lamp %d\n", gauge.fill * FRAMES, gauge.lamp);
    return as_planned ? 0 : 1;
}
