/* A stock that is nearly full, at the largest sizes: a domain holds all tables but one, and takes and gives back the last over and over.
 * A turn is four calls: septadd, block, track, septremove. stock TURNS prints the microseconds of one turn. */
#include <stdio.h>
#include <stdlib.h>
#include <time.h>

#include "reefnettle.h"

static uint64_t frames[REEFNETTLE_FRAMES_WORDS(REEFNETTLE_FRAMES_MOST)];
static uint64_t domains[REEFNETTLE_DOMAINS_WORDS(REEFNETTLE_RECORDS_MOST)];
static uint64_t stock[REEFNETTLE_STOCK_WORDS(REEFNETTLE_RECORDS_MOST, REEFNETTLE_TABLES_MOST)];
static uint32_t entries[REEFNETTLE_ENTRIES_WORDS(REEFNETTLE_RECORDS_MOST, REEFNETTLE_TABLES_MOST)];
static reefnettle_gauge gauge;

static const reefnettle_model model = {
    .base = {REEFNETTLE_BASE_BYTES_LEAST},
    .frames = frames,
    .frames_words = REEFNETTLE_FRAMES_WORDS(REEFNETTLE_FRAMES_MOST),
    .domains = domains,
    .domains_words = REEFNETTLE_DOMAINS_WORDS(REEFNETTLE_RECORDS_MOST),
    .stock = stock,
    .stock_words = REEFNETTLE_STOCK_WORDS(REEFNETTLE_RECORDS_MOST, REEFNETTLE_TABLES_MOST),
    .entries = entries,
    .entries_words = REEFNETTLE_ENTRIES_WORDS(REEFNETTLE_RECORDS_MOST, REEFNETTLE_TABLES_MOST),
    .gauge = &gauge,
};

static void must(reefnettle_answer answer)
{
    if (answer.number != REEFNETTLE_ANSWER_ACCEPTED) {
        fprintf(stderr, "stock: answer %llu\n", (unsigned long long)answer.number);
        exit(1);
    }
}

static reefnettle_hpa hpa(uint64_t number)
{
    return reefnettle_hpa_of_frame(&model, (reefnettle_frame){number});
}

/* The level-3 entries of a root, one after the other: each leads to one table. */
static reefnettle_gpa gpa(uint64_t table)
{
    return (reefnettle_gpa){table << 39};
}

static void build(uint64_t tables)
{
    const reefnettle_hpa tdr = hpa(0);
    must(reefnettle_reset(&model));
    must(reefnettle_create(&model, tdr, (reefnettle_key){REEFNETTLE_KEY_LEAST}));
    must(reefnettle_keyconfig(&model, tdr));
    for (uint64_t page = 1; page <= REEFNETTLE_CONTROL_PAGES; page++)
        must(reefnettle_addcx(&model, tdr, hpa(page)));
    must(reefnettle_init(&model, tdr));
    for (uint64_t table = 0; table < tables; table++)
        must(reefnettle_septadd(&model, tdr, gpa(table), (reefnettle_level){3}, hpa(16 + table)));
}

static void turn(uint64_t table)
{
    const reefnettle_hpa tdr = hpa(0);
    const reefnettle_level top = {3};
    must(reefnettle_septadd(&model, tdr, gpa(table), top, hpa(16 + table)));
    must(reefnettle_block(&model, tdr, gpa(table), top));
    must(reefnettle_track(&model, tdr));
    must(reefnettle_septremove(&model, tdr, gpa(table), top));
}

int main(int words, char **word)
{
    const long turns = words > 1 ? atol(word[1]) : 2000;
    const uint64_t last = REEFNETTLE_TABLES_MOST - 1;
    build(last);
    const clock_t begin = clock();
    for (long i = 0; i < turns; i++)
        turn(last);
    printf("%.3f\n", 1e6 * (double)(clock() - begin) / CLOCKS_PER_SEC / (double)turns);
    return 0;
}
