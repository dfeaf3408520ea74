/* Wrong libraries: each wraps the right one and then makes a slip; -DSLIP=NAME says which. A comparison that didn't see
 * them would be worth nothing, so compare/run links a door with each and wants it refused.
 */
#include "reefnettle.h"

typedef struct {
    const reefnettle_model *lent;
    reefnettle_answer *answer;
} outcome;

#define A_SLIP __attribute__((unused)) static void

A_SLIP refusal_changes_a_frame(outcome o)
{
    if (o.answer->number != 0 && o.lent->frames_words > 0) o.lent->frames[o.lent->frames_words - 1] ^= 1;
}

A_SLIP accepted_changes_an_entry(outcome o)
{
    if (o.answer->number == 0) o.lent->entries[0] ^= UINT32_C(1) << 31;
}

A_SLIP accepted_changes_a_page(outcome o)
{
    if (o.answer->number == 0) o.lent->domains[o.lent->domains_words - 1] += 1;
}

A_SLIP accepted_changes_the_stock(outcome o)
{
    if (o.answer->number == 0) o.lent->stock[o.lent->stock_words - 1] ^= 1;
}

A_SLIP fill_of_minus_zero(outcome o)
{
    if (o.lent->gauge->fill == 0) o.lent->gauge->fill = -0.0;
}

A_SLIP lamp_of_byte_2(outcome o)
{
    *(unsigned char *)&o.lent->gauge->lamp = 2;
}

A_SLIP other_answer(outcome o)
{
    if (o.answer->number == REEFNETTLE_ANSWER_CONTRADICTION) o.answer->number = REEFNETTLE_ANSWER_OUT_OF_RANGE;
}

A_SLIP refusal_reads_out(outcome o)
{
    if (o.answer->number == REEFNETTLE_ANSWER_WALK_STOPPED) o.answer->hpa = o.lent->base;
}

A_SLIP read_behind_frames(outcome o)
{
    (void)*(volatile uint64_t *)(o.lent->frames + o.lent->frames_words);
}

A_SLIP read_before_domains(outcome o)
{
    (void)*(volatile uint64_t *)(o.lent->domains - 1);
}

/* What is written is what stands there: where no guard is, on the open side, nothing comes of it later. */
A_SLIP write_behind_stock(outcome o)
{
    __asm__ volatile("orq $0, %0" : "+m"(o.lent->stock[o.lent->stock_words]));
}

A_SLIP write_before_entries(outcome o)
{
    __asm__ volatile("orl $0, %0" : "+m"(*(o.lent->entries - 1)));
}

A_SLIP read_behind_the_gauge(outcome o)
{
    (void)*(volatile unsigned char *)(o.lent->gauge + 1);
}

A_SLIP never_ends(outcome o)
{
    while (o.answer->number == 0) __asm__ volatile("pause");
}

/* The linker gives these names to the right function and to the one that stands for it (--wrap). */
reefnettle_answer __real_reefnettle_ask(reefnettle_hpa base,
                                        uint64_t *frames, size_t frames_words,
                                        uint64_t *domains, size_t domains_words,
                                        uint64_t *stock, size_t stock_words,
                                        uint32_t *entries, size_t entries_words,
                                        reefnettle_gauge *gauge, reefnettle_request request);

reefnettle_answer __wrap_reefnettle_ask(reefnettle_hpa base,
                                        uint64_t *frames, size_t frames_words,
                                        uint64_t *domains, size_t domains_words,
                                        uint64_t *stock, size_t stock_words,
                                        uint32_t *entries, size_t entries_words,
                                        reefnettle_gauge *gauge, reefnettle_request request)
{
    const reefnettle_model lent = {
        .base = base,
        .frames = frames, .frames_words = frames_words,
        .domains = domains, .domains_words = domains_words,
        .stock = stock, .stock_words = stock_words,
        .entries = entries, .entries_words = entries_words,
        .gauge = gauge,
    };
    reefnettle_answer answer = __real_reefnettle_ask(base, frames, frames_words, domains, domains_words,
                                                     stock, stock_words, entries, entries_words, gauge, request);
    SLIP((outcome){&lent, &answer});
    return answer;
}
