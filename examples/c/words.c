/* The lent words packed and unpacked: against docs/TABLES.md, at the limits of each field, and against the library, which
 * must read what was packed as it was meant and refuse what doesn't fit. C and C++ alike. */
#include <inttypes.h>
#include <stdio.h>
#include <string.h>

#include "reefnettle.h"

enum { FRAMES = 1024, RECORDS = 4, TABLES = 12 };

/* A running machine's tables, and the calls that lead to them. */
typedef struct {
    uint64_t frames[REEFNETTLE_FRAMES_WORDS(FRAMES)];
    uint64_t domains[REEFNETTLE_DOMAINS_WORDS(RECORDS)];
    uint64_t stock[REEFNETTLE_STOCK_WORDS(RECORDS, TABLES)];
    uint32_t entries[REEFNETTLE_ENTRIES_WORDS(RECORDS, TABLES)];
    reefnettle_gauge gauge;
} lent_tables;

static lent_tables packed, asked;
static int failures;

static void expect(bool holds, const char *what, uint64_t at)
{
    if (!holds) {
        printf("%s: not as expected at %" PRIu64 "\n", what, at);
        failures++;
    }
}

static reefnettle_model lend(lent_tables *tables)
{
    const reefnettle_hpa base = {REEFNETTLE_BASE_BYTES_LEAST};
    const reefnettle_model model = {base,
                                    tables->frames, REEFNETTLE_FRAMES_WORDS(FRAMES),
                                    tables->domains, REEFNETTLE_DOMAINS_WORDS(RECORDS),
                                    tables->stock, REEFNETTLE_STOCK_WORDS(RECORDS, TABLES),
                                    tables->entries, REEFNETTLE_ENTRIES_WORDS(RECORDS, TABLES),
                                    &tables->gauge};
    return model;
}

/* ---- The words of docs/TABLES.md ---- */

static uint64_t frame_word(uint64_t kind, uint64_t owner, uint64_t number, uint64_t epoch)
{
    const reefnettle_frame_fields fields = {kind, {owner}, number, epoch};
    return reefnettle_pack_frame(fields);
}

static void try_frame(uint64_t word, uint64_t kind, uint64_t owner, uint64_t number, uint64_t epoch)
{
    const reefnettle_frame_fields fields = reefnettle_unpack_frame(word);
    expect(frame_word(kind, owner, number, epoch) == word, "pack a frame", word);
    expect(fields.kind == kind && fields.owner.number == owner && fields.number == number && fields.epoch == epoch,
           "unpack a frame", word);
}

static void try_entry(uint32_t word, uint64_t state, uint64_t frame)
{
    const reefnettle_entry_fields meant = {state, {frame}}, fields = reefnettle_unpack_entry(word);
    expect(reefnettle_pack_entry(meant) == word, "pack an entry", word);
    expect(fields.state == state && fields.frame.number == frame, "unpack an entry", word);
}

static reefnettle_record_fields running(void)
{
    const reefnettle_record_fields fields = {{32},
                                             REEFNETTLE_LIFECYCLE_KEYS_CONFIGURED,
                                             REEFNETTLE_OP_STATE_INITIALIZED,
                                             4,
                                             9,
                                             1,
                                             {{1}, {2}, {3}, {4}}};
    return fields;
}

static bool same_record(reefnettle_record_fields a, reefnettle_record_fields b)
{
    bool same = a.key.number == b.key.number && a.lifecycle == b.lifecycle && a.op_state == b.op_state &&
                a.pages_listed == b.pages_listed && a.children == b.children && a.epoch == b.epoch;
    int page;
    for (page = 0; page < REEFNETTLE_CONTROL_PAGES; page++)
        same = same && a.control_pages[page].number == b.control_pages[page].number;
    return same;
}

static void try_records(void)
{
    const uint64_t words[REEFNETTLE_RECORD_WORDS] = {1074054304, 1, 2, 3, 4};
    const reefnettle_record_fields created = {{32}, 0, 0, 0, 0, 1, {{0}, {0}, {0}, {0}}};
    uint64_t written[REEFNETTLE_RECORD_WORDS];
    reefnettle_pack_record(running(), written);
    expect(memcmp(written, words, sizeof words) == 0, "pack a record", written[0]);
    expect(same_record(reefnettle_unpack_record(words), running()), "unpack a record", words[0]);
    expect(reefnettle_pack_scalars(created) == 1073741856, "pack a fresh record", reefnettle_pack_scalars(created));
}

static void try_words_of_the_page(void)
{
    try_frame(0, REEFNETTLE_TYPE_NDA, 0, 0, 0);
    try_frame(1, REEFNETTLE_TYPE_TDR, 0, 0, 0);
    try_frame(2, REEFNETTLE_TYPE_TDCX, 0, 0, 0);
    try_frame(131075, REEFNETTLE_TYPE_EPT, 0, 1, 0);
    try_frame(33816579, REEFNETTLE_TYPE_EPT, 0, 2, 1);
    try_frame(100925483, REEFNETTLE_TYPE_EPT, 5, 2, 3);
    try_frame(4, REEFNETTLE_TYPE_REG, 0, 0, 0);
    try_entry(0, REEFNETTLE_STATE_FREE, 0);
    try_entry(41, REEFNETTLE_STATE_NL_MAPPED, 5);
    try_entry(60, REEFNETTLE_STATE_NL_BLOCKED, 7);
    try_entry(66, REEFNETTLE_STATE_MAPPED, 8);
    try_records();
}

/* ---- Limits: a field is exact up to its bits, and above them the whole word is refused ---- */

static void try_frame_limits(void)
{
    static const unsigned low[] = {0, 3, 17, 25, 64};
    int field;
    for (field = 0; field < 4; field++) {
        const uint64_t most = UINT64_MAX >> (64 - (low[field + 1] - low[field]));
        reefnettle_frame_fields fields = {0, {0}, 0, 0};
        uint64_t *const numbers[] = {&fields.kind, &fields.owner.number, &fields.number, &fields.epoch};
        *numbers[field] = most;
        expect(reefnettle_pack_frame(fields) == most << low[field], "the most of a frame's field", low[field]);
        *numbers[field] = most + 1;
        expect(reefnettle_pack_frame(fields) == REEFNETTLE_WORD_REFUSED, "more than a frame's field", low[field]);
    }
}

static void try_record_limits(void)
{
    static const unsigned low[] = {0, 7, 10, 12, 15, 30, 64};
    int field;
    for (field = 0; field < 6; field++) {
        const uint64_t most = UINT64_MAX >> (64 - (low[field + 1] - low[field]));
        reefnettle_record_fields fields = {{0}, 0, 0, 0, 0, 0, {{0}, {0}, {0}, {0}}};
        uint64_t *const numbers[] = {&fields.key.number, &fields.lifecycle, &fields.op_state,
                                     &fields.pages_listed, &fields.children, &fields.epoch};
        *numbers[field] = most;
        expect(reefnettle_pack_scalars(fields) == most << low[field], "the most of a record's field", low[field]);
        *numbers[field] = most + 1;
        expect(reefnettle_pack_scalars(fields) == REEFNETTLE_WORD_REFUSED, "more than a record's field", low[field]);
    }
}

static void try_entry_limits(void)
{
    const reefnettle_entry_fields most = {7, {(1 << 29) - 1}}, state = {8, {0}}, frame = {0, {1 << 29}};
    expect(reefnettle_pack_entry(most) == UINT32_MAX, "the most of an entry's fields", 0);
    expect(reefnettle_pack_entry(state) == REEFNETTLE_ENTRY_REFUSED, "more than an entry's state", 0);
    expect(reefnettle_pack_entry(frame) == REEFNETTLE_ENTRY_REFUSED, "more than an entry's frame", 3);
}

/* Any word comes back as it was. */
static void try_round_trips(void)
{
    uint64_t word = 1, words[REEFNETTLE_RECORD_WORDS], back[REEFNETTLE_RECORD_WORDS];
    int trip, place;
    for (trip = 0; trip < 10000; trip++) {
        for (place = 0; place < REEFNETTLE_RECORD_WORDS; place++) {
            word = word * UINT64_C(6364136223846793005) + UINT64_C(1442695040888963407);
            words[place] = word ^ word >> 32;
        }
        reefnettle_pack_record(reefnettle_unpack_record(words), back);
        expect(memcmp(words, back, sizeof words) == 0, "a record back", words[0]);
        expect(reefnettle_pack_frame(reefnettle_unpack_frame(words[0])) == words[0], "a frame back", words[0]);
        expect(reefnettle_pack_entry(reefnettle_unpack_entry((uint32_t)words[0])) == (uint32_t)words[0], "an entry back",
               words[0]);
    }
}

/* ---- Places, and frames and addresses ---- */

static void try_places(void)
{
    const reefnettle_model model = lend(&packed);
    const reefnettle_entries_block root = reefnettle_root_block(&model, 0);
    const reefnettle_gpa gpa = {(UINT64_C(1) << 39) + (UINT64_C(2) << 30) + (UINT64_C(3) << 21) + (UINT64_C(4) << 12)};
    size_t level;
    expect(reefnettle_records(&model) == RECORDS && reefnettle_tables(&model) == TABLES, "sizes", 0);
    expect(root.number == 12, "the block of record 0", root.number);
    for (level = 0; level <= REEFNETTLE_LEVEL_MOST; level++) {
        const reefnettle_level at = {level};
        expect(reefnettle_entry_place(root, gpa, at) == 6144 + 4 - level, "an entry's place at a level", level);
    }
}

static void try_stock(void)
{
    const reefnettle_model model = lend(&packed);
    const reefnettle_entries_block root = reefnettle_root_block(&model, 0);
    reefnettle_set_in_use(&model, root, true);
    expect(packed.stock[0] == 4096 && reefnettle_in_use(&model, root), "a block taken", packed.stock[0]);
    expect(!reefnettle_in_use(&model, reefnettle_table_block(11)), "the block before it", packed.stock[0]);
    reefnettle_set_in_use(&model, reefnettle_table_block(2), true);
    reefnettle_set_in_use(&model, root, false);
    expect(packed.stock[0] == 4 && !reefnettle_in_use(&model, root), "a block given back", packed.stock[0]);
    packed.stock[0] = 0;
}

static void try_frame_of_hpa(void)
{
    static const uint64_t none[] = {0, 4096, 1073741823, 1073741825, 1073741824 + 4096 * 1024, UINT64_MAX};
    const reefnettle_model model = lend(&packed);
    const reefnettle_frame last = {FRAMES - 1}, outside = {FRAMES}, far_off = {UINT64_C(1) << 52};
    reefnettle_hpa hpa = reefnettle_hpa_of_frame(&model, last);
    reefnettle_frame frame = {7};
    size_t place;
    for (place = 0; place < sizeof none / sizeof none[0]; place++) {
        const reefnettle_hpa bytes = {none[place]};
        expect(!reefnettle_frame_of_hpa(&model, bytes, &frame) && frame.number == 7, "no frame's hpa", none[place]);
    }
    expect(hpa.bytes == 1073741824 + 4096 * 1023, "the hpa of the last frame", hpa.bytes);
    expect(reefnettle_frame_of_hpa(&model, hpa, &frame) && frame.number == 1023, "the last frame", frame.number);
    expect(reefnettle_frame_of_hpa(&model, model.base, &frame) && frame.number == 0, "frame 0", frame.number);
    hpa = reefnettle_hpa_of_frame(&model, outside);
    expect(hpa.bytes == 0 && reefnettle_hpa_of_frame(&model, far_off).bytes == 0, "no such frame", hpa.bytes);
}

/* ---- Against the library ---- */

static reefnettle_hpa hpa_of(const reefnettle_model *model, uint64_t number)
{
    const reefnettle_frame frame = {number};
    return reefnettle_hpa_of_frame(model, frame);
}

/* Lesson 3, lines 1 to 12 and 17: control pages in frames 1 to 4, tables in frames 5 to 7, pages in frames 8 and 9, and the
 * entry of frame 7 is blocked. */
static void ask_lesson(const reefnettle_model *model)
{
    const reefnettle_hpa domain = hpa_of(model, 0);
    const reefnettle_gpa first = {0}, second = {REEFNETTLE_FRAME_BYTES};
    const reefnettle_key key = {32};
    reefnettle_level level = {REEFNETTLE_LEVEL_MOST};
    uint64_t page, refused;
    refused = reefnettle_reset(model).number | reefnettle_create(model, domain, key).number |
              reefnettle_keyconfig(model, domain).number;
    for (page = 1; page <= REEFNETTLE_CONTROL_PAGES; page++)
        refused |= reefnettle_addcx(model, domain, hpa_of(model, page)).number;
    refused |= reefnettle_init(model, domain).number;
    for (; level.number > 0; level.number--)
        refused |= reefnettle_septadd(model, domain, first, level, hpa_of(model, 8 - level.number)).number;
    level.number = 1;
    refused |= reefnettle_pageadd(model, domain, first, hpa_of(model, 8)).number |
               reefnettle_pageadd(model, domain, second, hpa_of(model, 9)).number |
               reefnettle_block(model, domain, first, level).number;
    expect(refused == 0, "the lesson's calls", refused);
}

static void put_entry(const reefnettle_model *model, reefnettle_entries_block block, uint64_t gpa_bytes, size_t level,
                      uint64_t state, uint64_t frame)
{
    const reefnettle_entry_fields fields = {state, {frame}};
    const reefnettle_gpa gpa = {gpa_bytes};
    const reefnettle_level at = {level};
    model->entries[reefnettle_entry_place(block, gpa, at)] = reefnettle_pack_entry(fields);
}

/* The same tables, filled as a manager fills them from a running machine. */
static void pack_lesson(const reefnettle_model *model)
{
    const reefnettle_entries_block root = reefnettle_root_block(model, 0);
    size_t number;
    model->frames[0] = frame_word(REEFNETTLE_TYPE_TDR, 0, 0, 0);
    for (number = 1; number <= 4; number++)
        model->frames[number] = frame_word(REEFNETTLE_TYPE_TDCX, 0, 0, 0);
    for (number = 0; number < 3; number++) {
        model->frames[5 + number] = frame_word(REEFNETTLE_TYPE_EPT, 0, number, number == 2 ? 1 : 0);
        reefnettle_set_in_use(model, reefnettle_table_block(number), true);
    }
    model->frames[8] = model->frames[9] = frame_word(REEFNETTLE_TYPE_REG, 0, 0, 0);
    reefnettle_pack_record(running(), model->domains);
    reefnettle_set_in_use(model, root, true);
    put_entry(model, root, 0, 3, REEFNETTLE_STATE_NL_MAPPED, 5);
    put_entry(model, reefnettle_table_block(0), 0, 2, REEFNETTLE_STATE_NL_MAPPED, 6);
    put_entry(model, reefnettle_table_block(1), 0, 1, REEFNETTLE_STATE_NL_BLOCKED, 7);
    put_entry(model, reefnettle_table_block(2), 0, 0, REEFNETTLE_STATE_MAPPED, 8);
    put_entry(model, reefnettle_table_block(2), 4096, 0, REEFNETTLE_STATE_MAPPED, 9);
}

static void try_filled_tables(void)
{
    const reefnettle_model by_calls = lend(&asked), by_hand = lend(&packed);
    ask_lesson(&by_calls);
    reefnettle_reset(&by_hand);
    pack_lesson(&by_hand);
    expect(memcmp(asked.frames, packed.frames, sizeof asked.frames) == 0, "frames", packed.frames[7]);
    expect(memcmp(asked.domains, packed.domains, sizeof asked.domains) == 0, "domains", packed.domains[0]);
    expect(memcmp(asked.stock, packed.stock, sizeof asked.stock) == 0, "stock", packed.stock[0]);
    expect(memcmp(asked.entries, packed.entries, sizeof asked.entries) == 0, "entries", packed.entries[6144]);
    expect(reefnettle_readpage(&by_hand, by_hand.base).number == REEFNETTLE_ANSWER_ACCEPTED, "readpage", 0);
}

static void expect_out_of_range(const reefnettle_model *model, const char *what)
{
    const uint64_t number = reefnettle_readpage(model, model->base).number;
    expect(number == REEFNETTLE_ANSWER_OUT_OF_RANGE, what, number);
}

/* A word that its fields didn't fit into is out of range in every place that is in use. */
static void try_refused_words(void)
{
    const reefnettle_model model = lend(&packed);
    const uint64_t scalars = packed.domains[0];
    const uint32_t entry = packed.entries[1024];
    packed.frames[1023] = frame_word(REEFNETTLE_TYPE_REG, 0, 0, UINT64_C(1) << 39);
    expect_out_of_range(&model, "a refused frame");
    packed.frames[1023] = 0;
    packed.domains[0] = REEFNETTLE_WORD_REFUSED;
    expect_out_of_range(&model, "a refused record");
    packed.domains[0] = scalars;
    put_entry(&model, reefnettle_table_block(2), 0, 0, REEFNETTLE_STATE_MAPPED, 1 << 29);
    expect_out_of_range(&model, "a refused entry");
    packed.entries[1024] = entry;
    expect(reefnettle_readpage(&model, model.base).number == REEFNETTLE_ANSWER_ACCEPTED, "all put back", 0);
}

static uint64_t lifecycle_of_record_0(void)
{
    return reefnettle_unpack_record(packed.domains).lifecycle;
}

/* A lifecycle with a name is in range and another isn't; cachewb writes a blocked one back and leaves the others. */
static void try_lifecycles(void)
{
    const reefnettle_model model = lend(&packed);
    reefnettle_record_fields fields = running();
    for (fields.lifecycle = 0; fields.lifecycle <= REEFNETTLE_LIFECYCLE_WRITTEN_BACK; fields.lifecycle++) {
        const bool blocked = fields.lifecycle == REEFNETTLE_LIFECYCLE_BLOCKED;
        const uint64_t left = blocked ? (uint64_t)REEFNETTLE_LIFECYCLE_WRITTEN_BACK : fields.lifecycle;
        reefnettle_pack_record(fields, packed.domains);
        expect(reefnettle_cachewb(&model).number == REEFNETTLE_ANSWER_ACCEPTED, "cachewb", fields.lifecycle);
        expect(lifecycle_of_record_0() == left, "the lifecycle that cachewb leaves", fields.lifecycle);
    }
    for (; fields.lifecycle < 1 << 3; fields.lifecycle++) {
        reefnettle_pack_record(fields, packed.domains);
        expect_out_of_range(&model, "a lifecycle without a name");
    }
    reefnettle_pack_record(running(), packed.domains);
}

int main(void)
{
    expect(reefnettle_fits(), "the version of the archive", reefnettle_version());
    try_words_of_the_page();
    try_frame_limits();
    try_record_limits();
    try_entry_limits();
    try_round_trips();
    try_places();
    try_stock();
    try_frame_of_hpa();
    try_filled_tables();
    try_refused_words();
    try_lifecycles();
    if (failures == 0)
        puts("lent words: all as expected");
    return failures == 0 ? 0 : 1;
}
