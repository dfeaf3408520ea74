/* Reefnettle: a verified model of the ownership tables of an Intel TDX module.
 *
 * The library keeps no memory of its own. The caller lends it four arrays of words and a gauge, and asks one call at a
 * time, by itself or in a run of many. An accepted call changes what was lent, a refused one changes no byte of it. C99
 * or later, or C++11 or later.
 *
 * Two units are never mixed. An hpa is an address in bytes: the base, operands and answers have it. A frame is a number
 * in the window, from frame 0 on: the lent words have it. hpa = base + bytes 4096 times the frame's number.
 *
 * Each unit is a struct of its own, so that no number is taken for another: write (reefnettle_key){32} in C and
 * reefnettle_key{32} in C++.
 *
 * An example, whole: link it with libreefnettle.a.
 *
 *     #include <stdio.h>
 *     #include "reefnettle.h"
 *
 *     static uint64_t frames[REEFNETTLE_FRAMES_WORDS(1024)];
 *     static uint64_t domains[REEFNETTLE_DOMAINS_WORDS(4)];
 *     static uint64_t stock[REEFNETTLE_STOCK_WORDS(4, 12)];
 *     static uint32_t entries[REEFNETTLE_ENTRIES_WORDS(4, 12)];
 *     static reefnettle_gauge gauge;
 *
 *     int main(void)
 *     {
 *         reefnettle_model model = {
 *             .base = {REEFNETTLE_BASE_BYTES_LEAST},
 *             .frames = frames, .frames_words = REEFNETTLE_FRAMES_WORDS(1024),
 *             .domains = domains, .domains_words = REEFNETTLE_DOMAINS_WORDS(4),
 *             .stock = stock, .stock_words = REEFNETTLE_STOCK_WORDS(4, 12),
 *             .entries = entries, .entries_words = REEFNETTLE_ENTRIES_WORDS(4, 12),
 *             .gauge = &gauge,
 *         };
 *         reefnettle_hpa domain = reefnettle_hpa_of_frame(&model, (reefnettle_frame){0});
 *         if (!reefnettle_fits() || reefnettle_reset(&model).number != REEFNETTLE_ANSWER_ACCEPTED) return 1;
 *         printf("create: answer %d\n", (int)reefnettle_create(&model, domain, (reefnettle_key){32}).number);
 *         printf("again: answer %d\n", (int)reefnettle_create(&model, domain, (reefnettle_key){33}).number);
 *         return 0;
 *     }
 *
 * It prints "create: answer 0" and "again: answer 2".
 *
 * What the library is.
 *   - For x86-64 alone, by the System V ABI. On another processor it links into programs for x86-64 only.
 *   - It has no data of its own. Two threads may ask at once on two models, never on one.
 *   - It allocates nothing, makes no system call, and needs two functions of the C library: memset and memcpy.
 *   - A call takes at most bytes 4096 of stack, and so does a run's beginning.
 *   - Every call by itself, but reset, reads all words of `frames` and all entries of the blocks in use, for answer 13.
 *     Its time grows in a straight line with these, whatever the call. A run reads them once, at its beginning: within
 *     it a call's time does not grow with the frames, the records or the tables in use. Only create and cachewb go over
 *     the records, septadd over the words of `stock`, and reset writes every word. docs/COST.md has figures.
 *
 * What the caller owes. All else is judged: any contents and any lengths may be lent, and answer 13 refuses what is out
 * of range.
 *   - No pointer is null, not even one with words 0.
 *   - Each pointer is aligned for its type, and as many words as its length says may be read and written there.
 *   - The four arrays and the gauge do not overlap, and nobody else touches them during the call.
 *   - The gauge's lamp holds byte 0 or byte 1, as every bool that was assigned does. So do the bools of a run.
 *   - From a run's beginning to its end nobody else touches the tables: see reefnettle_begin.
 */
#ifndef REEFNETTLE_H
#define REEFNETTLE_H

#include <stdbool.h>
#include <stddef.h>
#include <stdint.h>

#ifdef __cplusplus
extern "C" {
#endif

/* What reefnettle_version answers in an archive that fits this header. The number goes up whenever a struct, a number
 * or the layout of a lent word changes so that a header and an archive no longer fit. A new call alone doesn't move it:
 * an archive that lacks the call answers REEFNETTLE_ANSWER_UNREADABLE. Nor does a new function: a program that asks it
 * doesn't link with an archive that lacks it. */
#define REEFNETTLE_VERSION 3

/* ---- Limits. Both ends belong to each range. ---- */

#define REEFNETTLE_FRAME_BYTES 4096
#define REEFNETTLE_FRAMES_LEAST 512 /* and a power of two */
#define REEFNETTLE_FRAMES_MOST 16384
#define REEFNETTLE_BASE_BYTES_STEP UINT64_C(0x40000000) /* the base is a multiple of it */
#define REEFNETTLE_BASE_BYTES_LEAST UINT64_C(0x40000000)
#define REEFNETTLE_BASE_BYTES_MOST UINT64_C(0x400000000000)
#define REEFNETTLE_RECORDS_LEAST 1
#define REEFNETTLE_RECORDS_MOST 64
#define REEFNETTLE_TABLES_LEAST 4
#define REEFNETTLE_TABLES_MOST 256
#define REEFNETTLE_TABLE_ENTRIES 512
#define REEFNETTLE_CONTROL_PAGES 4
#define REEFNETTLE_RECORD_WORDS 5
#define REEFNETTLE_KEY_LEAST 32
#define REEFNETTLE_KEY_MOST 95
#define REEFNETTLE_LEVEL_MOST 3
#define REEFNETTLE_GPA_BYTES_END UINT64_C(0x800000000000) /* a gpa lies below it */

/* ---- Lengths of the four arrays, for frames, domain records and Secure EPT tables of these numbers ---- */

#define REEFNETTLE_FRAMES_WORDS(frames) ((size_t)(frames))
#define REEFNETTLE_DOMAINS_WORDS(records) (REEFNETTLE_RECORD_WORDS * (size_t)(records))
#define REEFNETTLE_STOCK_WORDS(records, tables) (((size_t)(records) + (size_t)(tables) + 63) / 64)
#define REEFNETTLE_ENTRIES_WORDS(records, tables) \
    (REEFNETTLE_TABLE_ENTRIES * ((size_t)(records) + (size_t)(tables)))

/* Bytes of the four arrays together. */
#define REEFNETTLE_LENT_BYTES(frames, records, tables)                                                           \
    (sizeof(uint64_t) * (REEFNETTLE_FRAMES_WORDS(frames) + REEFNETTLE_DOMAINS_WORDS(records) +                   \
                         REEFNETTLE_STOCK_WORDS(records, tables)) +                                              \
     sizeof(uint32_t) * REEFNETTLE_ENTRIES_WORDS(records, tables))

/* ---- The lent words. Bits are counted from bit 0, the lowest. ----
 *
 * The sizes are read off the lengths: frames are the words of `frames`, records those of `domains` divided by 5, and
 * tables those of `entries` divided by 512, less the records. A stored frame is below the frames, a record below the
 * records, a table below the tables; else answer 13.
 *
 * frames: word n is frame n. Word 0 is a free frame.
 *
 *   bits 0 to 2     type: NDA 0, TDR 1, TDCX 2, EPT 3, REG 4
 *   bits 3 to 16    owner: frame of the owning TDR, for types 2 to 4; else 0
 *   bits 17 to 24   number: the record of a TDR, the table of an EPT; else 0
 *   bits 25 to 63   epoch 0 to 2^32 - 1 at which it was last blocked, for types 3 and 4; else 0
 *
 * domains: words 5r to 5r + 4 are record r. The first of them:
 *
 *   bits 0 to 6     key 32 to 95
 *   bits 7 to 9     lifecycle: HKID assigned 0, keys configured 1, blocked 2, teardown 3, blocked and written back 4
 *   bits 10 and 11  op state: uninitialized 0, initialized 1, runnable 2
 *   bits 12 to 14   how many control pages are listed, 0 to 4
 *   bits 15 to 29   children: how many frames the domain owns, its TDR left out; 0 to the frames of the window
 *   bits 30 to 63   epoch 1 to 2^32 - 1
 *
 * The other four are its control pages, each a frame; 0 where none is listed yet.
 *
 * entries: words 512b to 512b + 511 are the entries of block b. Block t is table t, for t below the tables; block
 * (tables + r) is the root of record r. Word 0 is a FREE entry.
 *
 *   bits 0 to 2     state: FREE 0, NL_MAPPED 1, MAPPED 2, PENDING 3, NL_BLOCKED 4, BLOCKED 5, PENDING_BLOCKED 6
 *   bits 3 to 31    frame; 0 for a FREE entry
 *
 * The entry of a gpa at level 0, 1, 2, 3 is the gpa divided by 2^12, 2^21, 2^30, 2^39, whole part, modulo 512.
 *
 * stock: bit b % 64 of word b / 64 is 1 where block b is in use. A record has the bit of its root. Bits that no block
 * has are 0. What an unused table or record holds is not looked at.
 */

/* ---- Types ---- */

/* A host physical address. A struct, so that no frame's number is taken for it. */
typedef struct {
    uint64_t bytes;
} reefnettle_hpa;

/* A guest physical address. */
typedef struct {
    uint64_t bytes;
} reefnettle_gpa;

/* A frame's number in the window. */
typedef struct {
    uint64_t number;
} reefnettle_frame;

/* A key (HKID). */
typedef struct {
    uint64_t number;
} reefnettle_key;

/* A level of the Secure EPT: 0 for pages, 3 for the entries of a root. */
typedef struct {
    size_t number;
} reefnettle_level;

/* A block of entries 512: a table's or a root's. */
typedef struct {
    size_t number;
} reefnettle_entries_block;

/* Fill is the part of the frames that isn't NDA. A mark is bit for bit k divided by the frames, k from 0 to the frames;
 * the clear mark is at most the raise mark, and the raise mark is above zero. */
typedef struct {
    double raise; /* at or above this fill the lamp is lit */
    double clear; /* below this fill it is put out */
    double fill;  /* after the last accepted call; not looked at before */
    bool lamp;
} reefnettle_gauge;

/* A call and its operands. Operands that the call does not have are not read. */
typedef struct {
    uint64_t call;         /* a REEFNETTLE_CALL_ number */
    reefnettle_hpa domain; /* of the domain's TDR */
    reefnettle_gpa gpa;
    reefnettle_level level;
    reefnettle_hpa frame;
    reefnettle_key key;
    double raise;
    double clear;
} reefnettle_request;

/* What is read out beside the number: type and owner by an accepted readpage; level, state and hpa by an accepted
 * readentry; level and state by answers 6 and 7. All else is 0. */
typedef struct {
    uint64_t number;      /* a REEFNETTLE_ANSWER_ number */
    uint64_t kind;        /* a REEFNETTLE_TYPE_ number */
    reefnettle_hpa owner; /* bytes 0 if the frame has none */
    reefnettle_level level;
    uint64_t state;       /* a REEFNETTLE_STATE_ number */
    reefnettle_hpa hpa;   /* bytes 0 if the entry is FREE */
} reefnettle_answer;

/* What a run knows of its tables. It is the library's to fill: keep it as it was given. */
typedef struct {
    reefnettle_gauge gauge; /* after the run's last accepted call */
    uint64_t used;          /* frames that aren't NDA; 0 where the tables are out of range */
    bool lent;              /* whether the tables are in range */
    bool marked;            /* whether the gauge's marks are, too */
} reefnettle_run;

/* What a request of a run gives. */
typedef struct {
    reefnettle_answer answer;
    reefnettle_run run; /* what the run knows then, for its next request */
} reefnettle_next_answer;

/* ---- Numbers ---- */

/* Any other number of a call is answered with REEFNETTLE_ANSWER_UNREADABLE. */
enum {
    REEFNETTLE_CALL_RESET = 0,
    REEFNETTLE_CALL_SET_MARKS = 1,
    REEFNETTLE_CALL_CREATE = 2,
    REEFNETTLE_CALL_KEYCONFIG = 3,
    REEFNETTLE_CALL_ADDCX = 4,
    REEFNETTLE_CALL_INIT = 5,
    REEFNETTLE_CALL_SEPTADD = 6,
    REEFNETTLE_CALL_PAGEADD = 7,
    REEFNETTLE_CALL_FINALIZE = 8,
    REEFNETTLE_CALL_PAGEAUG = 9,
    REEFNETTLE_CALL_BLOCK = 10,
    REEFNETTLE_CALL_TRACK = 11,
    REEFNETTLE_CALL_UNBLOCK = 12,
    REEFNETTLE_CALL_PAGEREMOVE = 13,
    REEFNETTLE_CALL_SEPTREMOVE = 14,
    REEFNETTLE_CALL_FLUSHDONE = 15,
    REEFNETTLE_CALL_KEYFREE = 16,
    REEFNETTLE_CALL_RECLAIM = 17,
    REEFNETTLE_CALL_READPAGE = 18,
    REEFNETTLE_CALL_READENTRY = 19,
    REEFNETTLE_CALL_CACHEWB = 20
};

/* The first check that fails gives the answer. The order is 13, 1, D's 2, 3, 4, 5, F's 2, 10, 6, 7, 8, 9, 11, 12, 14; a
 * 14 in a walk comes where the walk meets it, one for a TDR's record just after D's 2, septremove's for its frame just
 * before 9. For reclaim: 13, 1, 2, an owner's or a TDR's 14, 3, 9, an EPT's table's or the count's 14. */
enum {
    REEFNETTLE_ANSWER_ACCEPTED = 0,
    REEFNETTLE_ANSWER_OPERAND = 1,        /* an hpa, gpa, level, key or mark is out of rule */
    REEFNETTLE_ANSWER_WRONG_FRAME = 2,    /* D is no TDR, F isn't free where it must be, or is free at reclaim */
    REEFNETTLE_ANSWER_LIFECYCLE = 3,      /* the domain's lifecycle is wrong for the call */
    REEFNETTLE_ANSWER_CONTROL_PAGES = 4,  /* fewer than 4 control pages, or already 4 at addcx */
    REEFNETTLE_ANSWER_OP_STATE = 5,       /* the domain's op state is wrong for the call */
    REEFNETTLE_ANSWER_WALK_STOPPED = 6,   /* the walk stopped above the level asked for, at this level and state */
    REEFNETTLE_ANSWER_WRONG_STATE = 7,    /* the entry has this level and state, wrong for the call */
    REEFNETTLE_ANSWER_NOT_TRACKED = 8,    /* a runnable domain's epoch hasn't moved on since the frame was blocked */
    REEFNETTLE_ANSWER_PAGES_REMAIN = 9,   /* a TDR has children, or a table an entry that isn't FREE */
    REEFNETTLE_ANSWER_KEY_TAKEN = 10,     /* a domain before teardown has the key */
    REEFNETTLE_ANSWER_NO_STOCK = 11,      /* no unused record (create) or table (septadd) is left */
    REEFNETTLE_ANSWER_EPOCH_LIMIT = 12,   /* the domain's epoch can't move on */
    REEFNETTLE_ANSWER_OUT_OF_RANGE = 13,  /* a lent size, the base, a stored number or a mark is out of range */
    REEFNETTLE_ANSWER_CONTRADICTION = 14, /* the lent tables contradict one another */
    REEFNETTLE_ANSWER_UNREADABLE = 15     /* there is no such call */
};

enum {
    REEFNETTLE_TYPE_NDA = 0,  /* free */
    REEFNETTLE_TYPE_TDR = 1,  /* root page of a domain */
    REEFNETTLE_TYPE_TDCX = 2, /* control page of a domain */
    REEFNETTLE_TYPE_EPT = 3,  /* Secure EPT table */
    REEFNETTLE_TYPE_REG = 4   /* page of a guest's memory */
};

enum {
    REEFNETTLE_STATE_FREE = 0,
    REEFNETTLE_STATE_NL_MAPPED = 1, /* leads to a table */
    REEFNETTLE_STATE_MAPPED = 2,
    REEFNETTLE_STATE_PENDING = 3,
    REEFNETTLE_STATE_NL_BLOCKED = 4, /* 4, 5 and 6 are 1, 2 and 3, blocked */
    REEFNETTLE_STATE_BLOCKED = 5,
    REEFNETTLE_STATE_PENDING_BLOCKED = 6
};

enum {
    REEFNETTLE_LIFECYCLE_HKID_ASSIGNED = 0,
    REEFNETTLE_LIFECYCLE_KEYS_CONFIGURED = 1,
    REEFNETTLE_LIFECYCLE_BLOCKED = 2,
    REEFNETTLE_LIFECYCLE_TEARDOWN = 3,
    REEFNETTLE_LIFECYCLE_WRITTEN_BACK = 4 /* blocked and written back; on its way a domain has it between 2 and 3 */
};

enum {
    REEFNETTLE_OP_STATE_UNINITIALIZED = 0,
    REEFNETTLE_OP_STATE_INITIALIZED = 1,
    REEFNETTLE_OP_STATE_RUNNABLE = 2
};

/* A sentence for an answer's number, without a full stop. */
static inline const char *reefnettle_answer_text(uint64_t number)
{
    static const char *const texts[] = {
        "accepted",
        "an operand is out of rule: an hpa not on a frame or outside the window, a gpa too big or unaligned for its "
        "level, a level, a key, or a mark of the gauge",
        "the wrong frame: the domain's frame is no TDR, the frame isn't free where it must be, or a free frame is "
        "to be reclaimed",
        "the domain's lifecycle is wrong for the call",
        "control pages: fewer than 4, or already 4 at addcx",
        "the domain's op state is wrong for the call",
        "the walk stopped above the level asked for",
        "the entry's state is wrong for the call",
        "not tracked: the domain is runnable, and its epoch hasn't moved on since the frame was "
        "blocked",
        "pages remain: a TDR has children, or a table has an entry that isn't FREE",
        "the key is taken: a domain before teardown has it",
        "no unused record (create) or table (septadd) is left",
        "the domain's epoch is at its limit",
        "what was lent is out of range: a size, the base, a stored number or code, or a mark of the gauge",
        "the lent tables contradict one another",
        "unreadable: a script's line, or a number that names no call"
    };
    return number < sizeof texts / sizeof texts[0] ? texts[number] : "there is no such answer";
}

/* ---- The library's four functions ---- */

/* The archive's number, to compare with REEFNETTLE_VERSION. */
uint64_t reefnettle_version(void);

/* Whether the archive that is linked fits this header. Ask once, before all else. */
static inline bool reefnettle_fits(void)
{
    return reefnettle_version() == REEFNETTLE_VERSION;
}

/* Asks one call on what is lent. A call number that there isn't is refused before anything lent is looked at. */
reefnettle_answer reefnettle_ask(reefnettle_hpa base,
                                 uint64_t *frames, size_t frames_words,
                                 uint64_t *domains, size_t domains_words,
                                 uint64_t *stock, size_t stock_words,
                                 uint32_t *entries, size_t entries_words,
                                 reefnettle_gauge *gauge, reefnettle_request request);

/* Begins a run of calls: what answer 13 asks of the tables and the gauge is checked here, once for them all. Nothing
 * lent is changed. Every answer, table word and gauge of a run is what single calls of reefnettle_ask give; this is
 * proved. So where the check fails, each call that there is answers 13, up to an accepted reset, or an accepted setting
 * of marks if these alone are out of range.
 *
 * What the caller owes, beside what it owes at every call:
 *   - Until the run's end nobody else writes the tables: no other run, no reefnettle_ask, no word by hand.
 *   - A run is for one model: base, arrays and lengths stay the same.
 *   - Each request is given what the one before it gave, the first what the beginning gave.
 *   - The gauge goes along in the run. The model's own is stale, until it is given the run's at the end.
 * A run that the caller makes up, or that knows other tables, gets answers that single calls may not give, and tables
 * out of range may be changed. Even then no byte outside of the arrays is touched. */
reefnettle_run reefnettle_begin(reefnettle_hpa base,
                                const uint64_t *frames, size_t frames_words,
                                const uint64_t *domains, size_t domains_words,
                                const uint64_t *stock, size_t stock_words,
                                const uint32_t *entries, size_t entries_words,
                                reefnettle_gauge gauge);

/* Asks the next call of a run, any call. */
reefnettle_next_answer reefnettle_next(reefnettle_hpa base,
                                       uint64_t *frames, size_t frames_words,
                                       uint64_t *domains, size_t domains_words,
                                       uint64_t *stock, size_t stock_words,
                                       uint32_t *entries, size_t entries_words,
                                       reefnettle_run known, reefnettle_request request);

/* ---- One function a call. D is the hpa of the domain's TDR, F that of a frame. ---- */

/* What is lent, in one place. After an accepted reset, lend the same base and lengths to every call. */
typedef struct {
    reefnettle_hpa base;
    uint64_t *frames;
    size_t frames_words;
    uint64_t *domains;
    size_t domains_words;
    uint64_t *stock;
    size_t stock_words;
    uint32_t *entries;
    size_t entries_words;
    reefnettle_gauge *gauge;
} reefnettle_model;

/* The one way from a frame's number to its hpa. Bytes 0, which every call refuses, if the window has no such frame. */
static inline reefnettle_hpa reefnettle_hpa_of_frame(const reefnettle_model *model, reefnettle_frame frame)
{
    reefnettle_hpa hpa = {0};
    if (frame.number < model->frames_words)
        hpa.bytes = model->base.bytes + REEFNETTLE_FRAME_BYTES * frame.number;
    return hpa;
}

/* The one way back. False, with `frame` as it was, if the hpa isn't where a frame begins or lies outside the window. */
static inline bool reefnettle_frame_of_hpa(const reefnettle_model *model, reefnettle_hpa hpa, reefnettle_frame *frame)
{
    const uint64_t bytes = hpa.bytes - model->base.bytes; /* below the base it wraps, and is beyond every frame */
    if (bytes % REEFNETTLE_FRAME_BYTES != 0 || bytes / REEFNETTLE_FRAME_BYTES >= model->frames_words)
        return false;
    frame->number = bytes / REEFNETTLE_FRAME_BYTES;
    return true;
}

/* A request whose operands are all 0: each call then sets those that it has. */
static inline reefnettle_request reefnettle_request_of(uint64_t call)
{
    reefnettle_request request;
    request.call = call;
    request.domain.bytes = 0;
    request.gpa.bytes = 0;
    request.level.number = 0;
    request.frame.bytes = 0;
    request.key.number = 0;
    request.raise = 0;
    request.clear = 0;
    return request;
}

static inline reefnettle_answer reefnettle_ask_model(const reefnettle_model *model, reefnettle_request request)
{
    return reefnettle_ask(model->base,
                          model->frames, model->frames_words,
                          model->domains, model->domains_words,
                          model->stock, model->stock_words,
                          model->entries, model->entries_words,
                          model->gauge, request);
}

/* A fresh start: all frames NDA, all stock unused, all numbers zero; raise mark 1, clear mark 0, lamp out. It reads no
 * lent word. */
static inline reefnettle_answer reefnettle_reset(const reefnettle_model *model)
{
    return reefnettle_ask_model(model, reefnettle_request_of(REEFNETTLE_CALL_RESET));
}

/* Sets the gauge's marks. It reads nothing of the old gauge. */
static inline reefnettle_answer reefnettle_set_marks(const reefnettle_model *model, double raise, double clear)
{
    reefnettle_request request = reefnettle_request_of(REEFNETTLE_CALL_SET_MARKS);
    request.raise = raise;
    request.clear = clear;
    return reefnettle_ask_model(model, request);
}

/* F, which is NDA, becomes the TDR of a new domain with a key that no domain before teardown has. */
static inline reefnettle_answer reefnettle_create(const reefnettle_model *model, reefnettle_hpa frame,
                                                  reefnettle_key key)
{
    reefnettle_request request = reefnettle_request_of(REEFNETTLE_CALL_CREATE);
    request.frame = frame;
    request.key = key;
    return reefnettle_ask_model(model, request);
}

/* Calls on a domain alone share this. */
static inline reefnettle_answer reefnettle_ask_domain(const reefnettle_model *model, uint64_t call,
                                                      reefnettle_hpa domain)
{
    reefnettle_request request = reefnettle_request_of(call);
    request.domain = domain;
    return reefnettle_ask_model(model, request);
}

/* Configures the domain's key. */
static inline reefnettle_answer reefnettle_keyconfig(const reefnettle_model *model, reefnettle_hpa domain)
{
    return reefnettle_ask_domain(model, REEFNETTLE_CALL_KEYCONFIG, domain);
}

/* F, which is NDA, becomes a control page of D. It takes four. */
static inline reefnettle_answer reefnettle_addcx(const reefnettle_model *model, reefnettle_hpa domain,
                                                 reefnettle_hpa frame)
{
    reefnettle_request request = reefnettle_request_of(REEFNETTLE_CALL_ADDCX);
    request.domain = domain;
    request.frame = frame;
    return reefnettle_ask_model(model, request);
}

/* Initializes the domain. From now on it is live, until flushdone. */
static inline reefnettle_answer reefnettle_init(const reefnettle_model *model, reefnettle_hpa domain)
{
    return reefnettle_ask_domain(model, REEFNETTLE_CALL_INIT, domain);
}

/* F, which is NDA, becomes a Secure EPT table of the live D; the FREE entry at level 1 to 3 becomes NL_MAPPED. */
static inline reefnettle_answer reefnettle_septadd(const reefnettle_model *model, reefnettle_hpa domain,
                                                   reefnettle_gpa gpa, reefnettle_level level, reefnettle_hpa frame)
{
    reefnettle_request request = reefnettle_request_of(REEFNETTLE_CALL_SEPTADD);
    request.domain = domain;
    request.gpa = gpa;
    request.level = level;
    request.frame = frame;
    return reefnettle_ask_model(model, request);
}

/* The two calls that map a page share this. */
static inline reefnettle_answer reefnettle_ask_page(const reefnettle_model *model, uint64_t call,
                                                    reefnettle_hpa domain, reefnettle_gpa gpa, reefnettle_hpa frame)
{
    reefnettle_request request = reefnettle_request_of(call);
    request.domain = domain;
    request.gpa = gpa;
    request.frame = frame;
    return reefnettle_ask_model(model, request);
}

/* F, which is NDA, becomes a page of D, before finalize; its FREE entry becomes MAPPED. */
static inline reefnettle_answer reefnettle_pageadd(const reefnettle_model *model, reefnettle_hpa domain,
                                                   reefnettle_gpa gpa, reefnettle_hpa frame)
{
    return reefnettle_ask_page(model, REEFNETTLE_CALL_PAGEADD, domain, gpa, frame);
}

/* Makes the domain runnable. */
static inline reefnettle_answer reefnettle_finalize(const reefnettle_model *model, reefnettle_hpa domain)
{
    return reefnettle_ask_domain(model, REEFNETTLE_CALL_FINALIZE, domain);
}

/* F, which is NDA, becomes a page of the runnable D; its FREE entry becomes PENDING. */
static inline reefnettle_answer reefnettle_pageaug(const reefnettle_model *model, reefnettle_hpa domain,
                                                   reefnettle_gpa gpa, reefnettle_hpa frame)
{
    return reefnettle_ask_page(model, REEFNETTLE_CALL_PAGEAUG, domain, gpa, frame);
}

/* Calls on an entry share this. */
static inline reefnettle_answer reefnettle_ask_entry(const reefnettle_model *model, uint64_t call,
                                                     reefnettle_hpa domain, reefnettle_gpa gpa, reefnettle_level level)
{
    reefnettle_request request = reefnettle_request_of(call);
    request.domain = domain;
    request.gpa = gpa;
    request.level = level;
    return reefnettle_ask_model(model, request);
}

/* Blocks an entry in state 1, 2 or 3, at level 0 to 3; its frame notes the domain's epoch. */
static inline reefnettle_answer reefnettle_block(const reefnettle_model *model, reefnettle_hpa domain,
                                                 reefnettle_gpa gpa, reefnettle_level level)
{
    return reefnettle_ask_entry(model, REEFNETTLE_CALL_BLOCK, domain, gpa, level);
}

/* Moves the domain's epoch on. What was blocked before is then tracked; before finalize it is so at once. */
static inline reefnettle_answer reefnettle_track(const reefnettle_model *model, reefnettle_hpa domain)
{
    return reefnettle_ask_domain(model, REEFNETTLE_CALL_TRACK, domain);
}

/* Unblocks a tracked entry in state 4, 5 or 6, at level 0 to 3. */
static inline reefnettle_answer reefnettle_unblock(const reefnettle_model *model, reefnettle_hpa domain,
                                                   reefnettle_gpa gpa, reefnettle_level level)
{
    return reefnettle_ask_entry(model, REEFNETTLE_CALL_UNBLOCK, domain, gpa, level);
}

/* Frees a blocked and tracked page. */
static inline reefnettle_answer reefnettle_pageremove(const reefnettle_model *model, reefnettle_hpa domain,
                                                      reefnettle_gpa gpa)
{
    const reefnettle_level page = {0};
    return reefnettle_ask_entry(model, REEFNETTLE_CALL_PAGEREMOVE, domain, gpa, page);
}

/* Frees a blocked, tracked and empty table, at level 1 to 3. */
static inline reefnettle_answer reefnettle_septremove(const reefnettle_model *model, reefnettle_hpa domain,
                                                      reefnettle_gpa gpa, reefnettle_level level)
{
    return reefnettle_ask_entry(model, REEFNETTLE_CALL_SEPTREMOVE, domain, gpa, level);
}

/* Blocks the domain for good. It keeps its key. */
static inline reefnettle_answer reefnettle_flushdone(const reefnettle_model *model, reefnettle_hpa domain)
{
    return reefnettle_ask_domain(model, REEFNETTLE_CALL_FLUSHDONE, domain);
}

/* Writes the caches back: every blocked domain becomes blocked and written back, and no other lent word changes. It has
 * no operands, and only answer 13 refuses it. A domain that is blocked later needs a new one. */
static inline reefnettle_answer reefnettle_cachewb(const reefnettle_model *model)
{
    return reefnettle_ask_model(model, reefnettle_request_of(REEFNETTLE_CALL_CACHEWB));
}

/* Frees the key of a domain that is blocked and written back, which is then in teardown. */
static inline reefnettle_answer reefnettle_keyfree(const reefnettle_model *model, reefnettle_hpa domain)
{
    return reefnettle_ask_domain(model, REEFNETTLE_CALL_KEYFREE, domain);
}

/* Calls on a frame alone share this. */
static inline reefnettle_answer reefnettle_ask_frame(const reefnettle_model *model, uint64_t call,
                                                     reefnettle_hpa frame)
{
    reefnettle_request request = reefnettle_request_of(call);
    request.frame = frame;
    return reefnettle_ask_model(model, request);
}

/* Frees a frame of a domain in teardown; the TDR itself goes last. */
static inline reefnettle_answer reefnettle_reclaim(const reefnettle_model *model, reefnettle_hpa frame)
{
    return reefnettle_ask_frame(model, REEFNETTLE_CALL_RECLAIM, frame);
}

/* Reads the type of F and the hpa of its owner. Accepted, it still stores the fill and may move the lamp. */
static inline reefnettle_answer reefnettle_readpage(const reefnettle_model *model, reefnettle_hpa frame)
{
    return reefnettle_ask_frame(model, REEFNETTLE_CALL_READPAGE, frame);
}

/* Reads the level, state and hpa of an entry of the live D, at level 0 to 3. It too moves the gauge. */
static inline reefnettle_answer reefnettle_readentry(const reefnettle_model *model, reefnettle_hpa domain,
                                                     reefnettle_gpa gpa, reefnettle_level level)
{
    return reefnettle_ask_entry(model, REEFNETTLE_CALL_READENTRY, domain, gpa, level);
}

/* ---- A run of calls on a model, to rehearse or replay a long list of them ----
 *
 *     reefnettle_run run = reefnettle_run_begin(&model);
 *     for (size_t call = 0; call < calls; call++)
 *         answers[call] = reefnettle_run_ask(&model, &run, requests[call]);
 *     reefnettle_run_end(&model, &run);
 *
 * In between nobody else touches the model's tables, and its gauge is stale: see reefnettle_begin. */

static inline reefnettle_run reefnettle_run_begin(const reefnettle_model *model)
{
    return reefnettle_begin(model->base,
                            model->frames, model->frames_words,
                            model->domains, model->domains_words,
                            model->stock, model->stock_words,
                            model->entries, model->entries_words,
                            *model->gauge);
}

/* Asks the run's next call, and moves the run on. The model is the one that the run began on. */
static inline reefnettle_answer reefnettle_run_ask(const reefnettle_model *model, reefnettle_run *run,
                                                   reefnettle_request request)
{
    const reefnettle_next_answer next = reefnettle_next(model->base,
                                                        model->frames, model->frames_words,
                                                        model->domains, model->domains_words,
                                                        model->stock, model->stock_words,
                                                        model->entries, model->entries_words,
                                                        *run, request);
    *run = next.run;
    return next.answer;
}

/* Hands the run's gauge back to the model, which may then be asked by itself again. */
static inline void reefnettle_run_end(const reefnettle_model *model, const reefnettle_run *run)
{
    *model->gauge = run->gauge;
}

/* ---- The lent words, to fill the tables from a running machine and to read them ----
 *
 * A pack function is exact for fields that fit their bits, and cuts none: where one doesn't fit, all bits of the word
 * are 1, and answer 13 refuses that wherever it looks at the word. What fits its bits may still be out of range, and
 * answer 13 judges that too. Unpack takes any word apart, and packing the fields again gives the same word.
 *
 * Name the fields that you set (.kind = ..), for a later version may add some. A field that isn't set is 0. */

#define REEFNETTLE_WORD_REFUSED UINT64_MAX
#define REEFNETTLE_ENTRY_REFUSED UINT32_MAX

/* A word of `frames`. */
typedef struct {
    uint64_t kind;          /* a REEFNETTLE_TYPE_ number */
    reefnettle_frame owner; /* the owning TDR's, for TDCX, EPT and REG; else 0 */
    uint64_t number;        /* the record of a TDR, the table of an EPT; else 0 */
    uint64_t epoch;         /* at which it was last blocked, for EPT and REG; else 0 */
} reefnettle_frame_fields;

static inline uint64_t reefnettle_pack_frame(reefnettle_frame_fields fields)
{
    if (fields.kind >> 3 || fields.owner.number >> 14 || fields.number >> 8 || fields.epoch >> 39)
        return REEFNETTLE_WORD_REFUSED;
    return fields.kind | fields.owner.number << 3 | fields.number << 17 | fields.epoch << 25;
}

static inline reefnettle_frame_fields reefnettle_unpack_frame(uint64_t word)
{
    reefnettle_frame_fields fields;
    fields.kind = word % (1 << 3);
    fields.owner.number = (word >> 3) % (1 << 14);
    fields.number = (word >> 17) % (1 << 8);
    fields.epoch = word >> 25;
    return fields;
}

/* The five words of a record of `domains`. */
typedef struct {
    reefnettle_key key;
    uint64_t lifecycle;    /* a REEFNETTLE_LIFECYCLE_ number */
    uint64_t op_state;     /* a REEFNETTLE_OP_STATE_ number */
    uint64_t pages_listed; /* so many of the control pages below; the rest are 0 */
    uint64_t children;     /* frames that the domain owns, its TDR left out */
    uint64_t epoch;
    reefnettle_frame control_pages[REEFNETTLE_CONTROL_PAGES];
} reefnettle_record_fields;

/* The first of a record's words. */
static inline uint64_t reefnettle_pack_scalars(reefnettle_record_fields fields)
{
    if (fields.key.number >> 7 || fields.lifecycle >> 3 || fields.op_state >> 2 || fields.pages_listed >> 3 ||
        fields.children >> 15 || fields.epoch >> 34)
        return REEFNETTLE_WORD_REFUSED;
    return fields.key.number | fields.lifecycle << 7 | fields.op_state << 10 | fields.pages_listed << 12 |
           fields.children << 15 | fields.epoch << 30;
}

/* Writes words 5, from `words` on: &domains[5 * record]. A control page is a whole word, so any number fits. */
static inline void reefnettle_pack_record(reefnettle_record_fields fields, uint64_t *words)
{
    int page;
    words[0] = reefnettle_pack_scalars(fields);
    for (page = 0; page < REEFNETTLE_CONTROL_PAGES; page++)
        words[1 + page] = fields.control_pages[page].number;
}

/* Reads words 5, from `words` on. */
static inline reefnettle_record_fields reefnettle_unpack_record(const uint64_t *words)
{
    reefnettle_record_fields fields;
    int page;
    fields.key.number = words[0] % (1 << 7);
    fields.lifecycle = (words[0] >> 7) % (1 << 3);
    fields.op_state = (words[0] >> 10) % (1 << 2);
    fields.pages_listed = (words[0] >> 12) % (1 << 3);
    fields.children = (words[0] >> 15) % (1 << 15);
    fields.epoch = words[0] >> 30;
    for (page = 0; page < REEFNETTLE_CONTROL_PAGES; page++)
        fields.control_pages[page].number = words[1 + page];
    return fields;
}

/* A word of `entries`. */
typedef struct {
    uint64_t state;         /* a REEFNETTLE_STATE_ number */
    reefnettle_frame frame; /* 0 for a FREE entry */
} reefnettle_entry_fields;

static inline uint32_t reefnettle_pack_entry(reefnettle_entry_fields fields)
{
    if (fields.state >> 3 || fields.frame.number >> 29)
        return REEFNETTLE_ENTRY_REFUSED;
    return (uint32_t)(fields.state | fields.frame.number << 3);
}

static inline reefnettle_entry_fields reefnettle_unpack_entry(uint32_t word)
{
    reefnettle_entry_fields fields;
    fields.state = word % (1 << 3);
    fields.frame.number = word >> 3;
    return fields;
}

/* How many records and tables the lengths come to; tables 0 where there are fewer blocks than records. */
static inline size_t reefnettle_records(const reefnettle_model *model)
{
    return model->domains_words / REEFNETTLE_RECORD_WORDS;
}

static inline size_t reefnettle_tables(const reefnettle_model *model)
{
    const size_t blocks = model->entries_words / REEFNETTLE_TABLE_ENTRIES, records = reefnettle_records(model);
    return blocks < records ? 0 : blocks - records;
}

/* The block of a table, and that of a record's root. */
static inline reefnettle_entries_block reefnettle_table_block(size_t table)
{
    const reefnettle_entries_block block = {table};
    return block;
}

static inline reefnettle_entries_block reefnettle_root_block(const reefnettle_model *model, size_t record)
{
    const reefnettle_entries_block block = {reefnettle_tables(model) + record};
    return block;
}

/* Which word of `entries` is a block's entry for a gpa, at level 0 to 3. */
static inline size_t reefnettle_entry_place(reefnettle_entries_block block, reefnettle_gpa gpa, reefnettle_level level)
{
    const uint64_t entry = (gpa.bytes >> (12 + 9 * level.number)) % REEFNETTLE_TABLE_ENTRIES;
    return REEFNETTLE_TABLE_ENTRIES * block.number + (size_t)entry;
}

/* The bit of `stock` that says whether a block is in use. The caller owes a block that is there, here and below. */
static inline bool reefnettle_in_use(const reefnettle_model *model, reefnettle_entries_block block)
{
    return (model->stock[block.number / 64] >> block.number % 64 & 1) != 0;
}

static inline void reefnettle_set_in_use(const reefnettle_model *model, reefnettle_entries_block block, bool in_use)
{
    const uint64_t bit = UINT64_C(1) << block.number % 64;
    uint64_t *word = &model->stock[block.number / 64];
    *word = in_use ? *word | bit : *word & ~bit;
}

#ifdef __cplusplus
}
#endif

#endif
