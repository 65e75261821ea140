/* The library as a C host meets it on bad days, compiled with the address and undefined behaviour sanitizers: buffers of exact sizes, at
 * and around the required ones, with arbitrary bytes, through every operation. Usage: sanitized [SECONDS [SEED]]. For Linux.
 *
 * What this sees. The sanitizers watch this file and the functions of the header, and not the library, which is compiled without them. Of
 * the library they see its calls of memcpy and memset, and it calls nothing else. What it loads and stores by itself they do not see, so
 * each buffer is put, by turns, into a heap block amid margins that are poisoned for the sanitizer, at the end of pages behind which
 * nobody may load or store, or at the start of pages before which nobody may. Pages of a buffer that is const can only be read. All bytes
 * of the block or the pages that are not the buffer's must be as before.
 *
 * What this does not see: a load by the library itself outside of a buffer but inside its block or pages, a store there of the very byte
 * that stands there, and a wrong answer that agrees with the other operations. tests/fuzz.rs holds answers against another program. */
#define _DEFAULT_SOURCE
#include "lutsamik.h"
#include "tickets.h"

#include <sanitizer/asan_interface.h>
#include <stdbool.h>
#include <stdio.h>
#include <stdlib.h>
#include <string.h>
#include <sys/mman.h>
#include <time.h>
#include <unistd.h>

enum { DEFAULT_SECONDS = 5, CALLS_A_DAY = 24, MARGIN = 64, MORE = 57 };

/* Each day is drawn by its seed, and the next one by the next. */
static uint64_t seed;

/* ---- Failing ---- */

static void tell_seed(void) {
    printf("sanitized: FAILED on the day of seed %llu\n", (unsigned long long)seed);
}

static void require(bool holds, const char *what) {
    if (holds)
        return;
    printf("sanitized: not so: %s\n", what);
    tell_seed();
    exit(1);
}

/* ---- Buffers ---- */

enum buffer { TEXT, FRAME, TABLE, OUT, SLIP, RULES, ANSWER, WORK, SESSION, FACTS, FIRST, SECOND, COUNT, BUFFERS };

/* A session or a count has no length that is told, and always its own bytes; facts are numbers, as many as there are. */
static const size_t required[BUFFERS] = {
    [TABLE] = LUTSAMIK_TABLE_BYTES, [OUT] = LUTSAMIK_TEXT_BYTES,      [SLIP] = LUTSAMIK_SLIP_BYTES,
    [RULES] = LUTSAMIK_RULES_BYTES, [ANSWER] = LUTSAMIK_ANSWER_BYTES, [WORK] = LUTSAMIK_WORK_BYTES,
    [SESSION] = sizeof(struct lutsamik_session), [FIRST] = sizeof(uint32_t), [SECOND] = sizeof(uint32_t),
    [COUNT] = sizeof(uint64_t),
};

/* What the host puts into a buffer, and goes on with after a call: a text, a frame, a table, a slip, an answer, a session, facts. */
static struct {
    uint8_t bytes[LONGEST_TEXT];
    size_t len;
} held[BUFFERS];

/* Pages between two that nobody may touch. */
static struct {
    uint8_t *first;
    size_t size;
} pages[BUFFERS];

/* A buffer, the block or the pages that it is in, and a copy of these as they were lent. */
static struct {
    uint8_t *bytes, *memory, *copy;
    size_t len, size;
    bool in_pages;
} lent[BUFFERS];

static uint8_t *allocate(size_t size) {
    uint8_t *block = malloc(size);
    require(block != NULL, "there is memory");
    return block;
}

static void protect(enum buffer which, int protection) {
    require(mprotect(pages[which].first, pages[which].size, protection) == 0, "pages are protected");
}

static void map_pages(enum buffer which) {
    size_t page = (size_t)sysconf(_SC_PAGESIZE);
    size_t most = (required[which] == 0 ? LONGEST_TEXT : required[which]) + MORE;
    pages[which].size = (most + page - 1) / page * page;
    uint8_t *all = mmap(NULL, page + pages[which].size + page, PROT_NONE, MAP_PRIVATE | MAP_ANONYMOUS, -1, 0);
    require(all != MAP_FAILED, "there are pages");
    pages[which].first = all + page;
    protect(which, PROT_READ | PROT_WRITE);
}

/* Decides where a buffer of this length is. */
static void place(enum buffer which, size_t len) {
    size_t where = below(3);
    lent[which].len = len;
    lent[which].in_pages = where > 0;
    lent[which].size = where > 0 ? pages[which].size : MARGIN + len + MARGIN;
    lent[which].memory = where > 0 ? pages[which].first : allocate(lent[which].size);
    size_t before = where == 0 ? MARGIN : where == 1 ? 0 : lent[which].size - len;
    lent[which].bytes = lent[which].memory + before;
}

/* Lends a buffer that begins with what is held for it, and goes on with any bytes. */
static void lend(enum buffer which, size_t len, bool is_const) {
    place(which, len);
    any_bytes(lent[which].memory, lent[which].size);
    memcpy(lent[which].bytes, held[which].bytes, held[which].len < len ? held[which].len : len);
    lent[which].copy = allocate(lent[which].size);
    memcpy(lent[which].copy, lent[which].memory, lent[which].size);
    if (!lent[which].in_pages) {
        ASAN_POISON_MEMORY_REGION(lent[which].memory, MARGIN);
        ASAN_POISON_MEMORY_REGION(lent[which].bytes + len, MARGIN);
    } else if (is_const) {
        protect(which, PROT_READ);
    }
}

/* After the call the host may look at all bytes again. */
static void take_back(enum buffer which) {
    if (lent[which].in_pages)
        protect(which, PROT_READ | PROT_WRITE);
    else
        ASAN_UNPOISON_MEMORY_REGION(lent[which].memory, lent[which].size);
}

static void release(enum buffer which) {
    free(lent[which].copy);
    if (!lent[which].in_pages)
        free(lent[which].memory);
}

/* Whether all is as it was lent, but for the first bytes of the buffer. */
static bool untouched_past(enum buffer which, size_t first) {
    size_t from = (size_t)(lent[which].bytes - lent[which].memory), to = from + first;
    return memcmp(lent[which].memory, lent[which].copy, from) == 0 &&
           memcmp(lent[which].memory + to, lent[which].copy + to, lent[which].size - to) == 0;
}

/* None, one byte, one less than required, as many, one more, or more; mostly enough. The own length of a text or a frame counts as required. */
static size_t any_length(enum buffer which, bool near) {
    size_t enough = required[which] == 0 ? held[which].len : required[which];
    size_t lengths[] = {0, 1, enough == 0 ? 0 : enough - 1, enough, enough + 1, enough + MORE};
    if (which >= SESSION)
        return enough;
    if (near)
        return lengths[below(6)];
    return lengths[required[which] == 0 ? 3 : 3 + below(3)];
}

static void keep(enum buffer which) { memcpy(held[which].bytes, lent[which].bytes, held[which].len = required[which]); }

/* ---- Operations ---- */

enum operation {
    READ,
    WRITE,
    OFFER,
    SET,
    REWRITE,
    FIT_RELEVANCY,
    FIT_MAGIC,
    FIT_STAGED,
    JUDGE,
    HOLDING,
    BEGIN_RELEVANCY,
    BEGIN_MAGIC,
    RESUME_RELEVANCY,
    RESUME_MAGIC,
    ASSUME_RELEVANCY,
    ASSUME_MAGIC,
    PARTS_RELEVANCY,
    PARTS_MAGIC,
    OPERATIONS
};

static const char *const names[OPERATIONS] = {"read",      "write",   "offer",           "set",         "rewrite",          "fit_relevancy", "fit_magic",
                                             "fit_staged", "judge",     "holding", "begin_relevancy", "begin_magic", "resume_relevancy", "resume_magic",
                                             "assume_relevancy", "assume_magic", "parts_relevancy", "parts_magic"};

/* Which buffers each is lent: to be read, or to be written to. */
enum use { NOT_LENT, CONST, WRITTEN };
static const enum use uses[OPERATIONS][BUFFERS] = {
    [READ] = {[TEXT] = CONST, [TABLE] = WRITTEN},
    [WRITE] = {[TABLE] = CONST, [OUT] = WRITTEN},
    [OFFER] = {[TABLE] = CONST, [FRAME] = CONST, [SLIP] = WRITTEN},
    [SET] = {[TABLE] = WRITTEN, [SLIP] = CONST},
    [REWRITE] = {[TABLE] = CONST, [RULES] = WRITTEN},
    [FIT_RELEVANCY] = {[TABLE] = CONST, [ANSWER] = WRITTEN, [WORK] = WRITTEN},
    [FIT_MAGIC] = {[TABLE] = CONST, [RULES] = WRITTEN, [ANSWER] = WRITTEN, [WORK] = WRITTEN},
    [FIT_STAGED] = {[TABLE] = CONST, [ANSWER] = WRITTEN, [WORK] = WRITTEN},
    [JUDGE] = {[TABLE] = CONST, [ANSWER] = CONST},
    [HOLDING] = {[TABLE] = CONST, [ANSWER] = CONST},
    [BEGIN_RELEVANCY] = {[TABLE] = CONST, [SESSION] = WRITTEN, [ANSWER] = WRITTEN, [WORK] = WRITTEN},
    [BEGIN_MAGIC] = {[TABLE] = CONST, [SESSION] = WRITTEN, [RULES] = WRITTEN, [ANSWER] = WRITTEN, [WORK] = WRITTEN},
    [RESUME_RELEVANCY] = {[TABLE] = CONST, [SESSION] = WRITTEN, [ANSWER] = WRITTEN, [WORK] = WRITTEN},
    [RESUME_MAGIC] = {[TABLE] = CONST, [SESSION] = WRITTEN, [RULES] = WRITTEN, [ANSWER] = WRITTEN, [WORK] = WRITTEN},
    [ASSUME_RELEVANCY] = {[TABLE] = CONST, [FACTS] = CONST, [FIRST] = WRITTEN, [SECOND] = WRITTEN, [ANSWER] = CONST, [WORK] = WRITTEN},
    [ASSUME_MAGIC] = {[TABLE] = CONST, [FACTS] = CONST, [FIRST] = WRITTEN, [SECOND] = WRITTEN, [RULES] = WRITTEN, [ANSWER] = CONST, [WORK] = WRITTEN},
    [PARTS_RELEVANCY] = {[TABLE] = CONST, [COUNT] = WRITTEN, [ANSWER] = WRITTEN, [WORK] = WRITTEN},
    [PARTS_MAGIC] = {[TABLE] = CONST, [COUNT] = WRITTEN, [RULES] = WRITTEN, [ANSWER] = WRITTEN, [WORK] = WRITTEN},
};

/* The instance that holding is asked for: its clause, and the values of 80, 81, 82 and 83. The further limit of a session. */
static uint32_t clause, values[4], further;

/* How often each gave which refusal, or none; an engine which verdict; with open facts what was said; and by parts and by stages which verdict. */
static unsigned long met[OPERATIONS][LUTSAMIK_BAD_FACTS + 1], verdicts[LUTSAMIK_SPENT + 1], said_of_facts[LUTSAMIK_NONE_WITH_SOME + 1];
static unsigned long by_parts[LUTSAMIK_SPENT + 1], by_stages[LUTSAMIK_SPENT + 1];

/* What an engine has answered for the table that is held, or none has yet. */
static uint64_t fitted;
static bool is_fitted;

#define LENT(which) lent[which].bytes, lent[which].len

static struct lutsamik_session *lent_session(void) { return (struct lutsamik_session *)(void *)lent[SESSION].bytes; }

static uint32_t *lent_numbers(enum buffer which) { return (uint32_t *)(void *)lent[which].bytes; }

static uint64_t *lent_sum(void) { return (uint64_t *)(void *)lent[COUNT].bytes; }

static size_t lent_facts(void) { return lent[FACTS].len / sizeof(uint32_t); }

static uint64_t invoke(enum operation operation) {
    switch (operation) {
    case READ:
        return lutsamik_read(LENT(TEXT), LENT(TABLE));
    case WRITE:
        return lutsamik_write(LENT(TABLE), LENT(OUT));
    case OFFER:
        return lutsamik_offer(LENT(TABLE), LENT(FRAME), LENT(SLIP));
    case SET:
        return lutsamik_set(LENT(TABLE), LENT(SLIP));
    case REWRITE:
        return lutsamik_rewrite(LENT(TABLE), LENT(RULES));
    case FIT_RELEVANCY:
        return lutsamik_fit_relevancy(LENT(TABLE), LENT(ANSWER), LENT(WORK));
    case FIT_MAGIC:
        return lutsamik_fit_magic(LENT(TABLE), LENT(RULES), LENT(ANSWER), LENT(WORK));
    case FIT_STAGED:
        return lutsamik_fit_staged(LENT(TABLE), LENT(ANSWER), LENT(WORK));
    case JUDGE:
        return lutsamik_judge(LENT(TABLE), LENT(ANSWER));
    case BEGIN_RELEVANCY:
        return lutsamik_begin_relevancy(lent_session(), LENT(TABLE), LENT(ANSWER), LENT(WORK));
    case BEGIN_MAGIC:
        return lutsamik_begin_magic(lent_session(), LENT(TABLE), LENT(RULES), LENT(ANSWER), LENT(WORK));
    case RESUME_RELEVANCY:
        return lutsamik_resume_relevancy(lent_session(), further, LENT(TABLE), LENT(ANSWER), LENT(WORK));
    case RESUME_MAGIC:
        return lutsamik_resume_magic(lent_session(), further, LENT(TABLE), LENT(RULES), LENT(ANSWER), LENT(WORK));
    case ASSUME_RELEVANCY:
        return lutsamik_assume_relevancy(LENT(TABLE), lent_numbers(FACTS), lent_facts(), lent_numbers(FIRST), lent_numbers(SECOND), LENT(ANSWER),
                                         LENT(WORK));
    case ASSUME_MAGIC:
        return lutsamik_assume_magic(LENT(TABLE), lent_numbers(FACTS), lent_facts(), lent_numbers(FIRST), lent_numbers(SECOND), LENT(RULES),
                                     LENT(ANSWER), LENT(WORK));
    case PARTS_RELEVANCY:
        return lutsamik_parts_relevancy(LENT(TABLE), lent_sum(), LENT(ANSWER), LENT(WORK));
    case PARTS_MAGIC:
        return lutsamik_parts_magic(LENT(TABLE), lent_sum(), LENT(RULES), LENT(ANSWER), LENT(WORK));
    default:
        return lutsamik_holding(LENT(TABLE), LENT(ANSWER), clause, values[0], values[1], values[2], values[3]);
    }
}

static void has_read(void) {
    keep(TABLE);
    is_fitted = false;
}

/* The slip has the frame, and can be set in this table. */
static void has_offered(void) {
    uint8_t table[LUTSAMIK_TABLE_BYTES];
    require(lent[FRAME].len <= LUTSAMIK_SLIP_BYTES - 2 && lent[SLIP].bytes[1] == lent[FRAME].len, "a slip has room for the frame");
    require(memcmp(lent[SLIP].bytes + 2, lent[FRAME].bytes, lent[FRAME].len) == 0, "a slip has the frame");
    memcpy(table, lent[TABLE].bytes, sizeof table);
    require(lutsamik_set(table, sizeof table, LENT(SLIP)) == LUTSAMIK_OK, "what was offered can be set");
    keep(SLIP);
}

/* The table is some ticket's, and the slip stale. The next calls go on with it. */
static void has_set(void) {
    uint8_t out[LUTSAMIK_TEXT_BYTES];
    require(lutsamik_refusal(lutsamik_write(LENT(TABLE), out, sizeof out)) == LUTSAMIK_OK, "what setting leaves is a table");
    keep(TABLE);
    is_fitted = false;
    require(lutsamik_set(LENT(TABLE), LENT(SLIP)) == LUTSAMIK_STALE_SLIP, "a slip is not set twice");
}

/* What was written reads to the very table. */
static void has_written(uint64_t answer) {
    uint8_t table[LUTSAMIK_TABLE_BYTES];
    size_t len = lutsamik_written(answer);
    require(len <= LUTSAMIK_TEXT_BYTES && untouched_past(OUT, len), "writing leaves what follows the text");
    require(lutsamik_read(lent[OUT].bytes, len, table, sizeof table) == LUTSAMIK_OK, "what was written is read");
    require(memcmp(table, lent[TABLE].bytes, sizeof table) == 0, "what was written reads to the table");
}

static void has_zero_work(void) {
    for (size_t i = 0; i < LUTSAMIK_WORK_BYTES; i++)
        require(lent[WORK].bytes[i] == 0, "work is zero");
}

/* Work is zero, and fits comes with a fitting. */
static void has_ended(uint64_t answer) {
    require(lutsamik_verdict(answer) <= LUTSAMIK_SPENT, "there is such a verdict");
    verdicts[lutsamik_verdict(answer)]++;
    has_zero_work();
    if (lutsamik_verdict(answer) != LUTSAMIK_FITS) {
        require(untouched_past(ANSWER, 0), "without fits the answer is untouched");
        return;
    }
    require(lutsamik_judged(lutsamik_judge(LENT(TABLE), LENT(ANSWER))) == LUTSAMIK_FITTING, "fits comes with a fitting");
    keep(ANSWER);
}

/* Both engines answer alike, with a session or without. */
static void has_fitted(uint64_t answer) {
    require(!is_fitted || answer == fitted, "both engines answer alike");
    fitted = answer;
    is_fitted = true;
    has_ended(answer);
}

/* The session says what the answer does, is 0 past its path, and is one with which the next calls go on. */
static void has_moved(uint64_t answer) {
    const struct lutsamik_session *session = lent_session();
    require(session->verdict == lutsamik_verdict(answer) && session->count == lutsamik_count(answer), "a session says what the answer does");
    require(session->deepest == lutsamik_deepest(answer), "a session has the figure of the answer");
    require(session->length <= session->deepest && session->deepest <= 1024 && session->next <= 4, "a session stands at a node");
    for (size_t i = session->length; i < 1024; i++)
        require(session->atoms[i] == 0 && session->nexts[i] == 0, "a session is 0 past its path");
    keep(SESSION);
}

/* What the other engine answers and leaves for the same session is the same. */
static void has_resumed(enum operation operation, uint64_t answer) {
    static uint8_t rules[LUTSAMIK_RULES_BYTES], marks[LUTSAMIK_ANSWER_BYTES], work[LUTSAMIK_WORK_BYTES];
    struct lutsamik_session other;
    memcpy(&other, lent[SESSION].copy + (lent[SESSION].bytes - lent[SESSION].memory), sizeof other);
    uint64_t said = operation == RESUME_MAGIC
                        ? lutsamik_resume_relevancy(&other, further, LENT(TABLE), marks, sizeof marks, work, sizeof work)
                        : lutsamik_resume_magic(&other, further, LENT(TABLE), rules, sizeof rules, marks, sizeof marks, work, sizeof work);
    require(said == answer && memcmp(&other, lent[SESSION].bytes, sizeof other) == 0, "both engines go on alike");
    has_ended(answer);
    has_moved(answer);
}

/* What the other engine says for the same facts is the same, and so are both counts. The first run is that of the ticket. */
static void has_assumed(enum operation operation, uint64_t answer) {
    static uint8_t rules[LUTSAMIK_RULES_BYTES], marks[LUTSAMIK_ANSWER_BYTES], work[LUTSAMIK_WORK_BYTES];
    uint32_t first = 0, second = 0;
    uint64_t other = operation == ASSUME_MAGIC ? lutsamik_assume_relevancy(LENT(TABLE), lent_numbers(FACTS), lent_facts(), &first, &second, marks,
                                                                           sizeof marks, work, sizeof work)
                                               : lutsamik_assume_magic(LENT(TABLE), lent_numbers(FACTS), lent_facts(), &first, &second, rules,
                                                                       sizeof rules, marks, sizeof marks, work, sizeof work);
    require(other == answer && first == *lent_numbers(FIRST) && second == *lent_numbers(SECOND), "both engines say alike of open facts");
    require(answer >> 16 == 0 && lutsamik_assumed(answer) <= LUTSAMIK_NONE_WITH_SOME, "there is such an answer of open facts");
    require(lent_facts() <= 16, "no more than 16 facts are open");
    uint64_t alone = lutsamik_fit_relevancy(LENT(TABLE), marks, sizeof marks, work, sizeof work);
    require(lutsamik_count(alone) == first, "the first run is that of the ticket");
    require((lutsamik_verdict(alone) == LUTSAMIK_NONE) == (lutsamik_assumed(answer) == LUTSAMIK_NONE_ALWAYS), "none alone is none always");
    said_of_facts[lutsamik_assumed(answer)]++;
    has_zero_work();
}

/* What the other engine says and leaves is the same. Where the whole ticket is not spent, its parts say what it does. */
static void has_parted(enum operation operation, uint64_t answer) {
    static uint8_t rules[LUTSAMIK_RULES_BYTES], marks[LUTSAMIK_ANSWER_BYTES], work[LUTSAMIK_WORK_BYTES];
    uint64_t sum = 0;
    uint64_t other = operation == PARTS_MAGIC
                         ? lutsamik_parts_relevancy(LENT(TABLE), &sum, marks, sizeof marks, work, sizeof work)
                         : lutsamik_parts_magic(LENT(TABLE), &sum, rules, sizeof rules, marks, sizeof marks, work, sizeof work);
    require(other == answer && sum == *lent_sum() && answer >> 16 == 0, "both engines say alike of parts");
    uint64_t whole = lutsamik_fit_relevancy(LENT(TABLE), marks, sizeof marks, work, sizeof work);
    require(lutsamik_verdict(whole) == LUTSAMIK_SPENT || lutsamik_verdict(whole) == lutsamik_verdict(answer), "parts say what the whole does");
    has_ended(answer);
    by_parts[lutsamik_verdict(answer)]++;
}

/* Where neither is spent, it says what the relevancy engine does. It tells no path. */
static void has_staged(uint64_t answer) {
    static uint8_t marks[LUTSAMIK_ANSWER_BYTES], work[LUTSAMIK_WORK_BYTES];
    unsigned other = lutsamik_verdict(lutsamik_fit_relevancy(LENT(TABLE), marks, sizeof marks, work, sizeof work)), own = lutsamik_verdict(answer);
    require(own == other || own == LUTSAMIK_SPENT || other == LUTSAMIK_SPENT, "stages never say the contrary");
    require(lutsamik_deepest(answer) == 0, "stages tell no path");
    has_ended(answer);
    by_stages[own]++;
}

static void has_judged(uint64_t answer) {
    unsigned judged = lutsamik_judged(answer);
    require(judged == LUTSAMIK_FITTING || judged == LUTSAMIK_VIOLATED, "judging says fitting or violated");
    require(lutsamik_clause(answer) < 64, "there is such a clause");
    for (unsigned variable = 0; variable < 4; variable++)
        require(lutsamik_value(answer, variable) < 32, "there is such a constant");
    if (judged == LUTSAMIK_FITTING)
        return;
    uint64_t held = lutsamik_holding(LENT(TABLE), LENT(ANSWER), lutsamik_clause(answer), lutsamik_value(answer, 0),
                                     lutsamik_value(answer, 1), lutsamik_value(answer, 2), lutsamik_value(answer, 3));
    require(lutsamik_refusal(held) == LUTSAMIK_OK, "there is an instance that judging names");
}

static void has_done(enum operation operation, uint64_t answer) {
    if (operation == READ)
        has_read();
    else if (operation == WRITE)
        has_written(answer);
    else if (operation == OFFER)
        has_offered();
    else if (operation == SET)
        has_set();
    else if (operation == REWRITE)
        require(lutsamik_rules(answer) <= 320, "there are no more rules than 320");
    else if (operation == JUDGE)
        has_judged(answer);
    else if (operation == HOLDING)
        require(lutsamik_held(answer) <= 4 && clause < 64, "no more conditions hold than there can be");
    else if (operation == RESUME_RELEVANCY || operation == RESUME_MAGIC)
        has_resumed(operation, answer);
    else if (operation == ASSUME_RELEVANCY || operation == ASSUME_MAGIC)
        has_assumed(operation, answer);
    else if (operation == PARTS_RELEVANCY || operation == PARTS_MAGIC)
        has_parted(operation, answer);
    else if (operation == FIT_STAGED)
        has_staged(answer);
    else
        has_fitted(answer);
    if (operation == BEGIN_RELEVANCY || operation == BEGIN_MAGIC)
        has_moved(answer);
}

/* 11 exactly where a buffer is too short, and nothing is touched but what may be written; nothing after a refusal. */
static void check(enum operation operation, uint64_t answer) {
    unsigned refusal = lutsamik_refusal(answer);
    bool is_short = false, assumes = operation == ASSUME_RELEVANCY || operation == ASSUME_MAGIC;
    for (enum buffer which = 0; which < BUFFERS; which++) {
        if (uses[operation][which] == NOT_LENT)
            continue;
        is_short |= lent[which].len < required[which];
        bool is_written = refusal == LUTSAMIK_OK && uses[operation][which] == WRITTEN;
        require(untouched_past(which, is_written ? required[which] : 0), "no byte is touched that may not be");
    }
    require((refusal == LUTSAMIK_SHORT_BUFFER) == is_short, "a short buffer is refused by 11, and nothing else is");
    require(refusal <= LUTSAMIK_BAD_ANSWER || (refusal == LUTSAMIK_NO_INSTANCE && operation == HOLDING) ||
                (refusal == LUTSAMIK_STALE_SLIP && operation == SET) ||
                ((refusal == LUTSAMIK_TOO_MANY_ENTRIES || refusal == LUTSAMIK_NO_SESSION) &&
                 (operation == RESUME_RELEVANCY || operation == RESUME_MAGIC)) ||
                (refusal == LUTSAMIK_BAD_FACTS && assumes),
            "there is such a refusal");
    bool is_fault = refusal != LUTSAMIK_OK && refusal <= LUTSAMIK_TOO_MANY_MARKS;
    require(!is_fault || operation == READ || operation == OFFER || operation == SET || (assumes && refusal == LUTSAMIK_BAD_COUNT),
            "only what is read or offered has a fault");
    require(refusal == LUTSAMIK_OK || (lutsamik_line(answer) > 0) == (is_fault && operation == READ), "a fault that is read has a line, and no other");
    met[operation][refusal]++;
    if (refusal == LUTSAMIK_OK)
        has_done(operation, answer);
}

static void call(enum operation operation) {
    bool near = once_in(3);
    for (enum buffer which = 0; which < BUFFERS; which++)
        if (uses[operation][which] != NOT_LENT)
            lend(which, any_length(which, near), uses[operation][which] == CONST);
    uint64_t answer = invoke(operation);
    for (enum buffer which = 0; which < BUFFERS; which++)
        if (uses[operation][which] != NOT_LENT)
            take_back(which);
    check(operation, answer);
    for (enum buffer which = 0; which < BUFFERS; which++)
        if (uses[operation][which] != NOT_LENT)
            release(which);
}

/* ---- Days ---- */

/* A few bytes changed, but for the high bytes of the limit, which is at bytes 4 to 7: walks stay short. */
static void damage_table(void) {
    uint8_t *table = held[TABLE].bytes;
    size_t used = once_in(4) ? LUTSAMIK_TABLE_BYTES : 16;
    for (size_t times = 1 + below(3); times > 0; times--)
        table[below(used)] = (uint8_t)below(once_in(2) ? 256 : 34);
    memset(table + 4, 0, 3);
    is_fitted = false;
}

static size_t value_of(uint8_t digit) { return digit <= '9' ? (size_t)digit - '0' : (size_t)digit - 'A' + 10; }

/* Any line of the held text from its second third on, where clauses are likely, as bytes; some are changed, cut off or go on. */
static void any_frame(void) {
    const uint8_t *text = held[TEXT].bytes;
    uint8_t *frame = held[FRAME].bytes;
    size_t at = held[TEXT].len / 3 + below(held[TEXT].len + 1 - held[TEXT].len / 3), len = 0;
    while (at > 0 && text[at - 1] != '\n')
        at--;
    for (; at + 1 < held[TEXT].len && text[at] != '\n'; at += 2)
        frame[len++] = (uint8_t)(value_of(text[at]) << 4 | (value_of(text[at + 1]) & 15));
    if (len > 0 && once_in(6))
        frame[below(len)] = (uint8_t)below(once_in(2) ? 256 : 6);
    if (once_in(8))
        len = below(len + 1);
    for (size_t more = once_in(8) ? 1 + below(300) : 0; more > 0; more--)
        frame[len++] = (uint8_t)below(4);
    held[FRAME].len = len;
}

/* A slip that nobody has offered: with a frame, with other counts, or of any bytes. */
static void any_slip(void) {
    uint8_t *slip = held[SLIP].bytes;
    size_t len = held[FRAME].len < LUTSAMIK_SLIP_BYTES - 2 ? held[FRAME].len : LUTSAMIK_SLIP_BYTES - 2;
    any_bytes(slip, held[SLIP].len = LUTSAMIK_SLIP_BYTES);
    if (once_in(6))
        return;
    slip[0] = once_in(4) ? (uint8_t)below(256) : held[TABLE].bytes[2];
    slip[1] = once_in(6) ? (uint8_t)below(256) : (uint8_t)len;
    memcpy(slip + 2, held[FRAME].bytes, len);
}

/* A session that no call has left: with a byte changed near its beginning, near its end or anywhere, or of any bytes. */
static void any_session(void) {
    size_t len = held[SESSION].len, places[] = {below(16), len - 1 - below(4), below(len), below(len)};
    if (once_in(8))
        any_bytes(held[SESSION].bytes, len);
    else
        held[SESSION].bytes[places[below(4)]] ^= (uint8_t)(1 + below(255));
}

/* A few numbers, most of them atoms of a small ticket; some too many. */
static void any_facts(void) {
    uint32_t facts[80];
    size_t many = once_in(8) ? below(80) : below(4);
    for (size_t i = 0; i < many; i++)
        facts[i] = once_in(16) ? (uint32_t)(next_random() >> (32 + below(32))) : (uint32_t)(below(8) + 8 * (i / 4));
    memcpy(held[FACTS].bytes, facts, held[FACTS].len = many * sizeof *facts);
}

/* A few entries, or more than the session's count allows: walks stay short. */
static void any_further(void) {
    uint32_t count;
    memcpy(&count, held[SESSION].bytes, sizeof count);
    further = once_in(8) && count > 0 ? UINT32_MAX - (uint32_t)below(count) : (uint32_t)below(once_in(2) ? 3 : 30);
}

static void begin_day(void) {
    begin_random(seed);
    any_bytes(held[SESSION].bytes, held[SESSION].len = sizeof(struct lutsamik_session));
    any_bytes(held[SLIP].bytes, held[SLIP].len = LUTSAMIK_SLIP_BYTES);
    held[FRAME].len = 0;
    any_bytes(held[TABLE].bytes, held[TABLE].len = LUTSAMIK_TABLE_BYTES);
    for (size_t i = 0; i < LUTSAMIK_ANSWER_BYTES; i++)
        held[ANSWER].bytes[i] = (uint8_t)below(2);
    held[ANSWER].len = LUTSAMIK_ANSWER_BYTES;
    is_fitted = false;
}

/* Mostly a number that a small ticket has; or a large one. */
static uint32_t any_number(size_t bound) { return once_in(8) ? (uint32_t)(next_random() >> (32 + below(32))) : (uint32_t)below(bound); }

static void any_instance(void) {
    clause = any_number(4);
    for (size_t i = 0; i < 4; i++)
        values[i] = any_number(2);
}

/* A text is read, then any operation is called, and so on, with changes in between. */
static void day(void) {
    begin_day();
    for (int i = 0; i < CALLS_A_DAY; i++) {
        enum operation operation = i % 6 == 0 ? READ : (enum operation)below(OPERATIONS);
        if (operation == READ)
            held[TEXT].len = any_text(held[TEXT].bytes);
        else if (once_in(12))
            damage_table();
        if (operation == OFFER || once_in(6))
            any_frame();
        if (operation == SET && once_in(2))
            any_slip();
        if (once_in(6))
            held[ANSWER].bytes[below(24)] = (uint8_t)below(3);
        if ((operation == RESUME_RELEVANCY || operation == RESUME_MAGIC) && once_in(3))
            any_session();
        any_further();
        any_facts();
        any_instance();
        call(operation);
    }
}

/* How often each refusal came, or none; and that each operation was done, and met its refusals. */
static void print_met(void) {
    for (enum operation operation = 0; operation < OPERATIONS; operation++) {
        printf("%-16s", names[operation]);
        for (unsigned refusal = 0; refusal <= LUTSAMIK_BAD_FACTS; refusal++)
            if (met[operation][refusal] > 0)
                printf(" %u: %lu", refusal, met[operation][refusal]);
        printf("\n");
        require(met[operation][LUTSAMIK_OK] > 0 && met[operation][LUTSAMIK_SHORT_BUFFER] > 0, "each operation is done, and refused by 11");
        require(met[operation][operation == READ ? LUTSAMIK_BAD_LINE : LUTSAMIK_NO_TABLE] > 0, "each operation refuses what it is lent");
    }
    printf("%-16s none: %lu, fits: %lu, spent: %lu\n", "verdicts", verdicts[LUTSAMIK_NONE], verdicts[LUTSAMIK_FITS], verdicts[LUTSAMIK_SPENT]);
    require(verdicts[LUTSAMIK_NONE] > 0 && verdicts[LUTSAMIK_FITS] > 0 && verdicts[LUTSAMIK_SPENT] > 0, "each verdict comes");
    require(met[JUDGE][LUTSAMIK_BAD_ANSWER] > 0 && met[HOLDING][LUTSAMIK_BAD_ANSWER] > 0, "judging and holding refuse an answer");
    require(met[HOLDING][LUTSAMIK_NO_INSTANCE] > 0, "holding refuses an instance");
    require(met[SET][LUTSAMIK_STALE_SLIP] > 0, "setting refuses a stale slip");
    for (enum operation operation = RESUME_RELEVANCY; operation <= RESUME_MAGIC; operation++)
        require(met[operation][LUTSAMIK_TOO_MANY_ENTRIES] > 0 && met[operation][LUTSAMIK_NO_SESSION] > 0, "sessions are refused");
    for (enum operation operation = ASSUME_RELEVANCY; operation <= ASSUME_MAGIC; operation++)
        require(met[operation][LUTSAMIK_BAD_COUNT] > 0 && met[operation][LUTSAMIK_BAD_FACTS] > 0, "facts are refused");
    for (unsigned said = LUTSAMIK_NONE_ALWAYS; said <= LUTSAMIK_NONE_WITH_SOME; said++)
        require(said_of_facts[said] > 0, "each answer of open facts comes");
    for (unsigned verdict = LUTSAMIK_NONE; verdict <= LUTSAMIK_SPENT; verdict++)
        require(by_parts[verdict] > 0 && by_stages[verdict] > 0, "each verdict comes by parts and by stages");
    require(met[OFFER][LUTSAMIK_BAD_KIND] > 0 && met[OFFER][LUTSAMIK_BAD_LENGTH] > 0 && met[SET][LUTSAMIK_BAD_LENGTH] > 0, "rules are refused");
}

int main(int many, char **arguments) {
    unsigned long seconds = many > 1 ? strtoul(arguments[1], NULL, 10) : DEFAULT_SECONDS;
    time_t end = time(NULL) + (time_t)seconds;
    unsigned long days = 0;
    seed = many > 2 ? strtoull(arguments[2], NULL, 10) : (uint64_t)time(NULL);
    setvbuf(stdout, NULL, _IOLBF, BUFSIZ);
    printf("sanitized: %lu s, from seed %llu on\n", seconds, (unsigned long long)seed);
    __asan_set_death_callback(tell_seed);
    for (enum buffer which = 0; which < BUFFERS; which++)
        map_pages(which);
    for (; days == 0 || time(NULL) < end; days++, seed++)
        day();
    print_met();
    printf("sanitized: %lu calls on %lu days, and nothing is touched that may not be\n", days * CALLS_A_DAY, days);
    return 0;
}
