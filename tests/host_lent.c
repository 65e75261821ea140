#include "host_lent.h"

#include <stdio.h>
#include <stdlib.h>
#include <string.h>

const size_t required[KINDS] = {0,
                                0,
                                0,
                                LUTSAMIK_TABLE_BYTES,
                                sizeof(struct lutsamik_session),
                                LUTSAMIK_TEXT_BYTES,
                                LUTSAMIK_SLIP_BYTES,
                                LUTSAMIK_RULES_BYTES,
                                LUTSAMIK_ANSWER_BYTES,
                                LUTSAMIK_WORK_BYTES,
                                sizeof(uint32_t),
                                sizeof(uint32_t),
                                sizeof(uint64_t)};

static const struct {
    const char *name;
    unsigned kinds; /* a bit for each */
} operations[OPERATIONS] = {
    {"reading", 1 << TEXT | 1 << TABLE},
    {"writing", 1 << TABLE | 1 << OUT},
    {"offering", 1 << TABLE | 1 << FRAME | 1 << SLIP},
    {"setting", 1 << TABLE | 1 << SLIP},
    {"judging", 1 << TABLE | 1 << ANSWER},
    {"holding", 1 << TABLE | 1 << ANSWER},
    {"rewriting", 1 << TABLE | 1 << RULES},
    {"the relevancy engine", 1 << TABLE | 1 << ANSWER | 1 << WORK},
    {"the magic engine", 1 << TABLE | 1 << RULES | 1 << ANSWER | 1 << WORK},
    {"the staged engine", 1 << TABLE | 1 << ANSWER | 1 << WORK},
    {"a first run of the relevancy engine", 1 << TABLE | 1 << SESSION | 1 << ANSWER | 1 << WORK},
    {"a first run of the magic engine", 1 << TABLE | 1 << SESSION | 1 << RULES | 1 << ANSWER | 1 << WORK},
    {"the relevancy engine with a session", 1 << TABLE | 1 << SESSION | 1 << ANSWER | 1 << WORK},
    {"the magic engine with a session", 1 << TABLE | 1 << SESSION | 1 << RULES | 1 << ANSWER | 1 << WORK},
    {"the relevancy engine with open facts",
     1 << TABLE | 1 << FACTS | 1 << FIRST | 1 << SECOND | 1 << ANSWER | 1 << WORK},
    {"the magic engine with open facts",
     1 << TABLE | 1 << FACTS | 1 << FIRST | 1 << SECOND | 1 << RULES | 1 << ANSWER | 1 << WORK},
    {"the relevancy engine by parts", 1 << TABLE | 1 << COUNT | 1 << ANSWER | 1 << WORK},
    {"the magic engine by parts", 1 << TABLE | 1 << COUNT | 1 << RULES | 1 << ANSWER | 1 << WORK}};

struct lutsamik_session *session_of(const struct lent *lent) {
    return (struct lutsamik_session *)(void *)lent->of[SESSION].bytes;
}

uint32_t number_of(const struct lent *lent, enum kind kind) {
    uint32_t number;
    memcpy(&number, lent->of[kind].bytes, sizeof number);
    return number;
}

uint64_t sum_of(const struct lent *lent) {
    uint64_t sum;
    memcpy(&sum, lent->of[COUNT].bytes, sizeof sum);
    return sum;
}

int can_be_short(enum kind kind) {
    return required[kind] > 0 && kind != SESSION && kind < FIRST;
}

int uses(enum operation operation, enum kind kind) { return operations[operation].kinds >> kind & 1; }

static void stop(const char *what, const char *which) {
    printf("tests/host: %s %s\n", what, which);
    exit(1);
}

static uint8_t *block(size_t len) {
    uint8_t *bytes = malloc(len);
    if (!bytes)
        stop("no memory for", "a buffer");
    return bytes;
}

/* The ticket's text, in a block of its length. */
static void load(struct buffer *text, const char *ticket) {
    char path[128];
    snprintf(path, sizeof path, "crates/cases/data/%s.text", ticket);
    FILE *file = fopen(path, "rb");
    if (!file)
        stop("cannot open", path);
    uint8_t bytes[LUTSAMIK_TEXT_BYTES];
    text->len = fread(bytes, 1, sizeof bytes, file);
    if (ferror(file) || text->len == sizeof bytes)
        stop("cannot read", path);
    fclose(file);
    text->bytes = memcpy(block(text->len), bytes, text->len);
}

void lend(struct lent *lent, const char *ticket) {
    memset(lent, 0, sizeof *lent);
    lent->ticket = ticket;
    load(&lent->of[TEXT], ticket);
    put_digits(&lent->of[FRAME], "030000");
    put_facts(lent, NULL, 0);
    for (int kind = TABLE; kind < KINDS; kind++)
        resize(&lent->of[kind], required[kind]);
}

void take_back(struct lent *lent) {
    for (int kind = 0; kind < KINDS; kind++) {
        free(lent->of[kind].bytes);
        free(lent->of[kind].kept);
    }
}

void resize(struct buffer *buffer, size_t len) {
    size_t old = buffer->len < len ? buffer->len : len;
    uint8_t *bytes = block(len);
    memset(bytes, FILL, len);
    if (old > 0)
        memcpy(bytes, buffer->bytes, old);
    free(buffer->bytes);
    buffer->bytes = bytes;
    buffer->len = len;
}

static uint8_t digit(char c) { return (uint8_t)(c <= '9' ? c - '0' : c - 'A' + 10); }

void put_digits(struct buffer *buffer, const char *digits) {
    resize(buffer, strlen(digits) / 2);
    for (size_t i = 0; i < buffer->len; i++)
        buffer->bytes[i] = (uint8_t)(digit(digits[2 * i]) << 4 | digit(digits[2 * i + 1]));
}

void put_facts(struct lent *lent, const uint32_t *facts, size_t count) {
    resize(&lent->of[FACTS], count * sizeof *facts);
    if (count > 0)
        memcpy(lent->of[FACTS].bytes, facts, count * sizeof *facts);
}

/* A block as the numbers that it holds. */
static uint32_t *numbers(const struct buffer *buffer) { return (uint32_t *)(void *)buffer->bytes; }

void forget(struct buffer *buffer) {
    free(buffer->bytes);
    buffer->bytes = block(buffer->len);
}

void keep(struct buffer *buffer) {
    free(buffer->kept);
    buffer->kept = memcpy(block(buffer->len), buffer->bytes, buffer->len);
}

void keep_all(struct lent *lent) {
    for (int kind = 0; kind < KINDS; kind++)
        keep(&lent->of[kind]);
}

int as_kept(const struct buffer *buffer) { return memcmp(buffer->bytes, buffer->kept, buffer->len) == 0; }

int all(const struct buffer *buffer, size_t from, size_t to, uint8_t value) {
    while (from < to && buffer->bytes[from] == value)
        from++;
    return from == to;
}

uint64_t call(enum operation operation, const struct lent *lent) {
    const struct buffer *text = &lent->of[TEXT], *table = &lent->of[TABLE], *out = &lent->of[OUT];
    const struct buffer *frame = &lent->of[FRAME], *slip = &lent->of[SLIP];
    const struct buffer *rules = &lent->of[RULES], *answer = &lent->of[ANSWER], *work = &lent->of[WORK];
    const struct buffer *facts = &lent->of[FACTS];
    uint32_t *first = numbers(&lent->of[FIRST]), *second = numbers(&lent->of[SECOND]);
    uint64_t *count = (uint64_t *)(void *)lent->of[COUNT].bytes;
    switch (operation) {
    case READ:
        return lutsamik_read(text->bytes, text->len, table->bytes, table->len);
    case WRITE:
        return lutsamik_write(table->bytes, table->len, out->bytes, out->len);
    case OFFER:
        return lutsamik_offer(table->bytes, table->len, frame->bytes, frame->len, slip->bytes, slip->len);
    case SET:
        return lutsamik_set(table->bytes, table->len, slip->bytes, slip->len);
    case JUDGE:
        return lutsamik_judge(table->bytes, table->len, answer->bytes, answer->len);
    case HOLDING:
        return lutsamik_holding(table->bytes, table->len, answer->bytes, answer->len, lent->clause, lent->values[0],
                                lent->values[1], lent->values[2], lent->values[3]);
    case REWRITE:
        return lutsamik_rewrite(table->bytes, table->len, rules->bytes, rules->len);
    case RELEVANCY:
        return lutsamik_fit_relevancy(table->bytes, table->len, answer->bytes, answer->len, work->bytes, work->len);
    case MAGIC:
        return lutsamik_fit_magic(table->bytes, table->len, rules->bytes, rules->len, answer->bytes, answer->len,
                                  work->bytes, work->len);
    case STAGED:
        return lutsamik_fit_staged(table->bytes, table->len, answer->bytes, answer->len, work->bytes, work->len);
    case BEGIN_RELEVANCY:
        return lutsamik_begin_relevancy(session_of(lent), table->bytes, table->len, answer->bytes, answer->len,
                                        work->bytes, work->len);
    case BEGIN_MAGIC:
        return lutsamik_begin_magic(session_of(lent), table->bytes, table->len, rules->bytes, rules->len, answer->bytes,
                                    answer->len, work->bytes, work->len);
    case RESUME_RELEVANCY:
        return lutsamik_resume_relevancy(session_of(lent), lent->further, table->bytes, table->len, answer->bytes,
                                         answer->len, work->bytes, work->len);
    case RESUME_MAGIC:
        return lutsamik_resume_magic(session_of(lent), lent->further, table->bytes, table->len, rules->bytes,
                                     rules->len, answer->bytes, answer->len, work->bytes, work->len);
    case ASSUME_RELEVANCY:
        return lutsamik_assume_relevancy(table->bytes, table->len, numbers(facts), facts->len / sizeof(uint32_t), first,
                                         second, answer->bytes, answer->len, work->bytes, work->len);
    case PARTS_RELEVANCY:
        return lutsamik_parts_relevancy(table->bytes, table->len, count, answer->bytes, answer->len, work->bytes,
                                        work->len);
    case PARTS_MAGIC:
        return lutsamik_parts_magic(table->bytes, table->len, count, rules->bytes, rules->len, answer->bytes,
                                    answer->len, work->bytes, work->len);
    default:
        return lutsamik_assume_magic(table->bytes, table->len, numbers(facts), facts->len / sizeof(uint32_t), first,
                                     second, rules->bytes, rules->len, answer->bytes, answer->len, work->bytes,
                                     work->len);
    }
}

void read_ticket(const struct lent *lent) { check_result(LUTSAMIK_OK, READ, lent, call(READ, lent)); }

void check(int holds, const char *claim, enum operation operation, const struct lent *lent, uint64_t result) {
    if (holds)
        return;
    printf("tests/host: %s, %s: not so: %s\nresult %016llX; lent:", lent->ticket, operations[operation].name, claim,
           (unsigned long long)result);
    for (int kind = 0; kind < KINDS; kind++)
        if (uses(operation, (enum kind)kind))
            printf(" %zu", lent->of[kind].len);
    puts(" bytes");
    exit(1);
}

void check_result(uint64_t expected, enum operation operation, const struct lent *lent, uint64_t result) {
    char claim[64];
    snprintf(claim, sizeof claim, "the result is %016llX", (unsigned long long)expected);
    check(result == expected, claim, operation, lent, result);
}
