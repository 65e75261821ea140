/* Refusals from C: buffers that are too short, tables that no text reads to, answers that are none, instances that are
 * lacking, rules that cannot be added, slips that are mangled, sessions that stand nowhere, facts that are no atoms or
 * too many, texts cut short. Each is
 * refused by its number, and each lent buffer stays as it was. */
#include "host_lent.h"

#include <stdio.h>
#include <string.h>

static unsigned refusals;

static void refused(uint64_t expected, enum operation operation, const struct lent *lent) {
    uint64_t result = call(operation, lent);
    check_result(expected, operation, lent, result);
    for (int kind = 0; kind < KINDS; kind++)
        if (uses(operation, (enum kind)kind))
            check(as_kept(&lent->of[kind]), "each buffer stays", operation, lent, result);
    refusals++;
}

/* One buffer has this length: 11, whether or not there is a table. The facts are none of its atoms. */
static void short_buffer(enum kind kind, size_t len, int table) {
    struct lent lent;
    lend(&lent, "K6");
    if (table)
        read_ticket(&lent);
    resize(&lent.of[kind], len);
    resize(&lent.of[FACTS], 8);
    keep_all(&lent);
    for (int operation = 0; operation < OPERATIONS; operation++)
        if (uses((enum operation)operation, kind))
            refused(LUTSAMIK_SHORT_BUFFER, (enum operation)operation, &lent);
    take_back(&lent);
}

static void short_buffers(void) {
    for (int kind = 0; kind < KINDS; kind++) {
        if (!can_be_short((enum kind)kind))
            continue;
        short_buffer((enum kind)kind, required[kind] - 1, 1);
        short_buffer((enum kind)kind, required[kind] - 1, 0);
        short_buffer((enum kind)kind, 0, 1);
    }
}

/* All that take a table refuse this one by 31. The answer's bytes are none, the instance is lacking, the frame has no
 * bytes, the slip is stale and has no room for its length, the session stands nowhere, its count and the further limit
 * pass what they may, and the facts are too many, but that comes later. */
static void no_table(struct lent *lent) {
    lent->clause = lent->further = UINT32_MAX;
    resize(&lent->of[FRAME], 0);
    resize(&lent->of[FACTS], 65 * sizeof(uint32_t));
    keep_all(lent);
    for (int operation = WRITE; operation < OPERATIONS; operation++)
        refused(LUTSAMIK_NO_TABLE, (enum operation)operation, lent);
}

/* Whether a table is some ticket's: it can be written out. */
static int is_table(const struct lent *lent) {
    uint8_t out[LUTSAMIK_TEXT_BYTES];
    uint64_t result = lutsamik_write(lent->of[TABLE].bytes, lent->of[TABLE].len, out, sizeof out);
    return lutsamik_refusal(result) == LUTSAMIK_OK;
}

/* Each byte of a table is complemented in turn. Any limit may stand in a ticket, so its four bytes make another
 * ticket's table; no other byte does. */
static void mangled_bytes(void) {
    struct lent lent;
    lend(&lent, "K6");
    read_ticket(&lent);
    unsigned tables = 0;
    for (size_t place = 0; place < required[TABLE]; place++) {
        lent.of[TABLE].bytes[place] ^= 0xFF;
        if (is_table(&lent))
            tables++;
        else
            no_table(&lent);
        lent.of[TABLE].bytes[place] ^= 0xFF;
    }
    check(tables == 4, "four bytes may be complemented", WRITE, &lent, tables);
    take_back(&lent);
}

/* Tables that were never read into. */
static void filled_tables(void) {
    static const uint8_t fillings[] = {0x00, 0x01, 0x20, 0x80, 0xFF};
    struct lent lent;
    lend(&lent, "K6");
    no_table(&lent);
    for (size_t i = 0; i < sizeof fillings; i++) {
        memset(lent.of[TABLE].bytes, fillings[i], required[TABLE]);
        no_table(&lent);
    }
    take_back(&lent);
}

/* K6 has six atoms: 32 for a byte among the first six, whatever the instance, and the seventh does not matter. */
static void bad_answers(void) {
    struct lent lent;
    lend(&lent, "K6");
    read_ticket(&lent);
    uint8_t *answer = lent.of[ANSWER].bytes;
    memcpy(answer, "\1\0\0\1\1\0", 6);
    check_result(LUTSAMIK_FITTING << 8, JUDGE, &lent, call(JUDGE, &lent));
    for (size_t atom = 0; atom < 6; atom++) {
        uint8_t mark = answer[atom];
        answer[atom] = atom % 2 ? 0xFF : 2;
        keep_all(&lent);
        refused(LUTSAMIK_BAD_ANSWER, JUDGE, &lent);
        lent.clause = atom % 2 ? 4 : 0;
        refused(LUTSAMIK_BAD_ANSWER, HOLDING, &lent);
        answer[atom] = mark;
    }
    take_back(&lent);
}

/* K6 has four clauses and two constants. Clause 3 has the variable 80 and two conditions, 20 and 01 where it is 0: of
 * its fitting the first holds and the second does not. Numbers of which only the last bytes are there are lacking too. */
static void lacking_instances(void) {
    static const uint32_t clauses[] = {4, 5, 63, 64, 255, 256, 259, 65539, 0x80000003, UINT32_MAX};
    static const uint32_t values[] = {2, 31, 32, 255, 256, 257, 65536, 0x80000000, UINT32_MAX};
    struct lent lent;
    lend(&lent, "K6");
    read_ticket(&lent);
    memcpy(lent.of[ANSWER].bytes, "\1\0\0\1\1\0", 6);
    keep_all(&lent);
    for (size_t i = 0; i < sizeof clauses / sizeof *clauses; i++) {
        lent.clause = clauses[i];
        refused(LUTSAMIK_NO_INSTANCE, HOLDING, &lent);
    }
    lent.clause = 3;
    for (size_t i = 0; i < sizeof values / sizeof *values; i++) {
        lent.values[0] = values[i];
        refused(LUTSAMIK_NO_INSTANCE, HOLDING, &lent);
        lent.values[0] = 0;
        lent.values[1] = lent.values[2] = lent.values[3] = values[i];
        check_result((uint64_t)1 << 32, HOLDING, &lent, call(HOLDING, &lent));
    }
    take_back(&lent);
}

/* A rule for K6, which has four clauses, two constants and three predicates of one argument, by its digits; so many
 * zeros follow. Where a slip can hold it, setting refuses it alike. */
static void refused_rule(unsigned refusal, const char *digits, size_t zeros, struct lent *lent) {
    struct buffer *frame = &lent->of[FRAME], *slip = &lent->of[SLIP];
    put_digits(frame, digits);
    size_t len = frame->len;
    resize(frame, len + zeros);
    memset(frame->bytes + len, 0, zeros);
    keep_all(lent);
    refused(refusal, OFFER, lent);
    if (frame->len > required[SLIP] - 2)
        return;
    memset(slip->bytes, 0, slip->len);
    slip->bytes[0] = 4;
    slip->bytes[1] = (uint8_t)frame->len;
    memcpy(slip->bytes + 2, frame->bytes, frame->len);
    keep_all(lent);
    refused(refusal, SET, lent);
    slip->bytes[0] = 5;
    keep_all(lent);
    refused(LUTSAMIK_STALE_SLIP, SET, lent);
}

/* Bytes left over are refused by 3 at any length, unless a fault comes before them. */
static void refused_rules(void) {
    static const struct {
        unsigned refusal;
        const char *digits;
        size_t zeros;
    } rules[] = {
        {LUTSAMIK_BAD_KIND, "", 0},
        {LUTSAMIK_BAD_KIND, "FF04", 0},
        {LUTSAMIK_BAD_KIND, "02", 300},
        {LUTSAMIK_BAD_LENGTH, "03", 0},
        {LUTSAMIK_BAD_LENGTH, "03010002", 0},
        {LUTSAMIK_BAD_LENGTH, "0301000280", 1},
        {LUTSAMIK_BAD_LENGTH, "0301000280", 30},
        {LUTSAMIK_BAD_LENGTH, "0301000280", 31},
        {LUTSAMIK_BAD_LENGTH, "0301000280", 32},
        {LUTSAMIK_BAD_LENGTH, "0301000280", 250},
        {LUTSAMIK_BAD_LENGTH, "0301000280", 251},
        {LUTSAMIK_BAD_LENGTH, "0301000280", 65531},
        {LUTSAMIK_BAD_COUNT, "0305", 0},
        {LUTSAMIK_BAD_COUNT, "0305", 34},
        {LUTSAMIK_UNKNOWN, "03010003", 0},
        {LUTSAMIK_UNKNOWN, "0301000102", 31},
        {LUTSAMIK_BAD_NUMBERING, "0301000181", 0},
        {LUTSAMIK_BAD_NUMBERING, "0301000181", 251},
        {LUTSAMIK_FREE_VARIABLE, "0300010180", 0},
        {LUTSAMIK_BAD_LENGTH, "0300010180", 31},
    };
    struct lent lent;
    lend(&lent, "K6");
    read_ticket(&lent);
    for (size_t i = 0; i < sizeof rules / sizeof *rules; i++)
        refused_rule(rules[i].refusal, rules[i].digits, rules[i].zeros, &lent);
    take_back(&lent);
    lend(&lent, "K11");
    read_ticket(&lent);
    refused_rule(LUTSAMIK_TOO_MANY_MARKS, "030100000000", 0, &lent);
    take_back(&lent);
}

/* Each byte of a slip is complemented in turn: the number of clauses, the length, the kind, two counts, a predicate and
 * an argument of K6's. The bytes past its frame do not matter. */
static void mangled_slips(void) {
    static const unsigned refusals_by[] = {LUTSAMIK_STALE_SLIP, LUTSAMIK_BAD_LENGTH, LUTSAMIK_BAD_KIND, LUTSAMIK_BAD_COUNT,
                                           LUTSAMIK_BAD_COUNT,  LUTSAMIK_UNKNOWN,    LUTSAMIK_UNKNOWN};
    struct lent lent;
    lend(&lent, "K6");
    put_digits(&lent.of[FRAME], "0301000280");
    for (size_t place = 0; place < required[SLIP]; place++) {
        read_ticket(&lent);
        check_result(LUTSAMIK_OK, OFFER, &lent, call(OFFER, &lent));
        lent.of[SLIP].bytes[place] ^= 0xFF;
        keep_all(&lent);
        if (place < sizeof refusals_by / sizeof *refusals_by)
            refused(refusals_by[place], SET, &lent);
        else
            check_result(LUTSAMIK_OK, SET, &lent, call(SET, &lent));
    }
    take_back(&lent);
}

/* A ticket is filled up to 64 clauses; then there is no room for another, whatever stands after its kind. */
static void full_ticket(void) {
    struct lent lent;
    lend(&lent, "K6");
    read_ticket(&lent);
    for (int clauses = 4; clauses < 64; clauses++) {
        check_result(LUTSAMIK_OK, OFFER, &lent, call(OFFER, &lent));
        check_result(LUTSAMIK_OK, SET, &lent, call(SET, &lent));
    }
    static const char *const rules[] = {"030000", "03", "0301000181", "03010003"};
    for (size_t i = 0; i < sizeof rules / sizeof *rules; i++) {
        put_digits(&lent.of[FRAME], rules[i]);
        keep_all(&lent);
        refused(LUTSAMIK_BAD_COUNT, OFFER, &lent);
    }
    refused(LUTSAMIK_STALE_SLIP, SET, &lent);
    lent.of[SLIP].bytes[0] = 64;
    keep_all(&lent);
    refused(LUTSAMIK_BAD_COUNT, SET, &lent);
    put_digits(&lent.of[FRAME], "02");
    keep_all(&lent);
    refused(LUTSAMIK_BAD_KIND, OFFER, &lent);
    take_back(&lent);
}

/* A session is refused by both engines, and all that is lent stays. */
static void refused_session(unsigned refusal, uint32_t further, const struct lutsamik_session *session,
                            struct lent *lent) {
    *session_of(lent) = *session;
    lent->further = further;
    keep_all(lent);
    refused(refusal, RESUME_RELEVANCY, lent);
    refused(refusal, RESUME_MAGIC, lent);
}

/* Sessions for K6, by hand. Its root is split, into 10 and 20, which are the atoms 2 and 4, and where 20 is entered it
 * is open: so a session that fits has entered 4, the second of two; what stands past its path does not matter. One
 * field of it is changed, to each of these. There are six atoms, so that a deepest figure from 1 to 6 is answered. */
static void refused_sessions(void) {
    static const uint8_t verdicts[] = {LUTSAMIK_NONE, 3, 4, 0x81, 0x82, 0xFF};
    static const uint8_t nexts[] = {0, 1, 3, 4, 0x82, 0xFF};
    static const uint16_t lengths[] = {0, 2, 3, 1024, 1025, 0x101, 0xFFFF};
    static const uint16_t atoms[] = {0, 2, 3, 5, 6, 0x104, 0x404, 0xFFFF};
    static const uint32_t figures[] = {0, 7, 8, 0x101, 0x10001, 0x01000001, 0x80000001, UINT32_MAX};
    const struct lutsamik_session fits = {.count = 2,
                                          .length = 1,
                                          .verdict = LUTSAMIK_FITS,
                                          .atoms = {4, [2] = 9, [1023] = 9},
                                          .nexts = {2, [2] = 9, [1023] = 9},
                                          .deepest = 1};
    struct lutsamik_session other = fits;
    struct lent lent;
    lend(&lent, "K6");
    read_ticket(&lent);
    refused_session(LUTSAMIK_TOO_MANY_ENTRIES, UINT32_MAX - 1, &fits, &lent);
    for (size_t i = 0; i < sizeof verdicts; i++) {
        other.verdict = verdicts[i];
        refused_session(LUTSAMIK_NO_SESSION, UINT32_MAX - 2, &other, &lent);
        refused_session(LUTSAMIK_TOO_MANY_ENTRIES, UINT32_MAX - 1, &other, &lent);
    }
    other = fits;
    for (size_t i = 0; i < sizeof lengths / sizeof *lengths; i++) {
        other.length = lengths[i];
        refused_session(LUTSAMIK_NO_SESSION, 0, &other, &lent);
    }
    other = fits;
    for (size_t i = 0; i < sizeof atoms / sizeof *atoms; i++) {
        other.atoms[0] = atoms[i];
        refused_session(LUTSAMIK_NO_SESSION, 0, &other, &lent);
    }
    other = fits;
    for (size_t i = 0; i < sizeof nexts; i++) {
        other.nexts[0] = nexts[i];
        refused_session(LUTSAMIK_NO_SESSION, 0, &other, &lent);
    }
    other = fits;
    for (other.next = 1; other.next > 0; other.next++)
        refused_session(LUTSAMIK_NO_SESSION, 0, &other, &lent);
    other = fits;
    for (size_t i = 0; i < sizeof figures / sizeof *figures; i++) {
        other.deepest = figures[i];
        refused_session(LUTSAMIK_NO_SESSION, UINT32_MAX - 2, &other, &lent);
        refused_session(LUTSAMIK_TOO_MANY_ENTRIES, UINT32_MAX - 1, &other, &lent);
    }
    lent.further = UINT32_MAX - 2;
    for (other.deepest = 1; other.deepest <= 6; other.deepest++) {
        *session_of(&lent) = other;
        check_result(LUTSAMIK_FITS << 8 | other.deepest << 16 | (uint64_t)2 << 32, RESUME_MAGIC, &lent,
                     call(RESUME_MAGIC, &lent));
    }
    take_back(&lent);
}

/* Facts are refused by both engines, and all that is lent stays. */
static void refused_by_facts(unsigned refusal, const uint32_t *facts, size_t count, struct lent *lent) {
    put_facts(lent, facts, count);
    keep_all(lent);
    refused(refusal, ASSUME_RELEVANCY, lent);
    refused(refusal, ASSUME_MAGIC, lent);
}

/* K6 has six atoms and four clauses: 45 for a number of 6 or more, also one of which only the last bytes are an atom's,
 * for one that stands there twice, and for 17 facts; but 5 where there are more than 60. K11 has 1,024 atoms, and
 * denies each. */
static void refused_facts(void) {
    static const uint32_t others[] = {6,     7,     255,   256,        257,        1023,      1024,
                                      65535, 65536, 65537, 0x01000000, 0x80000001, UINT32_MAX};
    static const uint32_t repeated[][3] = {{3, 3, 0}, {3, 0, 3}, {0, 3, 3}, {5, 5, 5}, {0, 0, 6}};
    uint32_t many[70];
    struct lent lent;
    lend(&lent, "K6");
    read_ticket(&lent);
    for (size_t i = 0; i < sizeof others / sizeof *others; i++)
        for (size_t place = 0; place < 3; place++) {
            uint32_t facts[3] = {1, 2, 4};
            facts[place] = others[i];
            refused_by_facts(LUTSAMIK_BAD_FACTS, facts, 3, &lent);
            refused_by_facts(LUTSAMIK_BAD_FACTS, facts + place, 1, &lent);
        }
    for (size_t i = 0; i < sizeof repeated / sizeof *repeated; i++)
        refused_by_facts(LUTSAMIK_BAD_FACTS, repeated[i], 3, &lent);
    for (uint32_t i = 0; i < 70; i++)
        many[i] = i;
    for (size_t count = 7; count <= 70; count++)
        refused_by_facts(count > 60 ? LUTSAMIK_BAD_COUNT : LUTSAMIK_BAD_FACTS, many, count, &lent);
    take_back(&lent);
    lend(&lent, "K11");
    read_ticket(&lent);
    refused_by_facts(LUTSAMIK_BAD_FACTS, many, 17, &lent);
    refused_by_facts(LUTSAMIK_BAD_FACTS, many, 60, &lent);
    refused_by_facts(LUTSAMIK_BAD_COUNT, many, 61, &lent);
    many[15] = 14;
    refused_by_facts(LUTSAMIK_BAD_FACTS, many, 16, &lent);
    many[15] = 1024;
    refused_by_facts(LUTSAMIK_BAD_FACTS, many, 16, &lent);
    many[15] = 1023;
    put_facts(&lent, many, 16);
    check_result(LUTSAMIK_NONE_WITH_SOME << 8, ASSUME_MAGIC, &lent, call(ASSUME_MAGIC, &lent));
    take_back(&lent);
}

/* A text that ends with a line is refused by 2 at the next, for want of FF, and one that ends within a line by 1. */
static uint64_t cut_short(const struct buffer *text) {
    uint64_t line = 1;
    for (size_t i = 0; i < text->len; i++)
        line += text->bytes[i] == '\n';
    int whole = text->len == 0 || text->bytes[text->len - 1] == '\n';
    return line << 32 | (whole ? LUTSAMIK_BAD_KIND : LUTSAMIK_BAD_LINE);
}

static void cut_texts(void) {
    struct lent lent;
    lend(&lent, "K6");
    struct buffer *text = &lent.of[TEXT];
    while (text->len > 0) {
        resize(text, text->len - 1);
        keep_all(&lent);
        refused(cut_short(text), READ, &lent);
    }
    take_back(&lent);
}

/* A ticket that document 01 has refused, and 11 before that where the table is short. */
static void refused_ticket(const char *ticket, unsigned refusal, uint32_t line) {
    struct lent lent;
    lend(&lent, ticket);
    keep_all(&lent);
    refused(refusal | (uint64_t)line << 32, READ, &lent);
    resize(&lent.of[TABLE], required[TABLE] - 1);
    keep_all(&lent);
    refused(LUTSAMIK_SHORT_BUFFER, READ, &lent);
    take_back(&lent);
}

int main(void) {
    short_buffers();
    mangled_bytes();
    filled_tables();
    bad_answers();
    lacking_instances();
    refused_rules();
    mangled_slips();
    full_ticket();
    refused_sessions();
    refused_facts();
    cut_texts();
    refused_ticket("K10_refused", LUTSAMIK_TOO_MANY_ATOMS, 3);
    refused_ticket("K11_refused", LUTSAMIK_TOO_MANY_MARKS, 7);
    printf("host_refused: %u calls are refused, and leave each byte\n", refusals);
    return 0;
}
