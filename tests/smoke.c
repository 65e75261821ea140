/* The header, as C and as C++: results are taken apart, a session has its layout, refusals of reading have their names,
 * and each operation is called on K1 or K6 of document 01. */
#include <lutsamik.h>

#include <stddef.h>
#include <stdio.h>
#include <string.h>

/* K6 is K1 with another last clause. Atoms 0 to 5 are 00 to 21, as predicate and argument. */
#define COUNTS "0101020300000064\n0201\n0201\n0201\n"
#define THREE "0300010000\n030102008001800280\n0301000100\n"
static const char K1[] = COUNTS THREE "0301000280\nFF04\n";
static const char K6[] = COUNTS THREE "03020002800001\nFF04\n";

static uint8_t table[LUTSAMIK_TABLE_BYTES];
static uint8_t out[LUTSAMIK_TEXT_BYTES];
static uint8_t slip[LUTSAMIK_SLIP_BYTES];
static uint8_t rules[LUTSAMIK_RULES_BYTES];
static uint8_t answer[LUTSAMIK_ANSWER_BYTES];
static uint8_t work[LUTSAMIK_WORK_BYTES];

static int fail(const char *what, uint64_t result) {
    printf("smoke: %s: result %016llX\n", what, (unsigned long long)result);
    return 1;
}

static int read_text(const char *text, size_t len, unsigned refusal, uint32_t line) {
    uint64_t result = lutsamik_read((const uint8_t *)text, len, table, sizeof table);
    if (lutsamik_refusal(result) != refusal || lutsamik_line(result) != line)
        return fail(text, result);
    return 0;
}

/* Every byte of the number is another one, so each function is seen to take its own. */
static int takes_apart(void) {
    const uint64_t result = UINT64_C(0x0807060504030201);
    if (lutsamik_refusal(result) != 0x01 || lutsamik_verdict(result) != 0x02 || lutsamik_judged(result) != 0x02 ||
        lutsamik_assumed(result) != 0x02 || lutsamik_clause(result) != 0x04 || lutsamik_deepest(result) != 0x0403)
        return fail("the low half is not taken apart", result);
    if (lutsamik_line(result) != 0x08070605 || lutsamik_written(result) != 0x08070605 ||
        lutsamik_rules(result) != 0x08070605 || lutsamik_count(result) != 0x08070605 ||
        lutsamik_held(result) != 0x08070605)
        return fail("the high half is not taken whole", result);
    if (lutsamik_value(result, 0) != 0x05 || lutsamik_value(result, 1) != 0x06 || lutsamik_value(result, 2) != 0x07 ||
        lutsamik_value(result, 3) != 0x08)
        return fail("the high half is not taken apart", result);
    return 0;
}

/* As it is kept: the fields one after the other, with no byte between them or behind, and of a number the low byte
 * first. */
static int is_laid_out(void) {
    typedef struct lutsamik_session session;
    if (offsetof(session, count) != 0 || offsetof(session, length) != 4 || offsetof(session, verdict) != 6 ||
        offsetof(session, next) != 7 || offsetof(session, atoms) != 8 || offsetof(session, nexts) != 2056 ||
        offsetof(session, deepest) != 3080)
        return fail("a field of a session is elsewhere", 0);
    session kept;
    if (sizeof kept != 3084 || sizeof kept.count != 4 || sizeof kept.length != 2 || sizeof kept.verdict != 1 ||
        sizeof kept.next != 1 || sizeof kept.atoms != 2048 || sizeof kept.nexts != 1024 || sizeof kept.deepest != 4)
        return fail("a field of a session has another size", sizeof kept);
    uint8_t bytes[sizeof kept];
    for (size_t i = 0; i < sizeof bytes; i++)
        bytes[i] = (uint8_t)(i + 1);
    memcpy(&kept, bytes, sizeof kept);
    if (kept.count != 0x04030201 || kept.length != 0x0605 || kept.verdict != 0x07 || kept.next != 0x08 ||
        kept.atoms[0] != 0x0A09 || kept.atoms[1023] != 0x0807 || kept.nexts[0] != 0x09 || kept.nexts[1023] != 0x08 ||
        kept.deepest != 0x0C0B0A09)
        return fail("a session's bytes are other numbers", kept.count);
    return 0;
}

#define ONE_PREDICATE "0101020100000000\n0201\n"
static const struct {
    const char *text;
    unsigned refusal;
    uint32_t line;
} refused[] = {
    {"0\n", LUTSAMIK_BAD_LINE, 1},
    {"", LUTSAMIK_BAD_KIND, 1},
    {"01\n", LUTSAMIK_BAD_LENGTH, 1},
    {"0102\n", LUTSAMIK_BAD_VERSION, 1},
    {ONE_PREDICATE "FF01\n", LUTSAMIK_BAD_COUNT, 3},
    {ONE_PREDICATE "03010001\n", LUTSAMIK_UNKNOWN, 3},
    {ONE_PREDICATE "0301000081\n", LUTSAMIK_BAD_NUMBERING, 3},
    {ONE_PREDICATE "0300010080\n", LUTSAMIK_FREE_VARIABLE, 3},
    {"0101200200000000\n0202\n0200\nFF00\n", LUTSAMIK_TOO_MANY_ATOMS, 3},
};

static int refuses(void) {
    for (size_t i = 0; i < sizeof refused / sizeof refused[0]; i++)
        if (read_text(refused[i].text, strlen(refused[i].text), refused[i].refusal, refused[i].line))
            return 1;
    return 0;
}

static int reads_and_writes(void) {
    const size_t len = sizeof K1 - 1;
    if (read_text(K1, len, LUTSAMIK_OK, 0))
        return 1;
    uint64_t result = lutsamik_write(table, sizeof table, out, sizeof out);
    if (lutsamik_refusal(result) != LUTSAMIK_OK || lutsamik_written(result) != len || memcmp(out, K1, len) != 0)
        return fail("K1 is not written back", result);
    return 0;
}

/* The table is K1's. 00, 01 and 20 together violate clause 1 where 80 is 1. */
static int judges(void) {
    answer[0] = answer[1] = answer[4] = 1;
    uint64_t result = lutsamik_judge(table, sizeof table, answer, sizeof answer);
    if (lutsamik_refusal(result) != LUTSAMIK_OK || lutsamik_judged(result) != LUTSAMIK_VIOLATED)
        return fail("three atoms are not found to violate K1", result);
    if (lutsamik_clause(result) != 1 || lutsamik_value(result, 0) != 1 || lutsamik_value(result, 1) != 0)
        return fail("K1's clause 1 is not found violated where 80 is 1", result);
    result = lutsamik_holding(table, sizeof table, answer, sizeof answer, 1, 1, UINT32_MAX, UINT32_MAX, UINT32_MAX);
    if (lutsamik_refusal(result) != LUTSAMIK_OK || lutsamik_held(result) != 1)
        return fail("its one condition is not found to hold", result);
    return 0;
}

/* K1 with the clause that K6 has last: it is offered, set, and written out; set again it is refused. */
static int adds(void) {
    static const uint8_t rule[] = {0x03, 0x02, 0x00, 0x02, 0x80, 0x00, 0x01};
    static const char longer[] = COUNTS THREE "0301000280\n03020002800001\nFF05\n";
    uint64_t result = lutsamik_offer(table, sizeof table, rule, sizeof rule, slip, sizeof slip);
    if (lutsamik_refusal(result) != LUTSAMIK_OK || slip[0] != 4 || slip[1] != sizeof rule)
        return fail("a rule cannot be added to K1", result);
    result = lutsamik_set(table, sizeof table, slip, sizeof slip);
    if (lutsamik_refusal(result) != LUTSAMIK_OK)
        return fail("a rule is not set in K1", result);
    result = lutsamik_write(table, sizeof table, out, sizeof out);
    if (lutsamik_written(result) != sizeof longer - 1 || memcmp(out, longer, sizeof longer - 1) != 0)
        return fail("K1 with a rule is not written out", result);
    result = lutsamik_set(table, sizeof table, slip, sizeof slip);
    if (lutsamik_refusal(result) != LUTSAMIK_STALE_SLIP)
        return fail("a slip is set twice", result);
    result = lutsamik_offer(table, sizeof table, rule, sizeof rule - 1, slip, sizeof slip);
    if (lutsamik_refusal(result) != LUTSAMIK_BAD_LENGTH || lutsamik_line(result) != 0)
        return fail("a rule with a byte missing can be added", result);
    return 0;
}

static int is_fit(uint64_t result, unsigned verdict, uint32_t count, uint32_t deepest) {
    return lutsamik_refusal(result) == LUTSAMIK_OK && lutsamik_verdict(result) == verdict &&
           lutsamik_count(result) == count && lutsamik_deepest(result) == deepest;
}

/* K1 has clauses with 0, 1, 1 and 1 conditions, so 1, 2, 2 and 2 rules; and no fitting, after two entries, each made
 * from the root. */
static int rewrites_and_fits_none(void) {
    uint64_t result = lutsamik_rewrite(table, sizeof table, rules, sizeof rules);
    if (lutsamik_refusal(result) != LUTSAMIK_OK || lutsamik_rules(result) != 7)
        return fail("K1 is not rewritten into seven rules", result);
    result = lutsamik_fit_relevancy(table, sizeof table, answer, sizeof answer, work, sizeof work);
    if (!is_fit(result, LUTSAMIK_NONE, 2, 1))
        return fail("K1 is not found to have no fitting", result);
    return 0;
}

/* The table is K1's. By stages it has no fitting either, after as many entries, and no path is told. */
static int fits_by_stages(void) {
    uint64_t result = lutsamik_fit_staged(table, sizeof table, answer, sizeof answer, work, sizeof work);
    if (!is_fit(result, LUTSAMIK_NONE, 2, 0))
        return fail("K1 is not found to have no fitting by stages", result);
    result = lutsamik_fit_staged(table, sizeof table, answer, sizeof answer, work, sizeof work - 1);
    if (lutsamik_refusal(result) != LUTSAMIK_SHORT_BUFFER)
        return fail("a work buffer that is too short is used by stages", result);
    return 0;
}

/* K6 with a limit of 1 is spent, and comes back with one further entry, by the other engine; then it is finished. It
 * has six atoms: a figure of six is kept, and one more is refused. */
static int comes_back(void) {
    static const char one[] = "0101020300000001\n0201\n0201\n0201\n" THREE "03020002800001\nFF04\n";
    struct lutsamik_session session;
    if (read_text(one, sizeof one - 1, LUTSAMIK_OK, 0))
        return 1;
    uint64_t result = lutsamik_begin_magic(&session, table, sizeof table, rules, sizeof rules, answer, sizeof answer,
                                           work, sizeof work);
    if (!is_fit(result, LUTSAMIK_SPENT, 1, 1) || session.verdict != LUTSAMIK_SPENT || session.length != 0 ||
        session.next != 1 || session.deepest != 1)
        return fail("K6 is not spent after one entry, at the root", result);
    result = lutsamik_resume_relevancy(&session, 1, table, sizeof table, answer, sizeof answer, work, sizeof work);
    if (!is_fit(result, LUTSAMIK_FITS, 2, 1) || session.length != 1 || session.atoms[0] != 4 || session.nexts[0] != 2)
        return fail("K6 does not fit after a further entry, 20", result);
    session.deepest = 6;
    result = lutsamik_resume_relevancy(&session, 0, table, sizeof table, answer, sizeof answer, work, sizeof work);
    if (!is_fit(result, LUTSAMIK_FITS, 2, 6) || session.deepest != 6)
        return fail("a deepest figure that K6 can have is not kept", result);
    session.deepest = 7;
    result = lutsamik_resume_relevancy(&session, 0, table, sizeof table, answer, sizeof answer, work, sizeof work);
    if (lutsamik_refusal(result) != LUTSAMIK_NO_SESSION || lutsamik_deepest(result) != 0)
        return fail("a path of seven of K6's six atoms is believed", result);
    session.deepest = 1;
    result = lutsamik_resume_magic(&session, UINT32_MAX - 1, table, sizeof table, rules, sizeof rules, answer,
                                   sizeof answer, work, sizeof work);
    if (lutsamik_refusal(result) != LUTSAMIK_TOO_MANY_ENTRIES)
        return fail("two entries and FFFFFFFE are not too many", result);
    session.verdict = LUTSAMIK_NONE;
    result = lutsamik_resume_magic(&session, 0, table, sizeof table, rules, sizeof rules, answer, sizeof answer, work,
                                   sizeof work);
    if (lutsamik_refusal(result) != LUTSAMIK_NO_SESSION)
        return fail("K6 is taken to have no fitting because a session says so", result);
    result = lutsamik_begin_relevancy(&session, table, sizeof table, answer, sizeof answer, work, sizeof work);
    if (!is_fit(result, LUTSAMIK_SPENT, 1, 1))
        return fail("K6 is not begun again", result);
    return 0;
}

/* K6 is fitted by 00, 11 and 20, after two entries. */
static int fits_and_judges(void) {
    static const uint8_t fitting[] = {1, 0, 0, 1, 1, 0};
    if (read_text(K6, sizeof K6 - 1, LUTSAMIK_OK, 0))
        return 1;
    uint64_t result =
        lutsamik_fit_magic(table, sizeof table, rules, sizeof rules, answer, sizeof answer, work, sizeof work);
    if (!is_fit(result, LUTSAMIK_FITS, 2, 1))
        return fail("K6 is not fitted", result);
    if (memcmp(answer, fitting, sizeof fitting) != 0)
        return fail("K6 is fitted otherwise", result);
    result = lutsamik_judge(table, sizeof table, answer, sizeof answer);
    if (lutsamik_refusal(result) != LUTSAMIK_OK || lutsamik_judged(result) != LUTSAMIK_FITTING)
        return fail("K6's fitting is not judged to be one", result);
    return 0;
}

/* The table is K6's. With 20 it fits at once; with 01, before or after it, it does not fit; there is no atom 6. The
 * answer keeps the fitting. */
static int assumes(void) {
    static const uint32_t facts[] = {4, 1, 6};
    uint32_t first = 9, second = 9;
    uint64_t result = lutsamik_assume_relevancy(table, sizeof table, facts, 1, &first, &second, answer, sizeof answer,
                                                work, sizeof work);
    if (lutsamik_refusal(result) != LUTSAMIK_OK || lutsamik_assumed(result) != LUTSAMIK_NONE_NEVER || first != 2 ||
        second != 0)
        return fail("K6 is not found to fit with and without 20", result);
    result = lutsamik_assume_magic(table, sizeof table, facts, 2, &first, &second, rules, sizeof rules, answer,
                                   sizeof answer, work, sizeof work);
    if (lutsamik_refusal(result) != LUTSAMIK_OK || lutsamik_assumed(result) != LUTSAMIK_NONE_WITH_SOME || first != 2 ||
        second != 0)
        return fail("K6 is not found to have no fitting with 20 and 01", result);
    first = second = 9;
    result = lutsamik_assume_magic(table, sizeof table, facts, 3, &first, &second, rules, sizeof rules, answer,
                                   sizeof answer, work, sizeof work);
    if (lutsamik_refusal(result) != LUTSAMIK_BAD_FACTS || first != 9 || second != 9)
        return fail("K6 is found to have an atom 6", result);
    result = lutsamik_judge(table, sizeof table, answer, sizeof answer);
    if (lutsamik_judged(result) != LUTSAMIK_FITTING)
        return fail("K6's fitting does not stay in the answer", result);
    return 0;
}

/* The table is K6's: its one part is fitted as the whole is. The count is lent, and is not in the result. */
static int fits_by_parts(void) {
    uint64_t count = 9;
    uint64_t result = lutsamik_parts_relevancy(table, sizeof table, &count, answer, sizeof answer, work, sizeof work);
    if (!is_fit(result, LUTSAMIK_FITS, 0, 0) || count != 2)
        return fail("K6 is not fitted by its one part", result);
    count = 9;
    result = lutsamik_parts_magic(table, sizeof table, &count, rules, sizeof rules, answer, sizeof answer, work,
                                  sizeof work);
    if (!is_fit(result, LUTSAMIK_FITS, 0, 0) || count != 2)
        return fail("K6 is not fitted by its one part and by rules", result);
    result = lutsamik_parts_magic(table, sizeof table - 1, &count, rules, sizeof rules, answer, sizeof answer, work,
                                  sizeof work);
    if (lutsamik_refusal(result) != LUTSAMIK_SHORT_BUFFER || count != 2)
        return fail("a table that is too short is fitted by parts", result);
    return 0;
}

/* Of K6's fitting clause 3 has its first condition, 20, where 80 is 0, and not its second, 01. There is no clause 4. */
static int says_how_many_hold(void) {
    uint64_t result = lutsamik_holding(table, sizeof table, answer, sizeof answer, 3, 0, 0, 0, 0);
    if (lutsamik_refusal(result) != LUTSAMIK_OK || lutsamik_held(result) != 1)
        return fail("one of two conditions of K6's clause 3 is not found to hold", result);
    result = lutsamik_holding(table, sizeof table, answer, sizeof answer, 3, 1, 0, 0, 0);
    if (lutsamik_refusal(result) != LUTSAMIK_OK || lutsamik_held(result) != 0)
        return fail("where 80 is 1 its first condition is found to hold", result);
    result = lutsamik_holding(table, sizeof table, answer, sizeof answer, 4, 0, 0, 0, 0);
    if (lutsamik_refusal(result) != LUTSAMIK_NO_INSTANCE)
        return fail("K6 is found to have a clause 4", result);
    return 0;
}

int main(void) {
    if (takes_apart() || is_laid_out() || refuses() || reads_and_writes() || judges() || rewrites_and_fits_none() ||
        fits_by_stages() || adds() || comes_back() || fits_and_judges() || assumes() || fits_by_parts() ||
        says_how_many_hold())
        return 1;
    puts("smoke: results are taken apart, a session is laid out, and each operation answers for K1 or K6");
    return 0;
}
