/* The operations on buffers of exactly the required sizes: what each gives of a ticket, and what it leaves in each
 * byte. Then again on buffers that nobody has written. */
#include "host_lent.h"

#include <stdio.h>
#include <string.h>

/* What document 01, or crates/cases/data/README.md, has of a ticket; the entries of its longest path, and of the staged
 * walk, by hand. The rules are one for each clause and one for each condition. The marks are repeated until there is one for each atom. Of
 * the fitting so many conditions hold in the last clause's instance where 80 and 81 are 0. The rule, by its digits, can
 * be added. */
struct known {
    const char *ticket;
    unsigned verdict;
    uint32_t count;
    uint32_t deepest;
    uint32_t staged;
    uint32_t rules;
    size_t atoms;
    const char *marks;
    uint32_t clauses;
    uint32_t hold;
    const char *rule;
};

static const struct known tickets[] = {
    {"K1", LUTSAMIK_NONE, 2, 1, 2, 7, 6, "", 4, 0, "0301000280"},
    {"K2", LUTSAMIK_NONE, 2, 1, 2, 7, 6, "", 4, 0, "0300010001"},
    {"K3", LUTSAMIK_SPENT, 1, 1, 1, 7, 6, "", 4, 0, "030000"},
    {"K4", LUTSAMIK_SPENT, 0, 0, 0, 7, 6, "", 4, 0, "03040400800181028200830080018102820083"},
    {"K5", LUTSAMIK_FITS, 0, 0, 0, 5, 6, "110111", 3, 0, "03020002800001"},
    {"K6", LUTSAMIK_FITS, 2, 1, 2, 8, 6, "100110", 4, 1, "030102008001800280"},
    {"K7", LUTSAMIK_FITS, 0, 0, 0, 0, 1, "1", 0, 0, "03000100"},
    {"K8", LUTSAMIK_NONE, 0, 0, 0, 1, 1, "", 1, 0, "030000"},
    {"K9", LUTSAMIK_NONE, 1, 1, 1, 3, 1, "", 2, 0, "0304040000000000000000"},
    {"K10", LUTSAMIK_FITS, 0, 0, 0, 0, 1024, "1", 0, 0, "030404001F1F001F1F001F1F001F1F001F1F001F1F001F1F001F1F"},
    {"K11", LUTSAMIK_FITS, 0, 0, 0, 20, 1024, "0", 4, 0, "030001001F1F"},
    {"example_1", LUTSAMIK_NONE, 4, 2, 4, 16, 12, "", 8, 0, "030201048005810580"},
    {"example_7", LUTSAMIK_NONE, 6, 2, 2, 15, 6, "", 8, 0, "03000400010203"},
};

/* The result with this in bits 8 to 15 and that in bits 32 to 63. */
static uint64_t packed(unsigned low, size_t high) { return (uint64_t)low << 8 | (uint64_t)high << 32; }

/* Without a fact: where the first run fits or is spent, the second is the same run again. */
static unsigned assumed_of(const struct known *known) {
    return known->verdict == LUTSAMIK_FITS   ? LUTSAMIK_NONE_NEVER
           : known->verdict == LUTSAMIK_NONE ? LUTSAMIK_NONE_ALWAYS
                                             : LUTSAMIK_SPENT;
}

/* Each operation's result; judging and holding are asked for a fitting, and no facts are open. */
static uint64_t expected(enum operation operation, const struct lent *lent, const struct known *known) {
    switch (operation) {
    case READ:
    case OFFER:
    case SET:
        return packed(0, 0);
    case WRITE:
        return packed(0, lent->of[TEXT].len);
    case JUDGE:
        return packed(LUTSAMIK_FITTING, 0);
    case HOLDING:
        return lent->clause < known->clauses ? packed(0, known->hold) : LUTSAMIK_NO_INSTANCE;
    case REWRITE:
        return packed(0, known->rules);
    case ASSUME_RELEVANCY:
    case ASSUME_MAGIC:
        return packed(assumed_of(known), 0);
    case PARTS_RELEVANCY:
    case PARTS_MAGIC:
        return packed(known->verdict, 0);
    case STAGED:
        return packed(known->verdict, known->staged);
    default:
        return packed(known->verdict, known->count) | known->deepest << 16;
    }
}

static uint64_t answered(enum operation operation, const struct lent *lent, const struct known *known) {
    uint64_t result = call(operation, lent);
    check_result(expected(operation, lent, known), operation, lent, result);
    return result;
}

/* Reading leaves the same table whatever stood there, so each of its bytes is written. */
static void reads(struct lent *lent, const struct known *known) {
    keep_all(lent);
    answered(READ, lent, known);
    keep(&lent->of[TABLE]);
    forget(&lent->of[TABLE]);
    uint64_t result = answered(READ, lent, known);
    check(as_kept(&lent->of[TABLE]), "each byte of the table is written", READ, lent, result);
    check(as_kept(&lent->of[TEXT]), "the text stays", READ, lent, result);
}

static void writes(struct lent *lent, const struct known *known) {
    const struct buffer *text = &lent->of[TEXT], *out = &lent->of[OUT];
    uint64_t result = answered(WRITE, lent, known);
    check(memcmp(out->bytes, text->bytes, text->len) == 0, "the text is written back", WRITE, lent, result);
    check(all(out, text->len, out->len, FILL), "the rest of out stays", WRITE, lent, result);
    check(as_kept(&lent->of[TABLE]), "the table stays", WRITE, lent, result);
}

/* Over two different fillings the rules are alike up to some place, and from there on each filling stays. The first
 * one's are kept. */
static void rewrites(struct lent *lent, const struct known *known) {
    struct buffer *rules = &lent->of[RULES];
    answered(REWRITE, lent, known);
    keep(rules);
    memset(rules->bytes, FILL ^ 0xFF, rules->len);
    uint64_t result = answered(REWRITE, lent, known);

    size_t end = 0;
    while (end < rules->len && rules->bytes[end] == rules->kept[end])
        end++;
    check(end > 0, "rules are written", REWRITE, lent, result);
    check(all(rules, end, rules->len, FILL ^ 0xFF), "the bytes past the rules stay", REWRITE, lent, result);
    check(as_kept(&lent->of[TABLE]), "the table stays", REWRITE, lent, result);
}

/* Whether the answer has the ticket's fitting. */
static int marked(const struct buffer *answer, const struct known *known) {
    size_t len = strlen(known->marks), atom = 0;
    while (atom < known->atoms && answer->bytes[atom] == known->marks[atom % len] - '0')
        atom++;
    return atom == known->atoms;
}

static void fits(enum operation engine, struct lent *lent, const struct known *known) {
    struct buffer *answer = &lent->of[ANSWER], *work = &lent->of[WORK];
    memset(answer->bytes, FILL, answer->len);
    memset(work->bytes, FILL, work->len);
    uint64_t result = answered(engine, lent, known);

    size_t atoms = known->verdict == LUTSAMIK_FITS ? known->atoms : 0;
    check(atoms == 0 || marked(answer, known), "the answer has the fitting", engine, lent, result);
    check(all(answer, atoms, answer->len, FILL), "the rest of the answer stays", engine, lent, result);
    check(all(work, 0, work->len, 0), "work is zero", engine, lent, result);
    check(as_kept(&lent->of[TABLE]), "the table stays", engine, lent, result);
}

/* The magic engine leaves the rules as rewriting has left them, over the same filling. */
static void fits_by_rules(enum operation engine, struct lent *lent, const struct known *known) {
    struct buffer *rules = &lent->of[RULES];
    memset(rules->bytes, FILL, rules->len);
    fits(engine, lent, known);
    check(as_kept(rules), "the rules are those of rewriting", engine, lent, 0);
}

/* First runs, each into a session that nobody has written, and going on with no further entry, which changes
 * nothing. */
static void begins_and_resumes(struct lent *lent, const struct known *known) {
    struct buffer *session = &lent->of[SESSION];
    forget(session);
    fits(BEGIN_RELEVANCY, lent, known);
    keep(session);
    forget(session);
    fits_by_rules(BEGIN_MAGIC, lent, known);
    check(as_kept(session), "each byte of the session is written, and alike", BEGIN_MAGIC, lent, 0);
    lent->further = 0;
    fits(RESUME_RELEVANCY, lent, known);
    check(as_kept(session), "the session stays", RESUME_RELEVANCY, lent, 0);
    fits_by_rules(RESUME_MAGIC, lent, known);
    check(as_kept(session), "the session stays", RESUME_MAGIC, lent, 0);
}

/* With no fact, or with these: what is said, and both counts. The answer stays, and work is zero. */
static void assumes(enum operation engine, struct lent *lent, unsigned said, uint32_t first, uint32_t second) {
    struct buffer *answer = &lent->of[ANSWER], *work = &lent->of[WORK];
    memset(answer->bytes, FILL, answer->len);
    memset(work->bytes, FILL, work->len);
    forget(&lent->of[FIRST]);
    forget(&lent->of[SECOND]);
    keep(&lent->of[FACTS]);
    uint64_t result = call(engine, lent);
    check_result(packed(said, 0), engine, lent, result);
    check(number_of(lent, FIRST) == first, "the first run has this count", engine, lent, result);
    check(number_of(lent, SECOND) == second, "the second run has this count", engine, lent, result);
    check(all(answer, 0, answer->len, FILL), "the answer stays", engine, lent, result);
    check(all(work, 0, work->len, 0), "work is zero", engine, lent, result);
    check(as_kept(&lent->of[TABLE]) && as_kept(&lent->of[FACTS]), "table and facts stay", engine, lent, result);
}

/* With no fact the rules are those of the ticket, which are kept, over the same filling. */
static void assumes_nothing(struct lent *lent, const struct known *known) {
    uint32_t second = known->verdict == LUTSAMIK_NONE ? 0 : known->count;
    assumes(ASSUME_RELEVANCY, lent, assumed_of(known), known->count, second);
    memset(lent->of[RULES].bytes, FILL, required[RULES]);
    assumes(ASSUME_MAGIC, lent, assumed_of(known), known->count, second);
    check(as_kept(&lent->of[RULES]), "the rules are those of rewriting", ASSUME_MAGIC, lent, 0);
}

/* By parts: the sum is the known count, which is the whole walk's where one part at most makes entries. */
static void fits_by_parts(struct lent *lent, const struct known *known) {
    forget(&lent->of[COUNT]);
    fits(PARTS_RELEVANCY, lent, known);
    check(sum_of(lent) == known->count, "the sum has the entries of all parts", PARTS_RELEVANCY, lent, 0);
    forget(&lent->of[COUNT]);
    fits_by_rules(PARTS_MAGIC, lent, known);
    check(sum_of(lent) == known->count, "the sum has the entries of all parts", PARTS_MAGIC, lent, 0);
}

static void judges(enum operation operation, struct lent *lent, const struct known *known) {
    keep(&lent->of[ANSWER]);
    uint64_t result = answered(operation, lent, known);
    check(as_kept(&lent->of[ANSWER]), "the answer stays", operation, lent, result);
    check(as_kept(&lent->of[TABLE]), "the table stays", operation, lent, result);
}

/* The last clause, or where there is none, clause 0, which is lacking. The values of 82 and 83 do not matter. */
static void holds(struct lent *lent, const struct known *known) {
    lent->clause = known->clauses > 0 ? known->clauses - 1 : 0;
    lent->values[2] = lent->values[3] = UINT32_MAX;
    judges(HOLDING, lent, known);
}

/* Into a slip that nobody has written: each of its bytes is. */
static void offers(struct lent *lent, const struct known *known) {
    const struct buffer *frame = &lent->of[FRAME], *slip = &lent->of[SLIP];
    put_digits(&lent->of[FRAME], known->rule);
    keep_all(lent);
    forget(&lent->of[SLIP]);
    uint64_t result = answered(OFFER, lent, known);
    check(slip->bytes[0] == known->clauses, "the slip has the number of clauses", OFFER, lent, result);
    check(slip->bytes[1] == frame->len, "the slip has the frame's length", OFFER, lent, result);
    check(memcmp(slip->bytes + 2, frame->bytes, frame->len) == 0, "the slip has the frame", OFFER, lent, result);
    check(all(slip, 2 + frame->len, slip->len, 0), "the rest of the slip is zero", OFFER, lent, result);
    check(as_kept(&lent->of[TABLE]) && as_kept(frame), "table and frame stay", OFFER, lent, result);
}

/* Puts the rule's line before FF, which is then one higher. */
static void lengthen(struct buffer *text, const struct known *known) {
    char end[80];
    int len = snprintf(end, sizeof end, "%s\nFF%02X\n", known->rule, (unsigned)known->clauses + 1);
    size_t before = text->len - strlen("FF00\n");
    resize(text, before + (size_t)len);
    memcpy(text->bytes + before, end, (size_t)len);
}

/* The table is the one that the longer text reads to, and a second time the slip is refused. */
static void sets(struct lent *lent, const struct known *known) {
    keep_all(lent);
    uint64_t result = answered(SET, lent, known);
    check(as_kept(&lent->of[SLIP]), "the slip stays", SET, lent, result);
    keep(&lent->of[TABLE]);
    result = call(SET, lent);
    check_result(LUTSAMIK_STALE_SLIP, SET, lent, result);
    check(as_kept(&lent->of[TABLE]), "the table stays where the slip is stale", SET, lent, result);
    lengthen(&lent->of[TEXT], known);
    memset(lent->of[OUT].bytes, FILL, required[OUT]);
    writes(lent, known);
    forget(&lent->of[TABLE]);
    read_ticket(lent);
    check(as_kept(&lent->of[TABLE]), "the table is the one that the longer text reads to", SET, lent, result);
}

/* The rule is offered and set; then set in the table of before by a slip of which nobody has written the bytes past the
 * frame. */
static void adds(struct lent *lent, const struct known *known) {
    struct buffer *table = &lent->of[TABLE], *slip = &lent->of[SLIP];
    uint8_t before[LUTSAMIK_TABLE_BYTES], held[LUTSAMIK_SLIP_BYTES];
    memcpy(before, table->bytes, sizeof before);
    offers(lent, known);
    memcpy(held, slip->bytes, sizeof held);
    sets(lent, known);
    memcpy(table->bytes, before, sizeof before);
    forget(slip);
    memcpy(slip->bytes, held, 2 + lent->of[FRAME].len);
    uint64_t result = answered(SET, lent, known);
    check(as_kept(table), "what follows the frame in the slip does not matter", SET, lent, result);
}

static void goes_round(struct lent *lent, const struct known *known) {
    reads(lent, known);
    writes(lent, known);
    rewrites(lent, known);
    fits(RELEVANCY, lent, known);
    fits_by_rules(MAGIC, lent, known);
    fits(STAGED, lent, known);
    assumes_nothing(lent, known);
    fits_by_parts(lent, known);
    begins_and_resumes(lent, known);
    if (known->verdict == LUTSAMIK_FITS) {
        judges(JUDGE, lent, known);
        holds(lent, known);
    }
}

/* An operation on buffers that nobody has written: valgrind tells if their bytes decide anything. Judging and holding
 * take the answer of the engine before them, whose bytes past the atoms are still unwritten. */
static void goes_unwritten(enum operation operation, struct lent *lent, const struct known *known) {
    for (int kind = OUT; kind < KINDS && operation != JUDGE && operation != HOLDING; kind++)
        forget(&lent->of[kind]);
    uint64_t result = answered(operation, lent, known);
    if (uses(operation, WORK))
        check(all(&lent->of[WORK], 0, required[WORK], 0), "unwritten work is zero", operation, lent, result);
}

static void tries(const struct known *known) {
    struct lent lent;
    lend(&lent, known->ticket);
    goes_round(&lent, known);
    goes_unwritten(WRITE, &lent, known);
    goes_unwritten(REWRITE, &lent, known);
    goes_unwritten(MAGIC, &lent, known);
    for (enum operation operation = STAGED; operation < OPERATIONS; operation++)
        goes_unwritten(operation, &lent, known);
    goes_unwritten(RELEVANCY, &lent, known);
    if (known->verdict == LUTSAMIK_FITS) {
        goes_unwritten(JUDGE, &lent, known);
        goes_unwritten(HOLDING, &lent, known);
    }
    adds(&lent, known);
    take_back(&lent);
}

/* Facts of K6, whose atoms 0 to 5 are 00 to 21, as predicate and argument; their rules, by digits, in the order lent. 01
 * closes what 20 opens, 10 is denied, 20 leaves no split, and 00 is a fact already. */
static const struct {
    uint32_t facts[4];
    size_t count;
    unsigned said;
    uint32_t second;
    const char *rules[4];
} open[] = {
    {{1}, 1, LUTSAMIK_NONE_WITH_SOME, 2, {"0300010001"}},
    {{2}, 1, LUTSAMIK_NONE_WITH_SOME, 0, {"0300010100"}},
    {{4}, 1, LUTSAMIK_NONE_NEVER, 0, {"0300010200"}},
    {{5, 0, 3, 4}, 4, LUTSAMIK_NONE_NEVER, 0, {"0300010201", "0300010000", "0300010101", "0300010200"}},
    {{3, 0}, 2, LUTSAMIK_NONE_NEVER, 2, {"0300010101", "0300010000"}},
};

/* The rules are those that rewriting leaves for the ticket with the facts set one by one, over the same filling. */
static void assumes_facts(void) {
    static const struct known known = {.ticket = "K6"};
    uint8_t before[LUTSAMIK_TABLE_BYTES];
    struct lent lent;
    lend(&lent, known.ticket);
    read_ticket(&lent);
    memcpy(before, lent.of[TABLE].bytes, sizeof before);
    for (size_t i = 0; i < sizeof open / sizeof *open; i++) {
        for (size_t rule = 0; rule < open[i].count; rule++) {
            put_digits(&lent.of[FRAME], open[i].rules[rule]);
            answered(OFFER, &lent, &known);
            answered(SET, &lent, &known);
        }
        memset(lent.of[RULES].bytes, FILL, required[RULES]);
        check(call(REWRITE, &lent) == packed(0, 8 + open[i].count), "there is a rule for each fact", REWRITE, &lent, 0);
        keep(&lent.of[RULES]);
        memcpy(lent.of[TABLE].bytes, before, sizeof before);
        keep(&lent.of[TABLE]);
        put_facts(&lent, open[i].facts, open[i].count);
        assumes(ASSUME_RELEVANCY, &lent, open[i].said, 2, open[i].second);
        memset(lent.of[RULES].bytes, FILL, required[RULES]);
        assumes(ASSUME_MAGIC, &lent, open[i].said, 2, open[i].second);
        check(as_kept(&lent.of[RULES]), "the rules are those of the ticket with the facts", ASSUME_MAGIC, &lent, 0);
    }
    take_back(&lent);
}

/* Tickets of two families, each over two of the four atoms, which have no arguments; K7 is made into them. A family is a
 * split over its atoms: of the first the first atom is denied, of the second the first one or both. */
#define FOUR "0200\n0200\n0200\n0200\n"
#define FIRST_FAMILY "0300020003\n03010000\n0302000300\n"
static const struct {
    const char *text;
    unsigned verdict;
    uint32_t sum;
    const char *marks;
} parted[] = {
    {"0101000400000002\n" FOUR FIRST_FAMILY "0300020102\n03010001\n0302000201\nFF06\n", LUTSAMIK_FITS, 4, "0011"},
    {"0101000400000002\n" FOUR FIRST_FAMILY "0300020102\n03010001\n03010002\nFF06\n", LUTSAMIK_NONE, 4, ""},
    {"0101000400000001\n" FOUR FIRST_FAMILY "03000102\nFF04\n", LUTSAMIK_SPENT, 1, ""},
    {"0101000400000001\n" FOUR FIRST_FAMILY "03000102\n03010002\nFF05\n", LUTSAMIK_NONE, 1, ""},
};

static void fits_in_parts(void) {
    struct lent lent;
    lend(&lent, "K7");
    for (size_t i = 0; i < sizeof parted / sizeof *parted; i++) {
        struct known known = {
            .verdict = parted[i].verdict, .count = parted[i].sum, .atoms = 4, .marks = parted[i].marks};
        resize(&lent.of[TEXT], strlen(parted[i].text));
        memcpy(lent.of[TEXT].bytes, parted[i].text, lent.of[TEXT].len);
        read_ticket(&lent);
        keep(&lent.of[TABLE]);
        memset(lent.of[RULES].bytes, FILL, required[RULES]);
        call(REWRITE, &lent);
        keep(&lent.of[RULES]);
        fits_by_parts(&lent, &known);
        if (known.verdict == LUTSAMIK_FITS)
            judges(JUDGE, &lent, &known);
    }
    take_back(&lent);
}

/* A rule of 35 bytes, the most that there are, with a ticket that K7 is made into. */
static void adds_longest(void) {
    static const struct known known = {
        .rule = "0304040000000000000000000000000000000000000000000000000000000000000000"};
    static const char text[] = "0101010100000064\n0203\nFF00\n";
    struct lent lent;
    lend(&lent, "K7");
    resize(&lent.of[TEXT], sizeof text - 1);
    memcpy(lent.of[TEXT].bytes, text, sizeof text - 1);
    read_ticket(&lent);
    adds(&lent, &known);
    take_back(&lent);
}

int main(void) {
    size_t count = sizeof tickets / sizeof tickets[0];
    for (size_t i = 0; i < count; i++)
        tries(&tickets[i]);
    adds_longest();
    assumes_facts();
    fits_in_parts();
    printf("host_exact: %zu tickets, in buffers of exactly the required sizes\n", count);
    return 0;
}
