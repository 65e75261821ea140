/* A host of the library. It reads a ticket, fits it by both engines, holds their answers against each other, has the
 * fitting judged, and prints the lines that document 01 lays down. A ticket that is spent it brings back, where it is
 * told by how many entries at a time.
 *
 * Usage: host [FILE [FURTHER]]. Without a file the ticket is read from standard input. FURTHER is from 1 to 4294967295.
 * Exit status: 0 a verdict is printed, 1 the ticket is refused, 2 it could not be read or nothing could be printed,
 * 3 the engines or the judge disagree, which the proofs exclude. */
#include <lutsamik.h>

#include <errno.h>
#include <stdio.h>
#include <stdlib.h>
#include <string.h>

enum status { DONE = 0, REFUSED = 1, TROUBLE = 2, DISAGREEMENT = 3 };

/* The first LUTSAMIK_TEXT_BYTES of a text are read: more than any accepted text has. */
struct ticket {
    uint8_t text[LUTSAMIK_TEXT_BYTES];
    size_t len;
};

/* What is lent to the library: each block has just the bytes that are asked for. Each engine has its own answer. */
struct lent {
    struct lutsamik_session *session;
    uint8_t *table;
    uint8_t *rules;
    uint8_t *work;
    uint8_t *by_relevancy;
    uint8_t *by_magic;
};

static int fail(int status, const char *what, const char *why) {
    fprintf(stderr, "host: %s: %s\n", what, why);
    return status;
}

static int load(const char *path, struct ticket *ticket) {
    const char *name = path ? path : "standard input";
    FILE *file = path ? fopen(path, "rb") : stdin;
    if (!file)
        return fail(TROUBLE, name, strerror(errno));
    ticket->len = fread(ticket->text, 1, sizeof ticket->text, file);
    int status = ferror(file) ? fail(TROUBLE, name, strerror(errno)) : DONE;
    if (path)
        fclose(file);
    return status;
}

/* The answers begin as zeros, so that they can be compared whole. */
static int lend(struct lent *lent) {
    lent->session = malloc(sizeof *lent->session);
    lent->table = malloc(LUTSAMIK_TABLE_BYTES);
    lent->rules = malloc(LUTSAMIK_RULES_BYTES);
    lent->work = malloc(LUTSAMIK_WORK_BYTES);
    lent->by_relevancy = calloc(LUTSAMIK_ANSWER_BYTES, 1);
    lent->by_magic = calloc(LUTSAMIK_ANSWER_BYTES, 1);
    int all = lent->session && lent->table && lent->rules && lent->work && lent->by_relevancy && lent->by_magic;
    return all ? DONE : fail(TROUBLE, "memory", "none is left");
}

static void take_back(struct lent *lent) {
    free(lent->session);
    free(lent->table);
    free(lent->rules);
    free(lent->work);
    free(lent->by_relevancy);
    free(lent->by_magic);
}

/* Engines and judge refuse no table that was just read; a host looks all the same. */
static int refused(const char *operation, uint64_t result) {
    unsigned refusal = lutsamik_refusal(result);
    unsigned line = (unsigned)lutsamik_line(result);
    printf("8F%02X%04X\n", refusal, line);
    fprintf(stderr, "host: %s is refused by %u, line %u: lutsamik.h has the numbers\n", operation, refusal, line);
    return REFUSED;
}

/* The byte that two digits of an accepted text stand for: 0 to 9 and A to F. */
static unsigned byte_at(const uint8_t *text, size_t place) {
    static const char digits[] = "0123456789ABCDEF";
    size_t high = (size_t)(strchr(digits, text[place]) - digits);
    size_t low = (size_t)(strchr(digits, text[place + 1]) - digits);
    return (unsigned)(high * 16 + low);
}

/* The number of atoms of a predicate. */
static unsigned power(unsigned constants, unsigned arity) {
    unsigned product = 1;
    for (; arity > 0; arity--)
        product *= constants;
    return product;
}

/* An atom by its number among those of its predicate, which count up with the first argument slowest. */
static void print_atom(unsigned predicate, unsigned arity, unsigned constants, unsigned number) {
    printf("82%02X", predicate);
    for (; arity > 0; arity--)
        printf("%02X", number / power(constants, arity - 1) % constants);
    putchar('\n');
}

/* Prints the atoms of a predicate that are marked, and gives the marks of the next one. */
static const uint8_t *print_predicate(unsigned predicate, unsigned arity, unsigned constants, const uint8_t *marks) {
    unsigned atoms = power(constants, arity);
    for (unsigned number = 0; number < atoms; number++)
        if (marks[number] == 1)
            print_atom(predicate, arity, constants, number);
    return marks + atoms;
}

/* Prints the atoms that an answer marks. An accepted text begins with 17 bytes: "0101", constants, predicates, limit
 * and 0A; then come 5 bytes for each predicate: "02", its arity and 0A. */
static void print_fitting(const uint8_t *text, const uint8_t *answer) {
    unsigned constants = byte_at(text, 4);
    unsigned predicates = byte_at(text, 6);
    for (unsigned predicate = 0; predicate < predicates; predicate++) {
        unsigned arity = byte_at(text, 17 + 5 * predicate + 2);
        answer = print_predicate(predicate, arity, constants, answer);
    }
}

static int agree(const struct lent *lent, uint64_t by_relevancy, uint64_t by_magic) {
    if (by_relevancy != by_magic || memcmp(lent->by_relevancy, lent->by_magic, LUTSAMIK_ANSWER_BYTES) != 0)
        return fail(DISAGREEMENT, "the engines", "they answer differently");
    return lutsamik_refusal(by_relevancy) == LUTSAMIK_OK ? DONE : refused("fitting", by_relevancy);
}

/* Fits the ticket in the table by both engines; the result and the session are the relevancy engine's. */
static int fit(const struct lent *lent, uint64_t *result) {
    *result = lutsamik_begin_relevancy(lent->session, lent->table, LUTSAMIK_TABLE_BYTES, lent->by_relevancy,
                                       LUTSAMIK_ANSWER_BYTES, lent->work, LUTSAMIK_WORK_BYTES);
    uint64_t by_magic = lutsamik_fit_magic(lent->table, LUTSAMIK_TABLE_BYTES, lent->rules, LUTSAMIK_RULES_BYTES,
                                           lent->by_magic, LUTSAMIK_ANSWER_BYTES, lent->work, LUTSAMIK_WORK_BYTES);
    return agree(lent, *result, by_magic);
}

/* Goes on with the session by both engines, each with a copy of its own: they leave the same one. */
static int go_on(const struct lent *lent, uint32_t further, uint64_t *result) {
    struct lutsamik_session copy = *lent->session;
    *result = lutsamik_resume_relevancy(lent->session, further, lent->table, LUTSAMIK_TABLE_BYTES, lent->by_relevancy,
                                        LUTSAMIK_ANSWER_BYTES, lent->work, LUTSAMIK_WORK_BYTES);
    uint64_t by_magic =
        lutsamik_resume_magic(&copy, further, lent->table, LUTSAMIK_TABLE_BYTES, lent->rules, LUTSAMIK_RULES_BYTES,
                              lent->by_magic, LUTSAMIK_ANSWER_BYTES, lent->work, LUTSAMIK_WORK_BYTES);
    if (memcmp(lent->session, &copy, sizeof copy) != 0)
        return fail(DISAGREEMENT, "the engines", "they leave different sessions");
    return agree(lent, *result, by_magic);
}

/* Brings a spent ticket back, so many entries at a time, until it is finished or no more can be counted. Before each
 * slice a host could show how far it is, ask whether to go on, or keep the session in a file for another day. */
static int bring_back(const struct lent *lent, uint32_t slice, uint64_t *result) {
    int status = DONE;
    while (status == DONE && lutsamik_verdict(*result) == LUTSAMIK_SPENT) {
        uint32_t left = UINT32_MAX - lutsamik_count(*result);
        if (left == 0)
            break;
        fprintf(stderr, "host: spent after %lu entries, on paths of up to %lu, and goes on\n",
                (unsigned long)lutsamik_count(*result), (unsigned long)lutsamik_deepest(*result));
        status = go_on(lent, slice < left ? slice : left, result);
    }
    return status;
}

static int judge(const struct lent *lent) {
    uint64_t result = lutsamik_judge(lent->table, LUTSAMIK_TABLE_BYTES, lent->by_relevancy, LUTSAMIK_ANSWER_BYTES);
    if (lutsamik_refusal(result) != LUTSAMIK_OK)
        return refused("judging", result);
    if (lutsamik_judged(result) != LUTSAMIK_FITTING)
        return fail(DISAGREEMENT, "the judge", "the fitting violates a clause");
    return DONE;
}

/* The slice is 0 where a spent ticket is not brought back. */
static int run(const struct ticket *ticket, const struct lent *lent, uint32_t slice) {
    uint64_t result = lutsamik_read(ticket->text, ticket->len, lent->table, LUTSAMIK_TABLE_BYTES);
    if (lutsamik_refusal(result) != LUTSAMIK_OK)
        return refused("reading", result);

    int status = fit(lent, &result);
    if (status == DONE && slice > 0)
        status = bring_back(lent, slice, &result);
    int fits = status == DONE && lutsamik_verdict(result) == LUTSAMIK_FITS;
    if (fits)
        status = judge(lent);
    if (status != DONE)
        return status;

    printf("81%02X%08lX\n", lutsamik_verdict(result), (unsigned long)lutsamik_count(result));
    if (fits)
        print_fitting(ticket->text, lent->by_relevancy);
    return DONE;
}

/* A number from 1 to 4294967295, or 0 where it is none. */
static uint32_t number(const char *word) {
    char *end;
    errno = 0;
    unsigned long long value = strtoull(word, &end, 10);
    int is_number = word[0] >= '0' && word[0] <= '9' && *end == '\0' && errno == 0 && value <= UINT32_MAX;
    return is_number ? (uint32_t)value : 0;
}

int main(int argc, char **argv) {
    uint32_t slice = argc == 3 ? number(argv[2]) : 0;
    if (argc > 3 || (argc == 3 && slice == 0))
        return fail(TROUBLE, "usage", "host [FILE [FURTHER]]");
    struct ticket ticket;
    int status = load(argc >= 2 ? argv[1] : NULL, &ticket);
    if (status != DONE)
        return status;

    struct lent lent;
    status = lend(&lent);
    if (status == DONE)
        status = run(&ticket, &lent, slice);
    take_back(&lent);
    if (fflush(stdout) != 0 || ferror(stdout))
        return fail(TROUBLE, "standard output", strerror(errno));
    return status;
}
