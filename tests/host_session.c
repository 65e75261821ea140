/* Sessions from C, in blocks of just their bytes. Tickets are brought back entry by entry, by the engines in turn, and
 * each session on the way is copied, kept in a file and read back. Then sessions are damaged, at every byte: each is
 * refused by 41 or 42, with all that is lent as it was, or answered, by both engines alike. So are sessions that bring
 * another deepest figure. */
#include "host_lent.h"

#include <stdio.h>
#include <string.h>

/* What document 01, or crates/cases/data/README.md, has of a ticket's whole walk; its number of atoms; of each entry
 * how many its path has, a digit for each, by hand; and where its sessions are damaged. */
struct whole {
    const char *ticket;
    unsigned verdict;
    uint32_t count;
    uint32_t atoms;
    const char *paths;
    enum { NOWHERE, TO_THE_END_OF_THE_PATH, EVERYWHERE } damage;
};

static const struct whole tickets[] = {
    {"K1", LUTSAMIK_NONE, 2, 6, "11", TO_THE_END_OF_THE_PATH},
    {"K5", LUTSAMIK_FITS, 0, 6, "", NOWHERE},
    {"K6", LUTSAMIK_FITS, 2, 6, "11", EVERYWHERE},
    {"K8", LUTSAMIK_NONE, 0, 1, "", NOWHERE},
    {"K9", LUTSAMIK_NONE, 1, 1, "1", NOWHERE},
    {"K10", LUTSAMIK_FITS, 0, 1024, "", TO_THE_END_OF_THE_PATH},
    {"example_1", LUTSAMIK_NONE, 4, 12, "1122", TO_THE_END_OF_THE_PATH},
    {"example_7", LUTSAMIK_NONE, 6, 6, "122122", TO_THE_END_OF_THE_PATH},
};

enum {
    TICKETS = sizeof tickets / sizeof tickets[0],
    MOST_ENTRIES = 6,
    SESSION_BYTES = sizeof(struct lutsamik_session)
};

/* Above any count here, and with a damaged one more than there can be. */
static const uint32_t MANY = 0x01000000;

/* The larger one of a deepest figure and of the entries of the longest path, from one number of entries to another. */
static uint32_t deepest_of(const struct whole *whole, uint32_t deepest, uint32_t from, uint32_t to) {
    for (uint32_t i = from; i < to; i++) {
        uint32_t path = (uint32_t)(whole->paths[i] - '0');
        deepest = path > deepest ? path : deepest;
    }
    return deepest;
}

/* What an engine gives after so many entries of a ticket. */
static uint64_t packed(unsigned verdict, const struct whole *whole, uint32_t count) {
    return (uint64_t)verdict << 8 | (uint64_t)deepest_of(whole, 0, 0, count) << 16 | (uint64_t)count << 32;
}

/* Lends a ticket, read with a limit of 0: digits 8 to 15 of its text. */
static void lend_spent(struct lent *lent, const char *ticket) {
    lend(lent, ticket);
    memset(lent->of[TEXT].bytes + 8, '0', 8);
    read_ticket(lent);
}

static void check_bytes(const struct lutsamik_session *kept, const char *claim, enum operation operation,
                        const struct lent *lent) {
    check(memcmp(lent->of[SESSION].bytes, kept, SESSION_BYTES) == 0, claim, operation, lent, 0);
}

/* Writes the session to a file, and reads it back into a block that nobody has written. */
static void keep_in_file(struct lent *lent) {
    struct buffer *session = &lent->of[SESSION];
    struct lutsamik_session before = *session_of(lent);
    FILE *file = tmpfile();
    check(file != NULL, "there is a file", BEGIN_RELEVANCY, lent, 0);
    int kept = fwrite(session->bytes, session->len, 1, file) == 1;
    forget(session);
    rewind(file);
    kept = kept && fread(session->bytes, session->len, 1, file) == 1 && fgetc(file) == EOF;
    fclose(file);
    check(kept, "a session is written to a file and read back", BEGIN_RELEVANCY, lent, 0);
    check_bytes(&before, "it is the same", BEGIN_RELEVANCY, lent);
}

/* Puts a session into a block of which nobody has written what is past the path. */
static void put_path(struct lent *lent, const struct lutsamik_session *session) {
    forget(&lent->of[SESSION]);
    struct lutsamik_session *to = session_of(lent);
    to->count = session->count;
    to->length = session->length;
    to->verdict = session->verdict;
    to->next = session->next;
    memcpy(to->atoms, session->atoms, session->length * sizeof *session->atoms);
    memcpy(to->nexts, session->nexts, session->length * sizeof *session->nexts);
    to->deepest = session->deepest;
}

/* Each session on the way, with a limit that lets the walk end, ends like the last one. */
static void all_end_alike(struct lent *lent, const struct whole *whole, const struct lutsamik_session *on_the_way) {
    const struct lutsamik_session *last = &on_the_way[whole->count];
    for (uint32_t count = 0; count <= whole->count; count++) {
        for (enum operation operation = RESUME_RELEVANCY; operation <= RESUME_MAGIC; operation++) {
            put_path(lent, &on_the_way[count]);
            lent->further = UINT32_MAX - count;
            check_result(packed(whole->verdict, whole, whole->count), operation, lent, call(operation, lent));
            check_bytes(last, "it ends like the last one", operation, lent);
        }
    }
}

/* From a first run under a limit of 0 on, one entry at a time. */
static void comes_back(const struct whole *whole, struct lutsamik_session *on_the_way) {
    struct lent lent;
    lend_spent(&lent, whole->ticket);
    enum operation operation = whole->count % 2 ? BEGIN_MAGIC : BEGIN_RELEVANCY;
    uint64_t result = call(operation, &lent);
    for (uint32_t count = 0; count <= whole->count; count++) {
        unsigned verdict = count < whole->count ? LUTSAMIK_SPENT : whole->verdict;
        check_result(packed(verdict, whole, count), operation, &lent, result);
        on_the_way[count] = *session_of(&lent);
        check(on_the_way[count].verdict == verdict && on_the_way[count].count == count &&
                  on_the_way[count].deepest == lutsamik_deepest(result),
              "so says the session", operation, &lent, result);
        keep_in_file(&lent);
        lent.further = 1;
        operation = count % 2 ? RESUME_MAGIC : RESUME_RELEVANCY;
        result = call(operation, &lent);
    }
    check_result(packed(whole->verdict, whole, whole->count), operation, &lent, result);
    check_bytes(&on_the_way[whole->count], "a finished session stays", operation, &lent);
    all_end_alike(&lent, whole, on_the_way);
    take_back(&lent);
}

/* How many damaged sessions were answered, and refused by 41 and 42. */
static unsigned answered, refused_by[2];

/* What a call leaves is a session: it says what the result does, and is 0 past its path. With fits comes a fitting. */
static void check_left(enum operation operation, const struct lent *lent, uint64_t result) {
    const struct lutsamik_session *session = session_of(lent);
    unsigned verdict = lutsamik_verdict(result);
    check(verdict == session->verdict && verdict <= LUTSAMIK_SPENT, "the session has the verdict", operation, lent,
          result);
    check(lutsamik_count(result) == session->count, "the session has the count", operation, lent, result);
    check(lutsamik_deepest(result) == session->deepest, "the session has the deepest figure", operation, lent, result);
    check(session->length <= session->deepest && session->deepest <= 1024, "it is a path's", operation, lent, result);
    check(session->length <= 1024 && session->next <= 4, "it stands at a node", operation, lent, result);
    for (size_t i = session->length; i < 1024; i++)
        check(session->atoms[i] == 0 && session->nexts[i] == 0, "it is 0 past its path", operation, lent, result);
    check(all(&lent->of[WORK], 0, required[WORK], 0), "work is zero", operation, lent, result);
    if (verdict == LUTSAMIK_FITS)
        check_result(LUTSAMIK_FITTING << 8, JUDGE, lent, call(JUDGE, lent));
}

/* A session that may hold anything, lent to an engine. The result; what is left stands in the buffers. */
static uint64_t any_session(enum operation operation, struct lent *lent, const struct lutsamik_session *session) {
    *session_of(lent) = *session;
    memset(lent->of[ANSWER].bytes, FILL, required[ANSWER]);
    memset(lent->of[WORK].bytes, FILL, required[WORK]);
    memset(lent->of[RULES].bytes, FILL, required[RULES]);
    lent->further = MANY;
    keep_all(lent);
    uint64_t result = call(operation, lent);
    if (lutsamik_refusal(result) == LUTSAMIK_OK) {
        check_left(operation, lent, result);
        answered++;
        return result;
    }
    unsigned by = (unsigned)result - LUTSAMIK_TOO_MANY_ENTRIES;
    check(by < 2, "it is refused by 41 or 42", operation, lent, result);
    for (int kind = 0; kind < KINDS; kind++)
        check(as_kept(&lent->of[kind]), "each buffer stays", operation, lent, result);
    refused_by[by]++;
    return result;
}

/* Both engines answer and leave alike. */
static uint64_t alike(struct lent *lent, const struct lutsamik_session *session) {
    uint8_t answer[LUTSAMIK_ANSWER_BYTES];
    uint64_t result = any_session(RESUME_RELEVANCY, lent, session);
    struct lutsamik_session left = *session_of(lent);
    memcpy(answer, lent->of[ANSWER].bytes, sizeof answer);
    check_result(result, RESUME_MAGIC, lent, any_session(RESUME_MAGIC, lent, session));
    check_bytes(&left, "both engines leave the same session", RESUME_MAGIC, lent);
    check(memcmp(answer, lent->of[ANSWER].bytes, sizeof answer) == 0, "both leave the same answer", RESUME_MAGIC, lent,
          result);
    return result;
}

/* Whether a byte of a session lies past its path. */
static int is_past(const struct lutsamik_session *session, size_t place) {
    size_t nexts = offsetof(struct lutsamik_session, nexts), atoms = offsetof(struct lutsamik_session, atoms);
    if (place >= offsetof(struct lutsamik_session, deepest))
        return 0;
    if (place >= nexts)
        return place - nexts >= session->length;
    return place >= atoms && (place - atoms) / 2 >= session->length;
}

/* Each byte is changed, in up to eight ways. One past the path does not matter, and is left out where this is not asked
 * for. */
static void damaged(struct lent *lent, const struct lutsamik_session *session, int past_too) {
    static const uint8_t flips[] = {0xFF, 0x01, 0x02, 0x03, 0x04, 0x07, 0x80, 0x06};
    uint64_t whole = alike(lent, session);
    struct lutsamik_session end = *session_of(lent);
    for (size_t place = 0; place < SESSION_BYTES; place++) {
        struct lutsamik_session other = *session;
        uint8_t *byte = (uint8_t *)&other + place;
        if (is_past(session, place) && past_too) {
            enum operation operation = place % 2 ? RESUME_MAGIC : RESUME_RELEVANCY;
            *byte ^= flips[place % sizeof flips];
            check_result(whole, operation, lent, any_session(operation, lent, &other));
            check_bytes(&end, "a byte past the path does not matter", operation, lent);
        }
        for (size_t i = 0; i < sizeof flips && !is_past(session, place); i++) {
            *byte = (uint8_t)(((const uint8_t *)session)[place] ^ flips[i]);
            alike(lent, &other);
        }
    }
}

/* A session with this deepest figure: 42 unless it is at least the path's length and at most the number of atoms. Else
 * it counts as a path beside those of the entries that are left, and changes nothing else of the answer. */
static void brings(struct lent *lent, const struct whole *whole, struct lutsamik_session session, uint32_t deepest) {
    session.deepest = deepest;
    uint64_t result = alike(lent, &session), left = deepest_of(whole, deepest, session.count, whole->count);
    uint64_t others = packed(whole->verdict, whole, whole->count) & ~(UINT64_C(0xFFFF) << 16);
    int is_within = session.length <= deepest && deepest <= whole->atoms;
    check_result(is_within ? others | left << 16 : LUTSAMIK_NO_SESSION, RESUME_MAGIC, lent, result);
}

/* Each figure up to one more than the number of atoms, where these are many the first and the last ones; and such of
 * which only the low bytes are one. */
static void brings_figures(struct lent *lent, const struct whole *whole, const struct lutsamik_session *session) {
    for (uint32_t i = 0; i <= whole->atoms + 1; i++) {
        if (i > 12 && i + 2 < whole->atoms)
            continue;
        brings(lent, whole, *session, i);
        brings(lent, whole, *session, i | 0x10000);
    }
}

/* A ticket brought back, and of its sessions the one after half of the entries and the last one damaged. */
static void tries(const struct whole *whole) {
    struct lutsamik_session on_the_way[MOST_ENTRIES + 1];
    comes_back(whole, on_the_way);
    struct lent lent;
    lend_spent(&lent, whole->ticket);
    brings_figures(&lent, whole, &on_the_way[whole->count / 2]);
    brings_figures(&lent, whole, &on_the_way[whole->count]);
    if (whole->damage == NOWHERE) {
        take_back(&lent);
        return;
    }
    damaged(&lent, &on_the_way[whole->count / 2], whole->damage == EVERYWHERE);
    damaged(&lent, &on_the_way[whole->count], whole->damage == EVERYWHERE);
    check(answered > 0 && refused_by[0] > 0 && refused_by[1] > 0, "some are answered, and some refused by 41 and 42",
          RESUME_MAGIC, &lent, 0);
    take_back(&lent);
}

int main(void) {
    for (int i = 0; i < TICKETS; i++)
        tries(&tickets[i]);
    printf("host_session: %d tickets are brought back; damaged sessions: %u answered, refused by 41: %u, by 42: %u\n",
           TICKETS, answered, refused_by[0], refused_by[1]);
    return 0;
}
