/* What the tests in C lend to the library. Each buffer is a block of its own with just the bytes that the library is
 * told of, so that valgrind sees a step past its end. */
#ifndef HOST_LENT_H
#define HOST_LENT_H

#include <lutsamik.h>

enum kind { TEXT, FRAME, FACTS, TABLE, SESSION, OUT, SLIP, RULES, ANSWER, WORK, FIRST, SECOND, COUNT, KINDS };

enum operation {
    READ,
    WRITE,
    OFFER,
    SET,
    JUDGE,
    HOLDING,
    REWRITE,
    RELEVANCY,
    MAGIC,
    STAGED,
    BEGIN_RELEVANCY,
    BEGIN_MAGIC,
    RESUME_RELEVANCY,
    RESUME_MAGIC,
    ASSUME_RELEVANCY,
    ASSUME_MAGIC,
    PARTS_RELEVANCY,
    PARTS_MAGIC,
    OPERATIONS
};

/* What each byte holds that no test has set. */
enum { FILL = 0xEE };

struct buffer {
    uint8_t *bytes;
    size_t len;
    uint8_t *kept; /* what the bytes were when they were last kept */
};

/* The instance is for HOLDING: its clause, and the values of 80, 81, 82 and 83. The further limit is for
 * RESUME_RELEVANCY and RESUME_MAGIC. */
struct lent {
    const char *ticket;
    struct buffer of[KINDS];
    uint32_t clause, values[4], further;
};

/* How long each kind must be, in bytes; a text, a frame and facts may have any length. A session or a count has no
 * length that is told, and its block has always the bytes of one. */
extern const size_t required[KINDS];

/* Whether a buffer of this kind can be too short. */
int can_be_short(enum kind kind);

/* The session in its block. */
struct lutsamik_session *session_of(const struct lent *lent);

/* Puts a block in the place of the facts that holds these numbers and no more. */
void put_facts(struct lent *lent, const uint32_t *facts, size_t count);

/* The number in a block of FIRST or SECOND. */
uint32_t number_of(const struct lent *lent, enum kind kind);

/* The number in the block of COUNT. */
uint64_t sum_of(const struct lent *lent);

/* Whether an operation is lent a buffer of this kind. */
int uses(enum operation operation, enum kind kind);

/* The text of crates/cases/data/TICKET.text, a frame that any ticket of fewer than 64 clauses takes, no facts, buffers
 * of exactly the required lengths, an instance of numbers 0 and a further limit of 0. */
void lend(struct lent *lent, const char *ticket);
void take_back(struct lent *lent);

/* Puts a block of this length in a buffer's place, which begins as the buffer does and is filled up. */
void resize(struct buffer *buffer, size_t len);

/* Puts a block in a buffer's place that holds the bytes of these digits and no more. */
void put_digits(struct buffer *buffer, const char *digits);

/* Puts a block in a buffer's place that nobody has written: valgrind tells where its bytes decide something. */
void forget(struct buffer *buffer);

/* Notes what a buffer holds, for as_kept. */
void keep(struct buffer *buffer);
void keep_all(struct lent *lent);
int as_kept(const struct buffer *buffer);

/* Whether the bytes from one place up to another all have this value. */
int all(const struct buffer *buffer, size_t from, size_t to, uint8_t value);

/* An operation on what it is lent. */
uint64_t call(enum operation operation, const struct lent *lent);

/* Reads the ticket's text into the table, and ends the program unless it is accepted. */
void read_ticket(const struct lent *lent);

/* Ends the program unless the claim holds of an operation's call, or unless its result is this one. */
void check(int holds, const char *claim, enum operation operation, const struct lent *lent, uint64_t result);
void check_result(uint64_t expected, enum operation operation, const struct lent *lent, uint64_t result);

#endif
