/* Lutsamik: reads and writes tickets, adds rules to them, fits them by three engines, by two of them also in slices, by
 * parts, or where facts are not yet known, rewrites them, and judges answers to them.
 *
 * Link with liblutsamik.a, for x86-64: `make install` puts it, this header and a pkg-config file in place.
 * The library keeps no state, takes no memory and calls nothing but memcpy and memset: an operation works on the
 * bytes that are lent to it for the time of the call. Calls may run at the same time as long as no call writes
 * what another is lent.
 *
 * A byte slice is a pointer and then a length. All its bytes must be readable, and writable where the pointer is
 * not to const. The pointer must not be null, not even where the length is 0. A slice that is not const must not
 * overlap another one of the call. A session is lent by its address: it must be a whole struct lutsamik_session,
 * writable, and overlap nothing else of the call. Open facts are a slice of numbers: its length counts numbers and not
 * bytes, it is aligned as they are, and its pointer must not be null either, not even for no fact. A number that is
 * written to is lent by its address: it must be writable, aligned, and overlap nothing else of the call, so first and
 * second are two. Nothing checks this. All else is checked: no operation relies on what the bytes or numbers are, and
 * a buffer that is too short is refused.
 *
 * Each operation gives back one number, its result, which the functions at the end take apart. Look for a refusal
 * first. After a refusal each buffer, and each session or number lent, holds what it held before the call. Otherwise:
 *
 *   operation                 is lent                      refuses by     leaves
 *   lutsamik_read             text; writes table           11, 1 to 10    table: its 4,096 bytes, 0 where unused
 *   lutsamik_write            table; writes out            11, 31         out: the text
 *   lutsamik_offer            table, frame; writes slip    11, 31, and    slip: its 37 bytes, 0 where unused
 *                                                          2, 3, 5 to 8,
 *                                                          10
 *   lutsamik_set              table, slip; writes table    11, 31, 43,    table: that of the ticket with the clause
 *                                                          and 2, 3, 5    of the slip after the others
 *                                                          to 8, 10
 *   lutsamik_judge            table, answer                11, 31, 32     nothing is written
 *   lutsamik_holding          table, answer                11, 31, 32, 44 nothing is written
 *   lutsamik_rewrite          table; writes rules          11, 31         rules: the rules
 *   lutsamik_fit_relevancy    table; writes answer, work   11, 31         answer: fits alone writes it, A bytes;
 *                                                                         work: 65,536 times 0
 *   lutsamik_fit_magic        table; writes rules,         11, 31         rules: as lutsamik_rewrite does;
 *                             answer, work                                answer, work: as lutsamik_fit_relevancy
 *   lutsamik_fit_staged       table; writes answer, work   11, 31         answer, work: as lutsamik_fit_relevancy
 *   lutsamik_begin_relevancy  table; writes session,       11, 31         session: all its bytes, 0 past the path;
 *                             answer, work                                answer, work: as lutsamik_fit_relevancy
 *   lutsamik_begin_magic      table; writes session,       11, 31         session: as lutsamik_begin_relevancy does;
 *                             rules, answer, work                         the rest: as lutsamik_fit_magic does
 *   lutsamik_resume_relevancy table, session; writes       11, 31, 41, 42 as lutsamik_begin_relevancy does
 *                             session, answer, work
 *   lutsamik_resume_magic     table, session; writes       11, 31, 41, 42 as lutsamik_begin_magic does
 *                             session, rules, answer, work
 *   lutsamik_assume_relevancy table, facts, answer;        11, 31, 5, 45  first, second: the count of each run;
 *                             writes first, second, work                  work: 65,536 times 0
 *   lutsamik_assume_magic     table, facts, answer;        11, 31, 5, 45  rules: as lutsamik_rewrite does, of the
 *                             writes first, second,                       last run's ticket; the rest: as
 *                             rules, work                                 lutsamik_assume_relevancy does
 *   lutsamik_parts_relevancy  table; writes count, answer, 11, 31         count: the sum of the parts' counts;
 *                             work                                        answer, work: as lutsamik_fit_relevancy
 *   lutsamik_parts_magic      table; writes count, rules,  11, 31         rules: as lutsamik_rewrite does; the rest:
 *                             answer, work                                as lutsamik_parts_relevancy does
 *
 * Refusals are looked for in the order given, but those of a line, 1 to 10, as reading meets them: 1, 2, byte by byte
 * 3 to 7, then 3 for bytes left over, then 8, 9, 10; a 65th clause is 5 right after 2. A rule that is offered or set is
 * looked at as such a line; with open facts no line is looked at, and 5 comes where it stands, after 31. Bytes past
 * those named are as they were, also those of a buffer that is longer than it must be. What a written buffer held
 * before does not matter, but for the table that a rule is set in and the session that a walk goes on with. A is the
 * ticket's number of ground atoms, 1,024 at most.
 *
 * An engine runs until its walk ends or has made as many entries as the ticket or a further limit allows, however
 * long that takes. It calls itself along its path of up to 1,024 entries, that of a session too: leave it 1 MB of
 * stack, in which the tests walk such paths. lutsamik_deepest tells the longest path that was entered; after
 * lutsamik_fit_staged, and by parts, the figure is 0, whatever path that was. The same call again needs no more stack
 * than a path as long as that one does; going on with a spent ticket may go deeper. So many bytes of stack were
 * measured:
 *
 *   entries on the path             0       64      256    1,024
 *   a first run by relevancy   32,000   32,000   57,000  155,000
 *   a first run by magic       33,000   42,000   70,000  181,000
 *   a run by stages            26,000   35,000   72,000  220,000
 *   going on by relevancy      46,000   50,000   96,000  280,000
 *   going on by magic          74,000   78,000  127,000  324,000
 *
 * With open facts a call needs up to 7,000 more than a first run on a path of that length, and by parts up to 24,000
 * more.
 */
#ifndef LUTSAMIK_H
#define LUTSAMIK_H

#include <stddef.h>
#include <stdint.h>

#ifdef __cplusplus
extern "C" {
#endif

#define LUTSAMIK_VERSION "1.0.0"

/* What a buffer must hold at least, whatever the ticket. */
#define LUTSAMIK_TABLE_BYTES 4096
#define LUTSAMIK_TEXT_BYTES 7168
#define LUTSAMIK_SLIP_BYTES 37
#define LUTSAMIK_RULES_BYTES 16384
#define LUTSAMIK_ANSWER_BYTES 1024
#define LUTSAMIK_WORK_BYTES 65536

/* Refusals. 1 to 10 come from reading, and 2, 3, 5 to 8 and 10 from offering and setting a rule too, 5 also where open
 * facts are lent; only reading's 1 to 10 name a line of the text. */
enum {
    LUTSAMIK_OK = 0,                /* not refused */
    LUTSAMIK_BAD_LINE = 1,          /* no digits, an odd number, more than 70, a foreign byte, no 0A */
    LUTSAMIK_BAD_KIND = 2,          /* kind unknown or out of place; a line after FF; FF missing */
    LUTSAMIK_BAD_LENGTH = 3,        /* a byte is missing, or bytes are left over */
    LUTSAMIK_BAD_VERSION = 4,       /* the version is not 01 */
    LUTSAMIK_BAD_COUNT = 5,         /* a count or arity out of range, a wrong FF count, a 65th clause */
    LUTSAMIK_UNKNOWN = 6,           /* an unknown predicate, constant or argument */
    LUTSAMIK_BAD_NUMBERING = 7,     /* a variable out of the order 80, 81, 82, 83 */
    LUTSAMIK_FREE_VARIABLE = 8,     /* a variable of an alternative that stands in no condition */
    LUTSAMIK_TOO_MANY_ATOMS = 9,    /* more than 1,024 atoms */
    LUTSAMIK_TOO_MANY_MARKS = 10,   /* the sum of n * c^v over the clauses passes 16,384 */
    LUTSAMIK_SHORT_BUFFER = 11,     /* a buffer is shorter than it must be */
    LUTSAMIK_NO_TABLE = 31,         /* the first 4,096 bytes are not what some accepted text reads to */
    LUTSAMIK_BAD_ANSWER = 32,       /* one of the answer's first A bytes is neither 0 nor 1 */
    LUTSAMIK_TOO_MANY_ENTRIES = 41, /* the session's count and the further limit together pass FFFFFFFF */
    LUTSAMIK_NO_SESSION = 42,       /* the session is none of the ticket's walk, by where it stands or by its figures */
    LUTSAMIK_STALE_SLIP = 43,       /* the slip's number of clauses is not the ticket's */
    LUTSAMIK_NO_INSTANCE = 44,      /* the ticket lacks the clause, or a value of its variables */
    LUTSAMIK_BAD_FACTS = 45         /* more than 16 open facts, an atom number of A or more, one repeated */
};

/* What an engine says of a ticket, its verdict. */
enum {
    LUTSAMIK_NONE = 0,  /* no set of atoms is a fitting */
    LUTSAMIK_FITS = 1,  /* the answer has a fitting */
    LUTSAMIK_SPENT = 2  /* the walk would make more entries than the limit allows */
};

/* What an engine says of a ticket with open facts, besides LUTSAMIK_SPENT: for which choices of the facts to add there
 * is no fitting, whatever the limit. To add no fact is a choice, and to add all of them is one. */
enum {
    LUTSAMIK_NONE_ALWAYS = 0,   /* for each choice: no fitting exists, whichever facts are added */
    LUTSAMIK_NONE_NEVER = 1,    /* for no choice: a fitting exists, whichever facts are added */
    LUTSAMIK_NONE_WITH_SOME = 3 /* for some and not for all: a fitting exists without the facts, and none with all */
};

/* What judging says of an answer. */
enum {
    LUTSAMIK_FITTING = 1,
    LUTSAMIK_VIOLATED = 2
};

/* Where a walk stands: a first run leaves it (lutsamik_begin_relevancy, lutsamik_begin_magic), and with it the ticket
 * is brought back (lutsamik_resume_relevancy, lutsamik_resume_magic). It is the same whichever engine has moved it.
 *
 * A node's alternatives are counted from 0, without those that are passed over. Its next one is the first that is not
 * yet entered; where all are, it is their number m, and it is 0 at a node that has no split. A walk that is spent
 * stands at the node whose next alternative would be entered next, one that fits at the open node, and one that ends
 * in none at the root.
 *
 * To keep a session, copy it, or write its bytes to a file and read them back: all of its 3,084 bytes are fields, the
 * numbers have the low byte first, as x86-64 has them, and no pointer is among them. A later version of the library
 * may add fields behind these, and moves none of them. deepest was added so: a session of 3,080 bytes, as the version
 * before left it, lacks it, and what is put behind it is taken for the figure that it brings. Keep the ticket beside a
 * session: it is to be used with the very ticket that it was begun on, and does not say which that is.
 *
 * A session of other origin, one that was damaged, changed, made up, or begun on another ticket, may be lent all the
 * same. It is answered or refused, never trusted. Where it is answered, the walk has gone on from the path, the count
 * and the deepest figure that it held, both engines answer and leave alike, and LUTSAMIK_FITS comes with a fitting of
 * the ticket in the table. But its LUTSAMIK_NONE, its LUTSAMIK_SPENT and its count are not claimed to be right, in
 * this call or a later one, and its deepest figure counts the one that it held. */
struct lutsamik_session {
    uint32_t count;       /* the entries made so far, in all calls since the first run */
    uint16_t length;      /* how many entries the path has that leads to the node where the walk stands */
    uint8_t verdict;      /* LUTSAMIK_SPENT, or LUTSAMIK_NONE or LUTSAMIK_FITS: then the session is finished */
    uint8_t next;         /* the next alternative of that node */
    uint16_t atoms[1024]; /* the path, from the root on: the atom of each entry; 0 past the path */
    uint8_t nexts[1024];  /* the next alternative of the node that each entry was made from; 0 past the path */
    uint32_t deepest;     /* how many entries the longest path had, in all calls since the first run; A at most */
};

/* Where a compiler lays the struct out in another size, this is an error: the library would take other bytes for it. */
typedef char lutsamik_session_has_3084_bytes[sizeof(struct lutsamik_session) == 3084 ? 1 : -1];

/* Reads a ticket's text into a table. The result is 0, or has a refusal.
 *
 * Any text is read, of any length, the empty one too; the first faulty line decides. An accepted text has at most
 * 4,726 bytes, and the first LUTSAMIK_TEXT_BYTES of a longer one are refused just as all of it is.
 *
 * The table's layout is the library's own. Hand it on as it is: a table that was changed is refused
 * (LUTSAMIK_NO_TABLE), or is that of another ticket. */
uint64_t lutsamik_read(const uint8_t *text, size_t text_len, uint8_t *table, size_t table_len);

/* Writes out the ticket in a table: the very text that was read. lutsamik_written says how many bytes it has. */
uint64_t lutsamik_write(const uint8_t *table, size_t table_len, uint8_t *out, size_t out_len);

/* Offers a rule to the ticket in a table: the bytes of a clause line's frame, as its digits stand for them. The
 * result is 0, or has the refusal that reading them as the next clause line would give: LUTSAMIK_BAD_KIND where
 * there are no bytes or the first is not 03, LUTSAMIK_BAD_COUNT where the ticket has 64 clauses, and so on. Bytes
 * left over are LUTSAMIK_BAD_LENGTH, however many. The table does not change.
 *
 * A slip is bytes and not a struct: it may be kept anywhere, at any alignment, and no layout rule of a compiler
 * matters. Byte 0 is the number of clauses that the ticket had, byte 1 the number of the frame's bytes, 35 at most;
 * then they stand, and zeros to the slip's end. */
uint64_t lutsamik_offer(const uint8_t *table, size_t table_len, const uint8_t *frame, size_t frame_len,
                        uint8_t *slip, size_t slip_len);

/* Sets the rule that a slip holds: its clause is added to the ticket in a table, after the others. The result is 0,
 * or has a refusal: LUTSAMIK_STALE_SLIP where the ticket has more or fewer clauses than the slip says, then
 * LUTSAMIK_BAD_LENGTH where the slip says that its frame has more than 35 bytes, and else what offering the frame
 * would give, since a slip may hold anything. If only offers were made in between, into this slip none but to the
 * same ticket, a rule that was offered is set. The table is then the one that the ticket's text reads to with the
 * rule's line before FF, and FF one higher. */
uint64_t lutsamik_set(uint8_t *table, size_t table_len, const uint8_t *slip, size_t slip_len);

/* Judges whether the atoms that an answer marks are a fitting of the ticket in a table.
 *
 * The answer has a byte for each ground atom, 1 for an atom that is in the set and 0 for one that is not. Atoms are
 * numbered from 0 on by predicate, then by arguments with the first one slowest. Their number A is the sum of c to
 * the power of the arity over all predicates, where c is the ticket's number of constants. Bytes past the first A
 * do not matter.
 *
 * lutsamik_judged says LUTSAMIK_FITTING, or LUTSAMIK_VIOLATED, and lutsamik_clause and lutsamik_value then name the
 * first violated instance, all of whose conditions are in the set and none of its alternatives: first by clause,
 * then by the values of the variables 80, 81, 82, 83 with 80 slowest. */
uint64_t lutsamik_judge(const uint8_t *table, size_t table_len, const uint8_t *answer, size_t answer_len);

/* Tells how far an instance of the ticket in a table holds in an answer, which is as lutsamik_judge takes it.
 *
 * The instance is named by its clause, the first one being 0, and by the constants put for the variables 80, 81, 82
 * and 83. A value for a variable that the clause lacks is not looked at. lutsamik_held says how many of the
 * instance's conditions are in the set, from the left, before the first that is not; where all are, it is their
 * number. */
uint64_t lutsamik_holding(const uint8_t *table, size_t table_len, const uint8_t *answer, size_t answer_len,
                          uint32_t clause, uint32_t value_80, uint32_t value_81, uint32_t value_82,
                          uint32_t value_83);

/* Rewrites the ticket in a table into magic rules. lutsamik_rules says how many there are, 320 at most. Their layout
 * is the library's own. */
uint64_t lutsamik_rewrite(const uint8_t *table, size_t table_len, uint8_t *rules, size_t rules_len);

/* Fits the ticket in a table, by the relevancy engine.
 *
 * lutsamik_verdict says LUTSAMIK_NONE, LUTSAMIK_FITS or LUTSAMIK_SPENT, and lutsamik_count how many search entries
 * were made; LUTSAMIK_SPENT has made as many as the ticket allows. An alternative that is equal to an earlier one of
 * the same instance is passed over: it is no entry and is not counted. lutsamik_deepest says how many entries the
 * longest path had that was entered, one that was closed at once counted too: A at most. LUTSAMIK_FITS leaves a
 * fitting in the answer's first A bytes, as lutsamik_judge takes it; the other two leave the answer as it was. */
uint64_t lutsamik_fit_relevancy(const uint8_t *table, size_t table_len, uint8_t *answer, size_t answer_len,
                                uint8_t *work, size_t work_len);

/* Fits the ticket in a table, by the magic engine, which rewrites the ticket and walks by the rules alone. Verdict,
 * count, deepest figure and answer are those of lutsamik_fit_relevancy; the rules are those of lutsamik_rewrite,
 * whatever the verdict. */
uint64_t lutsamik_fit_magic(const uint8_t *table, size_t table_len, uint8_t *rules, size_t rules_len,
                            uint8_t *answer, size_t answer_len, uint8_t *work, size_t work_len);

/* Fits the ticket in a table, by the staged engine: at each node it marks what is wanted afresh and in stages, and only
 * until an instance is found to split. Where rules depend on each other its walk is often shorter than that of the
 * other two engines; it can be longer.
 *
 * lutsamik_count and LUTSAMIK_SPENT are those of its own walk. LUTSAMIK_NONE and LUTSAMIK_FITS are right even where
 * another engine is spent, so its verdict never contradicts another's; but the fitting may be another one. All else is
 * as in lutsamik_fit_relevancy, except that lutsamik_deepest is 0, and that no call leaves a session of this walk or
 * goes on with one. */
uint64_t lutsamik_fit_staged(const uint8_t *table, size_t table_len, uint8_t *answer, size_t answer_len,
                             uint8_t *work, size_t work_len);

/* Fits the ticket in a table, by the relevancy engine, and leaves a session: a first run. Verdict, count, deepest
 * figure, answer and work are those of lutsamik_fit_relevancy, which is a first run whose session is not kept. What
 * the session held does not matter. */
uint64_t lutsamik_begin_relevancy(struct lutsamik_session *session, const uint8_t *table, size_t table_len,
                                  uint8_t *answer, size_t answer_len, uint8_t *work, size_t work_len);

/* A first run by the magic engine. Verdict, count, deepest figure, session and answer are those of
 * lutsamik_begin_relevancy; the rules are those of lutsamik_rewrite, whatever the verdict. */
uint64_t lutsamik_begin_magic(struct lutsamik_session *session, const uint8_t *table, size_t table_len,
                              uint8_t *rules, size_t rules_len, uint8_t *answer, size_t answer_len, uint8_t *work,
                              size_t work_len);

/* Goes on with a session, by the relevancy engine: from where it stands the walk makes up to so many further entries,
 * and the session then stands where the walk has come to. The ticket's own limit is not looked at.
 *
 * Let the session be one that only these calls have moved since its first run, by either engine and in any order,
 * always with the table of the same ticket. Then verdict, count, deepest figure, answer and session are those of a
 * first run under the sum of the ticket's limit and the further limits of all calls that were not refused: so
 * lutsamik_count has the entries of all these calls, and lutsamik_deepest the longest path of them all. A finished
 * session answers again as before, with its fitting, whatever the further limit; a spent one with a further limit of
 * 0 stays spent. A figure that a session of other origin brings counts as a path: what is left is the larger of it
 * and of the longest path that this call enters.
 *
 * LUTSAMIK_TOO_MANY_ENTRIES goes by the session's count and the further limit alone, for a finished session too; with
 * a smaller limit the call goes on. LUTSAMIK_NO_SESSION comes after it. It is never met by such a session; one of
 * other origin is refused unless each entry of its path is the alternative just before the next one of the split that
 * the walk takes there, next is at most m, a session that fits stands at an open node, and one that ends in none at a
 * root that is closed or has all its alternatives entered. A verdict above LUTSAMIK_SPENT, a length above 1,024, and a
 * deepest figure below the length or above A are refused; nothing past the path is looked at.
 *
 * The path is walked anew first, uncounted, which takes as long as so many entries do; the rest of the work so far is
 * kept. */
uint64_t lutsamik_resume_relevancy(struct lutsamik_session *session, uint32_t further, const uint8_t *table,
                                   size_t table_len, uint8_t *answer, size_t answer_len, uint8_t *work,
                                   size_t work_len);

/* Goes on with a session, by the magic engine. A rules buffer that is too short is refused by 11 as well; else refusal,
 * verdict, count, deepest figure, session and answer are those of lutsamik_resume_relevancy, and the rules those of
 * lutsamik_rewrite, whatever the verdict. */
uint64_t lutsamik_resume_magic(struct lutsamik_session *session, uint32_t further, const uint8_t *table,
                               size_t table_len, uint8_t *rules, size_t rules_len, uint8_t *answer, size_t answer_len,
                               uint8_t *work, size_t work_len);

/* Says, by the relevancy engine, whether the ticket in a table has a fitting where some facts are not yet known. These
 * open facts are numbers of atoms, as lutsamik_judge numbers them: 16 at most, in any order, each below A and none
 * twice; there may be none.
 *
 * The ticket by itself is run first, then with all the facts, each as a clause without conditions after the ticket's
 * own, in the order lent; both under the ticket's limit. Where the first run ends in none, the second is not made.
 * lutsamik_assumed says LUTSAMIK_NONE_ALWAYS where the first run ends in none, LUTSAMIK_NONE_WITH_SOME where the first
 * fits and the second ends in none, LUTSAMIK_NONE_NEVER where both fit, and LUTSAMIK_SPENT where a run is spent that is
 * made, whatever the other says. The first three are right for all choices of the facts to add, though at most two of
 * them are tried. first is left the number of entries that the first run made, and second that of the second run, 0
 * where it is not made. The answer is lent as to a first run and is not written to: no fitting is left.
 *
 * LUTSAMIK_BAD_COUNT is for a ticket whose clauses and the facts are more than 64 together, and comes before
 * LUTSAMIK_BAD_FACTS, which is for more than 16 facts, a number of A or more, and a number that stands there twice. */
uint64_t lutsamik_assume_relevancy(const uint8_t *table, size_t table_len, const uint32_t *facts, size_t facts_len,
                                   uint32_t *first, uint32_t *second, const uint8_t *answer, size_t answer_len,
                                   uint8_t *work, size_t work_len);

/* The same by the magic engine. Refusal, what is said and both counts are those of lutsamik_assume_relevancy, but that
 * a rules buffer which is too short is refused by LUTSAMIK_SHORT_BUFFER too; the rules are those that
 * lutsamik_rewrite writes for the ticket of the last run that is made, so with a clause for each fact unless the ticket
 * by itself ends in none. */
uint64_t lutsamik_assume_magic(const uint8_t *table, size_t table_len, const uint32_t *facts, size_t facts_len,
                               uint32_t *first, uint32_t *second, uint8_t *rules, size_t rules_len,
                               const uint8_t *answer, size_t answer_len, uint8_t *work, size_t work_len);

/* Fits the ticket in a table part by part, by the relevancy engine, so that unrelated families of rules are not
 * searched as one.
 *
 * Two clauses belong together if they share a predicate, directly or through other clauses; a part is the clauses that
 * belong together, a clause without atoms is a part of its own, and so is a predicate in no clause, which fits. Parts
 * run one after another: clauses without atoms first, then by their lowest predicate. Each has all constants and atoms
 * of the ticket, and the full limit. The first part that ends in none ends the call, and lutsamik_verdict says
 * LUTSAMIK_NONE; failing that it says LUTSAMIK_SPENT where a part is spent, after the parts behind it were run too,
 * and else LUTSAMIK_FITS. Then the answer has each atom as the fitting of its predicate's part has it, and that is a
 * fitting of the whole ticket; LUTSAMIK_NONE is right for the whole ticket too. LUTSAMIK_NONE and LUTSAMIK_SPENT leave
 * the answer as it was, though parts before may have fitted. count is left the sum of the entries that the runs made:
 * it may pass what lutsamik_count holds, which is 0 here, as is lutsamik_deepest. A ticket that is spent as a whole may
 * fit or end in none by parts. */
uint64_t lutsamik_parts_relevancy(const uint8_t *table, size_t table_len, uint64_t *count, uint8_t *answer,
                                  size_t answer_len, uint8_t *work, size_t work_len);

/* The same by the magic engine. Refusal, verdict, count and answer are those of lutsamik_parts_relevancy, but that a
 * rules buffer which is too short is refused by LUTSAMIK_SHORT_BUFFER too; the rules are those that lutsamik_rewrite
 * writes for the whole ticket, whatever the verdict. */
uint64_t lutsamik_parts_magic(const uint8_t *table, size_t table_len, uint64_t *count, uint8_t *rules, size_t rules_len,
                              uint8_t *answer, size_t answer_len, uint8_t *work, size_t work_len);

/* A result taken apart. Bits 0 to 7: the refusal, or LUTSAMIK_OK. Ask for it first: what the other functions say of
 * a refused result, but for lutsamik_line, means nothing (lutsamik_verdict would say LUTSAMIK_NONE). */
static inline unsigned lutsamik_refusal(uint64_t result) { return (unsigned)(result & 0xFF); }

/* Bits 32 to 63 of a refused result: the faulty line where reading refuses by 1 to 10, the first line being 1, and
 * else 0. Where FF is missing it is the line after the last. */
static inline uint32_t lutsamik_line(uint64_t result) { return (uint32_t)(result >> 32); }

/* Bits 32 to 63 of a writing: the number of bytes written. */
static inline uint32_t lutsamik_written(uint64_t result) { return (uint32_t)(result >> 32); }

/* Bits 32 to 63 of a rewriting: the number of rules. */
static inline uint32_t lutsamik_rules(uint64_t result) { return (uint32_t)(result >> 32); }

/* Bits 8 to 15 of an engine's result, by parts too: LUTSAMIK_NONE, LUTSAMIK_FITS or LUTSAMIK_SPENT. */
static inline unsigned lutsamik_verdict(uint64_t result) { return (unsigned)(result >> 8 & 0xFF); }

/* Bits 16 to 31 of an engine's result: how many entries the longest path had that was entered, A at most; with a
 * session, in all calls since the first run, and then it is the session's deepest; 0 by the staged engine. */
static inline uint32_t lutsamik_deepest(uint64_t result) { return (uint32_t)(result >> 16 & 0xFFFF); }

/* Bits 32 to 63 of an engine's result: the number of search entries made, the root not among them; with a session, in
 * all calls since the first run. */
static inline uint32_t lutsamik_count(uint64_t result) { return (uint32_t)(result >> 32); }

/* Bits 8 to 15 of a result with open facts: LUTSAMIK_NONE_ALWAYS, LUTSAMIK_NONE_WITH_SOME, LUTSAMIK_NONE_NEVER or
 * LUTSAMIK_SPENT. There is nothing above them. */
static inline unsigned lutsamik_assumed(uint64_t result) { return (unsigned)(result >> 8 & 0xFF); }

/* Bits 8 to 15 of a judging: LUTSAMIK_FITTING or LUTSAMIK_VIOLATED. */
static inline unsigned lutsamik_judged(uint64_t result) { return (unsigned)(result >> 8 & 0xFF); }

/* Bits 24 to 31 of a judging that says LUTSAMIK_VIOLATED: the clause, the first one being 0. */
static inline unsigned lutsamik_clause(uint64_t result) { return (unsigned)(result >> 24 & 0xFF); }

/* Bits 32 to 39, 40 to 47, 48 to 55 and 56 to 63 of such a judging: the constants put for the variables 80, 81, 82
 * and 83. The variable is given as 0 to 3; one that the clause lacks has 0. */
static inline unsigned lutsamik_value(uint64_t result, unsigned variable) {
    return (unsigned)(result >> (32 + 8 * variable) & 0xFF);
}

/* Bits 32 to 63 of what lutsamik_holding gives: how many conditions hold from the left, before the first that does
 * not; 4 at most, and 0 also where the clause has none. */
static inline uint32_t lutsamik_held(uint64_t result) { return (uint32_t)(result >> 32); }

/* Words for a refusal, by its number. */
static inline const char *lutsamik_refusal_words(unsigned refusal) {
    switch (refusal) {
    case LUTSAMIK_OK: return "not refused";
    case LUTSAMIK_BAD_LINE: return "a line has no digits, an odd number, more than 70, a foreign byte, or no 0A";
    case LUTSAMIK_BAD_KIND: return "a line's kind is unknown or out of place, or the line FF is missing or not the last";
    case LUTSAMIK_BAD_LENGTH: return "a byte of a line is missing, or bytes are left over";
    case LUTSAMIK_BAD_VERSION: return "the version is not 01";
    case LUTSAMIK_BAD_COUNT: return "a count or an arity is out of range, or there is a 65th clause";
    case LUTSAMIK_UNKNOWN: return "a predicate, a constant or an argument is unknown";
    case LUTSAMIK_BAD_NUMBERING: return "a variable is out of the order 80, 81, 82, 83";
    case LUTSAMIK_FREE_VARIABLE: return "a variable of an alternative stands in no condition";
    case LUTSAMIK_TOO_MANY_ATOMS: return "there are more than 1024 atoms";
    case LUTSAMIK_TOO_MANY_MARKS: return "the sum of conditions times constants to the power of variables passes 16384";
    case LUTSAMIK_SHORT_BUFFER: return "a buffer is shorter than it must be";
    case LUTSAMIK_NO_TABLE: return "the table is not what some accepted text reads to";
    case LUTSAMIK_BAD_ANSWER: return "a byte of the answer is neither 0 nor 1";
    case LUTSAMIK_TOO_MANY_ENTRIES: return "the session's count and the further limit together pass FFFFFFFF";
    case LUTSAMIK_NO_SESSION: return "the session is none of the ticket's walk";
    case LUTSAMIK_STALE_SLIP: return "the slip's number of clauses is not the ticket's";
    case LUTSAMIK_NO_INSTANCE: return "the ticket lacks the clause, or a value of its variables";
    case LUTSAMIK_BAD_FACTS: return "there are more than 16 open facts, or one is no atom or is repeated";
    default: return "no refusal has this number";
    }
}

/* What the numbers of a ticket's atoms depend on: how many constants and predicates there are, and how many arguments
 * each predicate has. */
struct lutsamik_shape {
    uint8_t constants;
    uint8_t predicates;
    uint8_t arities[32];
};

/* A ground atom: its predicate and its arguments, as many as the predicate has; 0 past them. */
struct lutsamik_atom {
    uint8_t predicate;
    uint8_t arguments[3];
};

/* The byte of two digits of a text, 0 to 9 and A to F. */
static inline uint8_t lutsamik_byte(const uint8_t *digits) {
    unsigned high = (unsigned)(digits[0] <= '9' ? digits[0] - '0' : digits[0] - 'A' + 10);
    unsigned low = (unsigned)(digits[1] <= '9' ? digits[1] - '0' : digits[1] - 'A' + 10);
    return (uint8_t)((high << 4 | low) & 0xFF);
}

/* The shape of the ticket in a text that was accepted or written. Of any other text it is one that means nothing; no
 * byte past the text is looked at. */
static inline struct lutsamik_shape lutsamik_shape_of(const uint8_t *text, size_t text_len) {
    struct lutsamik_shape shape = {0, 0, {0}};
    /* The first line has eight bytes, the third the number of constants and the fourth that of predicates; a line of
     * two bytes for each predicate follows, the second its arity. */
    const size_t first = 17, line = 5;
    unsigned i;
    if (text_len < first) return shape;
    shape.constants = lutsamik_byte(text + 4);
    shape.predicates = lutsamik_byte(text + 6);
    if (shape.predicates > 32) shape.predicates = 32;
    for (i = 0; i < shape.predicates && first + line * (i + 1) <= text_len; i++)
        shape.arities[i] = (uint8_t)(lutsamik_byte(text + first + line * i + 2) & 3);
    return shape;
}

/* How many atoms a predicate has. */
static inline uint32_t lutsamik_atoms_of(struct lutsamik_shape shape, unsigned predicate) {
    uint32_t atoms = 1;
    unsigned i;
    for (i = 0; i < shape.arities[predicate & 31]; i++) atoms *= shape.constants;
    return atoms;
}

/* The atom of a number, which is its byte's place in an answer; 1, and the atom, or 0 where there is none. */
static inline int lutsamik_atom_of(struct lutsamik_shape shape, uint32_t number, struct lutsamik_atom *atom) {
    unsigned i;
    atom->predicate = 0;
    atom->arguments[0] = atom->arguments[1] = atom->arguments[2] = 0;
    while (atom->predicate < shape.predicates && number >= lutsamik_atoms_of(shape, atom->predicate)) {
        number -= lutsamik_atoms_of(shape, atom->predicate);
        atom->predicate++;
    }
    if (atom->predicate >= shape.predicates) return 0;
    for (i = shape.arities[atom->predicate & 31]; i > 0 && i <= 3; i--) {
        atom->arguments[i - 1] = (uint8_t)(number % shape.constants);
        number /= shape.constants;
    }
    return 1;
}

/* The number of an atom; 1024, which no atom has, where the ticket lacks the predicate or a constant. */
static inline uint32_t lutsamik_number_of(struct lutsamik_shape shape, struct lutsamik_atom atom) {
    uint32_t before = 0, among = 0;
    unsigned i;
    if (atom.predicate >= shape.predicates) return 1024;
    for (i = 0; i < atom.predicate; i++) before += lutsamik_atoms_of(shape, i);
    for (i = 0; i < 3 && i < shape.arities[atom.predicate & 31]; i++) {
        if (atom.arguments[i] >= shape.constants) return 1024;
        among = among * shape.constants + atom.arguments[i];
    }
    return before + among;
}

#ifdef __cplusplus
}
#endif

#endif
