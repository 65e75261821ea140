/* A library that lies, to see that the tool finds out. Each operation is the true one, called true_..., but for the lie that the
 * environment's LIE names. */
#define _POSIX_C_SOURCE 199309L
#include <stdint.h>
#include <stdlib.h>
#include <string.h>
#include <time.h>

#include "lutsamik.h"

#define TRUE(name) true_##name
uint64_t TRUE(read)(const uint8_t *text, size_t text_len, uint8_t *table, size_t table_len);
uint64_t TRUE(write)(const uint8_t *table, size_t table_len, uint8_t *out, size_t out_len);
uint64_t TRUE(offer)(const uint8_t *table, size_t table_len, const uint8_t *frame, size_t frame_len, uint8_t *slip, size_t slip_len);
uint64_t TRUE(set)(uint8_t *table, size_t table_len, const uint8_t *slip, size_t slip_len);
uint64_t TRUE(judge)(const uint8_t *table, size_t table_len, const uint8_t *answer, size_t answer_len);
uint64_t TRUE(holding)(const uint8_t *table, size_t table_len, const uint8_t *answer, size_t answer_len, uint32_t clause, uint32_t value_80,
                       uint32_t value_81, uint32_t value_82, uint32_t value_83);
uint64_t TRUE(fit_relevancy)(const uint8_t *table, size_t table_len, uint8_t *answer, size_t answer_len, uint8_t *work, size_t work_len);
uint64_t TRUE(fit_staged)(const uint8_t *table, size_t table_len, uint8_t *answer, size_t answer_len, uint8_t *work, size_t work_len);
uint64_t TRUE(resume_relevancy)(struct lutsamik_session *session, uint32_t further, const uint8_t *table, size_t table_len, uint8_t *answer,
                                size_t answer_len, uint8_t *work, size_t work_len);
uint64_t TRUE(resume_magic)(struct lutsamik_session *session, uint32_t further, const uint8_t *table, size_t table_len, uint8_t *rules,
                            size_t rules_len, uint8_t *answer, size_t answer_len, uint8_t *work, size_t work_len);
uint64_t TRUE(assume_magic)(const uint8_t *table, size_t table_len, const uint32_t *facts, size_t facts_len, uint32_t *first, uint32_t *second,
                            uint8_t *rules, size_t rules_len, const uint8_t *answer, size_t answer_len, uint8_t *work, size_t work_len);
uint64_t TRUE(parts_magic)(const uint8_t *table, size_t table_len, uint64_t *count, uint8_t *rules, size_t rules_len, uint8_t *answer,
                           size_t answer_len, uint8_t *work, size_t work_len);

static int lie(const char *name) {
    const char *lie = getenv("LIE");
    return lie && strcmp(lie, name) == 0;
}

static const uint64_t ONE_ENTRY = (uint64_t)1 << 32;
static const uint64_t OTHER_VERDICT = 1 << 8;
static const uint64_t ONE_DEEPER = 1 << 16;

/* A refused ticket is accepted: its table stays as it was. */
uint64_t lutsamik_read(const uint8_t *text, size_t text_len, uint8_t *table, size_t table_len) {
    uint64_t answer = TRUE(read)(text, text_len, table, table_len);
    return lie("read") ? LUTSAMIK_OK : answer;
}

/* Another first byte is written. */
uint64_t lutsamik_write(const uint8_t *table, size_t table_len, uint8_t *out, size_t out_len) {
    uint64_t answer = TRUE(write)(table, table_len, out, out_len);
    if (lie("write")) out[0] = '1';
    return answer;
}

/* Any rule can be added, or none, since the sum would pass its limit. */
uint64_t lutsamik_offer(const uint8_t *table, size_t table_len, const uint8_t *frame, size_t frame_len, uint8_t *slip, size_t slip_len) {
    uint64_t answer = TRUE(offer)(table, table_len, frame, frame_len, slip, slip_len);
    if (lie("offer")) return LUTSAMIK_OK;
    return lie("no offer") ? LUTSAMIK_TOO_MANY_MARKS : answer;
}

/* Nothing is set, the rule is refused, the ticket has another limit afterwards, or the rule is set twice. */
uint64_t lutsamik_set(uint8_t *table, size_t table_len, const uint8_t *slip, size_t slip_len) {
    if (lie("set nothing")) return LUTSAMIK_OK;
    if (lie("set not")) return LUTSAMIK_BAD_COUNT;
    uint64_t answer = TRUE(set)(table, table_len, slip, slip_len);
    uint8_t again[LUTSAMIK_TABLE_BYTES];
    if (lie("set other")) table[7] ^= 1;
    if (lie("set twice")) {
        memcpy(again, slip, slip_len);
        again[0]++;
        TRUE(set)(table, table_len, again, slip_len);
    }
    return answer;
}

/* No instance is violated, or another value of its first variable. */
uint64_t lutsamik_judge(const uint8_t *table, size_t table_len, const uint8_t *answer, size_t answer_len) {
    uint64_t judged = TRUE(judge)(table, table_len, answer, answer_len);
    if (lie("judge")) return (uint64_t)LUTSAMIK_FITTING << 8;
    return lie("instance") && lutsamik_judged(judged) == LUTSAMIK_VIOLATED ? judged ^ ONE_ENTRY : judged;
}

/* One condition more holds, or an instance that is lacking holds. */
uint64_t lutsamik_holding(const uint8_t *table, size_t table_len, const uint8_t *answer, size_t answer_len, uint32_t clause, uint32_t value_80,
                          uint32_t value_81, uint32_t value_82, uint32_t value_83) {
    uint64_t held = TRUE(holding)(table, table_len, answer, answer_len, clause, value_80, value_81, value_82, value_83);
    if (lie("lacking") && lutsamik_refusal(held) == LUTSAMIK_NO_INSTANCE) return LUTSAMIK_OK;
    return lie("holding") ? held + ONE_ENTRY : held;
}

/* Another fitting at the root. */
uint64_t lutsamik_fit_relevancy(const uint8_t *table, size_t table_len, uint8_t *answer, size_t answer_len, uint8_t *work, size_t work_len) {
    uint64_t fit = TRUE(fit_relevancy)(table, table_len, answer, answer_len, work, work_len);
    if (lie("wanted") && lutsamik_count(fit) == 0) answer[2] ^= 1;
    return fit;
}

/* Another fitting, verdict or count, or a deepest figure, by stages. */
uint64_t lutsamik_fit_staged(const uint8_t *table, size_t table_len, uint8_t *answer, size_t answer_len, uint8_t *work, size_t work_len) {
    uint64_t fit = TRUE(fit_staged)(table, table_len, answer, answer_len, work, work_len);
    if (lie("staged fitting")) answer[0] ^= 1;
    if (lie("staged verdict")) return fit ^ OTHER_VERDICT;
    if (lie("staged count")) return fit + ONE_ENTRY;
    return lie("staged deepest") ? fit + ONE_DEEPER : fit;
}

/* What both engines say of going on: a count or a deepest figure that is one too high, where there is a count, of the session too or alone; a session
 * that an engine left is refused; or one that has too many entries is not. */
static uint64_t both(uint64_t fit, uint32_t further, struct lutsamik_session *session) {
    if (lie("refused") && further > 0) return LUTSAMIK_NO_SESSION;
    if (lie("never too many") && lutsamik_refusal(fit) == LUTSAMIK_TOO_MANY_ENTRIES) {
        return (uint64_t)session->count << 32 | session->deepest << 16 | (uint64_t)session->verdict << 8;
    }
    if (lutsamik_refusal(fit) != LUTSAMIK_OK || lutsamik_count(fit) == 0) return fit;
    if (lie("count of both") || lie("count of sessions")) session->count++;
    if (lie("deepest of both") || lie("deepest of sessions")) session->deepest++;
    return fit + (lie("count of both") ? ONE_ENTRY : 0) + (lie("deepest of both") ? ONE_DEEPER : 0);
}

/* No lie, but slow: each call takes five seconds. */
uint64_t lutsamik_resume_relevancy(struct lutsamik_session *session, uint32_t further, const uint8_t *table, size_t table_len, uint8_t *answer,
                                   size_t answer_len, uint8_t *work, size_t work_len) {
    const struct timespec long_time = {5, 0};
    if (lie("slow")) nanosleep(&long_time, NULL);
    return both(TRUE(resume_relevancy)(session, further, table, table_len, answer, answer_len, work, work_len), further, session);
}

/* Another count, deepest figure, verdict, fitting or session than the relevancy engine's, or a refusal. */
uint64_t lutsamik_resume_magic(struct lutsamik_session *session, uint32_t further, const uint8_t *table, size_t table_len, uint8_t *rules,
                               size_t rules_len, uint8_t *answer, size_t answer_len, uint8_t *work, size_t work_len) {
    uint64_t fit = TRUE(resume_magic)(session, further, table, table_len, rules, rules_len, answer, answer_len, work, work_len);
    if (lie("fitting")) answer[0] ^= 1;
    if (lie("session")) session->next ^= 1;
    if (lie("zeros")) session->nexts[1023] = 1;
    if (lie("refused by one")) return LUTSAMIK_NO_SESSION;
    if (lie("verdict")) {
        session->verdict ^= 1;
        return fit ^ OTHER_VERDICT;
    }
    if (lie("count")) {
        session->count++;
        return fit + ONE_ENTRY;
    }
    if (lie("deepest")) {
        session->deepest++;
        return fit + ONE_DEEPER;
    }
    return both(fit, further, session);
}

/* Something else is said of open facts, another count of the second run; facts are refused, or taken, whatever they are. */
uint64_t lutsamik_assume_magic(const uint8_t *table, size_t table_len, const uint32_t *facts, size_t facts_len, uint32_t *first, uint32_t *second,
                               uint8_t *rules, size_t rules_len, const uint8_t *answer, size_t answer_len, uint8_t *work, size_t work_len) {
    uint64_t said = TRUE(assume_magic)(table, table_len, facts, facts_len, first, second, rules, rules_len, answer, answer_len, work, work_len);
    if (lie("facts refused")) return LUTSAMIK_BAD_FACTS;
    if (lie("facts taken")) return (uint64_t)LUTSAMIK_NONE_NEVER << 8;
    if (lie("count with facts")) ++*second;
    return lie("assumed") ? said ^ OTHER_VERDICT << 1 : said;
}

/* Another sum, another verdict or another fitting by parts. */
uint64_t lutsamik_parts_magic(const uint8_t *table, size_t table_len, uint64_t *count, uint8_t *rules, size_t rules_len, uint8_t *answer,
                              size_t answer_len, uint8_t *work, size_t work_len) {
    uint64_t said = TRUE(parts_magic)(table, table_len, count, rules, rules_len, answer, answer_len, work, work_len);
    if (lie("sum")) ++*count;
    if (lie("joined")) answer[0] ^= 1;
    return lie("whole") ? said ^ OTHER_VERDICT : said;
}
