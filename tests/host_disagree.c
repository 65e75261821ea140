/* An engine, with a session too, and a judge that are wrong, for the linker to put in the places of the library's
 * (--wrap): the example must notice each. */
#include <lutsamik.h>

/* Fits after no entry, and leaves the answer as it was. */
uint64_t __wrap_lutsamik_fit_magic(const uint8_t *table, size_t table_len, uint8_t *rules, size_t rules_len,
                                   uint8_t *answer, size_t answer_len, uint8_t *work, size_t work_len) {
    (void)table, (void)rules, (void)answer, (void)work;
    (void)table_len, (void)rules_len, (void)answer_len, (void)work_len;
    return LUTSAMIK_FITS << 8;
}

/* As it should be, but for the session, whose next alternative is another. */
uint64_t __real_lutsamik_resume_magic(struct lutsamik_session *session, uint32_t further, const uint8_t *table,
                                      size_t table_len, uint8_t *rules, size_t rules_len, uint8_t *answer,
                                      size_t answer_len, uint8_t *work, size_t work_len);

uint64_t __wrap_lutsamik_resume_magic(struct lutsamik_session *session, uint32_t further, const uint8_t *table,
                                      size_t table_len, uint8_t *rules, size_t rules_len, uint8_t *answer,
                                      size_t answer_len, uint8_t *work, size_t work_len) {
    uint64_t result = __real_lutsamik_resume_magic(session, further, table, table_len, rules, rules_len, answer,
                                                   answer_len, work, work_len);
    session->next ^= 1;
    return result;
}

uint64_t __wrap_lutsamik_judge(const uint8_t *table, size_t table_len, const uint8_t *answer, size_t answer_len) {
    (void)table, (void)table_len, (void)answer, (void)answer_len;
    return LUTSAMIK_VIOLATED << 8;
}
