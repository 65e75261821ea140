/* Random numbers, and random texts of tickets by document 01's grammar: most of them are accepted, and their limits are low. */
#ifndef TICKETS_H
#define TICKETS_H

#include <stdbool.h>
#include <stddef.h>
#include <stdint.h>
#include <string.h>

/* ---- Random numbers ---- */

static uint64_t random_state;

static uint64_t next_random(void) {
    random_state ^= random_state >> 12;
    random_state ^= random_state << 25;
    random_state ^= random_state >> 27;
    return random_state * UINT64_C(0x2545F4914F6CDD1D);
}

static void begin_random(uint64_t seed) {
    random_state = seed * UINT64_C(0x9E3779B97F4A7C15) | 1;
    for (int i = 0; i < 8; i++)
        next_random();
}

static size_t below(size_t bound) { return (size_t)((next_random() >> 32) * bound >> 32); }

static bool once_in(size_t times) { return below(times) == 0; }

static void any_bytes(uint8_t *bytes, size_t len) {
    for (size_t i = 0; i < len; i++)
        bytes[i] = (uint8_t)(next_random() >> 56);
}

/* ---- Texts ---- */

/* Bytes of room for a text. None that is accepted has as many. */
enum { LONGEST_TEXT = 8192 };

struct shape {
    size_t constants, predicates, clauses, most_conditions, most_alternatives;
    uint8_t arities[32];
};

/* The text that is being put together. */
static uint8_t *text_end;

static void put_byte(size_t byte) {
    static const char digits[] = "0123456789ABCDEF";
    *text_end++ = (uint8_t)digits[byte / 16];
    *text_end++ = (uint8_t)digits[byte % 16];
}

static void end_line(void) { *text_end++ = '\n'; }

/* A constant, or a variable of which so many have appeared: with one more that may. */
static size_t any_argument(size_t constants, size_t *variables, bool may_be_new) {
    size_t choices = *variables + (may_be_new && *variables < 4);
    if (choices == 0 || (constants > 0 && once_in(2)))
        return constants == 0 ? 0 : below(constants);
    size_t choice = below(choices);
    *variables += choice == *variables;
    return 0x80 + choice;
}

static void put_atoms(const struct shape *shape, size_t many, size_t *variables, bool are_conditions) {
    for (size_t i = 0; i < many; i++) {
        size_t predicate = below(shape->predicates);
        put_byte(predicate);
        for (size_t place = 0; place < shape->arities[predicate]; place++)
            put_byte(any_argument(shape->constants, variables, are_conditions));
    }
}

/* One without conditions has an alternative, for else the ticket has no fitting. */
static void put_clause(const struct shape *shape) {
    size_t variables = 0, conditions = below(shape->most_conditions + 1);
    size_t alternatives = conditions == 0 ? 1 + below(shape->most_alternatives) : below(shape->most_alternatives + 1);
    put_byte(0x03);
    put_byte(conditions);
    put_byte(alternatives);
    put_atoms(shape, conditions, &variables, true);
    put_atoms(shape, alternatives, &variables, false);
    end_line();
}

static void put_heading(const struct shape *shape) {
    const size_t heading[] = {0x01, 0x01, shape->constants, shape->predicates, 0, 0, 0, below(once_in(2) ? 3 : 30)};
    for (size_t i = 0; i < sizeof heading / sizeof *heading; i++)
        put_byte(heading[i]);
    end_line();
    for (size_t i = 0; i < shape->predicates; i++) {
        put_byte(0x02);
        put_byte(shape->arities[i]);
        end_line();
    }
}

/* A small ticket, or one of as many predicates and clauses as there can be. */
static struct shape any_shape(void) {
    bool is_full = once_in(8);
    struct shape full = {.constants = 1 + below(2), .predicates = 32, .clauses = 64, .most_conditions = 4, .most_alternatives = 4};
    struct shape small = {.constants = below(5), .predicates = 1 + below(6), .clauses = below(25), .most_conditions = 3, .most_alternatives = 3};
    struct shape shape = is_full ? full : small;
    for (size_t i = 0; i < shape.predicates; i++)
        shape.arities[i] = (uint8_t)(is_full ? 3 : below(3));
    return shape;
}

/* One byte changed, or the end cut off. */
static size_t damaged(uint8_t *text, size_t len) {
    static const char likely[] = "0123456789ABCDEFa \n";
    text[below(len)] = (uint8_t)(once_in(4) ? below(256) : (size_t)likely[below(sizeof likely - 1)]);
    return once_in(8) ? below(len + 1) : len;
}

/* A ticket's text, sometimes damaged, but for the high bytes of the limit, so that walks stay short; or any bytes. */
static size_t any_text(uint8_t text[LONGEST_TEXT]) {
    struct shape shape = any_shape();
    text_end = text;
    put_heading(&shape);
    for (size_t i = 0; i < shape.clauses; i++)
        put_clause(&shape);
    put_byte(0xFF);
    put_byte(shape.clauses);
    end_line();
    size_t len = (size_t)(text_end - text);
    if (once_in(3))
        len = damaged(text, len);
    memset(text + 8, '0', 6);
    if (once_in(16))
        any_bytes(text, len);
    return len;
}

#endif
