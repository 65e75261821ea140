/* The header's names of atoms: of each ticket given, every number is some atom's and that atom's number, and the fitting's lines of document 01 are
 * printed by them. Words for every refusal. Usage: names FILE... */
#include <stdio.h>
#include <stdlib.h>
#include <string.h>

#include "lutsamik.h"

static uint8_t text[LUTSAMIK_TEXT_BYTES], table[LUTSAMIK_TABLE_BYTES], answer[LUTSAMIK_ANSWER_BYTES], work[LUTSAMIK_WORK_BYTES];

static int both_ways(struct lutsamik_shape shape) {
    uint32_t number = 0;
    struct lutsamik_atom atom;
    for (; lutsamik_atom_of(shape, number, &atom); number++)
        if (number >= 1024 || lutsamik_number_of(shape, atom) != number) return 0;
    atom.predicate = shape.predicates;
    return lutsamik_number_of(shape, atom) == 1024;
}

static int print(const char *path) {
    FILE *file = fopen(path, "rb");
    size_t len = file ? fread(text, 1, sizeof text, file) : 0;
    uint64_t result = lutsamik_read(text, len, table, sizeof table);
    struct lutsamik_shape shape = lutsamik_shape_of(text, len);
    struct lutsamik_atom atom;
    uint32_t number;
    unsigned i;
    if (file) fclose(file);
    if (lutsamik_refusal(result)) {
        printf("%s: %s, at line %u\n", path, lutsamik_refusal_words(lutsamik_refusal(result)), (unsigned)lutsamik_line(result));
        return 0;
    }
    if (!both_ways(shape)) return 1;
    result = lutsamik_fit_relevancy(table, sizeof table, answer, sizeof answer, work, sizeof work);
    for (number = 0; lutsamik_verdict(result) == LUTSAMIK_FITS && lutsamik_atom_of(shape, number, &atom); number++) {
        if (!answer[number]) continue;
        printf("82%02X", atom.predicate);
        for (i = 0; i < shape.arities[atom.predicate]; i++) printf("%02X", atom.arguments[i]);
        printf("\n");
    }
    return 0;
}

int main(int argc, char **argv) {
    int i, status = 0;
    unsigned number;
    for (number = 0; argc == 1 && number < 255; number++)
        if (strcmp(lutsamik_refusal_words(number), lutsamik_refusal_words(255))) printf("%u %s\n", number, lutsamik_refusal_words(number));
    for (i = 1; i < argc; i++) status |= print(argv[i]);
    return status;
}
