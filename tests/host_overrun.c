/* Tells the library of one byte more than the table's block has. Under valgrind this must be found out, as a step of
 * the library's own past the end of a buffer would be. */
#include "host_lent.h"

int main(void) {
    struct lent lent;
    lend(&lent, "K6");
    resize(&lent.of[TABLE], required[TABLE] - 1);
    lent.of[TABLE].len = required[TABLE];
    read_ticket(&lent);
    take_back(&lent);
    return 0;
}
