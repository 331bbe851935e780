/* The planes' row patterns by the second implementation: the first row without a tag as a XOR of tagged rows, which elimination finds. One line a
 * size, with its code and how many rows back each of them stands, rising: what the program `patterns` prints. */
#include "second.h"

#include <stdio.h>

int main(void)
{
    if (second_start() != 0) {
        printf("there is no room for the families\n");
        return 1;
    }
    for (unsigned i = 0; i < PLANES; i++) {
        const struct family *f = &families[i];
        unsigned row = f->tags + 1;
        printf("%u", f->code);
        for (unsigned back = 1; back < row; back++)
            if (f->parts[row][row - back])
                printf(" %u", back);
        printf("\n");
    }
    return 0;
}
