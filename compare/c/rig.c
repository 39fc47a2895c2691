/* Calls every export of librig.a as a C program does, through include/rig.h:
 *
 *   rig HORSE HORSE_CUT       the two sections of examples/
 *
 * It prints the horse's bones and the number of expectations, or a line that names the first that is not met, with status 1.
 * Every table is lent dirty and between guards, and what is lent for reading must stay as it was. */
#include "checks.h"
#include "lent.h"

#include <stdio.h>

int main(int argc, char **argv)
{
    if (argc != 3) {
        fprintf(stderr, "usage: %s HORSE HORSE_CUT\n", argv[0]);
        return 2;
    }
    number_of_exports();
    fields();
    cursor();
    status_texts();
    bucket_counts();
    hashes();
    matrices();
    limits();
    joints();
    whole_horse(argv[1]);
    cut_horse(argv[2]);
    damaged_horses(argv[1]);
    odd_pointers(argv[1]);
    empty_tables(argv[1]);
    float_modes(argv[1]);
    bones_by_hand();
    printf("c: %lu expectations met\n", expectations);
    return 0;
}
