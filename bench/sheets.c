/* Sheets to measure and compare on, always the same.
 *
 *   sheets worst FOLDER                     those to measure on
 *   sheets growth FOLDER                    those that show how cost grows
 *   sheets random SEED COUNT SIZE FOLDER    COUNT sheets and FOLDER/questions about them; SIZE 0: few jobs, for trying
 *                                           every chain; 1: up to 14 jobs; 2: up to 32
 */
#include <stdio.h>
#include <stdlib.h>
#include <string.h>
#include "sheet.h"

int main(int argc, char **argv)
{
    if (argc == 3 && !strcmp(argv[1], "worst")) return make_worst(argv[2]), 0;
    if (argc == 3 && !strcmp(argv[1], "growth")) return make_growth(argv[2]), 0;
    if (argc == 6 && !strcmp(argv[1], "random")) {
        seed(strtoull(argv[2], 0, 10));
        make_random(argv[5], (unsigned)strtoul(argv[3], 0, 10), (unsigned)strtoul(argv[4], 0, 10));
        return 0;
    }
    fprintf(stderr, "sheets worst|growth FOLDER, or sheets random SEED COUNT SIZE FOLDER\n");
    return 2;
}
