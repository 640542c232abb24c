/* Plays a script from a file: the listing goes to standard output, the number
 * of the stop (0 for none) to standard error. */

#include <stdio.h>

#include "batsgomi.h"

/* One byte more than a script may have, so that a longer file stops by 15. */
static uint8_t script[BATSGOMI_LONGEST + 1];
static uint8_t listing[BATSGOMI_LONGEST];

int main(int argc, char **argv)
{
    FILE *file;
    size_t length;
    uint64_t answer;

    if (argc != 2) {
        fprintf(stderr, "usage: play SCRIPT\n");
        return 2;
    }
    file = fopen(argv[1], "rb");
    if (file == NULL) {
        perror(argv[1]);
        return 2;
    }
    length = fread(script, 1, sizeof script, file);
    fclose(file);

    answer = run(script, length, listing, sizeof listing);
    fwrite(listing, 1, batsgomi_written(answer), stdout);
    fprintf(stderr, "stop %u\n", batsgomi_stop(answer));
    return 0;
}
