/*
 * A host in C for the sample system's worklists: takes the worklist in a file for the bank's instruments, whose calibrations are the other
 * words, instrument 1's first, and prints its sheet and, after an empty line, the listing of the planned sheet.
 *
 *   take WORKLIST CALIBRATION..
 *
 * It ends with 0 where all is printed, with 1 where something is refused or cannot be read or written, and with 2 where it is
 * called in another way.
 */
#include <errno.h>
#include <inttypes.h>
#include <stdint.h>
#include <stdio.h>
#include <stdlib.h>
#include <string.h>

#include "bankplan.h"

/* Far more than a worklist of 200 batches has, with every field quoted. */
#define ROOM 65536

static int refused(const char *name, bankplan_answer answer)
{
    if (answer.refusal == BANKPLAN_BAD_WORKLIST)
        fprintf(stderr, "take: %s: row %zu: not of a worklist's form\n", name, answer.line);
    else if (answer.line != 0)
        fprintf(stderr, "take: %s: row %zu: refusal %" PRIu32 "\n", name, answer.line, answer.refusal);
    else
        fprintf(stderr, "take: %s: refusal %" PRIu32 "\n", name, answer.refusal);
    return EXIT_FAILURE;
}

int main(int argc, char **argv)
{
    static uint8_t worklist[ROOM], sheet[BANKPLAN_LARGEST_SHEET], listing[BANKPLAN_LARGEST_LISTING];
    uint32_t calibrations[BANKPLAN_MOST_INSTRUMENTS];
    bankplan_answer taken, planned;
    size_t length;
    FILE *from;
    char *end;
    int i;

    if (argc < 3 || argc - 2 > BANKPLAN_MOST_INSTRUMENTS) {
        fprintf(stderr, "usage: take WORKLIST CALIBRATION..\n");
        return 2;
    }
    for (i = 2; i < argc; i++) {
        unsigned long minutes = strtoul(argv[i], &end, 10);
        if (*argv[i] < '0' || *argv[i] > '9' || *end != '\0' || minutes > UINT32_MAX) {
            fprintf(stderr, "usage: take WORKLIST CALIBRATION..\n");
            return 2;
        }
        calibrations[i - 2] = (uint32_t)minutes;
    }
    from = fopen(argv[1], "rb");
    if (from == NULL) {
        fprintf(stderr, "take: %s: %s\n", argv[1], strerror(errno));
        return EXIT_FAILURE;
    }
    length = fread(worklist, 1, sizeof worklist, from);
    if (ferror(from) || length == sizeof worklist) {
        fprintf(stderr, "take: %s: %s\n", argv[1], ferror(from) ? strerror(errno) : "too long");
        fclose(from);
        return EXIT_FAILURE;
    }
    fclose(from);

    taken = bankplan_take((uint32_t)(argc - 2), calibrations, (size_t)(argc - 2), worklist, length, sheet, sizeof sheet);
    if (taken.refusal != BANKPLAN_NO_REFUSAL)
        return refused(argv[1], taken);
    planned = bankplan_plan(sheet, taken.length, listing, sizeof listing);
    if (planned.refusal != BANKPLAN_NO_REFUSAL) /* never: what is taken can be read, and both buffers have room for all */
        return refused(argv[1], planned);
    if (fwrite(sheet, 1, taken.length, stdout) != taken.length || putchar('\n') == EOF ||
        fwrite(listing, 1, planned.length, stdout) != planned.length || fclose(stdout) != 0) {
        fprintf(stderr, "take: standard output: %s\n", strerror(errno));
        return EXIT_FAILURE;
    }
    return EXIT_SUCCESS;
}
