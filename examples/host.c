/*
 * A host in C: plans the sheet in a file and prints the listing, then runs the journal in another file on the same sheet and
 * prints, each after an empty line, the answers and the sheet as the journal leaves it. At midday it settles that sheet, and prints what
 * comes of it: the finish, the batches that go to another instrument, and the sheet with which the day goes on.
 *
 *   host SHEET JOURNAL
 *
 * It ends with 0 where all is printed, with 1 where something is refused or cannot be read or written, and with 2 where it is
 * called in another way.
 */
#include <errno.h>
#include <inttypes.h>
#include <stdint.h>
#include <stdio.h>
#include <stdlib.h>
#include <string.h>

#include "bankplan.h"

struct bytes {
    uint8_t *at; /* never null once made, also where there is no byte */
    size_t length;
};

static const char *words(uint32_t refusal)
{
    switch (refusal) {
    case BANKPLAN_MALFORMED: return "not of a sheet's form";
    case BANKPLAN_BAD_SIZE: return "number of instruments or batches out of range";
    case BANKPLAN_BAD_LENGTH: return "length out of range";
    case BANKPLAN_BAD_LIST: return "bad list of qualified instruments";
    case BANKPLAN_BAD_PLACE: return "place not in the list, or none for a started batch";
    case BANKPLAN_BUFFER_SHORT: return "buffer too short";
    case BANKPLAN_BAD_CALIBRATION: return "calibration out of range";
    case BANKPLAN_BAD_ORDER: return "list of qualified instruments does not ascend";
    case BANKPLAN_BAD_JOURNAL: return "not of a journal's form";
    default: return "unknown refusal";
    }
}

static void say_refusal(const char *name, size_t line, uint32_t refusal)
{
    fprintf(stderr, "host: %s: line %zu: refusal %" PRIu32 ", %s\n", name, line, refusal, words(refusal));
}

/* A refusal is the sheet's, or the journal's where it says so. */
static void say_either(bankplan_answer refused, const char *sheet_name, const char *journal_name)
{
    say_refusal(refused.refusal == BANKPLAN_BAD_JOURNAL ? journal_name : sheet_name, refused.line, refused.refusal);
}

/* Twice the room for a buffer, or 0 where there is none; the buffer is then as it was. */
static int grow(uint8_t **buffer, size_t *room)
{
    uint8_t *larger;

    if (*room > SIZE_MAX / 2)
        return 0;
    larger = realloc(*buffer, *room * 2);
    if (larger == NULL)
        return 0;
    *buffer = larger;
    *room *= 2;
    return 1;
}

/* The whole file, for the caller to free; 0 and a message where that fails. */
static int read_file(const char *name, struct bytes *file)
{
    size_t room = 4096;
    size_t length = 0;
    uint8_t *at;
    FILE *from;

    from = fopen(name, "rb");
    if (from == NULL) {
        fprintf(stderr, "host: %s: %s\n", name, strerror(errno));
        return 0;
    }
    at = malloc(room);
    if (at == NULL)
        goto no_memory;
    for (;;) {
        length += fread(at + length, 1, room - length, from);
        if (length < room)
            break;
        if (!grow(&at, &room))
            goto no_memory;
    }
    if (ferror(from)) {
        fprintf(stderr, "host: %s: %s\n", name, strerror(errno));
        free(at);
        fclose(from);
        return 0;
    }
    fclose(from);
    file->at = at;
    file->length = length;
    return 1;

no_memory:
    fprintf(stderr, "host: %s: no memory\n", name);
    free(at);
    fclose(from);
    return 0;
}

/* 1 where all was printed, otherwise 0 and a message. */
static int printed(int all)
{
    if (!all)
        fprintf(stderr, "host: standard output: %s\n", strerror(errno));
    return all;
}

static int print(const uint8_t *text, size_t length)
{
    return printed(fwrite(text, 1, length, stdout) == length);
}

static int print_empty_line(void)
{
    return printed(putchar('\n') != EOF);
}

/* Plans the sheet and prints its listing. Every listing fits this buffer. */
static int plan(const char *name, const struct bytes *sheet)
{
    uint8_t listing[BANKPLAN_LARGEST_LISTING];
    bankplan_answer planned;

    planned = bankplan_plan(sheet->at, sheet->length, listing, sizeof listing);
    if (planned.refusal != BANKPLAN_NO_REFUSAL) {
        say_refusal(name, planned.line, planned.refusal);
        return 0;
    }
    return print(listing, planned.length);
}

/* Runs the journal and prints the answers. Starts with a small buffer and takes a larger one as long as the answers do not fit. */
static int run(const char *sheet_name, const struct bytes *sheet, const char *journal_name, const struct bytes *journal)
{
    size_t room = 256;
    uint8_t *answers = malloc(room);
    bankplan_answer ran;
    int good = 0;

    if (answers == NULL) {
        fprintf(stderr, "host: no memory\n");
        return 0;
    }
    for (;;) {
        ran = bankplan_run(sheet->at, sheet->length, journal->at, journal->length, answers, room);
        if (ran.refusal != BANKPLAN_BUFFER_SHORT)
            break;
        if (!grow(&answers, &room)) {
            fprintf(stderr, "host: no memory for the answers\n");
            free(answers);
            return 0;
        }
    }
    if (ran.refusal == BANKPLAN_NO_REFUSAL)
        good = print(answers, ran.length);
    else
        say_either(ran, sheet_name, journal_name);
    free(answers);
    return good;
}

/* Prints the sheet as the journal leaves it, and gives it to the caller, who frees it. Every sheet fits this buffer. */
static int write_back(const char *sheet_name, const struct bytes *sheet, const char *journal_name, const struct bytes *journal,
                      struct bytes *left)
{
    bankplan_answer wrote;

    left->at = malloc(BANKPLAN_LARGEST_SHEET);
    if (left->at == NULL) {
        fprintf(stderr, "host: no memory\n");
        return 0;
    }
    wrote = bankplan_write(sheet->at, sheet->length, journal->at, journal->length, left->at, BANKPLAN_LARGEST_SHEET);
    if (wrote.refusal != BANKPLAN_NO_REFUSAL) {
        say_either(wrote, sheet_name, journal_name);
        return 0;
    }
    left->length = wrote.length;
    return print(left->at, left->length);
}

/* Settles a sheet, without a reshuffle: prints the finish, which batch goes where, and the new sheet. List and buffer fit every sheet. */
static int midday(const char *name, const struct bytes *sheet)
{
    bankplan_move moves[BANKPLAN_MOST_BATCHES];
    uint8_t written[BANKPLAN_LARGEST_SHEET];
    bankplan_settled settled;
    size_t i;

    settled = bankplan_settle(sheet->at, sheet->length, moves, BANKPLAN_MOST_BATCHES, written, sizeof written);
    if (settled.refusal != BANKPLAN_NO_REFUSAL) {
        say_refusal(name, settled.line, settled.refusal);
        return 0;
    }
    if (!printed(printf("midday: finish %" PRIu32 ", settling moves %" PRIu64 "\n", settled.finish, settled.moves) > 0))
        return 0;
    for (i = 0; i < settled.records; i++)
        if (!printed(printf("batch %" PRIu32 " goes from %" PRIu32 " to %" PRIu32 "\n", moves[i].batch, moves[i].from, moves[i].to) > 0))
            return 0;
    return print(written, settled.length);
}

int main(int argc, char **argv)
{
    struct bytes sheet = {NULL, 0};
    struct bytes journal = {NULL, 0};
    struct bytes left = {NULL, 0};
    int good;

    if (argc != 3) {
        fprintf(stderr, "usage: host SHEET JOURNAL\n");
        return 2;
    }
    good = read_file(argv[1], &sheet) && read_file(argv[2], &journal) && plan(argv[1], &sheet) &&
           print_empty_line() && run(argv[1], &sheet, argv[2], &journal) &&
           print_empty_line() && write_back(argv[1], &sheet, argv[2], &journal, &left) &&
           print_empty_line() && midday("the sheet at midday", &left);
    free(sheet.at);
    free(journal.at);
    free(left.at);
    if (fclose(stdout) != 0) {
        fprintf(stderr, "host: standard output: %s\n", strerror(errno));
        good = 0;
    }
    return good ? EXIT_SUCCESS : EXIT_FAILURE;
}
