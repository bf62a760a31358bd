/*
 * The six calls at their edges, from C: refused sheets, malformed journals and worklists, buffers and lists that are too short, that just
 * fit and that are longer, bytes at odd places, and the largest texts. Ends with 0 where all is as it should be; otherwise says each line
 * that is not, and ends with 1.
 */
#include <stddef.h>
#include <stdint.h>
#include <stdio.h>
#include <string.h>

#include "bankplan.h"

_Static_assert(sizeof(bankplan_answer) == 24, "three words of 64 bits, the first half used");
_Static_assert(sizeof(bankplan_move) == 12, "three words of 32 bits");
_Static_assert(sizeof(bankplan_balanced) == 88 && offsetof(bankplan_balanced, finish) == 24 && offsetof(bankplan_balanced, size) == 48 &&
               offsetof(bankplan_balanced, group) == 56 && offsetof(bankplan_balanced, records) == 80,
               "the first half used of the words before line and size");
_Static_assert(sizeof(bankplan_settled) == 48 && offsetof(bankplan_settled, finish) == 24 && offsetof(bankplan_settled, moves) == 32 &&
               offsetof(bankplan_settled, records) == 40,
               "six words of 64 bits, the first half used of the one before moves");

#define ROOM (BANKPLAN_LARGEST_SHEET + 1)
#define ENTRIES (BANKPLAN_MOST_BATCHES + 2)
#define UNTOUCHED 0xA5

static uint8_t buffer[ROOM];
static bankplan_move list[ENTRIES];
static int faults;

#define CHECK(fact) check(__LINE__, #fact, (fact))

static void check(int line, const char *fact, int holds)
{
    if (!holds) {
        fprintf(stderr, "boundary.c:%d: not so: %s\n", line, fact);
        faults++;
    }
}

/* The buffer has the text, and past it nothing was written. */
static int holds(const char *text)
{
    size_t length = strlen(text);
    size_t i;

    if (memcmp(buffer, text, length) != 0)
        return 0;
    for (i = length; i < ROOM; i++)
        if (buffer[i] != UNTOUCHED)
            return 0;
    return 1;
}

static bankplan_answer plan(const char *sheet, size_t room)
{
    memset(buffer, UNTOUCHED, ROOM);
    return bankplan_plan((const uint8_t *)sheet, strlen(sheet), buffer, room);
}

static bankplan_answer run(const char *sheet, const char *journal, size_t room)
{
    memset(buffer, UNTOUCHED, ROOM);
    return bankplan_run((const uint8_t *)sheet, strlen(sheet), (const uint8_t *)journal, strlen(journal), buffer, room);
}

static bankplan_answer write_back(const char *sheet, const char *journal, size_t room)
{
    memset(buffer, UNTOUCHED, ROOM);
    return bankplan_write((const uint8_t *)sheet, strlen(sheet), (const uint8_t *)journal, strlen(journal), buffer, room);
}

static int answered(bankplan_answer a, uint32_t refusal, size_t line, size_t length)
{
    return a.refusal == refusal && a.line == line && a.length == length;
}

static bankplan_balanced balance(const char *sheet, size_t entries, size_t room)
{
    memset(buffer, UNTOUCHED, ROOM);
    memset(list, UNTOUCHED, sizeof list);
    return bankplan_balance((const uint8_t *)sheet, strlen(sheet), list, entries, buffer, room);
}

static bankplan_settled settle(const char *sheet, size_t entries, size_t room)
{
    memset(buffer, UNTOUCHED, ROOM);
    memset(list, UNTOUCHED, sizeof list);
    return bankplan_settle((const uint8_t *)sheet, strlen(sheet), list, entries, buffer, room);
}

static const uint32_t zeros[BANKPLAN_MOST_INSTRUMENTS + 1];

/* Takes a worklist for so many instruments without calibrations. */
static bankplan_answer take(uint32_t instruments, const char *worklist, size_t room)
{
    memset(buffer, UNTOUCHED, ROOM);
    return bankplan_take(instruments, zeros, instruments, (const uint8_t *)worklist, strlen(worklist), buffer, room);
}

/* The list has these records, and past them nothing was written. */
static int lists(const bankplan_move *records, size_t count)
{
    const uint8_t *past = (const uint8_t *)(list + count);
    size_t i;

    if (count > 0 && memcmp(list, records, count * sizeof *records) != 0)
        return 0;
    for (i = 0; i < (ENTRIES - count) * sizeof *list; i++)
        if (past[i] != UNTOUCHED)
            return 0;
    return 1;
}

/* Nothing was written anywhere. */
static int untouched(void)
{
    return holds("") && lists(NULL, 0);
}

static int refused_balance(bankplan_balanced b, uint32_t refusal, size_t line)
{
    size_t i;

    for (i = 0; i < sizeof b.group; i++)
        if (b.group[i] != 0)
            return 0;
    return b.refusal == refusal && b.line == line && b.length == 0 && b.finish == 0 && b.floor == 0 && b.level == 0 && b.raises == 0 &&
           b.bumps == 0 && b.size == 0 && b.records == 0 && untouched();
}

static int refused_settle(bankplan_settled z, uint32_t refusal, size_t line)
{
    return z.refusal == refusal && z.line == line && z.length == 0 && z.finish == 0 && z.moves == 0 && z.records == 0 && untouched();
}

static const char sheet[] = "     2     3\n"
                            "     0     0\n"
                            "    30     1     0     2     1     2\n"
                            "    20     1     0     1     1\n"
                            "    10     1     0     2     1     2\n";
static const char listing[] = "    30    30     0     2     2           0\n"
                              "     0\n"
                              "     1     2    30\n"
                              "     2     1    20\n"
                              "     3     1    10\n";
static const char too_long[] = "     1     1\n"
                               "     0\n"
                               "  1441     0     0     1     1\n";
static const char journal[] = "     4     3     2\n"
                              "     4     9     2\n"
                              "     5\n";
static const char answers[] = "     0\n"
                              "     6\n"
                              "     0    50     1    50    10\n";
static const char written[] = "     2     3\n"
                              "     0     0\n"
                              "    30     1     0     2     1     2\n"
                              "    20     1     0     1     1\n"
                              "    10     2     0     2     1     2\n";

/* what balance and settle leave of the sheet above, and their one record */
static const char planned[] = "     2     3\n"
                              "     0     0\n"
                              "    30     2     0     2     1     2\n"
                              "    20     1     0     1     1\n"
                              "    10     1     0     2     1     2\n";
static const bankplan_move first_goes[] = {{1, 1, 2}};
/* settling moves batch 2 away and back, and batch 4 in between */
static const char returning[] = "     3     4\n"
                                "     0     0     0\n"
                                "     1     3     0     1     3\n"
                                "     4     3     0     2     2     3\n"
                                "     2     2     0     1     2\n"
                                "     2     3     0     2     1     3\n";
static const bankplan_move fourth_goes[] = {{4, 3, 1}};
/* balance leaves it, with a group of two; settling moves two batches */
static const char unsettled[] = "     2     4\n"
                                "     0     0\n"
                                "     2     2     0     1     2\n"
                                "     4     1     0     2     1     2\n"
                                "     5     1     0     2     1     2\n"
                                "     2     2     0     2     1     2\n";
static const bankplan_move two_go[] = {{2, 1, 2}, {4, 2, 1}};
/* its list does not ascend */
static const char unordered[] = "     2     1\n"
                                "     0     0\n"
                                "    10     1     0     2     2     1\n";
/* says what the first sheet says */
static const char worklist[] = "30,1,0,\"1,2\"\r\n"
                               "\"20\",,0,1\r\n"
                               "10,\"1\",\"0\",\"1,2\"\r\n";

static void sheets(void)
{
    CHECK(answered(plan(sheet, ROOM), 0, 0, strlen(listing)) && holds(listing));
    CHECK(answered(plan(too_long, ROOM), BANKPLAN_BAD_LENGTH, 3, 0) && holds(""));
    CHECK(answered(plan("", ROOM), BANKPLAN_MALFORMED, 1, 0) && holds(""));
    CHECK(answered(plan("     2     1\n", ROOM), BANKPLAN_MALFORMED, 2, 0) && holds(""));
    CHECK(answered(plan("     2     1\n     0     0\n", ROOM), BANKPLAN_MALFORMED, 3, 0) && holds(""));
    CHECK(answered(plan("    25     0\n", ROOM), BANKPLAN_BAD_SIZE, 1, 0) && holds(""));
    CHECK(answered(plan("     2     1\n     0     0\n    10     0     0     2     1     1\n", ROOM), BANKPLAN_BAD_LIST, 3, 0) && holds(""));
    CHECK(answered(plan("     2     1\n     0     0\n    10     2     0     1     1\n", ROOM), BANKPLAN_BAD_PLACE, 3, 0) && holds(""));
    /* a list that does not ascend, after the whole list and before the LF and the place */
    CHECK(answered(plan(unordered, ROOM), BANKPLAN_BAD_ORDER, 3, 0) && holds(""));
    CHECK(answered(plan("     2     1\n     0     0\n    10     9     0     2     2     1", ROOM), BANKPLAN_BAD_ORDER, 3, 0) && holds(""));
    CHECK(answered(plan("     2     1\n     0     0\n    10     1     0     2     2     2\n", ROOM), BANKPLAN_BAD_LIST, 3, 0) && holds(""));
    CHECK(answered(write_back(unordered, "", 0), BANKPLAN_BAD_ORDER, 3, 0) && holds(""));
    CHECK(answered(run(unordered, "     5\n", ROOM), BANKPLAN_BAD_ORDER, 3, 0) && holds(""));
    CHECK(refused_balance(balance(unordered, ENTRIES, ROOM), BANKPLAN_BAD_ORDER, 3));
    CHECK(refused_settle(settle(unordered, 0, 0), BANKPLAN_BAD_ORDER, 3));
    /* a blank place is none given: the lowest; five blanks, and a blank elsewhere, are not of the form */
    CHECK(answered(plan("     3     1\n     0     0     0\n    10           0     2     2     3\n", ROOM), 0, 0, 43 + 7 + 19) &&
          holds("    10    10     0     0     0           0\n     0\n     1     2    10\n"));
    CHECK(answered(plan("     2     1\n     0     0\n    10     ", ROOM), BANKPLAN_MALFORMED, 3, 0) && holds(""));
    CHECK(answered(plan("     2     1\n     0     0\n           1     0     1     1\n", ROOM), BANKPLAN_MALFORMED, 3, 0) && holds(""));
    CHECK(answered(plan("     2     1\n     0     0\n    10     1     0           1\n", ROOM), BANKPLAN_MALFORMED, 3, 0) && holds(""));
    /* a sheet's fault comes before a short buffer */
    CHECK(answered(plan(too_long, 0), BANKPLAN_BAD_LENGTH, 3, 0) && holds(""));
    CHECK(answered(write_back(too_long, "", 0), BANKPLAN_BAD_LENGTH, 3, 0) && holds(""));
    CHECK(answered(write_back("", "", ROOM), BANKPLAN_MALFORMED, 1, 0) && holds(""));
}

static void written_sheets(void)
{
    CHECK(answered(write_back(sheet, "", ROOM), 0, 0, strlen(sheet)) && holds(sheet));
    CHECK(answered(write_back(sheet, journal, ROOM), 0, 0, strlen(written)) && holds(written));
    CHECK(answered(write_back(written, "", ROOM), 0, 0, strlen(written)) && holds(written));
    /* no batch is left */
    CHECK(answered(write_back(sheet, "     2     3\n     2     2\n     2     1\n", ROOM), 0, 0, 26) &&
          holds("     2     0\n     0     0\n"));
    /* places that are 0 or blank are filled in with the lowest listed */
    CHECK(answered(write_back("     2     2\n     0   240\n    10           0     2     1     2\n    15     0     0     1     2\n", "", ROOM), 0, 0,
                   13 + 13 + 37 + 31) &&
          holds("     2     2\n     0   240\n    10     1     0     2     1     2\n    15     2     0     1     2\n"));
    /* edits with lists that do not ascend are refused and change nothing */
    CHECK(answered(write_back(sheet, "     1    15     2     2     1\n     3     1     2     2     1\n", ROOM), 0, 0, strlen(sheet)) && holds(sheet));
    CHECK(answered(run(sheet, "     1    15     2     2     1\n     3     1     2     2     1\n", ROOM), 0, 0, 14) && holds("    13\n    13\n"));
}

/* Line 2 at its edges, and what calibrations count for. */
static void calibrations(void)
{
    static const char most[] = "     2     0\n   240   239\n";
    static const char first[] = "     2     0\n   241    0x";
    static const char last[] = "     2     0\n     0   241\n";
    bankplan_balanced b;
    bankplan_settled z;

    /* without a batch the finish and the floor are the longest calibration */
    CHECK(answered(plan(most, ROOM), 0, 0, 43 + 7) && holds("   240   240     0     0     0           0\n     0\n"));
    CHECK(answered(write_back(most, "     2     1\n", ROOM), 0, 0, strlen(most)) && holds(most));
    CHECK(answered(run(most, "     5\n     6   479\n     6   480\n", ROOM), 0, 0, 31 + 25 + 7) &&
          holds("     0   240     0   240   239\n     0     1     0     0\n     8\n"));
    b = balance(most, 0, strlen(most));
    CHECK(b.refusal == 0 && b.finish == 240 && b.floor == 240 && b.level == 0 && b.size == 0 && b.records == 0 && holds(most));
    z = settle(most, 0, strlen(most));
    CHECK(z.refusal == 0 && z.finish == 240 && z.moves == 0 && z.records == 0 && holds(most));
    /* judged at its own field, before the next one and before the LF */
    CHECK(answered(plan(first, ROOM), BANKPLAN_BAD_CALIBRATION, 2, 0) && holds(""));
    CHECK(answered(plan(last, 0), BANKPLAN_BAD_CALIBRATION, 2, 0) && holds(""));
    CHECK(answered(run(last, "\n", ROOM), BANKPLAN_BAD_CALIBRATION, 2, 0) && holds(""));
    CHECK(answered(write_back(last, "", 0), BANKPLAN_BAD_CALIBRATION, 2, 0) && holds(""));
    CHECK(refused_balance(balance(last, 0, 0), BANKPLAN_BAD_CALIBRATION, 2));
    CHECK(refused_settle(settle(last, ENTRIES, ROOM), BANKPLAN_BAD_CALIBRATION, 2));
    /* a blank, a field too few and one too many, and a sheet without line 2 */
    CHECK(answered(plan("     2     0\n     0      \n", ROOM), BANKPLAN_MALFORMED, 2, 0) && holds(""));
    CHECK(answered(plan("     2     0\n     0\n", ROOM), BANKPLAN_MALFORMED, 2, 0) && holds(""));
    CHECK(answered(plan("     2     0\n     0     0     0\n", ROOM), BANKPLAN_MALFORMED, 2, 0) && holds(""));
    CHECK(answered(plan("     2     0\n", ROOM), BANKPLAN_MALFORMED, 2, 0) && holds(""));
    CHECK(answered(plan("     2     1\n    30     1     0     2     1     2\n", ROOM), BANKPLAN_MALFORMED, 2, 0) && holds(""));
    CHECK(answered(plan("     2     0\n     0     0\n ", ROOM), BANKPLAN_MALFORMED, 3, 0) && holds(""));
    /* one batch of 20 and calibrations 10, 0 and 10: in the trial the first calibration is bumped and goes back, and is no place */
    CHECK(answered(run("     3     1\n    10     0    10\n    20     3     0     3     1     2     3\n", "     6     0\n     7     1\n", ROOM), 0, 0,
                   31 + 67) &&
          holds("     0     1     5     6     2\n     0    20    20     0     5     6     0     1     1     3     2\n"));
}

/* Marks at their edges, what an edit of a started batch is refused with, and that no call moves one. */
static void started(void)
{
    static const char begun[] = "     2     3\n"
                                "     0     0\n"
                                "    30     1     1     2     1     2\n"
                                "    20     1     0     1     1\n"
                                "    10     1     0     2     1     2\n";
    /* what balance and settle leave of it: the third goes, in the first's stead */
    static const char third[] = "     2     3\n"
                                "     0     0\n"
                                "    30     1     1     2     1     2\n"
                                "    20     1     0     1     1\n"
                                "    10     2     0     2     1     2\n";
    static const bankplan_move third_goes[] = {{3, 1, 2}};
    static const char all[] = "     2     2\n"
                              "     0     0\n"
                              "    30     1     1     2     1     2\n"
                              "    10     1     1     2     1     2\n";
    static const char bad[] = "     2     1\n     0     0\n    10     1     2     0\n";
    static const char none[] = "     2     1\n     0     0\n    10     0     1     1     1\n";
    bankplan_balanced b;
    bankplan_settled z;

    CHECK(answered(plan(begun, ROOM), 0, 0, 43 + 13 + 3 * 19) &&
          holds("    50    50    20     4     6           0\n     1     1\n     1     1    30\n     2     1    20\n     3     2    10\n"));
    CHECK(answered(write_back(begun, "", ROOM), 0, 0, strlen(begun)) && holds(begun));
    b = balance(begun, 3, ROOM);
    CHECK(b.refusal == 0 && b.finish == 50 && b.floor == 50 && b.level == 20 && b.raises == 4 && b.bumps == 6 && b.size == 1 &&
          b.group[0] == 1 && b.records == 1 && lists(third_goes, 1) && b.length == strlen(third) && holds(third));
    z = settle(begun, 3, ROOM);
    CHECK(z.refusal == 0 && z.finish == 50 && z.moves == 1 && z.records == 1 && lists(third_goes, 1) && holds(third));
    /* all have started: nothing moves */
    b = balance(all, 2, ROOM);
    CHECK(b.refusal == 0 && b.finish == 40 && b.floor == 40 && b.level == 10 && b.raises == 0 && b.bumps == 0 && b.size == 1 &&
          b.group[0] == 1 && b.records == 0 && lists(NULL, 0) && holds(all));
    z = settle(all, 2, ROOM);
    CHECK(z.refusal == 0 && z.finish == 40 && z.moves == 0 && z.records == 0 && lists(NULL, 0) && holds(all));
    CHECK(answered(run(all, "     5\n", ROOM), 0, 0, 31) && holds("     0    40     0    40     0\n"));
    /* 6 before 11, and 11 before 4 and 5 */
    CHECK(answered(run(begun, "     9     4\n     9     1\n     2     1\n     3     1     0\n     4     1     0\n     4     1     1\n", ROOM), 0, 0,
                   6 * 7) &&
          holds("     6\n    11\n    11\n    11\n    11\n    11\n"));
    CHECK(answered(run(begun, "     2     0\n     3     4     0\n     4     4     0\n     3     2     0\n     4     2     0\n", ROOM), 0, 0,
                   5 * 7) &&
          holds("     6\n     6\n     6\n     4\n     5\n"));
    CHECK(answered(run(sheet, "     9     1\n     9     1\n     8     3\n", ROOM), 0, 0, 7 + 7 + 49) &&
          holds("     0\n    11\n     0    50           1     1     3     1     2\n"));
    CHECK(answered(write_back(sheet, "     9     1\n     2     1\n", ROOM), 0, 0, strlen(begun)) && holds(begun));
    /* another mark than 0 or 1, judged before the count; a blank one; no place beside a mark of 1; a sheet without marks */
    CHECK(answered(plan(bad, ROOM), BANKPLAN_MALFORMED, 3, 0) && holds(""));
    CHECK(answered(run(bad, "\n", ROOM), BANKPLAN_MALFORMED, 3, 0) && holds(""));
    CHECK(answered(write_back(bad, "", 0), BANKPLAN_MALFORMED, 3, 0) && holds(""));
    CHECK(refused_balance(balance(bad, 0, 0), BANKPLAN_MALFORMED, 3));
    CHECK(refused_settle(settle(bad, ENTRIES, ROOM), BANKPLAN_MALFORMED, 3));
    CHECK(answered(plan("     2     1\n     0     0\n    10     1           1     1\n", ROOM), BANKPLAN_MALFORMED, 3, 0) && holds(""));
    CHECK(answered(plan(none, ROOM), BANKPLAN_BAD_PLACE, 3, 0) && holds(""));
    CHECK(refused_balance(balance(none, 0, 0), BANKPLAN_BAD_PLACE, 3));
    CHECK(refused_settle(settle(none, ENTRIES, ROOM), BANKPLAN_BAD_PLACE, 3));
    CHECK(answered(plan("     2     1\n     0     0\n    10           1     1     1\n", ROOM), BANKPLAN_BAD_PLACE, 3, 0) && holds(""));
    CHECK(answered(plan("     2     1\n     0     0\n    10     1     2     1     2\n", ROOM), BANKPLAN_MALFORMED, 3, 0) && holds(""));
    CHECK(answered(plan("     2     1\n     0     0\n    10     1     1     1\n", ROOM), BANKPLAN_MALFORMED, 3, 0) && holds(""));
}

/* Worklists: what is taken, each refusal, and which comes first. */
static void worklists(void)
{
    static const uint32_t most[] = {240, 7, 241}, first[] = {241, 0}, last[] = {0, UINT32_MAX};
    static const uint8_t row[] = "30,,0,\"1,2\"";
    static const uint8_t zero[] = {'3', '0', ',', ',', '0', ',', '1', 0};
    static char rows[201 * 10 + 3];
    size_t i;

    CHECK(answered(take(2, worklist, ROOM), 0, 0, strlen(sheet)) && holds(sheet));
    /* the last CRLF may be missing, but not half of it; another makes an empty row */
    CHECK(answered(take(2, "30,1,1,\"1,2\"", ROOM), 0, 0, 63) && holds("     2     1\n     0     0\n    30     1     1     2     1     2\n"));
    CHECK(answered(take(2, "30,1,0,1\r", ROOM), BANKPLAN_BAD_WORKLIST, 1, 0) && holds(""));
    CHECK(answered(take(2, "30,1,0,1\r\n\r\n", ROOM), BANKPLAN_BAD_WORKLIST, 2, 0) && holds(""));
    CHECK(answered(take(2, "30,1,0,1\n30,1,0,1\n", ROOM), BANKPLAN_BAD_WORKLIST, 1, 0) && holds(""));
    CHECK(answered(take(2, "", ROOM), BANKPLAN_BAD_WORKLIST, 1, 0) && holds(""));
    CHECK(answered(take(2, "\r\n", ROOM), BANKPLAN_BAD_WORKLIST, 1, 0) && holds(""));
    /* quotes, fields and numbers */
    CHECK(answered(take(2, "30,1,0,1\r\n30,1,0,\"1,2", ROOM), BANKPLAN_BAD_WORKLIST, 2, 0) && holds(""));
    CHECK(answered(take(2, "30,1,0,\"1\"2\r\n", ROOM), BANKPLAN_BAD_WORKLIST, 1, 0) && holds(""));
    CHECK(answered(take(2, "30,1,0,1,2\r\n", ROOM), BANKPLAN_BAD_WORKLIST, 1, 0) && holds(""));
    CHECK(answered(take(2, "30,1,0,\"\"\r\n", ROOM), BANKPLAN_BAD_WORKLIST, 1, 0) && holds(""));
    CHECK(answered(take(2, "30,01,0,1\r\n", ROOM), BANKPLAN_BAD_WORKLIST, 1, 0) && holds(""));
    CHECK(answered(take(2, "1000000,1,0,1\r\n", ROOM), BANKPLAN_BAD_WORKLIST, 1, 0) && holds(""));
    memset(buffer, UNTOUCHED, ROOM);
    CHECK(answered(bankplan_take(1, zeros, 1, zero, 8, buffer, ROOM), BANKPLAN_BAD_WORKLIST, 1, 0) && holds(""));
    CHECK(answered(bankplan_take(1, zeros, 1, zero, 7, buffer, ROOM), 0, 0, 51));
    /* rows in the order of a sheet's line, after the whole file */
    CHECK(answered(take(2, "0,9,2,3", ROOM), BANKPLAN_BAD_LENGTH, 1, 0) && holds(""));
    CHECK(answered(take(2, "30,9,2,3", ROOM), BANKPLAN_MALFORMED, 1, 0) && holds(""));
    CHECK(answered(take(2, "30,9,0,3", ROOM), BANKPLAN_BAD_LIST, 1, 0) && holds(""));
    CHECK(answered(take(2, "30,9,0,\"2,1,1\"", ROOM), BANKPLAN_BAD_LIST, 1, 0) && holds(""));
    CHECK(answered(take(2, "30,9,0,\"2,1\"", ROOM), BANKPLAN_BAD_ORDER, 1, 0) && holds(""));
    CHECK(answered(take(2, "30,1,0,1\r\n30,2,0,1", ROOM), BANKPLAN_BAD_PLACE, 2, 0) && holds(""));
    CHECK(answered(take(2, "30,1,0,1\r\n30,,1,1", ROOM), BANKPLAN_BAD_PLACE, 2, 0) && holds(""));
    CHECK(answered(take(2, "0,1,0,1\r\n30,1,0,1\r\n30", ROOM), BANKPLAN_BAD_WORKLIST, 3, 0) && holds(""));
    /* more than 200 rows, before their faults and after one of the form */
    for (i = 0; i < 201; i++)
        memcpy(rows + 10 * i, "30,1,0,1\r\n", 10);
    memcpy(rows, "30,1,0,9", 8);
    CHECK(answered(take(1, rows, ROOM), BANKPLAN_BAD_SIZE, 0, 0) && holds(""));
    strcpy(rows + 10 * 201, "30");
    CHECK(answered(take(1, rows, ROOM), BANKPLAN_BAD_WORKLIST, 202, 0) && holds(""));
    rows[10 * 200] = 0;
    CHECK(answered(take(1, rows, ROOM), BANKPLAN_BAD_LIST, 1, 0) && holds(""));
    memcpy(rows, "30,1,0,1", 8);
    CHECK(answered(take(1, rows, ROOM), 0, 0, 13 + 7 + 200 * 31));
    /* instruments first, then calibrations, then the file */
    CHECK(answered(take(0, "", ROOM), BANKPLAN_BAD_SIZE, 0, 0) && holds(""));
    CHECK(answered(take(25, worklist, ROOM), BANKPLAN_BAD_SIZE, 0, 0) && holds(""));
    CHECK(answered(bankplan_take(UINT32_MAX, zeros, 0, row, sizeof row - 1, buffer, 0), BANKPLAN_BAD_SIZE, 0, 0) && holds(""));
    CHECK(answered(bankplan_take(2, first, 2, row, 0, buffer, ROOM), BANKPLAN_BAD_CALIBRATION, 0, 0) && holds(""));
    CHECK(answered(bankplan_take(2, last, 2, row, sizeof row - 1, buffer, 0), BANKPLAN_BAD_CALIBRATION, 0, 0) && holds(""));
    CHECK(answered(bankplan_take(2, zeros, 1, row, sizeof row - 1, buffer, ROOM), BANKPLAN_BAD_CALIBRATION, 0, 0) && holds(""));
    CHECK(answered(bankplan_take(2, most, 3, row, sizeof row - 1, buffer, ROOM), BANKPLAN_BAD_CALIBRATION, 0, 0) && holds(""));
    CHECK(answered(bankplan_take(2, most, 2, row, sizeof row - 1, buffer, ROOM), 0, 0, 63) &&
          holds("     2     1\n   240     7\n    30     1     0     2     1     2\n"));
}

static void short_buffers(void)
{
    size_t room;

    for (room = 0; room < strlen(listing); room++)
        CHECK(answered(plan(sheet, room), BANKPLAN_BUFFER_SHORT, 0, 0) && holds(""));
    CHECK(answered(plan(sheet, strlen(listing)), 0, 0, strlen(listing)) && holds(listing));
    for (room = 0; room < strlen(answers); room++)
        CHECK(answered(run(sheet, journal, room), BANKPLAN_BUFFER_SHORT, 0, 0) && holds(""));
    CHECK(answered(run(sheet, journal, strlen(answers)), 0, 0, strlen(answers)) && holds(answers));
    for (room = 0; room < strlen(written); room++)
        CHECK(answered(write_back(sheet, journal, room), BANKPLAN_BUFFER_SHORT, 0, 0) && holds(""));
    CHECK(answered(write_back(sheet, journal, strlen(written)), 0, 0, strlen(written)) && holds(written));
    for (room = 0; room < strlen(sheet); room++)
        CHECK(answered(take(2, worklist, room), BANKPLAN_BUFFER_SHORT, 0, 0) && holds(""));
    CHECK(answered(take(2, worklist, strlen(sheet)), 0, 0, strlen(sheet)) && holds(sheet));
    /* every other refusal comes before a short buffer */
    CHECK(answered(take(2, "30", 0), BANKPLAN_BAD_WORKLIST, 1, 0) && holds(""));
    CHECK(answered(take(2, "30,1,0,3", 0), BANKPLAN_BAD_LIST, 1, 0) && holds(""));
}

static void journals(void)
{
    CHECK(answered(run(sheet, journal, ROOM), 0, 0, strlen(answers)) && holds(answers));
    CHECK(answered(run(sheet, "", 0), 0, 0, 0) && holds(""));
    CHECK(answered(run(sheet, "     5\n     7     3\n    10     3\n", ROOM), BANKPLAN_BAD_JOURNAL, 3, 0) && holds(""));
    CHECK(answered(run(sheet, "     5\n     7     3", ROOM), BANKPLAN_BAD_JOURNAL, 2, 0) && holds(""));
    /* balance, settle and start have a number */
    CHECK(answered(run(sheet, "     9\n", ROOM), BANKPLAN_BAD_JOURNAL, 1, 0) && holds(""));
    CHECK(answered(run(sheet, "     9     1     1\n", ROOM), BANKPLAN_BAD_JOURNAL, 1, 0) && holds(""));
    CHECK(answered(run(sheet, "     7\n", ROOM), BANKPLAN_BAD_JOURNAL, 1, 0) && holds(""));
    CHECK(answered(run(sheet, "     7     3\n     8\n", ROOM), BANKPLAN_BAD_JOURNAL, 2, 0) && holds(""));
    CHECK(answered(run(sheet, "     7     2\n     8     2\n     7     3\n     8     4\n", ROOM), 0, 0, 7 + 7 + 67 + 31) &&
          holds("     9\n     9\n     0    30    30     0     2     2     0     1     1     1     2\n     0    30           0     0\n"));
    CHECK(answered(run(returning, "     8999999\n", ROOM), 0, 0, 49) && holds("     0     5           3     1     4     3     1\n"));
    CHECK(answered(run(sheet, "     5     0\n", ROOM), BANKPLAN_BAD_JOURNAL, 1, 0) && holds(""));
    CHECK(answered(run(sheet, "     1    10     2     1\n", ROOM), BANKPLAN_BAD_JOURNAL, 1, 0) && holds(""));
    CHECK(answered(run(sheet, "     5\n     4     1      \n", ROOM), BANKPLAN_BAD_JOURNAL, 2, 0) && holds(""));
    /* a sheet's fault comes before a journal's, and that before a short buffer */
    CHECK(answered(run(too_long, "\n", ROOM), BANKPLAN_BAD_LENGTH, 3, 0) && holds(""));
    CHECK(answered(run(sheet, "\n", 0), BANKPLAN_BAD_JOURNAL, 1, 0) && holds(""));
    CHECK(answered(write_back(sheet, "     4     3     2\n     7     3", ROOM), BANKPLAN_BAD_JOURNAL, 2, 0) && holds(""));
    CHECK(answered(write_back(sheet, "     7     2\n", ROOM), 0, 0, strlen(sheet)) && holds(sheet));
    CHECK(answered(write_back(sheet, "     8     3\n", ROOM), 0, 0, strlen(planned)) && holds(planned));
    CHECK(answered(write_back(too_long, "\n", ROOM), BANKPLAN_BAD_LENGTH, 3, 0) && holds(""));
    CHECK(answered(write_back(sheet, "\n", 0), BANKPLAN_BAD_JOURNAL, 1, 0) && holds(""));
}

static int balanced_first(bankplan_balanced b)
{
    return b.refusal == 0 && b.line == 0 && b.length == strlen(planned) && b.finish == 30 && b.floor == 30 && b.level == 0 &&
           b.raises == 2 && b.bumps == 2 && b.size == 0 && b.group[0] == 0 && b.records == 1 && lists(first_goes, 1) && holds(planned);
}

static int settled_first(bankplan_settled z)
{
    return z.refusal == 0 && z.line == 0 && z.length == strlen(planned) && z.finish == 30 && z.moves == 1 && z.records == 1 &&
           lists(first_goes, 1) && holds(planned);
}

static void files(void)
{
    static const char empty[] = "     2     0\n     0     0\n";
    static const size_t enough[] = {3, 4, ENTRIES};
    bankplan_balanced b;
    bankplan_settled z;
    size_t i;

    /* as many entries as batches, and more */
    for (i = 0; i < sizeof enough / sizeof *enough; i++) {
        CHECK(balanced_first(balance(sheet, enough[i], ROOM)) && settled_first(settle(sheet, enough[i], ROOM)));
        CHECK(balanced_first(balance(sheet, enough[i], strlen(planned))) && settled_first(settle(sheet, enough[i], strlen(planned))));
    }
    /* nothing to do, and a group; what is written can be balanced and settled again */
    b = balance(unsettled, 4, ROOM);
    CHECK(b.refusal == 0 && b.finish == 9 && b.floor == 7 && b.level == 4 && b.raises == 0 && b.bumps == 0 && b.records == 0);
    CHECK(b.size == 2 && b.group[0] == 1 && b.group[1] == 2 && b.group[2] == 0 && b.group[23] == 0);
    CHECK(b.length == strlen(unsettled) && holds(unsettled) && lists(NULL, 0));
    z = settle(unsettled, 4, ROOM);
    CHECK(z.refusal == 0 && z.finish == 7 && z.moves == 2 && z.records == 2 && lists(two_go, 2));
    z = settle(planned, 3, ROOM);
    CHECK(z.refusal == 0 && z.finish == 30 && z.moves == 0 && z.records == 0 && lists(NULL, 0) && holds(planned));
    /* a batch that returns has no record */
    z = settle(returning, 4, ROOM);
    CHECK(z.refusal == 0 && z.finish == 5 && z.moves == 3 && z.records == 1 && lists(fourth_goes, 1));
    /* without a batch no entry is needed */
    b = balance(empty, 0, strlen(empty));
    CHECK(b.refusal == 0 && b.length == strlen(empty) && b.finish == 0 && b.floor == 0 && b.size == 0 && b.records == 0);
    CHECK(holds(empty) && lists(NULL, 0));
    z = settle(empty, 0, strlen(empty));
    CHECK(z.refusal == 0 && z.length == strlen(empty) && z.finish == 0 && z.moves == 0 && z.records == 0);
    CHECK(holds(empty) && lists(NULL, 0));
}

static void refused_files(void)
{
    size_t entries, room;

    /* the list goes by the batches, not by the records; a short one comes before a short buffer, and both are 9 */
    for (entries = 0; entries < 3; entries++) {
        CHECK(refused_balance(balance(sheet, entries, ROOM), BANKPLAN_BUFFER_SHORT, 0));
        CHECK(refused_settle(settle(sheet, entries, ROOM), BANKPLAN_BUFFER_SHORT, 0));
        CHECK(refused_settle(settle(planned, entries, 0), BANKPLAN_BUFFER_SHORT, 0));
    }
    for (room = 0; room < strlen(planned); room++) {
        CHECK(refused_balance(balance(sheet, 3, room), BANKPLAN_BUFFER_SHORT, 0));
        CHECK(refused_settle(settle(sheet, ENTRIES, room), BANKPLAN_BUFFER_SHORT, 0));
    }
    /* a sheet's fault comes before both */
    CHECK(refused_balance(balance(too_long, ENTRIES, ROOM), BANKPLAN_BAD_LENGTH, 3));
    CHECK(refused_balance(balance(too_long, 0, ROOM), BANKPLAN_BAD_LENGTH, 3));
    CHECK(refused_settle(settle(too_long, ENTRIES, 0), BANKPLAN_BAD_LENGTH, 3));
    CHECK(refused_settle(settle(too_long, 0, 0), BANKPLAN_BAD_LENGTH, 3));
    CHECK(refused_balance(balance("", 0, 0), BANKPLAN_MALFORMED, 1));
    CHECK(refused_settle(settle("", ENTRIES, ROOM), BANKPLAN_MALFORMED, 1));
    CHECK(refused_balance(balance("    25     0\n", ENTRIES, ROOM), BANKPLAN_BAD_SIZE, 1));
    CHECK(refused_settle(settle("     2     1\n     0     0\n    10     0     0     2     1     1\n", ENTRIES, ROOM), BANKPLAN_BAD_LIST, 3));
    CHECK(refused_balance(balance("     2     1\n     0     0\n    10     2     0     1     1\n", ENTRIES, ROOM), BANKPLAN_BAD_PLACE, 3));
}

/* Sheet, worklist and buffer start at any byte. */
static void odd_places(void)
{
    static uint8_t bytes[sizeof planned + 8], text[sizeof planned + 8];
    size_t at, i, length = strlen(sheet);
    bankplan_answer a;
    bankplan_balanced b;
    bankplan_settled z;

    for (at = 0; at < 8; at++) {
        memset(bytes, '9', sizeof bytes);
        memcpy(bytes + at, sheet, length);
        memset(text, UNTOUCHED, sizeof text);
        memset(list, UNTOUCHED, sizeof list);
        b = bankplan_balance(bytes + at, length, list, 3, text + (7 - at), strlen(planned));
        CHECK(b.refusal == 0 && b.length == strlen(planned) && memcmp(text + (7 - at), planned, b.length) == 0 && lists(first_goes, 1));
        memset(text, UNTOUCHED, sizeof text);
        memset(list, UNTOUCHED, sizeof list);
        z = bankplan_settle(bytes + at, length, list, 3, text + (7 - at), strlen(planned));
        CHECK(z.refusal == 0 && z.length == strlen(planned) && memcmp(text + (7 - at), planned, z.length) == 0 && lists(first_goes, 1));
        for (i = 0; i < sizeof text; i++)
            CHECK((i >= 7 - at && i < 7 - at + z.length) || text[i] == UNTOUCHED);
        CHECK(memcmp(bytes + at, sheet, length) == 0);
        memset(bytes, '9', sizeof bytes);
        memcpy(bytes + at, worklist, strlen(worklist));
        memset(text, UNTOUCHED, sizeof text);
        a = bankplan_take(2, zeros, 2, bytes + at, strlen(worklist), text + (7 - at), length);
        CHECK(answered(a, 0, 0, length) && memcmp(text + (7 - at), sheet, length) == 0);
        for (i = 0; i < sizeof text; i++)
            CHECK((i >= 7 - at && i < 7 - at + length) || text[i] == UNTOUCHED);
        CHECK(memcmp(bytes + at, worklist, strlen(worklist)) == 0);
    }
}

/* 24 calibrations, and 200 batches at this place and with this mark that any of 24 instruments may run. */
static void fill(char *to, int place, int mark)
{
    int batch, instrument;

    to += sprintf(to, "%6d%6d\n", BANKPLAN_MOST_INSTRUMENTS, BANKPLAN_MOST_BATCHES);
    for (instrument = 1; instrument <= BANKPLAN_MOST_INSTRUMENTS; instrument++)
        to += sprintf(to, "%6d", BANKPLAN_MOST_CALIBRATION);
    to += sprintf(to, "\n");
    for (batch = 1; batch <= BANKPLAN_MOST_BATCHES; batch++) {
        to += sprintf(to, "%6d%6d%6d%6d", BANKPLAN_MOST_MINUTES, place, mark, BANKPLAN_MOST_INSTRUMENTS);
        for (instrument = 1; instrument <= BANKPLAN_MOST_INSTRUMENTS; instrument++)
            to += sprintf(to, "%6d", instrument);
        to += sprintf(to, "\n");
    }
}

/* 200 rows that say what fill's batches say. */
static void fill_rows(char *to, int place, int mark)
{
    int row, instrument;

    for (row = 1; row <= BANKPLAN_MOST_BATCHES; row++) {
        to += sprintf(to, "\"%d\",\"%d\",\"%d\",\"", BANKPLAN_MOST_MINUTES, place, mark);
        for (instrument = 1; instrument <= BANKPLAN_MOST_INSTRUMENTS; instrument++)
            to += sprintf(to, instrument == BANKPLAN_MOST_INSTRUMENTS ? "%d\"\r\n" : "%d,", instrument);
    }
}

/*
 * The largest listing, a trial's answer with 200 places, a balance's answer with a record for most, the largest written sheet, and the
 * worklist that says the same.
 */
static void largest(void)
{
    static char full[BANKPLAN_LARGEST_SHEET + 1], filled[BANKPLAN_LARGEST_SHEET + 1];
    static char rows[BANKPLAN_LARGEST_SHEET + 1];
    uint32_t longest[BANKPLAN_MOST_INSTRUMENTS];
    bankplan_balanced b;
    bankplan_settled z;
    size_t line, i;

    fill(full, 0, 0);
    fill(filled, 1, 0);
    CHECK(strlen(filled) == BANKPLAN_LARGEST_SHEET);
    CHECK(answered(plan(full, BANKPLAN_LARGEST_LISTING - 1), BANKPLAN_BUFFER_SHORT, 0, 0) && holds(""));
    CHECK(answered(plan(full, BANKPLAN_LARGEST_LISTING), 0, 0, BANKPLAN_LARGEST_LISTING));
    CHECK(answered(run(full, "     6293760\n", 6 * (4 + 200)), BANKPLAN_BUFFER_SHORT, 0, 0) && holds(""));
    CHECK(answered(run(full, "     6293760\n", 6 * (4 + 200) + 1), 0, 0, 6 * (4 + 200) + 1));
    CHECK(answered(run(full, "     6293761\n", ROOM), 0, 0, 7) && holds("     8\n"));
    CHECK(answered(write_back(full, "", BANKPLAN_LARGEST_SHEET - 1), BANKPLAN_BUFFER_SHORT, 0, 0) && holds(""));
    CHECK(answered(write_back(full, "", BANKPLAN_LARGEST_SHEET), 0, 0, BANKPLAN_LARGEST_SHEET) && holds(filled));
    CHECK(answered(write_back(full, "     1    10     1     1\n", ROOM), 0, 0, BANKPLAN_LARGEST_SHEET) && holds(filled));

    CHECK(refused_balance(balance(full, BANKPLAN_MOST_BATCHES - 1, ROOM), BANKPLAN_BUFFER_SHORT, 0));
    CHECK(refused_settle(settle(full, BANKPLAN_MOST_BATCHES - 1, ROOM), BANKPLAN_BUFFER_SHORT, 0));
    CHECK(refused_balance(balance(full, BANKPLAN_MOST_BATCHES, BANKPLAN_LARGEST_SHEET - 1), BANKPLAN_BUFFER_SHORT, 0));
    CHECK(refused_settle(settle(full, BANKPLAN_MOST_BATCHES, BANKPLAN_LARGEST_SHEET - 1), BANKPLAN_BUFFER_SHORT, 0));
    z = settle(full, BANKPLAN_MOST_BATCHES, BANKPLAN_LARGEST_SHEET);
    CHECK(z.refusal == 0 && z.length == BANKPLAN_LARGEST_SHEET && z.records > 150 && z.records <= z.moves);
    b = balance(full, BANKPLAN_MOST_BATCHES, BANKPLAN_LARGEST_SHEET);
    CHECK(b.refusal == 0 && b.length == BANKPLAN_LARGEST_SHEET && b.size == 24 && b.group[0] == 1 && b.group[23] == 24 && b.records > 150);
    /* its line in a journal's answers */
    line = 6 * (1 + 6 + b.size + 1 + 3 * b.records) + 1;
    CHECK(line <= BANKPLAN_LONGEST_ANSWER);
    CHECK(answered(run(full, "     7   200\n", line - 1), BANKPLAN_BUFFER_SHORT, 0, 0) && holds(""));
    CHECK(answered(run(full, "     7   200\n", line), 0, 0, line));
    CHECK(answered(run(full, "     7   199\n", 7), 0, 0, 7) && holds("     9\n"));

    /* all of them started, on one instrument */
    fill(full, BANKPLAN_MOST_INSTRUMENTS, 1);
    CHECK(answered(write_back(full, "     2   200\n", BANKPLAN_LARGEST_SHEET), 0, 0, BANKPLAN_LARGEST_SHEET) && holds(full));
    z = settle(full, BANKPLAN_MOST_BATCHES, BANKPLAN_LARGEST_SHEET);
    CHECK(z.refusal == 0 && z.finish == 288240 && z.moves == 0 && z.records == 0 && holds(full));
    b = balance(full, BANKPLAN_MOST_BATCHES, BANKPLAN_LARGEST_SHEET);
    CHECK(b.refusal == 0 && b.finish == 288240 && b.floor == 288240 && b.level == 286800 && b.size == 1 && b.group[0] == 24 && holds(full));

    for (i = 0; i < BANKPLAN_MOST_INSTRUMENTS; i++)
        longest[i] = BANKPLAN_MOST_CALIBRATION;
    fill_rows(rows, BANKPLAN_MOST_INSTRUMENTS, 1);
    CHECK(answered(bankplan_take(BANKPLAN_MOST_INSTRUMENTS, longest, i, (const uint8_t *)rows, strlen(rows), buffer, BANKPLAN_LARGEST_SHEET), 0, 0,
                   BANKPLAN_LARGEST_SHEET) &&
          holds(full));
    memset(buffer, UNTOUCHED, ROOM);
    CHECK(answered(bankplan_take(BANKPLAN_MOST_INSTRUMENTS, longest, i, (const uint8_t *)rows, strlen(rows), buffer, BANKPLAN_LARGEST_SHEET - 1),
                   BANKPLAN_BUFFER_SHORT, 0, 0) &&
          holds(""));
    /* the last list out of order, with an instrument twice, and with one too many */
    strcpy(rows + strlen(rows) - 8, "24,23\"\r\n");
    CHECK(answered(bankplan_take(BANKPLAN_MOST_INSTRUMENTS, longest, i, (const uint8_t *)rows, strlen(rows), buffer, ROOM), BANKPLAN_BAD_ORDER,
                   BANKPLAN_MOST_BATCHES, 0) &&
          holds(""));
    strcpy(rows + strlen(rows) - 8, "23,23\"\r\n");
    CHECK(answered(bankplan_take(BANKPLAN_MOST_INSTRUMENTS, longest, i, (const uint8_t *)rows, strlen(rows), buffer, ROOM), BANKPLAN_BAD_LIST,
                   BANKPLAN_MOST_BATCHES, 0) &&
          holds(""));
    strcpy(rows + strlen(rows) - 5, "24,25\"");
    CHECK(answered(bankplan_take(BANKPLAN_MOST_INSTRUMENTS, longest, i, (const uint8_t *)rows, strlen(rows), buffer, ROOM), BANKPLAN_BAD_LIST,
                   BANKPLAN_MOST_BATCHES, 0) &&
          holds(""));
}

int main(void)
{
    sheets();
    written_sheets();
    calibrations();
    started();
    worklists();
    short_buffers();
    journals();
    files();
    refused_files();
    odd_places();
    largest();
    return faults == 0 ? 0 : 1;
}
