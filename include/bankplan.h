/*
 * The bank queue planner for hosts in C and C++ (Linux, x86-64).
 *
 * Six calls. bankplan_plan reads a sheet, plans it and writes the listing. bankplan_run reads a sheet, makes a list of calls on it, one
 * after the other, and writes their answers. bankplan_write makes them too, and writes the sheet that they leave. bankplan_balance and
 * bankplan_settle are the two parts of planning, for a host that keeps its sheet as a file: each reads a sheet, fills a list with a
 * record of each batch that it moves, and writes the sheet that it leaves. bankplan_take makes a sheet of a worklist, which is a file of
 * comma-separated values from the sample system. All take any bytes and any lengths, and answer a refusal where something is wrong.
 *
 * What a host owes on each call:
 *   - Every pointer is valid for its length: so many bytes of a sheet, a journal or a worklist and so many entries of the calibrations may
 *     be read, so many bytes of the lent buffer, which comes last, and so many entries of the lent list may be written.
 *   - No pointer is null, not even beside a length of 0. Any valid pointer will do there.
 *   - The lent buffer and the lent list overlap neither each other nor anything that is read, and no other thread uses them until the
 *     call returns. Nothing writes meanwhile to what is read.
 *   - The thread has 128 kB of stack left. (Calls were measured at 118 kB; this is not proved.)
 *
 * What the library promises:
 *   - It reads only the sheet and the journal, or the calibrations and the worklist, and writes only to the lent buffer and the lent list,
 *     at their fronts. Bytes past the text and entries past the records keep their values.
 *   - A refusal writes nothing at all.
 *   - Every call ends. It keeps no pointer and nothing from one call to the next, allocates nothing, opens no file and prints nothing, so
 *     calls may be made from several threads at once.
 *   - The text is plain bytes and ends in LF; no zero byte follows it. Its length is in the answer.
 *
 * Numbers in a sheet, a journal and every text are decimal, each in six columns with blanks before it; only the settling moves have
 * twelve columns. Zero is the one digit 0, and no other number starts with 0. Every line ends in one LF. Six blanks stand for no number: a
 * sheet may have them for a place, and nowhere else; a journal has none. A worklist has a form of its own (see bankplan_take).
 *
 * An instrument is calibrated after it is switched on, whether or not a batch is run on it. A calibration above 0 counts as a batch that only
 * its own instrument may run: in loads, finish, floor and total minutes, as the longest, and in a trial's raises and bumps. It is no batch
 * of the sheet, though: it is neither listed nor moved nor edited, and needs no entry of a list. Other plans have the same calibrations.
 *
 * Once a batch has started, its place is the only instrument that may run it, whatever its list: it never gains and never moves, and a trial
 * that bumps it puts it back. The list is only written back. Other plans leave started batches where they are.
 */
#ifndef BANKPLAN_H
#define BANKPLAN_H

#include <stddef.h>
#include <stdint.h>

#ifdef __cplusplus
extern "C" {
#endif

/* A sheet's limits. A list of BANKPLAN_MOST_BATCHES entries is never too short for bankplan_balance and bankplan_settle. */
#define BANKPLAN_MOST_INSTRUMENTS 24
#define BANKPLAN_MOST_BATCHES 200
#define BANKPLAN_MOST_MINUTES 1440
#define BANKPLAN_MOST_CALIBRATION 240

/* The largest listing in bytes: a buffer of this size never gets BANKPLAN_BUFFER_SHORT from bankplan_plan. */
#define BANKPLAN_LARGEST_LISTING 3994

/* No line of an answer has more bytes, its LF included: so many for each line of the journal are always enough for bankplan_run. */
#define BANKPLAN_LONGEST_ANSWER 3793

/*
 * The largest written sheet in bytes: a buffer of this size is never too short for bankplan_write, bankplan_balance, bankplan_settle and
 * bankplan_take.
 */
#define BANKPLAN_LARGEST_SHEET 33958

/*
 * Refusals. 1 to 5, 10 and 13 are those of a sheet, and come with the line. 12 is that of a worklist, and comes with the row; its batches get
 * 1, 3 to 5 and 13 with theirs, and 2 and 10 come without one there. 3 to 9, 11 and 13 are those of a single call of a journal: they stand in
 * its answers, and the run goes on. 9 and 19 are the host's own.
 */
enum bankplan_refusal {
    BANKPLAN_NO_REFUSAL = 0,
    BANKPLAN_MALFORMED = 1,        /* the sheet is not of its form, a mark is not 0 or 1, a field other than a place is blank, or bytes are
                                      missing or left over */
    BANKPLAN_BAD_SIZE = 2,         /* instruments not 1 to 24, or batches more than 200 */
    BANKPLAN_BAD_LENGTH = 3,       /* a length that is not 1 to 1440 minutes */
    BANKPLAN_BAD_LIST = 4,         /* qualified list empty, too long, with an instrument that is not there, or one twice */
    BANKPLAN_BAD_PLACE = 5,        /* a place that is not in the batch's list, or none given for a started batch */
    BANKPLAN_NO_BATCH = 6,         /* no batch of that number */
    BANKPLAN_SHEET_FULL = 7,       /* a batch more than 200 */
    BANKPLAN_LEVEL_ABOVE = 8,      /* a trial's level above the total minutes */
    BANKPLAN_BUFFER_SHORT = 9,     /* the lent buffer is shorter than the text, or the list for records has fewer entries than batches */
    BANKPLAN_BAD_CALIBRATION = 10, /* a calibration that is not 0 to 240 minutes, or not one for each instrument of a worklist */
    BANKPLAN_HAS_STARTED = 11,     /* the batch to withdraw, requalify, move or start has started */
    BANKPLAN_BAD_WORKLIST = 12,    /* the worklist is not of RFC 4180, or a row has not four fields of the form */
    BANKPLAN_BAD_ORDER = 13,       /* a listed instrument smaller than the one before it */
    BANKPLAN_BAD_JOURNAL = 19      /* the journal is not of its form */
};

/* What bankplan_plan, bankplan_run, bankplan_write and bankplan_take answer. */
typedef struct bankplan_answer {
    uint32_t refusal; /* 0 for none, 1 to 5, 9, 10, or 13; with a journal also 19, with a worklist also 12 */
    size_t line;      /* the sheet's line of refusals 1 to 5, 10 and 13, the journal's of 19, both from 1; otherwise 0. With a worklist the
                         row of refusals 1, 3 to 5, 12 and 13, from 1 and for 12 maybe far above 200; otherwise 0 */
    size_t length;    /* the bytes written; 0 on a refusal */
} bankplan_answer;

/* A record: a batch that stands elsewhere than before the call. */
typedef struct bankplan_move {
    uint32_t batch; /* its number, from 1 */
    uint32_t from;  /* the instrument where it stood */
    uint32_t to;    /* the instrument where it stands */
} bankplan_move;

/* What bankplan_balance answers. On a refusal all but refusal and line is 0. */
typedef struct bankplan_balanced {
    uint32_t refusal;                         /* 0 for none, 1 to 5, 9, 10, or 13 */
    size_t line;                              /* the sheet's line of refusals 1 to 5, 10 and 13, from 1; otherwise 0 */
    size_t length;                            /* the bytes of the written sheet */
    uint32_t finish;                          /* the finish that balance leaves; the rest is as in a listing */
    uint32_t floor;
    uint32_t level;
    uint32_t raises;
    uint32_t bumps;
    size_t size;                              /* of the group, 0 for none */
    uint8_t group[BANKPLAN_MOST_INSTRUMENTS]; /* its instruments, ascending, and 0 past them */
    size_t records;                           /* how many are at the front of the list */
} bankplan_balanced;

/* What bankplan_settle answers. On a refusal all but refusal and line is 0. */
typedef struct bankplan_settled {
    uint32_t refusal; /* refusal, line and length as above */
    size_t line;
    size_t length;
    uint32_t finish;  /* the finish that settle leaves */
    uint64_t moves;   /* the settling moves, of which there may be more than records */
    size_t records;   /* how many are at the front of the list */
} bankplan_settled;

/*
 * Plans a sheet, and writes its listing at the front of the lent buffer.
 *
 * A sheet: line 1 has the numbers of instruments and of batches. Line 2 has each instrument's calibration in minutes, 0 for none. Then
 * each batch has a line: its length in minutes, its place (0 or six blanks: the lowest qualified instrument), its mark (1 where it has started,
 * otherwise 0), how many instruments are qualified, and those, ascending. A started batch has its place given. Nothing follows the last line.
 *
 * A listing: line 1 has the finish, the floor that no plan can beat, the level, raises and bumps of the trial kept, and the settling
 * moves. Line 2 has the size and the instruments of the group of the highest level that failed, or 0 where none failed; where the floor is
 * above the longest batch or calibration, that group shows it. Then each batch has a line: its number, its place and its length.
 *
 * Planning is to balance, and to settle straight after: the finish and the settling moves are those of settle, the rest of lines 1 and 2
 * that of balance.
 *
 * The first fault in the sheet decides which of 1 to 5, 10 or 13 is answered; 13 comes after 4 for any of the list's instruments, and before
 * the end of its line. 9 comes only for a sheet without a fault. A sheet without line 2, as it was before there were calibrations, is refused, and so
 * is one whose batches have no marks, or lists in another order.
 */
bankplan_answer bankplan_plan(const uint8_t *sheet, size_t sheet_length, uint8_t *listing, size_t listing_length);

/*
 * Makes a journal's calls on a sheet, each on the sheet that the one before it left, and writes their answers at the front of the lent
 * buffer. The sheet's bytes do not change: a run starts anew from them every time.
 *
 * A journal has a line for each call, with the call's kind and then its numbers. It may be empty.
 *
 *   1 LENGTH COUNT INSTRUMENT..   add a batch, placed on the lowest qualified instrument
 *   2 BATCH                       withdraw a batch; later batches move down by one
 *   3 BATCH COUNT INSTRUMENT..    requalify a batch; its place stays if it is listed, otherwise it is the lowest listed
 *   4 BATCH INSTRUMENT            move a batch
 *   5                             review
 *   6 LEVEL                       a single trial; the sheet stays as it is
 *   7 ENTRIES                     balance; the sheet gets the new places
 *   8 ENTRIES                     settle; the sheet gets the new places
 *   9 BATCH                       start a batch where it stands
 *
 * Any number that six columns hold is of the form: the call itself refuses a wrong one. ENTRIES is the length of a list for the records of
 * moves; none is lent, and the records stand in the answer. Fewer entries than the sheet has batches at that call is 9; 200 always do.
 *
 * The answers have a line for each call, with the refusal first, 0 for none. A refused call has nothing more and changes nothing.
 *
 *   1 to 4   0
 *   5        0 FINISH GAINS LOAD..                  the lowest batch that gains, 0 where the plan is settled; every instrument's load
 *   6        0 1 RAISES BUMPS PLACE..               a pass: every batch's place
 *            0 0 RAISES BUMPS INSTRUMENT..          a failure: the group, ascending
 *   7        0 FINISH FLOOR LEVEL RAISES BUMPS SIZE INSTRUMENT.. COUNT BATCH FROM TO..
 *                                                   the group's size and the group; how many records, and three numbers for each
 *   8        0 FINISH MOVES COUNT BATCH FROM TO..   the settling moves, in twelve columns; how many records, and those
 *   9        0
 *
 * The order of refusals: 1 to 5, 10 or 13 for the sheet, then 19 for the journal, then 9. A journal is judged whole before its first call is
 * made. On 9, call again with a larger buffer: the answers are the same. Within one call: add 7, 3, 4, 13; withdraw and start 6, 11;
 * requalify 6, 11, 4, 13; move 6, 11, 5.
 *
 * Two lines of kinds 3, 4 or 9 that stand next to each other and name different batches may change places: each has the same answer, a
 * refusal too, and the sheet left is the same. So two journals of such lines, with no batch in both, may be joined in any way that keeps the
 * order within each.
 */
bankplan_answer bankplan_run(const uint8_t *sheet, size_t sheet_length, const uint8_t *journal, size_t journal_length,
                             uint8_t *answers, size_t answers_length);

/*
 * Makes a journal's calls on a sheet as bankplan_run does, and writes the sheet that they leave at the front of the lent buffer. An empty
 * journal writes the sheet back.
 *
 * The written sheet is one that can be read, and reading it gives the very sheet that the calls left, so the next journal may start
 * from it. Every place is the true one, never 0 or blank, and lists ascend, those of started batches too; line 2 is that of the sheet that
 * was read. A sheet written back has as many bytes as the one that was read, and differs from it at most in places that were 0 or blank. Two
 * sheets that say the same are written as the same bytes, and others are not.
 *
 * Refusals and their order are those of bankplan_run. A call of the journal that is refused leaves the sheet as it was, and the run goes
 * on; only bankplan_run's answers tell which one it was.
 */
bankplan_answer bankplan_write(const uint8_t *sheet, size_t sheet_length, const uint8_t *journal, size_t journal_length,
                               uint8_t *written, size_t written_length);

/*
 * Balances a sheet: plans it, and ends before settling. Writes the records at the front of the lent list, and the sheet that is left, in
 * the form of bankplan_write, at the front of the lent buffer. The length of the list counts entries.
 *
 * There is one record for each batch whose place differs afterwards, ascending by batch. The finish is no later than it was; on a sheet
 * with a batch or a calibration above 0 it is above that of any plan on qualified instruments by less than the longest of them. Such a plan
 * leaves started batches where they are.
 *
 * The order of refusals: 1 to 5, 10 or 13 for the sheet; then 9 where the list has fewer entries than the sheet has batches, however many
 * records there are; then 9 where the buffer is shorter than the written sheet.
 */
bankplan_balanced bankplan_balance(const uint8_t *sheet, size_t sheet_length, bankplan_move *moves, size_t moves_length,
                                   uint8_t *written, size_t written_length);

/*
 * Settles a sheet, without balancing it. A batch gains where another of its qualified instruments would have less load with it than the
 * one where it stands has now; as long as some batch gains, the longest that does moves. Afterwards none gains, and the finish is no later
 * than it was.
 *
 * Lent list, lent buffer and refusals are as with bankplan_balance. A batch that moves away and returns has no record.
 */
bankplan_settled bankplan_settle(const uint8_t *sheet, size_t sheet_length, bankplan_move *moves, size_t moves_length,
                                 uint8_t *written, size_t written_length);

/*
 * Takes a worklist for a bank of so many instruments with these calibrations, instrument 1's first, and writes its sheet, in the form of
 * bankplan_write, at the front of the lent buffer. The length of the calibrations counts entries.
 *
 * A worklist is a CSV file as RFC 4180 defines it, and its first row is a batch already. Each batch has a row of four fields:
 *
 *   LENGTH,PLACE,MARK,LIST        30,1,0,"1,2"    30 minutes, on instrument 1, not started, for instruments 1 and 2
 *
 * These are what they are in a sheet's line, but for the list, which has no count and is its instruments with commas between them: one at
 * least, ascending. The place may be empty or 0: the lowest listed instrument. A number is one to six digits, and only 0 itself starts with 0. Any
 * field may stand in quotes, and a list of more than one must. Spaces, signs and all else are no part of a number. Rows end in CRLF, which
 * the last may leave out. An empty file counts as a row whose only field is empty: no worklist is without a batch.
 *
 * The sheet is the one that reading a sheet with the same numbers gives, written back: it can be read, and every place in it is given.
 *
 * The order of refusals: 2 for instruments that are not 1 to 24; 10 for a calibration above 240, or if there are not as many as
 * instruments; 12 at the first row that is not of the form, whichever it is; 2 for more than 200 rows; then row by row, as in a sheet's
 * line, 3 for the length, 1 for a mark above 1, 4 for the list, 13 for its order, 5 for the place; then 9. Both 2s, 10 and 9 have line 0. The
 * whole file is judged for 12 first: 12 at row 202 comes before 2 for more than 200 rows, and before 3 at row 1. A list of any length is of the
 * form, and 4 where it has more instruments than there are.
 */
bankplan_answer bankplan_take(uint32_t instruments, const uint32_t *calibrations, size_t calibrations_length,
                              const uint8_t *worklist, size_t worklist_length, uint8_t *sheet, size_t sheet_length);

#ifdef __cplusplus
}
#endif

#endif
