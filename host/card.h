/* Where circuits may go on an FPGA card of mixed columns: the calls of target/staticlib/libcard.a.
 *
 * `./archive` proves and builds the archive. A byte string passes as a pointer and a length, a number that is
 * written as a pointer alone. A number of two bytes has its low byte first. Heights, bottoms and tops are in half
 * rows. docs/MODEL.md defines all that is used here.
 *
 *   A task has 1 to 32 blocks of 6 bytes each: a column, a kind, and a bottom and a top, which are signed and have
 *   two bytes. Column, bottom and top count from the column and the bottom of the first block.
 *   A range has 6 bytes: a column, a step, and the first and the last bottom, of two bytes each. In its column it
 *   stands for the bottoms first, first + step, and so on up to last.
 *
 * The caller keeps, and nothing checks, that
 *   - each pointer is valid for its length, for writing where it is not const; with length 0 it may be any, NULL too;
 *   - each pointer to a number is aligned and valid for writing it: it is never NULL;
 *   - what is written, a part or a number, overlaps nothing else of the same call;
 *   - nobody else writes a part or a number while a call uses it, or reads one that it writes.
 *
 * Promised, and proved, for all bytes, lengths and numbers whatever:
 *   - the answer and every byte are those that the model defines;
 *   - a refusal is the first row of the table that holds, and then no byte has changed
 *     (but card_fragmentation sets its two numbers to 0);
 *   - nothing outside the lent bytes is read or written, and every call returns.
 *
 * No pointer is kept and nothing is allocated: of the C library the archive needs memcpy and memset.
 *
 * A stack that runs out is outside of these promises. card_fragmentation needs at most 16 KiB of stack and every
 * other call 8 KiB, whatever its input: no function calls itself, and each frame has a fixed size.
 * host/card/tests/stack measures the figures.
 */
#ifndef WALLARNICA_CARD_H
#define WALLARNICA_CARD_H

#include <stddef.h>
#include <stdint.h>

/* Limits. */
#define CARD_MAX_ROWS 128
#define CARD_MAX_COLUMNS 64
#define CARD_MAX_BLOCKS 32    /* in a task */
#define CARD_MAX_RUNNING 64   /* tasks on a card */
#define CARD_MAX_INTERVALS 64 /* in a column */
#define CARD_REACH 256        /* a block's bottom is at least minus this, its top at most this */

/* Lengths, in bytes. */
#define CARD_RECORD_SIZE 29188
#define CARD_LIST_ROOM 24576  /* the least output of card_list */
#define CARD_BLOCK_SIZE 6
#define CARD_RANGE_SIZE 6
#define CARD_INTERVAL_SIZE 4
#define CARD_COLUMN_SIZE 256  /* one column's intervals */
#define CARD_ENTRY_SIZE 198   /* a running entry */

/* Where things stand in a record. It can be read as it stands once a call on it has answered 0 or more:
   it is sound then, and stays so while nobody else writes it. The intervals of column c start at
   CARD_INTERVALS_AT + c * CARD_COLUMN_SIZE, running entry j at CARD_ENTRIES_AT + j * CARD_ENTRY_SIZE. */
#define CARD_ROWS_AT 0        /* 2 bytes */
#define CARD_COLUMNS_AT 2
#define CARD_RUNNING_AT 3     /* how many tasks run */
#define CARD_KINDS_AT 4       /* a byte for each column */
#define CARD_COUNTS_AT 68     /* a byte for each column: how many intervals it has */
#define CARD_INTERVALS_AT 132 /* upwards in each column */
#define CARD_ENTRIES_AT 16516 /* by rising number */

/* In an interval: free cells one above the other, with no further free one below or above; the top is excluded. */
#define CARD_INTERVAL_BOTTOM_AT 0 /* 2 bytes */
#define CARD_INTERVAL_TOP_AT 2    /* 2 bytes */

/* In a running entry: a task and where it was placed. */
#define CARD_ENTRY_NUMBER_AT 0 /* 2 bytes */
#define CARD_ENTRY_COLUMN_AT 2
#define CARD_ENTRY_COUNT_AT 3  /* how many blocks it has */
#define CARD_ENTRY_BOTTOM_AT 4 /* 2 bytes */
#define CARD_BLOCKS_AT 6       /* its blocks, from its seventh byte on */

/* In a block. */
#define CARD_BLOCK_COLUMN_AT 0
#define CARD_BLOCK_KIND_AT 1
#define CARD_BLOCK_BOTTOM_AT 2 /* 2 bytes, signed */
#define CARD_BLOCK_TOP_AT 4    /* 2 bytes, signed; excluded */

/* In a range. */
#define CARD_RANGE_COLUMN_AT 0
#define CARD_RANGE_STEP_AT 1
#define CARD_RANGE_FIRST_AT 2 /* 2 bytes */
#define CARD_RANGE_LAST_AT 4  /* 2 bytes */

#define CARD_COLUMN_WEIGHT 1024 /* card_choose answers column * this + bottom */

/* The kind bytes. */
enum card_kind {
    CARD_KIND_C = 0, /* logic (CLB), a cell is 2 half rows high */
    CARD_KIND_B = 1, /* memory (BRAM), 5 half rows */
    CARD_KIND_D = 2  /* multiplier (DSP), 5 half rows */
};

/* The refusals: the table of docs/MODEL.md, 13.1. */
enum card_refusal {
    CARD_RECORD_LENGTH = -1,        /* the record has not CARD_RECORD_SIZE bytes */
    CARD_RECORD_NOT_SOUND = -2,     /* the record is not sound; card_new does not ask */
    CARD_DEVICE_OR_COLUMN = -3,     /* new: no device with such rows and kinds; interval count: no such column */
    CARD_TASK_LENGTH = -4,          /* the task is not 1 to CARD_MAX_BLOCKS whole blocks */
    CARD_TASK_NOT_WELL_FORMED = -5, /* the task is not well-formed */
    CARD_OUTPUT_SHORT = -6,         /* list: the output has less than CARD_LIST_ROOM bytes */
    CARD_BAD_NUMBER = -7,           /* place: the number is not 1 to 65,535, or runs already */
    CARD_FULL = -8,                 /* place: CARD_MAX_RUNNING tasks run already */
    CARD_NO_POSITION = -9,          /* list, choose: the task fits nowhere */
    CARD_MISFIT = -10,              /* place: the task does not fit at this position */
    CARD_NOT_RUNNING = -11,         /* release: no task runs under the number */
    CARD_MALFORMED_LINE = -12       /* the sheet's line reader only */
};

#ifdef __cplusplus
extern "C" {
#endif

/* Every call but card_new first checks the whole record, byte by byte and task by task. So even a call that asks for
   little is not cheap, and it costs the more the more blocks run: to look at many columns, read the record instead. */

/* Writes the record of a device, a column for each kind byte, all cells free. Answers 0, -1 or -3. */
int32_t card_new(uint8_t *record, size_t record_len, uint32_t rows, const uint8_t *kinds, size_t kinds_len);

/* Puts a task into the record under a number, at a position, so that it holds its cells.
   Answers 0, -1, -2, -4, -5, -7, -8 or -10. */
int32_t card_place(uint8_t *record, size_t record_len, const uint8_t *task, size_t task_len,
                   uint32_t number, uint32_t column, int32_t bottom);

/* Takes a running task out of the record, so that its cells are free again. Answers 0, -1, -2 or -11. */
int32_t card_release(uint8_t *record, size_t record_len, uint32_t number);

/* Writes the ranges of the positions at which a task fits; the bytes behind them are not written.
   Answers their number, or -1, -2, -4, -5, -6 or -9. */
int32_t card_list(const uint8_t *record, size_t record_len, const uint8_t *task, size_t task_len,
                  uint8_t *output, size_t output_len);

/* Answers the best position of a task, column * 1,024 + bottom, or -1, -2, -4, -5 or -9. */
int32_t card_choose(const uint8_t *record, size_t record_len, const uint8_t *task, size_t task_len);

/* Answers how many free intervals a column has, or -1, -2 or -3. They stand in the record, as said above. */
int32_t card_interval_count(const uint8_t *record, size_t record_len, uint32_t column);

/* Answers how many connected sets the free cells make, 0 where no cell is free, and writes how many cells are free and
   the degree in hundredths of a percent: 10,000 * (sets - 1) / (free cells - 1) rounded down, or 0 where fewer than two
   are free. Free cells touch one above the other in a column, and in columns side by side where they share a half row;
   a connected set is a free cell with all that can be reached from it over free cells that touch.
   Or answers -1 or -2, and writes two zeros. */
int32_t card_fragmentation(const uint8_t *record, size_t record_len, int32_t *free_cells, int32_t *degree);

#ifdef __cplusplus
}
#endif

#endif
