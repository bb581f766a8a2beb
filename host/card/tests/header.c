/* Document 01's example through card.h, with what stands in the record; parts of length 0; the header's enumerators. Compiled as C and as C++. */
#include <stdio.h>
#include <string.h>

#include "card.h"

static uint8_t record[CARD_RECORD_SIZE];
static uint8_t output[CARD_LIST_ROOM];

/* A little-endian two-byte number. */
static int two_bytes(const uint8_t *at) {
    return at[0] | at[1] << 8;
}

/* The same, signed: two's complement. */
static int signed_bytes(const uint8_t *at) {
    int value = two_bytes(at);
    return value < 0x8000 ? value : value - 0x10000;
}

/* Prints a column's free intervals, read from the record itself. */
static void show_intervals(int column) {
    const uint8_t *interval = record + CARD_INTERVALS_AT + CARD_COLUMN_SIZE * column;
    printf("column %d, kind %d:", column, record[CARD_KINDS_AT + column]);
    for (int i = 0; i < record[CARD_COUNTS_AT + column]; i++) {
        printf(" %d-%d", two_bytes(interval + CARD_INTERVAL_BOTTOM_AT), two_bytes(interval + CARD_INTERVAL_TOP_AT));
        interval += CARD_INTERVAL_SIZE;
    }
    printf("\n");
}

/* Prints a running task with its blocks. */
static void show_entry(const uint8_t *entry) {
    const uint8_t *block = entry + CARD_BLOCKS_AT;
    printf("task %d at column %d bottom %d:", two_bytes(entry + CARD_ENTRY_NUMBER_AT), entry[CARD_ENTRY_COLUMN_AT],
           two_bytes(entry + CARD_ENTRY_BOTTOM_AT));
    for (int i = 0; i < entry[CARD_ENTRY_COUNT_AT]; i++) {
        printf(" %d,%d,%d,%d", block[CARD_BLOCK_COLUMN_AT], block[CARD_BLOCK_KIND_AT],
               signed_bytes(block + CARD_BLOCK_BOTTOM_AT), signed_bytes(block + CARD_BLOCK_TOP_AT));
        block += CARD_BLOCK_SIZE;
    }
    printf("\n");
}

/* Prints the whole card. A call that answered 0 has left the record sound, so it can be read as it stands. */
static void show_card(void) {
    printf("%d rows\n", two_bytes(record + CARD_ROWS_AT));
    for (int column = 0; column < record[CARD_COLUMNS_AT]; column++) {
        show_intervals(column);
    }
    for (int j = 0; j < record[CARD_RUNNING_AT]; j++) {
        show_entry(record + CARD_ENTRIES_AT + CARD_ENTRY_SIZE * j);
    }
}

/* Lists a task and prints the answer and each range. */
static void list(const uint8_t *task, size_t task_len) {
    int32_t answer = card_list(record, sizeof record, task, task_len, output, sizeof output);
    printf("list %d\n", (int)answer);
    for (int32_t i = 0; i < answer; i++) {
        const uint8_t *range = output + CARD_RANGE_SIZE * i;
        printf("  column %d first %d step %d last %d\n", range[CARD_RANGE_COLUMN_AT],
               two_bytes(range + CARD_RANGE_FIRST_AT), range[CARD_RANGE_STEP_AT], two_bytes(range + CARD_RANGE_LAST_AT));
    }
}

/* Chooses a position for a task and prints it. */
static void choose(const uint8_t *task, size_t task_len) {
    int32_t answer = card_choose(record, sizeof record, task, task_len);
    printf("choose column %d bottom %d\n", (int)(answer / CARD_COLUMN_WEIGHT), (int)(answer % CARD_COLUMN_WEIGHT));
}

/* Prints how broken up the card is. The two numbers are written also where the record is refused. */
static void fragmentation(const uint8_t *bytes, size_t length) {
    int32_t free_cells = 77, degree = 77;
    int32_t answer = card_fragmentation(bytes, length, &free_cells, &degree);
    printf("fragmentation %d, free %d, degree %d\n", (int)answer, (int)free_cells, (int)degree);
}

static void example(void) {
    const uint8_t kinds[] = {CARD_KIND_C, CARD_KIND_C, CARD_KIND_B};
    const uint8_t three[] = {
        0, CARD_KIND_C, 0,    0,    2, 0,
        1, CARD_KIND_C, 0xFE, 0xFF, 2, 0, /* from -2 */
        2, CARD_KIND_B, 1,    0,    6, 0,
    };
    const uint8_t tall[CARD_BLOCK_SIZE] = {0, CARD_KIND_C, 0, 0, 4, 0};
    const uint8_t memory[CARD_BLOCK_SIZE] = {0, CARD_KIND_B, 0, 0, 5, 0};

    printf("new %d\n", (int)card_new(record, sizeof record, 5, kinds, sizeof kinds));
    list(three, sizeof three);
    printf("place %d\n", (int)card_place(record, sizeof record, three, sizeof three, 7, 0, 4));
    list(three, sizeof three);
    list(tall, sizeof tall);
    choose(tall, sizeof tall);
    choose(memory, sizeof memory);
    printf("place %d\n", (int)card_place(record, sizeof record, tall, sizeof tall, 8, 0, 0));
    show_card();
    printf("intervals %d\n", (int)card_interval_count(record, sizeof record, 0));
    fragmentation(record, sizeof record);
    printf("release %d\n", (int)card_release(record, sizeof record, 9));
    printf("release %d\n", (int)card_release(record, sizeof record, 7));
    show_card();
}

/* Each part in its turn is NULL and has length 0. */
static void null_parts(void) {
    const uint8_t kinds[] = {CARD_KIND_C};
    const uint8_t task[CARD_BLOCK_SIZE] = {0, CARD_KIND_C, 0, 0, 2, 0};

    printf("new, record %d\n", (int)card_new(NULL, 0, 5, kinds, sizeof kinds));
    printf("new, kinds %d\n", (int)card_new(record, sizeof record, 5, NULL, 0));
    printf("new %d\n", (int)card_new(record, sizeof record, 5, kinds, sizeof kinds));
    printf("place, record %d\n", (int)card_place(NULL, 0, task, sizeof task, 7, 0, 0));
    printf("place, task %d\n", (int)card_place(record, sizeof record, NULL, 0, 7, 0, 0));
    printf("release, record %d\n", (int)card_release(NULL, 0, 7));
    printf("list, record %d\n", (int)card_list(NULL, 0, task, sizeof task, output, sizeof output));
    printf("list, task %d\n", (int)card_list(record, sizeof record, NULL, 0, output, sizeof output));
    printf("list, output %d\n", (int)card_list(record, sizeof record, task, sizeof task, NULL, 0));
    printf("choose, record %d\n", (int)card_choose(NULL, 0, task, sizeof task));
    printf("choose, task %d\n", (int)card_choose(record, sizeof record, NULL, 0));
    printf("intervals, record %d\n", (int)card_interval_count(NULL, 0, 0));
    fragmentation(NULL, 0);
    printf("all of list %d\n", (int)card_list(NULL, 0, NULL, 0, NULL, 0));
}

#define SHOW(name) printf(#name " %d\n", (int)name)

static void enumerators(void) {
    SHOW(CARD_KIND_C);
    SHOW(CARD_KIND_B);
    SHOW(CARD_KIND_D);
    SHOW(CARD_RECORD_LENGTH);
    SHOW(CARD_RECORD_NOT_SOUND);
    SHOW(CARD_DEVICE_OR_COLUMN);
    SHOW(CARD_TASK_LENGTH);
    SHOW(CARD_TASK_NOT_WELL_FORMED);
    SHOW(CARD_OUTPUT_SHORT);
    SHOW(CARD_BAD_NUMBER);
    SHOW(CARD_FULL);
    SHOW(CARD_NO_POSITION);
    SHOW(CARD_MISFIT);
    SHOW(CARD_NOT_RUNNING);
    SHOW(CARD_MALFORMED_LINE);
}

int main(int count, char **words) {
    if (count == 2 && strcmp(words[1], "enumerators") == 0) {
        enumerators();
    } else if (count == 2 && strcmp(words[1], "null-parts") == 0) {
        null_parts();
    } else {
        example();
    }
    return 0;
}
