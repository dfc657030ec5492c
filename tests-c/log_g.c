/* Log G through the C interface: write_record, without_twins, segments, query, query_beats,
 * query_scenes, read, read_rows, row_at, lookup, lookups and check; with a memory; and in every order of
 * its records. A width of 1 is no memory, and what the calls without one gave.
 *
 * Every answer is checked against the numbers that the paper prints for log G, or against what its
 * rules give for it by hand, and every byte lent against the paper's layout. Prints one line,
 * `c interface: ok`; with any difference it prints each of them and ends with status 1.
 *
 * From the repository's root, with the archive in target/staticlib:
 *
 *   gcc -std=c11 -Wall -Wextra -Werror -Iinclude tests-c/log_g.c \
 *       target/staticlib/libcapi.a -o target/log_g && target/log_g
 */
#include <stdio.h>
#include <string.h>

#include "pacer.h"

static int differences = 0;

/* Compares two numbers; says where they differ. */
static void same_at(int line, const char *what, unsigned long long found,
                    unsigned long long expected)
{
    if (found != expected) {
        printf("line %d: %s is %llu, expected %llu\n", line, what, found, expected);
        differences++;
    }
}
#define SAME(found, expected) \
    same_at(__LINE__, #found, (unsigned long long)(found), (unsigned long long)(expected))

/* Compares some bytes; says where the first difference is. */
static void bytes_at(int line, const char *what, const uint8_t *found, const uint8_t *expected,
                     size_t length)
{
    for (size_t i = 0; i < length; i++) {
        if (found[i] != expected[i]) {
            printf("line %d: byte %zu of %s is %02x, expected %02x\n", line, i, what, found[i],
                   expected[i]);
            differences++;
            return;
        }
    }
}
#define BYTES(found, expected, length) bytes_at(__LINE__, #found, found, expected, length)

/* Compares the answer of a query, field by field. */
static void answer_at(int line, struct pacer_query_answer found, struct pacer_query_answer expected)
{
    same_at(line, "question", found.question, expected.question);
    same_at(line, "index", found.index, expected.index);
    same_at(line, "rows", found.rows, expected.rows);
    same_at(line, "error", found.error, expected.error);
    same_at(line, "weighed", found.weighed, expected.weighed);
}
#define ANSWER(found, ...) answer_at(__LINE__, found, (struct pacer_query_answer){__VA_ARGS__})

/* Compares the answer of without_twins, field by field. */
static void kept_at(int line, struct pacer_log_answer found, struct pacer_log_answer expected)
{
    same_at(line, "question", found.question, expected.question);
    same_at(line, "index", found.index, expected.index);
    same_at(line, "length", found.length, expected.length);
}
#define KEPT(found, ...) kept_at(__LINE__, found, (struct pacer_log_answer){__VA_ARGS__})

/* Compares the answer of check, field by field. */
static void checked_at(int line, struct pacer_check_answer found, uint8_t question, size_t index)
{
    same_at(line, "question of check", found.question, question);
    same_at(line, "index of check", found.index, index);
}
#define CHECKED(found, question, index) checked_at(__LINE__, found, question, index)

/* Log G: group, first, last, load. */
static const uint16_t log_g[5][4] = {
    {0, 0, 3, 100}, {0, 2, 5, 200}, {0, 6, 6, 210}, {0, 9, 10, 50}, {1, 0, 0, 7},
};

/* The segments of G, kind 0, and the rows of G for c = 4: group, first, last, value. */
static const struct pacer_segment segments_g[6] = {
    {0, 0, 1, 100}, {0, 2, 3, 300}, {0, 4, 5, 200}, {0, 6, 6, 210}, {0, 9, 10, 50}, {1, 0, 0, 7},
};
static const struct pacer_row rows_g[4] = {
    {0, 0, 1, 100}, {0, 2, 6, 242}, {0, 9, 10, 50}, {1, 0, 0, 7},
};

/* The same for kind 4, the mean load in hundredths. */
static const struct pacer_segment mean_segments_g[6] = {
    {0, 0, 1, 10000}, {0, 2, 3, 15000},  {0, 4, 5, 20000},
    {0, 6, 6, 21000}, {0, 9, 10, 5000}, {1, 0, 0, 700},
};
static const struct pacer_row mean_rows_g[4] = {
    {0, 0, 3, 12500}, {0, 4, 6, 20333}, {0, 9, 10, 5000}, {1, 0, 0, 700},
};

/* The slot's bytes for c = 4, from the layout: header, four rows, zeros. 11,280 is 2C10. */
static const uint8_t slot_g[PACER_SLOT_BYTES] = {
    0x50, 0x48, 0x00, 0x04, 0x10, 0x2C, 0x00, 0x00, 0x00, 0x00, 0x00, 0x00,
    0x50, 0x52, 0x00, 0x00, 0x00, 0x01, 0x00, 0x64, 0x00, 0x00, 0x00,
    0x50, 0x52, 0x00, 0x02, 0x00, 0x06, 0x00, 0xF2, 0x00, 0x00, 0x00,
    0x50, 0x52, 0x00, 0x09, 0x00, 0x0A, 0x00, 0x32, 0x00, 0x00, 0x00,
    0x50, 0x52, 0x01, 0x00, 0x00, 0x00, 0x00, 0x07, 0x00, 0x00, 0x00,
};

/* The rows of G by beats of four frames from frame 0, kind 0, and the slot's bytes. A row has its
 * window's frames, covered or not, and a record that lies in two windows counts in both.
 */
static const struct pacer_row beats_g[4] = {
    {0, 0, 3, 300}, {0, 4, 7, 410}, {0, 8, 11, 50}, {1, 0, 3, 7},
};
static const uint8_t beats_slot_g[PACER_SLOT_BYTES] = {
    0x50, 0x53, 0x00, 0x04, 0x00, 0x00, 0x00, 0x00, 0x00, 0x00, 0x00, 0x00,
    0x50, 0x52, 0x00, 0x00, 0x00, 0x03, 0x00, 0x2C, 0x01, 0x00, 0x00,
    0x50, 0x52, 0x00, 0x04, 0x00, 0x07, 0x00, 0x9A, 0x01, 0x00, 0x00,
    0x50, 0x52, 0x00, 0x08, 0x00, 0x0B, 0x00, 0x32, 0x00, 0x00, 0x00,
    0x50, 0x52, 0x01, 0x00, 0x00, 0x03, 0x00, 0x07, 0x00, 0x00, 0x00,
};

/* Fills a buffer with bytes that no call writes there by chance. */
static void fill(uint8_t *buffer, size_t length)
{
    for (size_t i = 0; i < length; i++)
        buffer[i] = (uint8_t)(0xA5 ^ (i * 7));
}

static void test_write_record(uint8_t *log)
{
    static const uint8_t first_record[9] = {0x4C, 0x44, 0x00, 0x00, 0x00, 0x03, 0x00, 0x64, 0x00};
    uint8_t buffer[12], before[12];

    for (size_t i = 0; i < 5; i++) {
        struct pacer_record_answer a =
            pacer_write_record((uint8_t)log_g[i][0], log_g[i][1], log_g[i][2], log_g[i][3],
                               log + 9 * i, 9);
        SAME(a.question, 0);
        SAME(a.index, 0);
    }
    BYTES(log, first_record, 9);

    /* Bytes past the ninth keep their content. */
    fill(before, sizeof before);
    memcpy(buffer, before, sizeof buffer);
    SAME(pacer_write_record(0, 0, 3, 100, buffer, sizeof buffer).question, 0);
    BYTES(buffer, first_record, 9);
    BYTES(buffer + 9, before + 9, 3);

    /* The questions in order, and an unchanged buffer. */
    memcpy(buffer, before, sizeof buffer);
    SAME(pacer_write_record(8, 1, 0, 1001, buffer, 8).question, 1);
    SAME(pacer_write_record(8, 1, 0, 1001, buffer, 9).question, 7);
    SAME(pacer_write_record(7, 1, 0, 1001, buffer, 9).question, 8);
    SAME(pacer_write_record(7, 0, 0, 1001, buffer, 9).question, 9);
    SAME(pacer_write_record(7, 0, 0, 1001, buffer, 9).index, 0);
    BYTES(buffer, before, sizeof buffer);
    SAME(pacer_write_record(7, 65535, 65535, 1000, buffer, 9).question, 0);
}

static void test_segments(const uint8_t *log)
{
    static struct pacer_segment list[PACER_SEGMENT_PLACES + 1];
    const size_t places = sizeof list / sizeof list[0];

    for (size_t i = 0; i < places; i++)
        list[i] = (struct pacer_segment){9, 10, 11, 12};
    SAME(pacer_segments(log, 45, PACER_SUM, 1, list, 254).question, 1);
    SAME(pacer_segments(log, 45, PACER_MEAN + 1, 1, list, places).question, 2);
    SAME(list[0].group, 9);

    static const struct {
        uint8_t kind;
        const struct pacer_segment *segments;
    } cases[] = {{PACER_MEAN, mean_segments_g}, {PACER_SUM, segments_g}};
    for (size_t c = 0; c < sizeof cases / sizeof cases[0]; c++) {
        struct pacer_segments_answer a = pacer_segments(log, 45, cases[c].kind, 1, list, places);
        SAME(a.question, 0);
        SAME(a.index, 0);
        SAME(a.count, 6);
        for (size_t i = 0; i < places; i++) {
            const struct pacer_segment expected =
                i < 6 ? cases[c].segments[i] : (struct pacer_segment){9, 10, 11, 12};
            SAME(list[i].group, expected.group);
            SAME(list[i].first, expected.first);
            SAME(list[i].last, expected.last);
            SAME(list[i].value, expected.value);
        }
    }
}

static void test_query(const uint8_t *log, uint8_t *slot, size_t length)
{
    /* Limits and shares of G with their rows and errors. */
    static const struct {
        uint8_t rule;
        uint16_t bound;
        size_t rows;
        uint64_t error;
    } cases[] = {
        {PACER_ROWS, 3, 3, 40087},   {PACER_ROWS, 4, 4, 11280},   {PACER_ROWS, 5, 5, 67},
        {PACER_ROWS, 6, 6, 0},       {PACER_ROWS, 64, 6, 0},      {PACER_SHARE, 281, 5, 67},
        {PACER_SHARE, 282, 4, 11280},
    };
    uint8_t before[PACER_SLOT_BYTES + 32];

    for (size_t i = 0; i < sizeof cases / sizeof cases[0]; i++) {
        const struct pacer_query_answer a =
            pacer_query(PACER_SUM, cases[i].rule, cases[i].bound, 1, log, 45, slot, length);
        SAME(a.question, 0);
        SAME(a.index, 0);
        SAME(a.rows, cases[i].rows);
        SAME(a.error, cases[i].error);
    }

    /* Refusals leave the slot unchanged. */
    fill(before, sizeof before);
    memcpy(slot, before, length);
    SAME(pacer_query(5, 0, 65, 1, log, 44, slot, 767).question, 1);
    SAME(pacer_query(5, 0, 65, 1, log, 44, slot, length).question, 2);
    SAME(pacer_query(4, 0, 65, 1, log, 44, slot, length).question, 3);
    SAME(pacer_query(0, 0, 4, 1, log, 44, slot, length).question, 3);
    SAME(pacer_query(0, PACER_ROWS, 65, 1, log, 44, slot, length).question, 3);
    SAME(pacer_query(0, PACER_SHARE, 1001, 1, log, 44, slot, length).question, 3);
    SAME(pacer_query(0, PACER_ROWS, 64, 1, log, 44, slot, length).question, 4);
    ANSWER(pacer_query(0, PACER_ROWS, 2, 1, log, 45, slot, length), 10, 0, 0, 0, 0);
    BYTES(slot, before, length);

    /* A damaged third record: the index says which. */
    uint8_t damaged[45];
    memcpy(damaged, log, 45);
    damaged[2 * 9 + 2] = 8;
    ANSWER(pacer_query(0, PACER_ROWS, 4, 1, damaged, 45, slot, length), 7, 2, 0, 0, 0);
    BYTES(slot, before, length);

    /* The empty log with c = 0. */
    ANSWER(pacer_query(0, PACER_ROWS, 0, 1, log, 0, slot, length), 0, 0, 0, 0, 0);

    /* The worked case: c = 4, with the cuts weighed and every byte of the slot. */
    memcpy(slot, before, length);
    ANSWER(pacer_query(PACER_SUM, PACER_ROWS, 4, 1, log, 45, slot, length), 0, 0, 4, 11280, 16);
    BYTES(slot, slot_g, PACER_SLOT_BYTES);
    BYTES(slot + PACER_SLOT_BYTES, before + PACER_SLOT_BYTES, length - PACER_SLOT_BYTES);
}

/* Kind 4 by way of query, reader and lookup: its rows are cut at other frames than those of kind 0. */
static void test_mean(const uint8_t *log)
{
    static uint8_t slot[PACER_SLOT_BYTES];
    static struct pacer_row list[PACER_ROW_PLACES];

    ANSWER(pacer_query(PACER_MEAN, PACER_ROWS, 4, 1, log, 45, slot, sizeof slot), 0, 0, 4, 25666667,
           16);
    const struct pacer_read_answer a = pacer_read_rows(slot, sizeof slot, list, PACER_ROW_PLACES);
    SAME(a.question, 0);
    SAME(a.kind, PACER_MEAN);
    SAME(a.rows, 4);
    SAME(a.error, 25666667);
    for (size_t i = 0; i < 4; i++) {
        SAME(list[i].group, mean_rows_g[i].group);
        SAME(list[i].first, mean_rows_g[i].first);
        SAME(list[i].last, mean_rows_g[i].last);
        SAME(list[i].value, mean_rows_g[i].value);
    }
    SAME(pacer_lookup(slot, sizeof slot, 0, 3).value, 12500);
    SAME(pacer_lookup(slot, sizeof slot, 0, 4).value, 20333);
}

/* A slot that was written before, with one row of frames 0 and 1, is read as ever. */
static void read_slot_of_before(uint8_t kind, uint8_t error, uint8_t value)
{
    const uint8_t front[] = {
        0x50, 0x48, kind, 0x01, error, 0x00, 0x00, 0x00, 0x00, 0x00, 0x00, 0x00,
        0x50, 0x52, 0x00, 0x00, 0x00, 0x01, 0x00, value, 0x00, 0x00, 0x00,
    };
    uint8_t slot[PACER_SLOT_BYTES] = {0};

    memcpy(slot, front, sizeof front);
    SAME(pacer_read(slot, sizeof slot).question, 0);
    SAME(pacer_read(slot, sizeof slot).kind, kind);
    SAME(pacer_read(slot, sizeof slot).error, error);
    SAME(pacer_row_at(slot, sizeof slot, 0).found, 1);
    SAME(pacer_row_at(slot, sizeof slot, 0).value, value);
    SAME(pacer_lookup(slot, sizeof slot, 0, 1).covered, 1);
    SAME(pacer_lookup(slot, sizeof slot, 0, 1).value, value);
}

/* Kind 3: rows hold the greatest value in them, and a share is taken of their own least error; a
 * slot of kind 3 of before, whose rows hold nearest means, is read as ever.
 */
static void test_greatest(const uint8_t *log)
{
    static const struct {
        uint8_t rule;
        uint16_t bound;
        size_t rows;
        uint64_t error;
        uint64_t weighed;
        uint32_t at_frame_2;
    } cases[] = {
        {PACER_ROWS, 3, 3, 24600, 8, 210}, {PACER_ROWS, 4, 4, 400, 10, 210},
        {PACER_ROWS, 5, 5, 0, 11, 200},    {PACER_SHARE, 16, 5, 0, 11, 200},
        {PACER_SHARE, 17, 4, 400, 10, 210}, {PACER_SHARE, 26, 4, 400, 10, 210},
    };
    static uint8_t slot[PACER_SLOT_BYTES];
    uint8_t two[18];

    for (size_t i = 0; i < sizeof cases / sizeof cases[0]; i++) {
        const struct pacer_query_answer a = pacer_query(PACER_GREATEST, cases[i].rule,
                                                        cases[i].bound, 1, log, 45, slot, sizeof slot);
        ANSWER(a, 0, 0, cases[i].rows, cases[i].error, cases[i].weighed);
        SAME(pacer_read(slot, sizeof slot).kind, PACER_GREATEST);
        SAME(pacer_read(slot, sizeof slot).error, cases[i].error);
        SAME(pacer_lookup(slot, sizeof slot, 0, 2).value, cases[i].at_frame_2);
        SAME(pacer_lookup(slot, sizeof slot, 0, 6).value, 210);
    }

    /* Loads 0 and 1 in one row: 1, with error 1; before it held 0, with the same error. */
    SAME(pacer_write_record(0, 0, 0, 0, two, 9).question, 0);
    SAME(pacer_write_record(0, 1, 1, 1, two + 9, 9).question, 0);
    ANSWER(pacer_query(PACER_GREATEST, PACER_ROWS, 1, 1, two, 18, slot, sizeof slot), 0, 0, 1, 1, 0);
    SAME(pacer_lookup(slot, sizeof slot, 0, 0).value, 1);
    read_slot_of_before(PACER_GREATEST, 1, 0);
}

/* Halves go up, by every kind but 3: two records over frames 0 and 1 and over frame 1, in one row.
 * The error is that of the lower number, and a slot of before, which holds it, is read as ever.
 */
static void test_halves(void)
{
    static const struct {
        uint8_t kind;
        uint16_t loads[2];
        uint32_t value;
        uint64_t error;
    } cases[] = {
        /* The frames' values are 7 and 10, 1 and 2, 9 and 8, and by kind 3 again 7 and 10. */
        {PACER_SUM, {7, 3}, 9, 5},
        {PACER_COUNT, {0, 0}, 2, 1},
        {PACER_LEAST, {9, 8}, 9, 1},
        {PACER_GREATEST, {7, 10}, 10, 9},
    };
    static uint8_t slot[PACER_SLOT_BYTES];
    uint8_t log[27];

    for (size_t i = 0; i < sizeof cases / sizeof cases[0]; i++) {
        SAME(pacer_write_record(0, 0, 1, cases[i].loads[0], log, 9).question, 0);
        SAME(pacer_write_record(0, 1, 1, cases[i].loads[1], log + 9, 9).question, 0);
        ANSWER(pacer_query(cases[i].kind, PACER_ROWS, 1, 1, log, 18, slot, sizeof slot), 0, 0, 1,
               cases[i].error, 0);
        SAME(pacer_lookup(slot, sizeof slot, 0, 0).value, cases[i].value);
    }
    /* Means in hundredths: 33, which is rounded down as ever, and 0. */
    SAME(pacer_write_record(0, 0, 1, 0, log, 9).question, 0);
    SAME(pacer_write_record(0, 0, 0, 0, log + 9, 9).question, 0);
    SAME(pacer_write_record(0, 0, 0, 1, log + 18, 9).question, 0);
    ANSWER(pacer_query(PACER_MEAN, PACER_ROWS, 1, 1, log, 27, slot, sizeof slot), 0, 0, 1, 545, 0);
    SAME(pacer_lookup(slot, sizeof slot, 0, 0).value, 17);
    read_slot_of_before(PACER_SUM, 5, 8);
}

/* The rows of a slot by windows: reader, list, walk and lookup. */
static void rows_by_windows(const uint8_t *slot, size_t length, uint8_t kind,
                            const struct pacer_row *rows, size_t count)
{
    static struct pacer_row list[PACER_ROW_PLACES];
    const struct pacer_read_answer a = pacer_read(slot, length);
    SAME(a.question, 0);
    SAME(a.index, 0);
    SAME(a.kind, kind);
    SAME(a.mark, PACER_BY_WINDOWS);
    SAME(a.rows, count);
    SAME(a.error, 0);
    SAME(pacer_read_rows(slot, length, list, PACER_ROW_PLACES).mark, PACER_BY_WINDOWS);
    for (size_t i = 0; i < count; i++) {
        const struct pacer_step_answer step = pacer_row_at(slot, length, i);
        SAME(step.found, 1);
        SAME(step.next, i + 1);
        SAME(step.group, rows[i].group);
        SAME(step.first, rows[i].first);
        SAME(step.last, rows[i].last);
        SAME(step.value, rows[i].value);
        SAME(list[i].group, rows[i].group);
        SAME(list[i].first, rows[i].first);
        SAME(list[i].last, rows[i].last);
        SAME(list[i].value, rows[i].value);
        SAME(pacer_lookup(slot, length, rows[i].group, rows[i].first).value, rows[i].value);
        SAME(pacer_lookup(slot, length, rows[i].group, rows[i].last).covered, 1);
    }
    SAME(pacer_row_at(slot, length, count).found, 0);
}

static void test_beats(const uint8_t *log)
{
    static uint8_t slot[PACER_SLOT_BYTES + 32], before[PACER_SLOT_BYTES + 32];
    static const struct pacer_row cut_off[] = {{0, 6, 65535, 2}};
    static const struct pacer_row greatest[] = {{0, 3, 9, 210}, {0, 10, 16, 50}};
    uint8_t wide[18];

    fill(before, sizeof before);
    memcpy(slot, before, sizeof slot);

    /* Refusals, in the order of their questions, leave the slot unchanged. */
    SAME(pacer_query_beats(5, 0, 0, log, 44, slot, 767).question, 1);
    SAME(pacer_query_beats(5, 0, 0, log, 44, slot, sizeof slot).question, 2);
    ANSWER(pacer_query_beats(4, 0, 0, log, 44, slot, sizeof slot), 18, 0, 0, 0, 0);
    SAME(pacer_query_beats(4, 1, 0, log, 44, slot, sizeof slot).question, 4);
    /* 65 windows of one frame; and a wrong record, which comes first. */
    SAME(pacer_write_record(5, 0, 64, 9, wide, 9).question, 0);
    ANSWER(pacer_query_beats(0, 1, 0, wide, 9, slot, sizeof slot), 20, 0, 0, 0, 0);
    memcpy(wide + 9, wide, 9);
    wide[9 + 2] = 8;
    ANSWER(pacer_query_beats(0, 1, 0, wide, 18, slot, sizeof slot), 7, 1, 0, 0, 0);
    BYTES(slot, before, sizeof slot);

    /* One frame later there are 64. */
    ANSWER(pacer_query_beats(0, 1, 1, wide, 9, slot, sizeof slot), 0, 0, 64, 0, 0);

    ANSWER(pacer_query_beats(PACER_COUNT, 65535, 6, log, 45, slot, sizeof slot), 0, 0, 1, 0, 0);
    rows_by_windows(slot, sizeof slot, PACER_COUNT, cut_off, 1);
    ANSWER(pacer_query_beats(PACER_GREATEST, 7, 3, log, 45, slot, sizeof slot), 0, 0, 2, 0, 0);
    rows_by_windows(slot, sizeof slot, PACER_GREATEST, greatest, 2);
    ANSWER(pacer_query_beats(PACER_SUM, 1, 65535, log, 45, slot, sizeof slot), 0, 0, 0, 0, 0);
    rows_by_windows(slot, sizeof slot, PACER_SUM, NULL, 0);

    memcpy(slot, before, sizeof slot);
    ANSWER(pacer_query_beats(PACER_SUM, 4, 0, log, 45, slot, sizeof slot), 0, 0, 4, 0, 0);
    BYTES(slot, beats_slot_g, PACER_SLOT_BYTES);
    BYTES(slot + PACER_SLOT_BYTES, before + PACER_SLOT_BYTES, sizeof slot - PACER_SLOT_BYTES);
    rows_by_windows(slot, sizeof slot, PACER_SUM, beats_g, 4);
    SAME(pacer_lookup(slot, sizeof slot, 0, 12).covered, 0);
    SAME(pacer_lookup(slot, sizeof slot, 8, 0).question, 7);

    /* Under this header an error is question 17's 'no', after the rows' questions; under the other
     * one it is not.
     */
    for (size_t byte = 4; byte < 12; byte++) {
        slot[byte] = 1;
        SAME(pacer_read(slot, sizeof slot).question, 17);
        SAME(pacer_read(slot, sizeof slot).mark, 0);
        SAME(pacer_row_at(slot, sizeof slot, 0).question, 17);
        SAME(pacer_lookup(slot, sizeof slot, 0, 0).question, 17);
        slot[12]++;
        SAME(pacer_read(slot, sizeof slot).question, 14);
        slot[12]--;
        slot[1] = PACER_BY_BOUND;
        SAME(pacer_read(slot, sizeof slot).question, 0);
        SAME(pacer_read(slot, sizeof slot).mark, PACER_BY_BOUND);
        slot[1] = PACER_BY_WINDOWS;
        slot[byte] = 0;
    }
}

static void test_scenes(const uint8_t *log)
{
    static uint8_t slot[PACER_SLOT_BYTES], before[PACER_SLOT_BYTES];
    static const uint16_t firsts[] = {0, 4, 11}, lasts[] = {3, 9, 65535};
    static const struct pacer_row least[] = {{0, 0, 3, 100}, {0, 4, 9, 50}, {1, 0, 3, 7}};
    static const uint16_t shared[] = {0, 3}, backwards[] = {4, 0}, ends[] = {9, 3};
    uint16_t many[PACER_SCENE_PLACES + 1];
    uint8_t four[36];

    fill(before, sizeof before);
    memcpy(slot, before, sizeof slot);
    for (uint16_t i = 0; i <= PACER_SCENE_PLACES; i++)
        many[i] = (uint16_t)(10 * i);
    for (uint8_t i = 0; i < 4; i++)
        SAME(pacer_write_record(i, 0, 160, 9, four + 9 * i, 9).question, 0);

    /* Refusals leave the slot unchanged: no scene, 17, lists of unequal length, a first above its
     * last, a shared frame, the wrong order.
     */
    const struct {
        const uint16_t *firsts;
        size_t first_count;
        const uint16_t *lasts;
        size_t last_count;
    } wrong[] = {
        {firsts, 0, lasts, 0}, {many, 17, many, 17}, {firsts, 2, lasts, 3}, {firsts, 3, lasts, 2},
        {many, 16, many, 17},  {many, 17, many, 16}, {lasts, 1, firsts, 1}, {shared, 2, lasts, 2},
        {backwards, 2, ends, 2},
    };
    for (size_t i = 0; i < sizeof wrong / sizeof wrong[0]; i++) {
        ANSWER(pacer_query_scenes(0, wrong[i].firsts, wrong[i].first_count, wrong[i].lasts,
                                  wrong[i].last_count, log, 44, slot, sizeof slot),
               19, 0, 0, 0, 0);
    }
    SAME(pacer_query_scenes(5, firsts, 0, lasts, 0, log, 44, slot, 767).question, 1);
    SAME(pacer_query_scenes(5, firsts, 0, lasts, 0, log, 44, slot, sizeof slot).question, 2);
    SAME(pacer_query_scenes(4, firsts, 3, lasts, 3, log, 44, slot, sizeof slot).question, 4);
    BYTES(slot, before, sizeof slot);

    /* Scenes that touch, and one that nothing meets. */
    ANSWER(pacer_query_scenes(PACER_LEAST, firsts, 3, lasts, 3, log, 45, slot, sizeof slot), 0, 0,
           3, 0, 0);
    rows_by_windows(slot, sizeof slot, PACER_LEAST, least, 3);

    /* 16 scenes by four groups are 64 rows; with one record more there are 65. */
    ANSWER(pacer_query_scenes(PACER_SUM, many, 16, many, 16, four, 36, slot, sizeof slot), 0, 0, 64,
           0, 0);
    memcpy(before, slot, sizeof before);
    uint8_t five[45];
    memcpy(five, four, 36);
    SAME(pacer_write_record(7, 150, 150, 9, five + 36, 9).question, 0);
    ANSWER(pacer_query_scenes(PACER_SUM, many, 16, many, 16, five, 45, slot, sizeof slot), 20, 0, 0,
           0, 0);
    BYTES(slot, before, sizeof slot);
}

/* Every call that asks a log all its questions: each refuses it by the same one and changes nothing, or
 * all accept it.
 */
static void every_call(int line, const uint8_t *log, size_t length, uint8_t question, size_t index)
{
    static uint8_t slot[PACER_SLOT_BYTES], before[PACER_SLOT_BYTES];
    static struct pacer_segment list[PACER_SEGMENT_PLACES];
    static const uint16_t first[] = {0}, last[] = {65535};

    fill(before, sizeof before);
    for (int call = 0; call < 4; call++) {
        struct pacer_query_answer a;
        memcpy(slot, before, sizeof slot);
        if (call == 0)
            a = pacer_query(PACER_SUM, PACER_ROWS, 64, 1, log, length, slot, sizeof slot);
        else if (call == 1)
            a = pacer_query(PACER_SUM, PACER_SHARE, 1000, 1, log, length, slot, sizeof slot);
        else if (call == 2)
            a = pacer_query_beats(PACER_SUM, 65535, 0, log, length, slot, sizeof slot);
        else
            a = pacer_query_scenes(PACER_SUM, first, 1, last, 1, log, length, slot, sizeof slot);
        same_at(line, "question of a query", a.question, question);
        same_at(line, "index of a query", a.index, index);
        if (question != 0) {
            answer_at(line, a, (struct pacer_query_answer){question, index, 0, 0, 0});
            bytes_at(line, "slot", slot, before, sizeof slot);
            checked_at(line, pacer_check(log, length, 1, slot_g, sizeof slot_g), question, index);
        } else {
            /* A slot by a bound passes with its log, and one by windows does not. */
            checked_at(line, pacer_check(log, length, 1, slot, sizeof slot), call < 2 ? 0 : 11, 0);
        }
    }

    for (size_t i = 0; i < PACER_SEGMENT_PLACES; i++)
        list[i] = (struct pacer_segment){9, 10, 11, 12};
    const struct pacer_segments_answer a =
        pacer_segments(log, length, PACER_SUM, 1, list, PACER_SEGMENT_PLACES);
    same_at(line, "question of segments", a.question, question);
    same_at(line, "index of segments", a.index, index);
    if (question != 0) {
        same_at(line, "count", a.count, 0);
        for (size_t i = 0; i < PACER_SEGMENT_PLACES; i++)
            same_at(line, "group", list[i].group, 9);
    }
}
#define EVERY_CALL(log, length, question, index) every_call(__LINE__, log, length, question, index)

/* Question 21: the later one of two records with the same nine bytes. */
static void test_twins(const uint8_t *log)
{
    static uint8_t slot[PACER_SLOT_BYTES], many[129 * 9];
    uint8_t twins[54];

    /* G with its last record twice, as a restarted logger writes it, and with its first one twice. */
    memcpy(twins, log, 45);
    memcpy(twins + 45, log + 36, 9);
    EVERY_CALL(twins, 45, 0, 0);
    EVERY_CALL(twins, 54, 21, 5);
    memcpy(twins + 45, log, 9);
    EVERY_CALL(twins, 54, 21, 5);
    memcpy(twins + 9, log, 9);
    EVERY_CALL(twins, 54, 21, 1);

    /* A wrong record before the later twin comes first, one behind it does not; a wrong record's twin
     * is not reached.
     */
    memcpy(twins, log, 45);
    memcpy(twins + 27, log + 9, 9);
    memcpy(twins + 45, log + 36, 9);
    EVERY_CALL(twins, 54, 21, 3);
    twins[36] = 0;
    EVERY_CALL(twins, 54, 21, 3);
    twins[18 + 2] = 8;
    EVERY_CALL(twins, 54, 7, 2);
    memcpy(twins + 27, twins + 18, 9);
    EVERY_CALL(twins, 54, 7, 2);

    /* What comes before the records, and 10 and 20, which come after them. */
    memcpy(twins, log, 45);
    memcpy(twins + 45, log + 36, 9);
    SAME(pacer_query(0, PACER_ROWS, 64, 1, twins, 54, slot, 767).question, 1);
    SAME(pacer_query(5, PACER_ROWS, 64, 1, twins, 54, slot, sizeof slot).question, 2);
    SAME(pacer_query(0, PACER_ROWS, 65, 1, twins, 54, slot, sizeof slot).question, 3);
    SAME(pacer_query(0, PACER_ROWS, 64, 1, twins, 53, slot, sizeof slot).question, 4);
    ANSWER(pacer_query(0, PACER_ROWS, 0, 1, twins, 54, slot, sizeof slot), 21, 5, 0, 0, 0);
    SAME(pacer_query_beats(0, 0, 0, twins, 54, slot, sizeof slot).question, 18);
    SAME(pacer_write_record(5, 0, 64, 9, twins, 9).question, 0);
    memcpy(twins + 9, twins, 9);
    ANSWER(pacer_query_beats(0, 1, 0, twins, 9, slot, sizeof slot), 20, 0, 0, 0, 0);
    ANSWER(pacer_query_beats(0, 1, 0, twins, 18, slot, sizeof slot), 21, 1, 0, 0, 0);

    /* Records that differ in one byte alone are no twins, whichever byte behind the mark it is. */
    SAME(pacer_write_record(2, 0x0102, 0x0304, 0x0104, many, 9).question, 0);
    for (size_t byte = 2; byte < 9; byte++) {
        uint8_t *other = many + 9 * (byte - 1);
        memcpy(other, many, 9);
        other[byte] ^= 1;
        EVERY_CALL(many, 9 * byte, 0, 0);
        memcpy(other + 9, other, 9);
        EVERY_CALL(many, 9 * byte + 9, 21, byte);
    }

    /* 128 records; the last one is a twin of each of the others in turn. With 129 the count is asked
     * first.
     */
    for (uint16_t i = 0; i < 128; i++)
        SAME(pacer_write_record(7, i, (uint16_t)(1000 - i), 1000, many + 9 * i, 9).question, 0);
    SAME(pacer_segments(many, 128 * 9, PACER_SUM, 1, (struct pacer_segment[255]){{0}}, 255).count, 255);
    for (size_t i = 0; i < 127; i++) {
        memcpy(many + 127 * 9, many + i * 9, 9);
        const struct pacer_query_answer a =
            pacer_query(PACER_SUM, PACER_ROWS, 1, 1, many, 128 * 9, slot, sizeof slot);
        ANSWER(a, 21, 127, 0, 0, 0);
    }
    memcpy(many + 128 * 9, many, 9);
    EVERY_CALL(many, sizeof many, 5, 0);
}

/* The call for logs on file. */
static void test_without_twins(const uint8_t *log)
{
    static uint8_t slot[PACER_SLOT_BYTES], buffer[128 * 9 + 20], before[128 * 9 + 20];
    static uint8_t many[129 * 9];
    uint8_t twins[54];

    fill(before, sizeof before);
    memcpy(buffer, before, sizeof buffer);
    memcpy(twins, log, 45);
    memcpy(twins + 45, log + 36, 9);

    /* Refusals in the order of their questions, and an unchanged buffer. */
    KEPT(pacer_without_twins(twins, 53, buffer, 52), 1, 0, 0);
    KEPT(pacer_without_twins(twins, 54, buffer, 53), 1, 0, 0);
    KEPT(pacer_without_twins(twins, 54, buffer, 45), 1, 0, 0);
    KEPT(pacer_without_twins(twins, 9, buffer, 0), 1, 0, 0);
    KEPT(pacer_without_twins(twins, 53, buffer, 53), 4, 0, 0);
    KEPT(pacer_without_twins(twins, 1, buffer, 9), 4, 0, 0);
    for (size_t i = 0; i < 129; i++)
        memcpy(many + 9 * i, log, 9);
    KEPT(pacer_without_twins(many, 129 * 9, buffer, 129 * 9 - 1), 1, 0, 0);
    KEPT(pacer_without_twins(many, 129 * 9, buffer, sizeof buffer), 5, 0, 0);
    static const struct {
        size_t byte;
        uint8_t content;
        uint8_t question;
    } wrong[] = {{0, 0x4D, 6}, {1, 0x48, 6}, {2, 8, 7}, {3, 1, 8}, {8, 4, 9}};
    for (size_t i = 0; i < sizeof wrong / sizeof wrong[0]; i++) {
        /* In the later twin, in both, and in the earlier one. */
        const uint8_t good = log[36 + wrong[i].byte];
        twins[45 + wrong[i].byte] = wrong[i].content;
        KEPT(pacer_without_twins(twins, 54, buffer, sizeof buffer), wrong[i].question, 5, 0);
        twins[36 + wrong[i].byte] = wrong[i].content;
        KEPT(pacer_without_twins(twins, 54, buffer, sizeof buffer), wrong[i].question, 4, 0);
        twins[45 + wrong[i].byte] = good;
        KEPT(pacer_without_twins(twins, 54, buffer, sizeof buffer), wrong[i].question, 4, 0);
        twins[36 + wrong[i].byte] = good;
    }
    BYTES(buffer, before, sizeof buffer);

    /* The last record twice: G is kept, and gives G's slot. A buffer as long as the log will do, and
     * bytes behind those written keep their content, also those that the log would reach.
     */
    for (size_t length = 54; length < 66; length++) {
        memcpy(buffer, before, sizeof buffer);
        KEPT(pacer_without_twins(twins, 54, buffer, length), 0, 0, 45);
        BYTES(buffer, log, 45);
        BYTES(buffer + 45, before + 45, sizeof buffer - 45);
    }
    ANSWER(pacer_query(PACER_SUM, PACER_ROWS, 4, 1, twins, 54, slot, sizeof slot), 21, 5, 0, 0, 0);
    ANSWER(pacer_query(PACER_SUM, PACER_ROWS, 4, 1, buffer, 45, slot, sizeof slot), 0, 0, 4, 11280, 16);
    BYTES(slot, slot_g, PACER_SLOT_BYTES);

    /* What is kept has no twins: once more changes nothing. */
    uint8_t again[45];
    KEPT(pacer_without_twins(buffer, 45, again, sizeof again), 0, 0, 45);
    BYTES(again, log, 45);

    /* No record, one, and the order of those that stay: the records 0 1 0 2 1 1 of G give 0 1 2. */
    memcpy(buffer, before, sizeof buffer);
    KEPT(pacer_without_twins(twins, 0, buffer, 0), 0, 0, 0);
    KEPT(pacer_without_twins(twins, 0, buffer, 9), 0, 0, 0);
    BYTES(buffer, before, sizeof buffer);
    KEPT(pacer_without_twins(twins, 9, buffer, 9), 0, 0, 9);
    BYTES(buffer, log, 9);
    BYTES(buffer + 9, before + 9, sizeof buffer - 9);
    static const size_t order[] = {0, 1, 0, 2, 1, 1};
    for (size_t i = 0; i < 6; i++)
        memcpy(twins + 9 * i, log + 9 * order[i], 9);
    KEPT(pacer_without_twins(twins, 54, buffer, sizeof buffer), 0, 0, 27);
    BYTES(buffer, log, 27);
    BYTES(buffer + 27, before + 27, sizeof buffer - 27);

    /* 128 equal records, and 128 without twins. */
    memcpy(buffer, before, sizeof buffer);
    KEPT(pacer_without_twins(many, 128 * 9, buffer, sizeof buffer), 0, 0, 9);
    BYTES(buffer, log, 9);
    BYTES(buffer + 9, before + 9, sizeof buffer - 9);
    for (uint16_t i = 0; i < 128; i++)
        SAME(pacer_write_record(i % 8, 5, 5, i / 8, many + 9 * i, 9).question, 0);
    KEPT(pacer_without_twins(many, 128 * 9, buffer, 128 * 9), 0, 0, 128 * 9);
    BYTES(buffer, many, 128 * 9);
    BYTES(buffer + 128 * 9, before + 128 * 9, sizeof buffer - 128 * 9);
}

/* The queries that are put to a log in every order, by their numbers. Log G has too many runs for the
 * first two; with a memory of three frames it has as many as the tenth one has rows.
 */
enum { ORDER_QUERIES = 19 };
static struct pacer_query_answer order_query(size_t number, uint8_t kind, const uint8_t *log,
                                             uint8_t *slot, size_t length)
{
    static const struct {
        uint8_t rule;
        uint16_t bound;
        uint16_t width;
    } bounds[13] = {
        {PACER_ROWS, 0, 1},    {PACER_ROWS, 2, 1},    {PACER_ROWS, 3, 1},   {PACER_ROWS, 4, 1},
        {PACER_ROWS, 5, 1},    {PACER_ROWS, 64, 1},   {PACER_SHARE, 0, 1},  {PACER_SHARE, 281, 1},
        {PACER_SHARE, 282, 1}, {PACER_ROWS, 2, 3},    {PACER_ROWS, 4, 3},   {PACER_SHARE, 125, 60},
        {PACER_ROWS, 64, PACER_MOST_WIDTH},
    };
    static const struct {
        uint16_t length;
        uint16_t start;
    } beats[4] = {{1, 0}, {4, 0}, {7, 3}, {65535, 6}};
    static const uint16_t firsts[] = {0, 4, 11}, lasts[] = {3, 9, 65535};

    if (number < 13)
        return pacer_query(kind, bounds[number].rule, bounds[number].bound, bounds[number].width,
                           log, 45, slot, length);
    if (number < 17)
        return pacer_query_beats(kind, beats[number - 13].length, beats[number - 13].start, log, 45,
                                 slot, length);
    /* Three scenes, and the last two of them. */
    return pacer_query_scenes(kind, firsts + number - 17, 20 - number, lasts + number - 17,
                              20 - number, log, 45, slot, length);
}

/* The five records of a log in the order with a number from 0 to 119; 0 is the order that they have. */
static void order_records(const uint8_t *log, size_t number, uint8_t *ordered)
{
    uint8_t left[45];

    memcpy(left, log, sizeof left);
    for (size_t count = 5; count > 0; count--) {
        const size_t taken = number % count;
        memcpy(ordered, left + 9 * taken, 9);
        memmove(left + 9 * taken, left + 9 * taken + 9, 9 * (count - 1 - taken));
        ordered += 9;
        number /= count;
    }
}

/* A log of five records in every order, lent slots and lists with another content each time: answers,
 * slots and segments are those of the first order. `tens` and `twenties` say how many of the queries, in
 * all kinds, are refused by 10 and by 20.
 */
static void every_order(const uint8_t *log, size_t tens, size_t twenties)
{
    static uint8_t slot[PACER_SLOT_BYTES + 32], first_slot[PACER_SLOT_BYTES];
    static struct pacer_segment list[PACER_SEGMENT_PLACES], first_list[PACER_SEGMENT_PLACES];
    static uint8_t orders[120][45], before[sizeof slot];

    for (size_t order = 0; order < 120; order++) {
        order_records(log, order, orders[order]);
        for (size_t other = 0; other < order; other++)
            SAME(memcmp(orders[other], orders[order], 45) == 0, 0);
    }
    BYTES(orders[0], log, 45);

    for (uint8_t kind = PACER_SUM; kind <= PACER_MEAN; kind++) {
        for (size_t number = 0; number < ORDER_QUERIES; number++) {
            struct pacer_query_answer first = {0};
            for (size_t order = 0; order < 120; order++) {
                memset(before, (int)(0xFF - order), sizeof before);
                memcpy(slot, before, sizeof slot);
                const struct pacer_query_answer a =
                    order_query(number, kind, orders[order], slot, sizeof slot);
                if (order == 0) {
                    first = a;
                    memcpy(first_slot, slot, sizeof first_slot);
                    tens -= a.question == 10;
                    twenties -= a.question == 20;
                }
                answer_at(__LINE__, a, first);
                BYTES(slot, first.question == 0 ? first_slot : before, PACER_SLOT_BYTES);
                BYTES(slot + PACER_SLOT_BYTES, before, sizeof slot - PACER_SLOT_BYTES);
            }
        }

        static const uint16_t widths[] = {PACER_ONE_FRAME, 3, PACER_MOST_WIDTH};
        size_t count = 0;
        for (size_t number = 0; number < 3 * 120; number++) {
            const size_t order = number % 120;
            const struct pacer_segment untouched = {9, 10, 11, (uint32_t)order};
            for (size_t i = 0; i < PACER_SEGMENT_PLACES; i++)
                list[i] = untouched;
            const struct pacer_segments_answer a = pacer_segments(
                orders[order], 45, kind, widths[number / 120], list, PACER_SEGMENT_PLACES);
            if (order == 0) {
                count = a.count;
                memcpy(first_list, list, sizeof first_list);
            }
            SAME(a.question, 0);
            SAME(a.index, 0);
            SAME(a.count, count);
            for (size_t i = 0; i < PACER_SEGMENT_PLACES; i++) {
                const struct pacer_segment expected = i < count ? first_list[i] : untouched;
                SAME(list[i].group, expected.group);
                SAME(list[i].first, expected.first);
                SAME(list[i].last, expected.last);
                SAME(list[i].value, expected.value);
            }
        }
    }
    SAME(tens, 0);
    SAME(twenties, 0);
}

static void test_orders(const uint8_t *log)
{
    static uint8_t slot[PACER_SLOT_BYTES];
    uint8_t wide[45], ordered[45];

    every_order(log, 2 * 5, 0);

    /* One run of 65 frames, so that there are 65 beats of one frame; two records have the same frames,
     * and the others lie within these.
     */
    SAME(pacer_write_record(5, 0, 64, 9, wide, 9).question, 0);
    SAME(pacer_write_record(5, 0, 64, 8, wide + 9, 9).question, 0);
    SAME(pacer_write_record(5, 64, 64, 1000, wide + 18, 9).question, 0);
    SAME(pacer_write_record(5, 0, 3, 0, wide + 27, 9).question, 0);
    SAME(pacer_write_record(5, 30, 40, 700, wide + 36, 9).question, 0);
    every_order(wide, 5, 5);

    /* The worked case, and the rows by beats: every byte, from every order. */
    for (size_t order = 0; order < 120; order++) {
        order_records(log, order, ordered);
        ANSWER(pacer_query(PACER_SUM, PACER_ROWS, 4, 1, ordered, 45, slot, sizeof slot), 0, 0, 4, 11280,
               16);
        BYTES(slot, slot_g, PACER_SLOT_BYTES);
        ANSWER(pacer_query_beats(PACER_SUM, 4, 0, ordered, 45, slot, sizeof slot), 0, 0, 4, 0, 0);
        BYTES(slot, beats_slot_g, PACER_SLOT_BYTES);
    }

    /* The index of a wrong record is that of the log as lent: G's first record, wherever it stands. */
    for (size_t order = 0; order < 120; order++) {
        size_t place = 0;
        order_records(log, order, ordered);
        while (memcmp(ordered + 9 * place, log, 9) != 0)
            place++;
        ordered[9 * place + 2] = 8;
        EVERY_CALL(ordered, 45, 7, place);
    }
}

/* A byte of a slot with other content, and the question that then gets 'no'. */
struct damage {
    size_t byte;
    uint8_t content;
    uint8_t question;
    size_t index;
};

/* A slot against its log. Slots that queries write pass with theirs; a byte of one makes each of the
 * questions fail.
 */
static void test_check(const uint8_t *log)
{
    static uint8_t slot[PACER_SLOT_BYTES + 32], before[PACER_SLOT_BYTES + 32];
    uint8_t damaged[54], ordered[45];

    /* All kinds and bounds, in every order of the records; an error one above is 24. */
    static const struct {
        uint8_t rule;
        uint16_t bound;
    } bounds[] = {
        {PACER_ROWS, 3},  {PACER_ROWS, 4},  {PACER_ROWS, 5},    {PACER_ROWS, 6},
        {PACER_ROWS, 64}, {PACER_SHARE, 0}, {PACER_SHARE, 281}, {PACER_SHARE, 1000},
    };
    for (uint8_t kind = PACER_SUM; kind <= PACER_MEAN; kind++) {
        for (size_t i = 0; i < sizeof bounds / sizeof bounds[0]; i++) {
            const struct pacer_query_answer a =
                pacer_query(kind, bounds[i].rule, bounds[i].bound, 1, log, 45, slot, sizeof slot);
            SAME(a.question, 0);
            memcpy(before, slot, sizeof slot);
            for (size_t order = 0; order < 120; order++) {
                order_records(log, order, ordered);
                CHECKED(pacer_check(ordered, 45, 1, slot, sizeof slot), 0, 0);
            }
            BYTES(slot, before, sizeof slot);
            slot[4]++;
            CHECKED(pacer_check(log, 45, 1, slot, sizeof slot), 24, 0);

            /* As many rows do no better. */
            const struct pacer_query_answer best =
                pacer_query(kind, PACER_ROWS, (uint16_t)a.rows, 1, log, 45, slot, sizeof slot);
            SAME(best.question, 0);
            SAME(best.rows <= a.rows, 1);
            SAME(best.error <= a.error, 1);
        }
    }

    /* The worked case with one byte damaged: frames, groups, values, the error and the kind. The rows
     * begin at 12, 23, 34 and 45.
     */
    static const struct damage cases[] = {
        {15, 1, 22, 0},    {17, 0, 22, 0},   {28, 5, 22, 0},    {28, 7, 22, 0},    {28, 8, 22, 0},
        {37, 8, 22, 0},    {37, 10, 22, 0},  {39, 9, 22, 0},    {39, 11, 22, 0},   {47, 2, 22, 0},
        {50, 1, 22, 0},    {51, 1, 22, 0},   {19, 0x65, 24, 0}, {19, 0x63, 24, 0}, {30, 0xF1, 24, 0},
        {30, 0xF3, 24, 0}, {52, 6, 24, 0},   {4, 0x0F, 24, 0},  {4, 0x11, 24, 0},  {11, 0x80, 24, 0},
        {2, 1, 24, 0},     {2, 2, 24, 0},    {2, 3, 24, 0},     {2, 4, 24, 0},     {2, 5, 12, 0},
        {3, 65, 13, 0},    {3, 3, 17, 0},    {3, 5, 14, 4},     {23, 0x51, 14, 1}, {25, 8, 15, 1},
        {26, 1, 16, 1},    {767, 1, 17, 0},  {0, 0x4C, 11, 0},  {1, 0x43, 11, 0},  {1, 0x53, 11, 0},
    };
    memcpy(slot, slot_g, sizeof slot_g);
    CHECKED(pacer_check(log, 45, 1, slot, PACER_SLOT_BYTES), 0, 0);
    for (size_t i = 0; i < sizeof cases / sizeof cases[0]; i++) {
        const uint8_t kept = slot[cases[i].byte];
        slot[cases[i].byte] = cases[i].content;
        CHECKED(pacer_check(log, 45, 1, slot, sizeof slot), cases[i].question, cases[i].index);
        slot[cases[i].byte] = kept;
    }

    /* One above 242, the mean of five frames, has an error of 5 more. */
    slot[30] = 0xF3;
    slot[4] = 0x15;
    CHECKED(pacer_check(log, 45, 1, slot, sizeof slot), 0, 0);
    slot[30] = 0xF2;
    slot[4] = 0x10;

    /* Frames 2 to 6 cut in two rows of the same value. */
    memmove(slot + 34, slot + 23, 33);
    slot[3] = 5;
    slot[28] = 3;
    slot[37] = 4;
    CHECKED(pacer_check(log, 45, 1, slot, sizeof slot), 0, 0);
    slot[28] = 2;
    CHECKED(pacer_check(log, 45, 1, slot, sizeof slot), 22, 0);
    slot[28] = 4;
    CHECKED(pacer_check(log, 45, 1, slot, sizeof slot), 16, 2);

    /* Kind 3, four rows, the second one 210 with the error 400: 209 is short of frame 6, whatever the
     * error is, and 211 is not.
     */
    ANSWER(pacer_query(PACER_GREATEST, PACER_ROWS, 4, 1, log, 45, slot, PACER_SLOT_BYTES), 0, 0, 4,
           400, 10);
    slot[30] = 209;
    CHECKED(pacer_check(log, 45, 1, slot, PACER_SLOT_BYTES), 23, 0);
    slot[4] = 325 - 256;
    CHECKED(pacer_check(log, 45, 1, slot, PACER_SLOT_BYTES), 23, 0);
    slot[2] = PACER_LEAST;
    CHECKED(pacer_check(log, 45, 1, slot, PACER_SLOT_BYTES), 24, 0);
    slot[2] = PACER_GREATEST;
    slot[30] = 211;
    CHECKED(pacer_check(log, 45, 1, slot, PACER_SLOT_BYTES), 24, 0);
    slot[4] = 485 - 256;
    CHECKED(pacer_check(log, 45, 1, slot, PACER_SLOT_BYTES), 0, 0);
    slot[50] = 1;
    slot[30] = 209;
    CHECKED(pacer_check(log, 45, 1, slot, PACER_SLOT_BYTES), 22, 0);

    /* By windows. */
    CHECKED(pacer_check(log, 45, 1, beats_slot_g, sizeof beats_slot_g), 11, 0);

    /* The questions in order: 1, then the log's, then the slot's. */
    memcpy(damaged, log, 45);
    memcpy(damaged + 45, log, 9);
    CHECKED(pacer_check(damaged, 53, 1, beats_slot_g, 767), 1, 0);
    CHECKED(pacer_check(damaged, 53, 1, beats_slot_g, sizeof beats_slot_g), 4, 0);
    CHECKED(pacer_check(damaged, 54, 1, beats_slot_g, sizeof beats_slot_g), 21, 5);
    damaged[2 * 9 + 2] = 8;
    CHECKED(pacer_check(damaged, 54, 1, beats_slot_g, sizeof beats_slot_g), 7, 2);
    CHECKED(pacer_check(damaged, 18, 1, beats_slot_g, sizeof beats_slot_g), 11, 0);
    CHECKED(pacer_check(damaged, 18, 1, slot_g, sizeof slot_g), 22, 0);

    /* The empty log: with no row it passes, with an error or with rows it does not. */
    fill(slot, sizeof slot);
    ANSWER(pacer_query(PACER_COUNT, PACER_ROWS, 0, 1, log, 0, slot, sizeof slot), 0, 0, 0, 0, 0);
    CHECKED(pacer_check(log, 0, 1, slot, sizeof slot), 0, 0);
    CHECKED(pacer_check(log, 45, 1, slot, sizeof slot), 22, 0);
    CHECKED(pacer_check(log, 0, 1, slot_g, sizeof slot_g), 22, 0);
    slot[11] = 1;
    CHECKED(pacer_check(log, 0, 1, slot, sizeof slot), 24, 0);

    /* A slot and its log may lie over each other: here the log is the end of a longer slot. */
    uint8_t both[PACER_SLOT_BYTES + 45];
    memcpy(both, slot_g, sizeof slot_g);
    memcpy(both + PACER_SLOT_BYTES, log, 45);
    CHECKED(pacer_check(both + PACER_SLOT_BYTES, 45, 1, both, sizeof both), 0, 0);
    CHECKED(pacer_check(both, PACER_SLOT_BYTES, 1, both, sizeof both), 4, 0);

    /* All frames of all groups with load 0 in rows of 128,000: the greatest error that there is,
     * 8,589,934,592,000,000.
     */
    uint8_t everywhere[8 * 9], *error = slot + 4;
    memset(slot, 0, sizeof slot);
    memcpy(slot, (uint8_t[]){0x50, 0x48, PACER_SUM, 8}, 4);
    for (uint8_t group = 0; group < 8; group++) {
        SAME(pacer_write_record(group, 0, 65535, 0, everywhere + 9 * group, 9).question, 0);
        memcpy(slot + 12 + 11 * group,
               (uint8_t[]){0x50, 0x52, group, 0, 0, 0xFF, 0xFF, 0x00, 0xF4, 0x01, 0x00}, 11);
    }
    for (uint64_t most = UINT64_C(8589934592000000), wrong = 0; wrong < 2; wrong++) {
        for (size_t i = 0; i < 8; i++)
            error[i] = (uint8_t)((most + wrong) >> (8 * i));
        CHECKED(pacer_check(everywhere, sizeof everywhere, 1, slot, sizeof slot), wrong ? 24 : 0, 0);
    }
}

/* Log G with a memory of three frames: a record counts in its own frames and in two behind them,
 *
 *     group 0    100 in frames 0 to 5,   of 0 to 3
 *                200 in frames 2 to 7,   of 2 to 5
 *                210 in frames 6 to 8,   of 6
 *                 50 in frames 9 to 12,  of 9 and 10
 *     group 1      7 in frames 0 to 2,   of 0
 *
 * so that the sums of group 0 are 100 in frames 0 and 1, 100 + 200 in 2 to 5, 200 + 210 in 6 and 7, 210
 * in 8 and 50 in 9 to 12. Frames 7 and 8 are covered now, so that it is one run. The other kinds: counts
 * of 1, 2, 2, 1 and 1; least loads of 100, 100, 200, 210 and 50; greatest ones of 100, 200, 210, 210 and
 * 50; and means of 100, 150, 205, 210 and 50.
 */
static const struct {
    size_t count;
    struct pacer_segment segments[6];
} memory_segments_g[5] = {
    {6, {{0, 0, 1, 100}, {0, 2, 5, 300}, {0, 6, 7, 410}, {0, 8, 8, 210}, {0, 9, 12, 50}, {1, 0, 2, 7}}},
    {4, {{0, 0, 1, 1}, {0, 2, 7, 2}, {0, 8, 12, 1}, {1, 0, 2, 1}}},
    {5, {{0, 0, 5, 100}, {0, 6, 7, 200}, {0, 8, 8, 210}, {0, 9, 12, 50}, {1, 0, 2, 7}}},
    {5, {{0, 0, 1, 100}, {0, 2, 5, 200}, {0, 6, 8, 210}, {0, 9, 12, 50}, {1, 0, 2, 7}}},
    {6, {{0, 0, 1, 10000}, {0, 2, 5, 15000}, {0, 6, 7, 20500}, {0, 8, 8, 21000}, {0, 9, 12, 5000},
         {1, 0, 2, 700}}},
};

/* The slot's bytes for four rows of the sums. Of the frames of group 0 the best three rows are 0 to 1, 2
 * to 8 and 9 to 12. The middle one has the mean (4 * 300 + 2 * 410 + 210) / 7 = 2,230 / 7, nearest to 319,
 * and the error 4 * 19^2 + 2 * 91^2 + 109^2 = 1,444 + 16,562 + 11,881 = 29,887, which is 74BF. The next
 * best, with frame 8 in the last row, are 4 * 37^2 + 2 * 73^2 = 16,134 for 337 in frames 2 to 7 and
 * 128^2 + 4 * 32^2 = 20,480 for 82 in 8 to 12.
 */
static const uint8_t memory_slot_g[PACER_SLOT_BYTES] = {
    0x50, 0x48, 0x00, 0x04, 0xBF, 0x74, 0x00, 0x00, 0x00, 0x00, 0x00, 0x00,
    0x50, 0x52, 0x00, 0x00, 0x00, 0x01, 0x00, 0x64, 0x00, 0x00, 0x00,
    0x50, 0x52, 0x00, 0x02, 0x00, 0x08, 0x00, 0x3F, 0x01, 0x00, 0x00,
    0x50, 0x52, 0x00, 0x09, 0x00, 0x0C, 0x00, 0x32, 0x00, 0x00, 0x00,
    0x50, 0x52, 0x01, 0x00, 0x00, 0x02, 0x00, 0x07, 0x00, 0x00, 0x00,
};

/* Compares the segments of a log with some width. */
static void listed_at(int line, const uint8_t *log, size_t length, uint8_t kind, uint16_t width,
                      const struct pacer_segment *expected, size_t count)
{
    static struct pacer_segment list[PACER_SEGMENT_PLACES + 1];
    const size_t places = sizeof list / sizeof list[0];

    for (size_t i = 0; i < places; i++)
        list[i] = (struct pacer_segment){9, 10, 11, 12};
    const struct pacer_segments_answer a = pacer_segments(log, length, kind, width, list, places);
    same_at(line, "question of segments", a.question, 0);
    same_at(line, "index of segments", a.index, 0);
    same_at(line, "count", a.count, count);
    for (size_t i = 0; i < places; i++) {
        const struct pacer_segment due =
            i < count ? expected[i] : (struct pacer_segment){9, 10, 11, 12};
        same_at(line, "group of a segment", list[i].group, due.group);
        same_at(line, "first of a segment", list[i].first, due.first);
        same_at(line, "last of a segment", list[i].last, due.last);
        same_at(line, "value of a segment", list[i].value, due.value);
    }
}
#define LISTED(log, length, kind, width, ...)                                                    \
    listed_at(__LINE__, log, length, kind, width, (struct pacer_segment[]){__VA_ARGS__},         \
              sizeof((struct pacer_segment[]){__VA_ARGS__}) / sizeof(struct pacer_segment))

/* Load with a memory. */
static void test_memory(const uint8_t *log)
{
    static uint8_t slot[PACER_SLOT_BYTES + 32], before[PACER_SLOT_BYTES + 32];
    static struct pacer_segment list[PACER_SEGMENT_PLACES];
    static const uint16_t wrong[] = {0, PACER_MOST_WIDTH + 1, 65535};
    uint8_t two[18], ordered[45];

    SAME(PACER_ONE_FRAME, 1);
    SAME(PACER_MOST_WIDTH, 4096);

    /* All kinds with three frames. */
    for (uint8_t kind = PACER_SUM; kind <= PACER_MEAN; kind++)
        listed_at(__LINE__, log, 45, kind, 3, memory_segments_g[kind].segments,
                  memory_segments_g[kind].count);

    /* One frame is what there is without a memory; with two frame 8 stays uncovered; with eleven all that
     * was before is remembered in frame 10; with the most the records are remembered to frames 4,098,
     * 4,100, 4,101, 4,105 and, in group 1, 4,095.
     */
    listed_at(__LINE__, log, 45, PACER_SUM, PACER_ONE_FRAME, segments_g, 6);
    LISTED(log, 45, PACER_SUM, 2, {0, 0, 1, 100}, {0, 2, 4, 300}, {0, 5, 5, 200}, {0, 6, 6, 410},
           {0, 7, 7, 210}, {0, 9, 11, 50}, {1, 0, 1, 7});
    LISTED(log, 45, PACER_SUM, 11, {0, 0, 1, 100}, {0, 2, 5, 300}, {0, 6, 8, 510}, {0, 9, 13, 560},
           {0, 14, 15, 460}, {0, 16, 16, 260}, {0, 17, 20, 50}, {1, 0, 10, 7});
    LISTED(log, 45, PACER_SUM, PACER_MOST_WIDTH, {0, 0, 1, 100}, {0, 2, 5, 300}, {0, 6, 8, 510},
           {0, 9, 4098, 560}, {0, 4099, 4100, 460}, {0, 4101, 4101, 260}, {0, 4102, 4105, 50},
           {1, 0, 4095, 7});

    /* Limits and shares. Two rows: 202 for all of group 0, whose mean is 2,630 / 13. Three: 270 in frames
     * 0 to 8. 29,887 are just above 125 thousandths of 238,232.
     */
    static const struct {
        uint8_t rule;
        uint16_t bound;
        size_t rows;
        uint64_t error;
    } cases[] = {
        {PACER_ROWS, 2, 2, 238232}, {PACER_ROWS, 3, 3, 104200},   {PACER_ROWS, 4, 4, 29887},
        {PACER_ROWS, 5, 5, 16134},  {PACER_ROWS, 6, 6, 0},        {PACER_ROWS, 64, 6, 0},
        {PACER_SHARE, 126, 4, 29887}, {PACER_SHARE, 125, 5, 16134}, {PACER_SHARE, 1000, 2, 238232},
    };
    for (size_t i = 0; i < sizeof cases / sizeof cases[0]; i++) {
        const struct pacer_query_answer a = pacer_query(PACER_SUM, cases[i].rule, cases[i].bound, 3, log,
                                                        45, slot, sizeof slot);
        SAME(a.question, 0);
        SAME(a.rows, cases[i].rows);
        SAME(a.error, cases[i].error);
        CHECKED(pacer_check(log, 45, 3, slot, sizeof slot), 0, 0);
    }
    fill(before, sizeof before);
    memcpy(slot, before, sizeof slot);
    ANSWER(pacer_query(PACER_SUM, PACER_ROWS, 1, 3, log, 45, slot, sizeof slot), 10, 0, 0, 0, 0);
    BYTES(slot, before, sizeof slot);

    /* Every byte of the slot, and every order of the records. */
    for (size_t order = 0; order < 120; order++) {
        order_records(log, order, ordered);
        memcpy(slot, before, sizeof slot);
        ANSWER(pacer_query(PACER_SUM, PACER_ROWS, 4, 3, ordered, 45, slot, sizeof slot), 0, 0, 4, 29887,
               21);
        BYTES(slot, memory_slot_g, PACER_SLOT_BYTES);
        BYTES(slot + PACER_SLOT_BYTES, before + PACER_SLOT_BYTES, sizeof slot - PACER_SLOT_BYTES);
        CHECKED(pacer_check(ordered, 45, 3, slot, sizeof slot), 0, 0);
    }
    SAME(pacer_lookup(slot, sizeof slot, 0, 8).value, 319);
    SAME(pacer_lookup(slot, sizeof slot, 0, 13).covered, 0);

    /* Kind 3: 210 in frames 2 to 8 is 10 above four of them. */
    SAME(pacer_query(PACER_GREATEST, PACER_ROWS, 4, 3, log, 45, slot, sizeof slot).error, 400);
    SAME(pacer_lookup(slot, sizeof slot, 0, 2).value, 210);

    /* A slot is of the width that it was made with: with another one G covers other frames. */
    static const uint16_t widths[] = {1, 2, 3, 4, 60, 4095, PACER_MOST_WIDTH};
    const size_t count = sizeof widths / sizeof widths[0];
    for (uint8_t kind = PACER_SUM; kind <= PACER_MEAN; kind++) {
        for (size_t i = 0; i < count; i++) {
            const struct pacer_query_answer a =
                pacer_query(kind, PACER_ROWS, 4, widths[i], log, 45, slot, sizeof slot);
            SAME(a.question, 0);
            for (size_t j = 0; j < count; j++)
                CHECKED(pacer_check(log, 45, widths[j], slot, sizeof slot), i == j ? 0 : 22, 0);
            slot[4]++;
            CHECKED(pacer_check(log, 45, widths[i], slot, sizeof slot), 24, 0);
        }
    }

    /* A load of 200 in all frames and of 900 in frames 30 and 31, remembered for ten frames: with nine
     * frame 40 has 200 again, where the row has 900, and with eleven frame 41 still has 900.
     */
    SAME(pacer_write_record(0, 0, 65535, 200, two, 9).question, 0);
    SAME(pacer_write_record(0, 30, 31, 900, two + 9, 9).question, 0);
    LISTED(two, 18, PACER_GREATEST, 10, {0, 0, 29, 200}, {0, 30, 40, 900}, {0, 41, 65535, 200});
    SAME(pacer_query(PACER_GREATEST, PACER_ROWS, 3, 10, two, 18, slot, sizeof slot).error, 0);
    CHECKED(pacer_check(two, 18, 10, slot, sizeof slot), 0, 0);
    CHECKED(pacer_check(two, 18, 9, slot, sizeof slot), 24, 0);
    CHECKED(pacer_check(two, 18, 11, slot, sizeof slot), 23, 0);
    SAME(pacer_query(PACER_SUM, PACER_ROWS, 3, 10, two, 18, slot, sizeof slot).error, 0);
    CHECKED(pacer_check(two, 18, 11, slot, sizeof slot), 24, 0);

    /* There is no frame behind 65,535. Frame 65,533 is two before it, and 61,440 is 4,095. */
    SAME(pacer_write_record(6, 61440, 61440, 5, two, 9).question, 0);
    SAME(pacer_write_record(7, 65533, 65533, 9, two + 9, 9).question, 0);
    LISTED(two, 18, PACER_SUM, 2, {6, 61440, 61441, 5}, {7, 65533, 65534, 9});
    LISTED(two, 18, PACER_SUM, 3, {6, 61440, 61442, 5}, {7, 65533, 65535, 9});
    LISTED(two, 18, PACER_SUM, 4095, {6, 61440, 65534, 5}, {7, 65533, 65535, 9});
    LISTED(two, 18, PACER_SUM, 4096, {6, 61440, 65535, 5}, {7, 65533, 65535, 9});
    SAME(pacer_write_record(6, 65535, 65535, 5, two, 9).question, 0);
    LISTED(two, 9, PACER_COUNT, 60, {6, 65535, 65535, 1});

    /* Records that end in different frames are no twins, also where both are remembered to the last. */
    SAME(pacer_write_record(4, 65000, 65533, 7, two, 9).question, 0);
    SAME(pacer_write_record(4, 65000, 65534, 7, two + 9, 9).question, 0);
    LISTED(two, 18, PACER_SUM, 2, {4, 65000, 65534, 14}, {4, 65535, 65535, 7});
    LISTED(two, 18, PACER_SUM, 3, {4, 65000, 65535, 14});
    ANSWER(pacer_query(PACER_SUM, PACER_ROWS, 1, 60, two, 18, slot, sizeof slot), 0, 0, 1, 0, 0);
    SAME(pacer_lookup(slot, sizeof slot, 4, 65535).value, 14);
    CHECKED(pacer_check(two, 18, 60, slot, sizeof slot), 0, 0);
    memcpy(two + 9, two, 9);
    ANSWER(pacer_query(PACER_SUM, PACER_ROWS, 1, 60, two, 18, slot, sizeof slot), 21, 1, 0, 0, 0);

    /* A gap of three frames, 10 to 12, is closed from four frames on. */
    SAME(pacer_write_record(2, 0, 9, 5, two, 9).question, 0);
    SAME(pacer_write_record(2, 13, 13, 5, two + 9, 9).question, 0);
    LISTED(two, 18, PACER_SUM, 3, {2, 0, 11, 5}, {2, 13, 15, 5});
    LISTED(two, 18, PACER_SUM, 4, {2, 0, 16, 5});
    LISTED(two, 18, PACER_SUM, 5, {2, 0, 12, 5}, {2, 13, 13, 10}, {2, 14, 17, 5});

    /* Question 25: behind 1, 2 and 3, and ahead of the log's. Nothing lent is changed. */
    memcpy(slot, before, sizeof slot);
    for (size_t i = 0; i < PACER_SEGMENT_PLACES; i++)
        list[i] = (struct pacer_segment){9, 10, 11, 12};
    for (size_t i = 0; i < sizeof wrong / sizeof wrong[0]; i++) {
        const uint16_t width = wrong[i];
        SAME(pacer_query(5, 0, 65, width, log, 44, slot, 767).question, 1);
        SAME(pacer_query(5, 0, 65, width, log, 44, slot, sizeof slot).question, 2);
        SAME(pacer_query(4, 0, 65, width, log, 44, slot, sizeof slot).question, 3);
        SAME(pacer_query(0, 0, 4, width, log, 44, slot, sizeof slot).question, 3);
        SAME(pacer_query(0, PACER_ROWS, 65, width, log, 44, slot, sizeof slot).question, 3);
        SAME(pacer_query(0, PACER_SHARE, 1001, width, log, 44, slot, sizeof slot).question, 3);
        ANSWER(pacer_query(0, PACER_ROWS, 64, width, log, 44, slot, sizeof slot), 25, 0, 0, 0, 0);
        ANSWER(pacer_query(0, PACER_SHARE, 0, width, log, 45, slot, sizeof slot), 25, 0, 0, 0, 0);
        ANSWER(pacer_query(0, PACER_ROWS, 0, width, two, 18, slot, sizeof slot), 25, 0, 0, 0, 0);
        SAME(pacer_segments(log, 44, 5, width, list, 254).question, 1);
        SAME(pacer_segments(log, 44, 5, width, list, 255).question, 2);
        SAME(pacer_segments(log, 44, 4, width, list, 255).question, 25);
        SAME(list[0].value, 12);
        const struct pacer_segments_answer a = pacer_segments(log, 45, 4, width, list, 255);
        SAME(a.question, 25);
        SAME(a.index, 0);
        SAME(a.count, 0);
        SAME(list[0].value, 12);
        CHECKED(pacer_check(log, 44, width, slot_g, 767), 1, 0);
        CHECKED(pacer_check(log, 44, width, slot_g, sizeof slot_g), 25, 0);
        CHECKED(pacer_check(log, 45, width, slot_g, sizeof slot_g), 25, 0);
        CHECKED(pacer_check(log, 45, width, beats_slot_g, sizeof beats_slot_g), 25, 0);
    }
    SAME(pacer_query(0, PACER_ROWS, 64, PACER_MOST_WIDTH, log, 44, slot, sizeof slot).question, 4);
    SAME(pacer_segments(log, 44, 4, PACER_MOST_WIDTH, list, 255).question, 4);
    CHECKED(pacer_check(log, 44, PACER_MOST_WIDTH, slot_g, sizeof slot_g), 4, 0);
    CHECKED(pacer_check(log, 45, PACER_MOST_WIDTH, beats_slot_g, sizeof beats_slot_g), 11, 0);
    CHECKED(pacer_check(log, 45, PACER_MOST_WIDTH, slot_g, sizeof slot_g), 22, 0);
    BYTES(slot, before, sizeof slot);
    for (size_t i = 0; i < PACER_SEGMENT_PLACES; i++) {
        SAME(list[i].group, 9);
        SAME(list[i].first, 10);
        SAME(list[i].last, 11);
        SAME(list[i].value, 12);
    }

    /* No record: there is nothing to remember. */
    ANSWER(pacer_query(PACER_SUM, PACER_ROWS, 0, 60, log, 0, slot, sizeof slot), 0, 0, 0, 0, 0);
    CHECKED(pacer_check(log, 0, PACER_MOST_WIDTH, slot, sizeof slot), 0, 0);
}

static void test_read(uint8_t *slot, size_t length)
{
    struct pacer_read_answer a = pacer_read(slot, length);
    SAME(a.question, 0);
    SAME(a.index, 0);
    SAME(a.kind, 0);
    SAME(a.mark, PACER_BY_BOUND);
    SAME(a.rows, 4);
    SAME(a.error, 11280);
    SAME(pacer_read(slot, 767).question, 1);

    /* A damaged byte at a time, and the question that it fails. */
    static const struct damage cases[] = {
        {0, 0x51, 11, 0},  {1, 0x49, 11, 0},  {1, 0x43, 11, 0},    {1, PACER_BY_WINDOWS, 17, 0},
        {2, 5, 12, 0},     {3, 65, 13, 0},
        {23, 0x51, 14, 1}, {25, 8, 15, 1},    {26, 7, 15, 1},      {33, 2, 15, 1},
        {26, 1, 16, 1},    {3, 3, 17, 0},     {767, 1, 17, 0},     {3, 5, 14, 4},
    };
    for (size_t i = 0; i < sizeof cases / sizeof cases[0]; i++) {
        uint8_t kept = slot[cases[i].byte];
        slot[cases[i].byte] = cases[i].content;
        a = pacer_read(slot, length);
        SAME(a.question, cases[i].question);
        SAME(a.index, cases[i].index);
        SAME(a.kind, 0);
        SAME(a.mark, 0);
        SAME(a.rows, 0);
        SAME(a.error, 0);
        slot[cases[i].byte] = kept;
    }

    /* Each byte behind the rows, and the bytes behind the slot, which are no part of it. */
    for (size_t byte = 12 + 11 * 4; byte < PACER_SLOT_BYTES; byte++) {
        slot[byte] = 0x80;
        SAME(pacer_read(slot, length).question, 17);
        slot[byte] = 0;
    }
    for (size_t byte = PACER_SLOT_BYTES; byte < length; byte++) {
        uint8_t kept = slot[byte];
        slot[byte] = 0x80;
        SAME(pacer_read(slot, length).question, 0);
        slot[byte] = kept;
    }
}

static void test_read_rows(uint8_t *slot, size_t length)
{
    static struct pacer_row list[PACER_ROW_PLACES + 1];
    const size_t places = sizeof list / sizeof list[0];

    for (size_t i = 0; i < places; i++)
        list[i] = (struct pacer_row){9, 10, 11, 12};

    /* A short list, a short slot and a byte behind the last row: nothing is written. */
    SAME(pacer_read_rows(slot, length, list, 63).question, 1);
    SAME(pacer_read_rows(slot, 767, list, places).question, 1);
    slot[767] = 1;
    struct pacer_read_answer a = pacer_read_rows(slot, length, list, places);
    slot[767] = 0;
    SAME(a.question, 17);
    SAME(a.mark, 0);
    SAME(a.rows, 0);
    for (size_t i = 0; i < places; i++)
        SAME(list[i].group, 9);

    a = pacer_read_rows(slot, length, list, places);
    SAME(a.question, 0);
    SAME(a.index, 0);
    SAME(a.kind, 0);
    SAME(a.mark, PACER_BY_BOUND);
    SAME(a.rows, 4);
    SAME(a.error, 11280);
    for (size_t i = 0; i < places; i++) {
        const struct pacer_row expected = i < 4 ? rows_g[i] : (struct pacer_row){9, 10, 11, 12};
        SAME(list[i].group, expected.group);
        SAME(list[i].first, expected.first);
        SAME(list[i].last, expected.last);
        SAME(list[i].value, expected.value);
    }
    SAME(pacer_read_rows(slot, length, list, PACER_ROW_PLACES).question, 0);
}

static void test_row_at(const uint8_t *slot, size_t length)
{
    size_t number = 0;
    struct pacer_step_answer a;

    for (size_t i = 0; i < 4; i++) {
        a = pacer_row_at(slot, length, number);
        SAME(a.question, 0);
        SAME(a.index, 0);
        SAME(a.found, 1);
        SAME(a.group, rows_g[i].group);
        SAME(a.first, rows_g[i].first);
        SAME(a.last, rows_g[i].last);
        SAME(a.value, rows_g[i].value);
        SAME(a.next, i + 1);
        number = a.next;
    }
    /* The end changes nothing, however often it is reached. */
    for (int i = 0; i < 2; i++) {
        a = pacer_row_at(slot, length, number);
        SAME(a.question, 0);
        SAME(a.found, 0);
        SAME(a.next, 4);
        number = a.next;
    }
    SAME(pacer_row_at(slot, length, SIZE_MAX).found, 0);
    SAME(pacer_row_at(slot, 767, 0).question, 1);
}

static void test_lookup(const uint8_t *slot, size_t length)
{
    struct pacer_lookup_answer a;

    for (unsigned group = 0; group < 8; group++) {
        for (unsigned frame = 0; frame < 20; frame++) {
            uint8_t covered = 0;
            uint32_t value = 0;
            for (size_t i = 0; i < 4; i++) {
                if (rows_g[i].group == group && rows_g[i].first <= frame &&
                    frame <= rows_g[i].last) {
                    covered = 1;
                    value = rows_g[i].value;
                }
            }
            a = pacer_lookup(slot, length, (uint8_t)group, (uint16_t)frame);
            SAME(a.question, 0);
            SAME(a.index, 0);
            SAME(a.covered, covered);
            SAME(a.value, value);
        }
    }
    SAME(pacer_lookup(slot, length, 0, 65535).covered, 0);
    SAME(pacer_lookup(slot, length, 8, 0).question, 7);
    SAME(pacer_lookup(slot, length, 8, 0).index, 0);
    SAME(pacer_lookup(slot, 767, 8, 0).question, 1);
}

/* Many lookups: 70 places of each list, which a refusal leaves as they were. */
enum { PLACES = 70 };
static uint32_t values[PLACES], values_before[PLACES];
static uint8_t covered[PLACES], covered_before[PLACES];

/* Fills both lists with numbers that no call writes. */
static void fill_lists(void)
{
    for (size_t i = 0; i < PLACES; i++) {
        values[i] = values_before[i] = UINT32_MAX - (uint32_t)i;
        covered[i] = covered_before[i] = (uint8_t)(2 + i);
    }
}

/* Compares the answer of lookups and every place of both lists: the first ones with the values of so many
 * pairs, 0 for those that are uncovered, and the others with what was there. No row of G has the value 0.
 */
static void looked_up_at(int line, struct pacer_lookups_answer found, uint8_t question, size_t index,
                         const uint32_t *expected, size_t pairs)
{
    same_at(line, "question of lookups", found.question, question);
    same_at(line, "index of lookups", found.index, index);
    for (size_t i = 0; i < PLACES; i++) {
        same_at(line, "value", values[i], i < pairs ? expected[i] : values_before[i]);
        same_at(line, "covered", covered[i], i < pairs ? expected[i] > 0 : covered_before[i]);
    }
    fill_lists();
}
#define LOOKED_UP(found, expected, pairs) looked_up_at(__LINE__, found, 0, 0, expected, pairs)
#define NOT_LOOKED_UP(found, question, index) looked_up_at(__LINE__, found, question, index, NULL, 0)

/* Many lookups as a set. */
static void test_lookups(uint8_t *slot, size_t length)
{
    static const uint8_t groups[8] = {0, 1, 2, 3, 4, 5, 6, 7};
    static uint16_t frames[PLACES];
    static uint8_t many[PLACES];

    SAME(PACER_PAIR_PLACES, 64);
    fill_lists();

    /* Eight groups for one frame of G's four rows: only groups 0 and 1 have rows, the latter at frame 0. */
    static const uint32_t group_0[12] = {100, 100, 242, 242, 242, 242, 242, 0, 0, 50, 50, 0};
    for (uint16_t frame = 0; frame < 12; frame++) {
        const uint32_t expected[8] = {group_0[frame], frame == 0 ? 7 : 0};
        for (size_t i = 0; i < 8; i++)
            frames[i] = frame;
        LOOKED_UP(pacer_lookups(slot, length, groups, 8, frames, 8, values, 8, covered, 8), expected, 8);
        LOOKED_UP(pacer_lookups(slot, length, groups, 8, frames, PLACES, values, PLACES, covered, PLACES),
                  expected, 8);
    }

    /* Group 0 for the frames 0 to 11, backwards, and a slot by beats: 300, 410 and 50 of group 0. */
    static const uint32_t backwards[12] = {0, 50, 50, 0, 0, 242, 242, 242, 242, 242, 100, 100};
    static const uint32_t beats[12] = {50, 50, 50, 50, 410, 410, 410, 410, 300, 300, 300, 300};
    for (size_t i = 0; i < 12; i++)
        frames[i] = (uint16_t)(11 - i);
    LOOKED_UP(pacer_lookups(slot, length, many, 12, frames, 12, values, 13, covered, 12), backwards, 12);
    LOOKED_UP(pacer_lookups(beats_slot_g, sizeof beats_slot_g, many, 12, frames, 12, values, 12, covered, 14),
              beats, 12);

    /* No pair, one, 64, and one and six too many. Frames 0 to 11 again and again. */
    static uint32_t again[PLACES];
    for (size_t i = 0; i < PLACES; i++) {
        frames[i] = (uint16_t)(i % 12);
        again[i] = group_0[i % 12];
    }
    LOOKED_UP(pacer_lookups(slot, length, many, 0, frames, 0, values, 0, covered, 0), again, 0);
    LOOKED_UP(pacer_lookups(slot, length, many, 0, frames, 9, values, 9, covered, 9), again, 0);
    for (size_t pairs = 1; pairs <= PACER_PAIR_PLACES; pairs++)
        LOOKED_UP(pacer_lookups(slot, length, many, pairs, frames, pairs, values, pairs, covered, pairs),
                  again, pairs);
    NOT_LOOKED_UP(pacer_lookups(slot, length, many, 65, frames, 65, values, 65, covered, 65), 26, 0);
    NOT_LOOKED_UP(pacer_lookups(slot, length, many, 70, frames, 70, values, 70, covered, 70), 26, 0);

    /* A group that there is not, at each index of 64; a later one is not looked at. */
    for (size_t index = 0; index < 64; index++) {
        many[index] = index % 2 ? 8 : 255;
        NOT_LOOKED_UP(pacer_lookups(slot, length, many, 64, frames, 64, values, 64, covered, 64), 7, index);
        many[63] = 9;
        NOT_LOOKED_UP(pacer_lookups(slot, length, many, 64, frames, 70, values, 70, covered, 70), 7, index);
        many[index] = many[63] = 0;
    }
    many[8] = 8;
    LOOKED_UP(pacer_lookups(slot, length, many, 8, frames, 8, values, 8, covered, 8), again, 8);

    /* A short list, each alone: ahead of all else. 64 places do not do for 65 pairs. */
    static const size_t counts[] = {1, 8, 9, 64, 65};
    for (size_t i = 0; i < sizeof counts / sizeof counts[0]; i++) {
        const size_t n = counts[i];
        NOT_LOOKED_UP(pacer_lookups(slot, length, many, n, frames, n - 1, values, n, covered, n), 1, 0);
        NOT_LOOKED_UP(pacer_lookups(slot, length, many, n, frames, n, values, n - 1, covered, n), 1, 0);
        NOT_LOOKED_UP(pacer_lookups(slot, length, many, n, frames, n, values, n, covered, n - 1), 1, 0);
        NOT_LOOKED_UP(pacer_lookups(slot, length, many, n, frames, 0, values, 0, covered, 0), 1, 0);
        NOT_LOOKED_UP(pacer_lookups(slot, 767, many, n, frames, n, values, n, covered, n), 1, 0);
    }
    NOT_LOOKED_UP(pacer_lookups(slot, 767, many, 0, frames, 0, values, 0, covered, 0), 1, 0);

    /* A damaged byte at a time: 1, then the slot's questions, then 26 and 7. */
    static const struct damage cases[] = {
        {0, 0x51, 11, 0},  {1, PACER_BY_WINDOWS, 17, 0}, {2, 5, 12, 0},  {3, 65, 13, 0},
        {23, 0x51, 14, 1}, {25, 8, 15, 1},               {26, 1, 16, 1}, {767, 1, 17, 0},
    };
    for (size_t i = 0; i < sizeof cases / sizeof cases[0]; i++) {
        const struct damage *c = &cases[i];
        uint8_t kept = slot[c->byte];
        slot[c->byte] = c->content;
        NOT_LOOKED_UP(pacer_lookups(slot, length, many, 8, frames, 8, values, 8, covered, 8), c->question,
                      c->index);
        NOT_LOOKED_UP(pacer_lookups(slot, length, many, 0, frames, 0, values, 0, covered, 0), c->question,
                      c->index);
        NOT_LOOKED_UP(pacer_lookups(slot, length, many, 65, frames, 65, values, 65, covered, 65), c->question,
                      c->index);
        NOT_LOOKED_UP(pacer_lookups(slot, length, many, 65, frames, 65, values, 64, covered, 65), 1, 0);
        NOT_LOOKED_UP(pacer_lookups(slot, length, many, 9, frames, 9, values, 9, covered, 9), c->question,
                      c->index);
        slot[c->byte] = kept;
    }
    NOT_LOOKED_UP(pacer_lookups(slot, length, many, 65, frames, 65, values, 65, covered, 65), 26, 0);
    NOT_LOOKED_UP(pacer_lookups(slot, length, many, 9, frames, 9, values, 9, covered, 9), 7, 8);

    /* A load of 0 is covered. */
    static uint8_t idle[PACER_SLOT_BYTES];
    uint8_t record[9];
    SAME(pacer_write_record(5, 3, 4, 0, record, 9).question, 0);
    SAME(pacer_query(PACER_SUM, PACER_ROWS, 1, PACER_ONE_FRAME, record, 9, idle, sizeof idle).question, 0);
    memset(many, 5, 4);
    SAME(pacer_lookups(idle, sizeof idle, many, 4, frames + 2, 4, values, 4, covered, 4).question, 0);
    for (size_t i = 0; i < 4; i++) {
        SAME(values[i], 0);
        SAME(covered[i], i == 1 || i == 2);
    }
    fill_lists();

    /* The slot's own bytes as groups: kind 0 and four rows. */
    LOOKED_UP(pacer_lookups(slot, length, slot + 2, 2, frames + 6, 2, values, 2, covered, 2),
              ((uint32_t[]){242, 0}), 2);
}

int main(void)
{
    static uint8_t slot[PACER_SLOT_BYTES + 32];
    uint8_t log[45];

    fill(log, sizeof log);
    test_write_record(log);
    test_segments(log);
    test_query(log, slot, sizeof slot);
    test_mean(log);
    test_greatest(log);
    test_halves();
    test_beats(log);
    test_scenes(log);
    test_twins(log);
    test_without_twins(log);
    test_orders(log);
    test_check(log);
    test_memory(log);
    test_read(slot, sizeof slot);
    test_read_rows(slot, sizeof slot);
    test_row_at(slot, sizeof slot);
    test_lookup(slot, sizeof slot);
    test_lookups(slot, sizeof slot);
    if (differences == 0)
        printf("c interface: ok\n");
    return differences == 0 ? 0 : 1;
}
