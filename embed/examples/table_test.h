/*
 * A self test of the tables of the CRC, which lie in memory that nobody writes. It compares each byte of them with the
 * value of the definition, found here bit by bit. embed/twin gives the tables their names. A program calls it in parts,
 * of as many bytes as it has time for:
 *
 *     static table_test test = {0};
 *     if (table_test_part(&test, 64) >= TABLE_FAULT) fail();    (in each cycle, and all TABLE_TEST_BYTES at the start)
 *
 * It finds a table that isn't as it was linked. It tests no code, and no other memory.
 */
#ifndef GATEPAST_TABLE_TEST_H
#define GATEPAST_TABLE_TEST_H

#include <stdbool.h>
#include <stddef.h>
#include <stdint.h>

/* 1 where one archive is linked, 2 for the two channels of twice.h. */
#ifndef TABLE_TEST_CHANNELS
#define TABLE_TEST_CHANNELS 1
#endif

/* What a part of the test answers: one of the first two, or the number of a fault. This is TABLE_FAULT times the
   channel, 1 or 2, and how many zero bytes the table is for: 1, 2, 4 or 5. So 0x21 is the second channel's table for
   one. */
enum table_test_answer {
    TABLE_TEST_GOES_ON = 0, /* these bytes are right, and others remain */
    TABLE_TEST_PASSED = 1,  /* all bytes are right; the next part begins anew */
    TABLE_FAULT = 16
};

enum { TABLE_BYTES = 512, TABLES = 4 * TABLE_TEST_CHANNELS, TABLE_TEST_BYTES = TABLES * TABLE_BYTES };

/* How far the test came. After a fault it stays at the byte that is wrong. A turned bit here skips bytes of one walk. */
typedef struct table_test {
    uint16_t place;
} table_test;

extern const uint8_t gp_table_1[TABLE_BYTES], gp_table_2[TABLE_BYTES], gp_table_4[TABLE_BYTES], gp_table_5[TABLE_BYTES];
#if TABLE_TEST_CHANNELS == 2
extern const uint8_t twin_gp_table_1[TABLE_BYTES], twin_gp_table_2[TABLE_BYTES], twin_gp_table_4[TABLE_BYTES],
    twin_gp_table_5[TABLE_BYTES];
#endif

/* What so many zero bytes make of a high byte over a low byte 0. */
static inline uint16_t table_value(unsigned zeros, uint8_t high) {
    uint32_t value = (uint32_t)high << 8;
    for (unsigned bit = 0; bit < 8 * zeros; bit++) {
        value <<= 1;
        if (value > 0xFFFF) value ^= 0x139B7;
    }
    return (uint16_t)value;
}

/* The byte of a table at a place. A value has its high byte first in the tables for one and two zero bytes. */
static inline uint8_t table_byte(unsigned zeros, unsigned place) {
    const uint16_t value = table_value(zeros, (uint8_t)(place / 2));
    const bool high = (place % 2 == 0) == (zeros < 4);
    return (uint8_t)(high ? value >> 8 : value);
}

/* Tests so many bytes more, or up to the end. */
static inline uint8_t table_test_part(table_test *test, size_t bytes) {
    static const struct {
        volatile const uint8_t *bytes; /* read each time: what the compiler knows of them isn't what is there */
        uint8_t channel, zeros;
    } tables[TABLES] = {
        {gp_table_1, 1, 1},
        {gp_table_2, 1, 2},
        {gp_table_4, 1, 4},
        {gp_table_5, 1, 5},
#if TABLE_TEST_CHANNELS == 2
        {twin_gp_table_1, 2, 1},
        {twin_gp_table_2, 2, 2},
        {twin_gp_table_4, 2, 4},
        {twin_gp_table_5, 2, 5},
#endif
    };
    for (; bytes != 0 && test->place < TABLE_TEST_BYTES; bytes--, test->place++) {
        const unsigned number = test->place / TABLE_BYTES, place = test->place % TABLE_BYTES;
        if (tables[number].bytes[place] != table_byte(tables[number].zeros, place))
            return (uint8_t)(TABLE_FAULT * tables[number].channel + tables[number].zeros);
    }
    if (test->place < TABLE_TEST_BYTES) return TABLE_TEST_GOES_ON;
    test->place = 0;
    return TABLE_TEST_PASSED;
}

#endif
