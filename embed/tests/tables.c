/*
 * The self test of the tables in parts of any length: sound tables pass, after as many parts as there are. That a byte
 * which isn't right is found, each with its fault and its place, bench/flips tries.
 */
#include "../examples/table_test.h"

#include <stdio.h>

int main(void) {
    static const size_t parts[] = {1, 7, 64, TABLE_BYTES, TABLE_TEST_BYTES - 1, TABLE_TEST_BYTES, 100000};
    static table_test test;
    for (size_t i = 0; i < 2 * sizeof parts / sizeof *parts; i++) {
        const size_t part = parts[i / 2];
        size_t calls = 1;
        uint8_t answer = table_test_part(&test, part);
        for (; answer == TABLE_TEST_GOES_ON; calls++) answer = table_test_part(&test, part);
        if (answer == TABLE_TEST_PASSED && calls == (TABLE_TEST_BYTES + part - 1) / part && test.place == 0) continue;
        fprintf(stderr, "tables: %zu parts of %zu bytes end with %d at %d\n", calls, part, answer, test.place);
        return 1;
    }
    printf("%d tables are as the CRC's definition says\n", TABLES);
    return 0;
}
