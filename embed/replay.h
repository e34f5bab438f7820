/*
 * replay.h - runs both ends of a Gatepast connection over the text of a pair file, as the program's `replay` does, for C11
 * and C++11 on. docs/formats.md says what such a text and its report are. A text of several pairs is refused at its first line.
 *
 *     gp_ended ended;
 *     uint8_t status = gp_replay(text, text_len, report, sizeof report, &ended);
 *     if (status == GP_REPLAY_CUT) fail();              (or once more with more memory)
 *     fwrite(report, 1, ended.len, stdout);
 *
 * It allocates no memory, holds no lock, waits for nothing and keeps nothing: each call begins anew. The archive, of
 * crates/replay_c, needs memcpy, memmove and memset, and no other function. It is separate from gatepast.h's archive, so that
 * a device has neither the grammar of such texts nor their runner in it. A program may link both.
 *
 * What you owe
 *     The code of the call is proved to do what this page says, provided that:
 *     1. text and report lead to as many bytes as the number beside each says, and ended to a gp_ended. All of these have
 *        values, also what is only written to: `= {0}` and static storage give them. If that number is 0, the pointer is not
 *        followed; null there is tried, but not proved.
 *     2. report and *ended overlap neither each other nor text.
 *     3. Nothing else writes to any of them during the call. Calls over other memory may run in other threads.
 *     Nothing else is owed: any bytes may be passed as text, and any number of them.
 */
#ifndef GATEPAST_REPLAY_H
#define GATEPAST_REPLAY_H

#include <stddef.h>
#include <stdint.h>

#ifdef __cplusplus
#if __cplusplus < 201103L
#error "replay.h needs C++11"
#endif
extern "C" {
#elif !defined(__STDC_VERSION__) || __STDC_VERSION__ < 201112L
#error "replay.h needs C11"
#endif

/* Compilers that can, warn if the returned status isn't looked at. */
#if (defined(__cplusplus) && __cplusplus >= 201703L) || (!defined(__cplusplus) && __STDC_VERSION__ >= 202311L)
#define GP_CHECKED [[nodiscard]]
#elif defined(__GNUC__)
#define GP_CHECKED __attribute__((warn_unused_result))
#else
#define GP_CHECKED
#endif

/* The statuses of a replay, by the program's numbers. */
enum gp_replay_status {
    GP_REPLAY_OK = 0,    /* the text was read up to its line `end`, and no entry is `other` */
    GP_REPLAY_OTHER = 1, /* the same, with an `other` entry */
    GP_REPLAY_LINE = 4,  /* a line is refused or missing, or names a frame that wasn't sent */
    GP_REPLAY_CUT = 7    /* the memory is full: call again with more */
};

/* The bytes of the line that gp_replay_build writes. */
#define GP_BUILD_LENGTH 136

/* How a replay ended. */
typedef struct gp_ended {
    uint64_t place; /* GP_REPLAY_OTHER: the number of the first `other` entry; GP_REPLAY_LINE: the number of the line;
                       GP_REPLAY_CUT: len; else 0 */
    size_t len;     /* the bytes of the report that were written */
} gp_ended;

/* Runs both ends over the text, writes their report to the front of `report`, and returns the status. With GP_REPLAY_CUT a
   first part of the report fills that memory; with every other status the first ended->len bytes are the whole report.
   Bytes behind them are not written. A report that fits exactly is not cut. */
GP_CHECKED uint8_t gp_replay(const uint8_t *text, size_t text_len, uint8_t *report, size_t report_len, gp_ended *ended);

/* Writes a line of ASCII with its line end: the sources and the toolchain that the archive was made of. text_len is
   GP_BUILD_LENGTH; else the status is GP_REPLAY_CUT, and nothing is written. */
GP_CHECKED uint8_t gp_replay_build(uint8_t *text, size_t text_len);

#ifdef __cplusplus
}
#define GP_ASSERT static_assert
#else
#define GP_ASSERT _Static_assert
#endif

/* The library was built for this layout. */
GP_ASSERT(sizeof(size_t) == 8 && sizeof(void *) == 8, "a target with 64-bit pointers");
GP_ASSERT(sizeof(gp_ended) == 16 && offsetof(gp_ended, place) == 0 && offsetof(gp_ended, len) == 8, "gp_ended");

#undef GP_ASSERT
#undef GP_CHECKED

#endif
