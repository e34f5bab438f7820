/*
 * What a pair file's replay in memory leaves: the text that comes on standard input is replayed, and its whole report written; and
 * before that, texts and memory of all kinds are tried, into which nothing is written that isn't said.
 */
#include <replay.h>
#include <stdbool.h>
#include <stdio.h>
#include <stdlib.h>
#include <string.h>

#define MOST 1000000
#define UNTOUCHED 0xA5

static uint8_t text[MOST], report[MOST], whole[MOST];
static gp_ended ended;

static void must(int line, bool holds) {
    if (holds) return;
    fprintf(stderr, "replay: line %d doesn't hold\n", line);
    exit(1);
}

#define MUST(what) must(__LINE__, (what))

/* Replays into so much memory, behind which nothing is written, and gives the status. */
static uint8_t replay_within(size_t text_len, size_t room) {
    memset(report, UNTOUCHED, sizeof report);
    uint8_t status = gp_replay(text, text_len, report, room, &ended);
    MUST(ended.len <= room);
    for (size_t i = ended.len; i < sizeof report; i++) MUST(report[i] == UNTOUCHED);
    return status;
}

/* Whether this was written. */
static bool wrote(const char *wanted) {
    return ended.len == strlen(wanted) && memcmp(report, wanted, ended.len) == 0;
}

/* A text without a byte is refused at its first line, which doesn't come. */
static void empty(void) {
    MUST(replay_within(0, sizeof report) == GP_REPLAY_LINE && ended.place == 1);
    MUST(wrote("refused 1 End\n"));
    MUST(gp_replay(NULL, 0, NULL, 0, &ended) == GP_REPLAY_CUT && ended.place == 0 && ended.len == 0);
}

/* A report that doesn't fit is cut where the memory ends, by each size; one that fits exactly isn't. */
static void cut(size_t text_len) {
    uint8_t status = replay_within(text_len, sizeof report);
    gp_ended wanted = ended;
    memcpy(whole, report, ended.len);
    MUST(status != GP_REPLAY_CUT);
    for (size_t room = 0; room < wanted.len; room++) {
        memset(report, UNTOUCHED, wanted.len + 1);
        MUST(gp_replay(text, text_len, report, room, &ended) == GP_REPLAY_CUT);
        MUST(ended.len == room && ended.place == room);
        MUST(memcmp(report, whole, room) == 0 && report[room] == UNTOUCHED);
    }
    MUST(replay_within(text_len, wanted.len) == status);
    MUST(ended.len == wanted.len && ended.place == wanted.place && memcmp(report, whole, wanted.len) == 0);
}

int main(void) {
    size_t len = fread(text, 1, sizeof text, stdin);
    MUST(len < sizeof text);
    empty();
    cut(len);
    uint8_t status = replay_within(len, sizeof report);
    MUST(fwrite(report, 1, ended.len, stdout) == ended.len);
    return status;
}
