/* host JOB: runs a job file and says its replies in words. C11 and C++. */
#include "finder.h"
#include <stdio.h>
#include <stdlib.h>
#include <string.h>

static const size_t widths[FINDER_CODES] = {
    FINDER_REPLY_END,         FINDER_REPLY_PRECISION,  FINDER_REPLY_ALLOWANCE, FINDER_REPLY_ARC,
    FINDER_REPLY_CONE_IN_EQR, FINDER_REPLY_CONE_IN_PC, FINDER_REPLY_PARALLEL,  FINDER_REPLY_TWO_ARCS,
};
static const char *const names[FINDER_CODES] = {"end", "precision", "allowance", "arc", "equatorial cone", "polar cone", "parallel", "two arcs"};
static const char *const slots[FINDER_SLOTS] = {"south cap, first", "south cap, second", "equator", "north cap, first", "north cap, second"};
static const char *const kinds[FINDER_KINDS] = {
    "no such piece",       "no walk",          "height rejected", "found", "height not between the ends",
    "neither root passes", "found by halving", "not found by halving",
};
/* From 0 on: refusals of files, then of commands, none of which has the number 11. */
static const char *const reasons[] = {
    "accepted",
    "the file has no byte or more than 16,384",
    "a command byte isn't in the table",
    "operands are cut short or the end is missing",
    "bytes follow the end",
    "the reply buffer is shorter than all replies",
    "precision or allowance is not set",
    "a float isn't finite",
    "a north or east byte is neither 0 nor 1",
    "an operand is outside its range",
    "the arc can't be split",
    "",
    "the arcs' planes can't be told apart, or an arc has none",
};

static double float_at(const uint8_t *bytes)
{
    uint64_t bits = 0;
    double number;
    for (int place = 7; place >= 0; place--)
        bits = bits << 8 | bytes[place];
    memcpy(&number, &bits, sizeof number);
    return number;
}

static void say_point(const uint8_t *at) { printf(", longitude %.12f, latitude %.12f", float_at(at), float_at(at + 8)); }

static void say_arc(const uint8_t *answer)
{
    for (int place = 0; place < FINDER_SLOTS; place++) {
        const uint8_t *slot = answer + place * FINDER_SLOT_BYTES;
        if (slot[0] == FINDER_KIND_NO_PIECE)
            continue;
        printf("\n    %s: %s, %d steps walked", slots[place], kinds[slot[0]], slot[1]);
        if (slot[0] == FINDER_KIND_FOUND || slot[0] == FINDER_KIND_FOUND_BY_HALVING)
            say_point(slot + 2);
    }
}

static void say_cone(const uint8_t *answer)
{
    printf("\n    %s, %d steps walked", kinds[answer[0]], answer[1]);
    if (answer[0] == FINDER_KIND_FOUND)
        printf(", height %.12f", float_at(answer + 2));
}

static void say_crossing(uint8_t code, const uint8_t *answer)
{
    int apart = code == FINDER_CODE_TWO_ARCS && answer[0] == FINDER_KIND_NO_ROOT;
    printf("\n    %s", apart ? "no crossing found" : kinds[answer[0]]);
    if (answer[0] == FINDER_KIND_FOUND)
        say_point(answer + 1);
}

static void say(const uint8_t *reply)
{
    uint8_t code = reply[0], status = reply[1];
    printf("%s, status %d: %s", names[code], status, reasons[status]);
    if (status == FINDER_STATUS_ACCEPTED && code == FINDER_CODE_ARC)
        say_arc(reply + 2);
    if (status == FINDER_STATUS_ACCEPTED && (code == FINDER_CODE_CONE_IN_EQR || code == FINDER_CODE_CONE_IN_PC))
        say_cone(reply + 2);
    if (status == FINDER_STATUS_ACCEPTED && (code == FINDER_CODE_PARALLEL || code == FINDER_CODE_TWO_ARCS))
        say_crossing(code, reply + 2);
    printf("\n");
}

static int fail(const char *path, const char *reason)
{
    fprintf(stderr, "host: %s: %s\n", path, reason);
    return EXIT_FAILURE;
}

int main(int count, char **arguments)
{
    /* Room for one byte too many, so that a longer file is refused and not cut. */
    static uint8_t job[FINDER_LONGEST_JOB + 1];
    if (count != 2) {
        fprintf(stderr, "usage: host JOB\n");
        return 2;
    }
    const char *path = arguments[1];
    FILE *file = fopen(path, "rb");
    if (file == NULL)
        return fail(path, "can't be opened");
    size_t length = fread(job, 1, sizeof job, file);
    int broken = ferror(file);
    fclose(file);
    if (broken)
        return fail(path, "can't be read");

    /* First without a buffer, for the length that the replies need. */
    uint64_t place, written;
    uint8_t *reply = NULL;
    uint8_t number = finder_run(job, length, NULL, 0, &place, &written);
    if (number == FINDER_REFUSAL_BUFFER) {
        size_t needed = (size_t)place;
        reply = (uint8_t *)malloc(needed);
        if (reply == NULL)
            return fail(path, "there is no memory for its replies");
        number = finder_run(job, length, reply, needed, &place, &written);
    }
    if (number != FINDER_ACCEPTED) {
        fprintf(stderr, "host: %s is refused under %d at place %llu: %s\n", path, number, (unsigned long long)place, reasons[number]);
        free(reply);
        return EXIT_FAILURE;
    }
    for (size_t at = 0; at < written; at += widths[reply[at]])
        say(reply + at);
    free(reply);
    return fflush(stdout) == 0 && !ferror(stdout) ? EXIT_SUCCESS : EXIT_FAILURE;
}
