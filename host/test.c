/* Tries the limits of the one function that C sees. */
#include "nalzeiku.h"

#include <stdbool.h>
#include <stdio.h>
#include <stdlib.h>
#include <string.h>

/* The byte that stands in memory before a call; how many stand behind the most room; and that room. */
enum { UNTOUCHED = 0xA5, BEHIND = 64, ROOM = NALZEIKU_SCRIPT * NALZEIKU_LINE };

static uint8_t memory[ROOM + BEHIND];
static int failures;
static int checks;

static void check(bool holds, const char *what)
{
    checks += 1;
    if (!holds) {
        failures += 1;
        printf("FAILED: %s\n", what);
    }
}

/* The link gives the library this in place of malloc, so that it can be made to fail, and a call of it is seen. */
static bool no_memory;
static int allocations;
void *__real_malloc(size_t size);
void *__wrap_malloc(size_t size)
{
    allocations += 1;
    return no_memory ? NULL : __real_malloc(size);
}

static int64_t run(const void *script, size_t script_len, size_t room)
{
    memset(memory, UNTOUCHED, sizeof memory);
    return nalzeiku_run(script, script_len, memory, room);
}

/* All bytes of memory from a place on are as they were. */
static bool stays_from(size_t at)
{
    for (; at < sizeof memory; at++)
        if (memory[at] != UNTOUCHED)
            return false;
    return true;
}

/* A script is answered by these lines and no byte behind them is touched. */
static void answers(const char *script, size_t room, const char *want, const char *what)
{
    int64_t written = run(script, strlen(script), room);
    size_t len = strlen(want);
    check(written == (int64_t)len && memcmp(memory, want, len) == 0 && stays_from(len), what);
}

/* A script is declined, and no byte is touched. */
static void declines(const void *script, size_t len, size_t room, int64_t why, const char *what)
{
    check(run(script, len, room) == why && stays_from(0), what);
}

static const char *const saved = "e 1\nw 1 0 1 620\nl 1\ns 1\np 0\nu 1\nt 1\nr 0 0\np 2\nr 2 0\nc 0\n";
static const char *const saved_answers = "e 0 0\nw 0\nl 0 1\ns 0 1\np 0 0\nu 0 0\nt 0 1\nr 0 0\np 0 1\nr 0 1 620\nc 12\n";

static void lines(void)
{
    answers(saved, ROOM, saved_answers, "an edit is saved and read");
    answers(saved, ROOM, saved_answers, "a second call is on a new store");
    answers(saved, 11 * NALZEIKU_LINE, saved_answers, "room for eleven lines, exactly");
    declines(saved, strlen(saved), 11 * NALZEIKU_LINE - 1, NALZEIKU_SHORT, "one byte short of it");
    answers("", 0, "", "no line, and no room");
    answers("p 1", NALZEIKU_LINE, "p 0 0\n", "a line without its end");
    declines("p 1", 3, NALZEIKU_LINE - 1, NALZEIKU_SHORT, "which counts as a line");
    answers("\n", NALZEIKU_LINE, "? 14 1\n", "an empty line");
    declines("\n", 1, NALZEIKU_LINE - 1, NALZEIKU_SHORT, "which is a line");
    answers("p 1\n", NALZEIKU_LINE, "p 0 0\n", "an end has no line behind it");
    answers("p 1\nx", 2 * NALZEIKU_LINE, "p 0 0\n? 14 1\n", "a byte behind it is one");
    declines("p 1\nx", 5, 2 * NALZEIKU_LINE - 1, NALZEIKU_SHORT, "and wants its room");
    check(run("p\0001\n", 4, ROOM) == 7 && memcmp(memory, "? 14 1\n", 7) == 0, "a byte 00 is no end");
}

static uint8_t longest[NALZEIKU_SCRIPT + 1];

static void limits(void)
{
    memset(longest, '\n', sizeof longest);
    int64_t written = run(longest, NALZEIKU_SCRIPT, ROOM);
    bool same = written == 7 * NALZEIKU_SCRIPT;
    for (size_t line = 0; same && line < NALZEIKU_SCRIPT; line++)
        same = memcmp(memory + 7 * line, "? 14 1\n", 7) == 0;
    check(same && stays_from(7 * NALZEIKU_SCRIPT), "4,096 empty lines");
    declines(longest, NALZEIKU_SCRIPT, ROOM - 1, NALZEIKU_SHORT, "one byte short of their room");
    declines(longest, NALZEIKU_SCRIPT + 1, ROOM + BEHIND, NALZEIKU_SIZES, "4,097 bytes");
    declines(longest, NALZEIKU_SCRIPT + 1, 0, NALZEIKU_SIZES, "4,097 bytes and no room: the script is told first");
    memset(longest, 'p', sizeof longest);
    check(run(longest, NALZEIKU_SCRIPT, NALZEIKU_LINE) == 7 && memcmp(memory, "? 14 0\n", 7) == 0 && stays_from(7),
          "one line of 4,096 bytes");
    memset(longest, ' ', sizeof longest);
    memcpy(longest, "p 1", 3);
    check(run(longest, 80, NALZEIKU_LINE) == 7 && memcmp(memory, "? 14 3\n", 7) == 0, "a line of 80 bytes is looked at");
    check(run(longest, 81, NALZEIKU_LINE) == 7 && memcmp(memory, "? 14 0\n", 7) == 0, "a line of 81 is too long");
}

/* No call asks for memory, so each is answered as ever where there is none. */
static void without_memory(void)
{
    no_memory = true;
    int before = allocations;
    answers(saved, ROOM, saved_answers, "an edit is saved and read without memory");
    declines(longest, NALZEIKU_SCRIPT + 1, ROOM, NALZEIKU_SIZES, "a long script, and no memory");
    declines(saved, strlen(saved), NALZEIKU_LINE, NALZEIKU_SHORT, "too little room, and no memory");
    check(allocations == before, "nothing was asked for");
    no_memory = false;
}

int main(void)
{
    lines();
    limits();
    without_memory();
    printf("%d checks, %d failed\n", checks, failures);
    return failures == 0 ? 0 : 1;
}
