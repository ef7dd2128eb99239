/* Runs a script from a file and prints the answers to its lines. */
#include "nalzeiku.h"

#include <stdio.h>

/* One byte more than a script may have, so that a longer one is seen to be longer. */
static uint8_t script[NALZEIKU_SCRIPT + 1];

/* A script has a line at most for each of its bytes. */
static uint8_t answers[NALZEIKU_SCRIPT * NALZEIKU_LINE];

static const char *words_of(int64_t why)
{
    switch (why) {
    case NALZEIKU_SIZES:
        return "the script is too long";
    case NALZEIKU_SHORT:
        return "the answers have too little room";
    default:
        return "declined";
    }
}

int main(int argc, char **argv)
{
    if (argc != 2) {
        fprintf(stderr, "usage: %s SCRIPT\n", argv[0]);
        return 2;
    }
    FILE *file = fopen(argv[1], "rb");
    if (file == NULL) {
        perror(argv[1]);
        return 1;
    }
    size_t len = fread(script, 1, sizeof script, file);
    int failed = ferror(file);
    fclose(file);
    if (failed) {
        fprintf(stderr, "%s: cannot be read\n", argv[1]);
        return 1;
    }
    int64_t written = nalzeiku_run(script, len, answers, sizeof answers);
    if (written < 0) {
        fprintf(stderr, "%s: %s (%lld)\n", argv[1], words_of(written), (long long)written);
        return 1;
    }
    if (fwrite(answers, 1, (size_t)written, stdout) != (size_t)written || fflush(stdout) != 0) {
        perror("stdout");
        return 1;
    }
    return 0;
}
