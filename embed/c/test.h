/* What the tests in C share: the instrument that the command line names, and a check that ends the program. The programs that a
   host may read as examples, phrase.c and restart.c, stand alone. */
#include "gingerfile.h"
#include <math.h>
#include <stdio.h>
#include <stdlib.h>
#include <string.h>

enum { LONGEST_FILE = 65536, LARGEST_WORK = 661920, LARGEST_SCRATCH = 32 };

static const char *program;
static uint8_t file[LONGEST_FILE];
static size_t length;
static gingerfile_sizes sizes;

static void check(int good, const char *what)
{
    if (!good) {
        fprintf(stderr, "%s: %s\n", program, what);
        exit(1);
    }
}

static void read_instrument(int argc, char **argv)
{
    program = argv[0];
    check(argc == 2, "one argument is wanted, an instrument's file");
    FILE *source = fopen(argv[1], "rb");
    check(source != NULL, "the instrument cannot be opened");
    length = fread(file, 1, sizeof file, source);
    fclose(source);
    sizes = gingerfile_read(file, length);
    check(sizes.refusal == 0 && sizes.words == GINGERFILE_WORDS, "the instrument is refused");
    check(sizes.work <= LARGEST_WORK && sizes.scratch <= LARGEST_SCRATCH, "the instrument asks for too much");
}
