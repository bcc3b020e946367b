/* A session kept over a restart: `restart keep INSTRUMENT KEPT` plays, and keeps the words and the work memory in the file KEPT;
   `restart resume INSTRUMENT KEPT` takes them up and plays on; `restart through INSTRUMENT` does both in one process. What is
   played after the restart is printed: the last two print the same. */
#include "gingerfile.h"
#include <math.h>
#include <stdio.h>
#include <stdlib.h>
#include <string.h>

enum { LONGEST_FILE = 65536, COUNT = 3000 };

static uint8_t file[LONGEST_FILE];
static uint64_t words[GINGERFILE_WORDS];
static size_t length;
static double *work, *scratch, out[COUNT], trace[COUNT];
static gingerfile_sizes sizes;

#define SESSION file, length, words, GINGERFILE_WORDS, work, sizes.work
#define SCRATCH scratch, sizes.scratch

static void check(int good, const char *what)
{
    if (!good) {
        fprintf(stderr, "restart: %s\n", what);
        exit(1);
    }
}

static gingerfile_report accepted(gingerfile_report report)
{
    check(report.refusal == 0, "a call is refused");
    return report;
}

/* A sum in which every bit and its place counts. */
static uint64_t digest(const double *floats, uint64_t count)
{
    uint64_t sum = 0, bits;
    for (uint64_t i = 0; i < count; i++) {
        memcpy(&bits, floats + i, 8);
        sum = (sum ^ bits) * 0x9e3779b97f4a7c15u;
        sum ^= sum >> 29;
    }
    return sum;
}

static void play(void)
{
    const gingerfile_report played = accepted(gingerfile_play(SESSION, SCRATCH, out, COUNT, trace, COUNT));
    printf("at %llu: samples %016llx, %llu forces %016llx, %llu contact samples, by key",
           (unsigned long long)words[GINGERFILE_T], (unsigned long long)digest(out, COUNT), (unsigned long long)played.value,
           (unsigned long long)digest(trace, played.value), (unsigned long long)played.contacts);
    for (size_t k = 0; k < sizes.keys; k++)
        printf(" %llu", (unsigned long long)words[GINGERFILE_CONTACT_SAMPLES + k]);
    printf("\n");
}

/* Into the middle of a contact, a cue behind it. */
static void before(void)
{
    accepted(gingerfile_open(SESSION));
    accepted(gingerfile_insert(SESSION, 0, GINGERFILE_STRIKE, 60, 3.0));
    accepted(gingerfile_insert(SESSION, 2000, GINGERFILE_RELEASE, 60, 0.0));
    accepted(gingerfile_insert(SESSION, 4000, GINGERFILE_STRIKE, 64, 2.0));
    accepted(gingerfile_go(SESSION, SCRATCH, 3000));
    accepted(gingerfile_cue(SESSION));
    accepted(gingerfile_go(SESSION, SCRATCH, 4020));
}

/* On, back to the cue, and on. */
static void after(void)
{
    play();
    check(accepted(gingerfile_go(SESSION, SCRATCH, 3000)).value == 0, "the cue is gone");
    play();
}

static void keep(const char *path)
{
    FILE *kept = fopen(path, "wb");
    check(kept != NULL && fwrite(words, sizeof *words, GINGERFILE_WORDS, kept) == GINGERFILE_WORDS &&
              fwrite(work, sizeof *work, sizes.work, kept) == sizes.work && fclose(kept) == 0,
          "the session cannot be kept");
}

/* The energies refuse what every call refuses, and write nothing: words of no session are known at once. */
static void resume(const char *path)
{
    FILE *kept = fopen(path, "rb");
    check(kept != NULL && fread(words, sizeof *words, GINGERFILE_WORDS, kept) == GINGERFILE_WORDS &&
              fread(work, sizeof *work, sizes.work, kept) == sizes.work && fgetc(kept) == EOF,
          "what was kept is no session of this instrument");
    fclose(kept);
    check(gingerfile_energies(SESSION).refusal == 0, "the kept words are no session's");
}

int main(int argc, char **argv)
{
    const char *what = argc > 1 ? argv[1] : "";
    const int keeps = strcmp(what, "keep") == 0, resumes = strcmp(what, "resume") == 0, through = strcmp(what, "through") == 0;
    check((argc == 4 && (keeps || resumes)) || (argc == 3 && through), "usage: restart keep|resume|through INSTRUMENT [KEPT]");
    FILE *source = fopen(argv[2], "rb");
    check(source != NULL, "the instrument cannot be opened");
    length = fread(file, 1, sizeof file, source);
    fclose(source);
    sizes = gingerfile_read(file, length);
    check(sizes.refusal == 0 && sizes.words == GINGERFILE_WORDS, "the instrument is refused");
    work = calloc(sizes.work, sizeof *work);
    scratch = malloc(sizes.scratch * sizeof *scratch);
    check(work != NULL && scratch != NULL, "no memory");
    for (size_t i = 0; i < sizes.scratch; i++)
        scratch[i] = NAN; /* what stands in scratch decides nothing */

    if (!resumes)
        before();
    if (keeps)
        keep(argv[3]);
    if (resumes)
        resume(argv[3]);
    if (!keeps)
        after();
    free(work);
    free(scratch);
    return 0;
}
