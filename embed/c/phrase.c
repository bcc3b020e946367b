/* A phrase with a cue and a step back: `phrase INSTRUMENT OUT.wav`. It strikes the instrument's keys one after the other, and
   follows the contact samples of all keys and of each. */
#include "gingerfile.h"
#include <math.h>
#include <stdio.h>
#include <stdlib.h>
#include <string.h>

enum { BLOCK = 256, LONGEST_FILE = 65536, MOST_KEYS = 16 };

/* A session, and what it is lent. */
static uint8_t file[LONGEST_FILE];
static uint64_t words[GINGERFILE_WORDS];
static size_t length;
static double *work, *scratch;
static gingerfile_sizes sizes;

#define SESSION file, length, words, GINGERFILE_WORDS, work, sizes.work
#define SCRATCH scratch, sizes.scratch

static void check(int good, const char *what)
{
    if (!good) {
        fprintf(stderr, "phrase: %s\n", what);
        exit(1);
    }
}

static gingerfile_report accepted(gingerfile_report report)
{
    if (report.refusal != 0) {
        fprintf(stderr, "phrase: refused as %llu\n", (unsigned long long)report.refusal);
        exit(1);
    }
    return report;
}

/* Plays in blocks, as an audio callback would; the number of forces, and the contact samples of all keys behind the last. */
static gingerfile_report play(double *out, size_t count)
{
    static double trace[BLOCK];
    gingerfile_report all = {0};
    for (size_t done = 0; done < count; done += BLOCK) {
        const size_t block = count - done < BLOCK ? count - done : BLOCK;
        const gingerfile_report report = accepted(gingerfile_play(SESSION, SCRATCH, out + done, block, trace, BLOCK));
        all.value += report.value;
        all.contacts = report.contacts;
    }
    return all;
}

/* Each key's contact samples now; their sum. */
static uint64_t count_keys(uint64_t *counts)
{
    uint64_t sum = 0;
    for (size_t k = 0; k < sizes.keys; k++) {
        counts[k] = words[GINGERFILE_CONTACT_SAMPLES + k];
        sum += counts[k];
    }
    return sum;
}

static void put(FILE *out, uint32_t number, size_t bytes)
{
    check(fwrite(&number, bytes, 1, out) == 1, "the WAV cannot be written");
}

/* Mono, 64-bit floats. */
static void write_wav(const char *path, const double *samples, size_t count)
{
    FILE *out = fopen(path, "wb");
    const uint32_t rate = (uint32_t)(sizes.fs + 0.5), bytes = (uint32_t)(8 * count);
    check(out != NULL && fputs("RIFF", out) >= 0, "the WAV cannot be written");
    put(out, 36 + bytes, 4);
    fputs("WAVEfmt ", out);
    put(out, 16, 4);
    put(out, 3, 2);
    put(out, 1, 2);
    put(out, rate, 4);
    put(out, 8 * rate, 4);
    put(out, 8, 2);
    put(out, 64, 2);
    fputs("data", out);
    put(out, bytes, 4);
    check(fwrite(samples, 8, count, out) == count && fclose(out) == 0, "the WAV cannot be written");
}

int main(int argc, char **argv)
{
    check(argc == 3, "usage: phrase INSTRUMENT OUT.wav");
    FILE *source = fopen(argv[1], "rb");
    check(source != NULL, "the instrument cannot be opened");
    length = fread(file, 1, sizeof file, source);
    fclose(source);

    sizes = gingerfile_read(file, length);
    check(sizes.refusal == 0, "the instrument is refused");
    check(sizes.words == GINGERFILE_WORDS, "the library is of another version than the header");
    work = calloc(sizes.work, sizeof *work);
    scratch = malloc(sizes.scratch * sizeof *scratch);
    check(work != NULL && scratch != NULL, "no memory");
    for (size_t i = 0; i < sizes.scratch; i++)
        scratch[i] = NAN; /* what stands in scratch decides nothing */

    /* one cell fewer than the instrument asks for is refused */
    check(gingerfile_open(file, length, words, GINGERFILE_WORDS, work, sizes.work - 1).refusal == 8, "8 was to come");
    accepted(gingerfile_open(SESSION));

    const gingerfile_key_energies keys = gingerfile_energies(SESSION);
    const size_t beat = (size_t)(0.25 * sizes.fs), count = (keys.count + 4) * beat;
    double *samples = calloc(count, sizeof *samples), *again = calloc(beat, sizeof *again);
    check(samples != NULL && again != NULL, "no memory");
    for (size_t k = 0; k < keys.count; k++)
        accepted(gingerfile_insert(SESSION, k * beat, GINGERFILE_STRIKE, keys.keys[k], 3.0));
    accepted(gingerfile_insert(SESSION, 0, GINGERFILE_PEDAL, 1, 0.0));
    accepted(gingerfile_insert(SESSION, (keys.count + 1) * beat, GINGERFILE_PEDAL, 0, 0.0));
    for (size_t k = 0; k < keys.count; k++)
        accepted(gingerfile_insert(SESSION, (keys.count + 1) * beat, GINGERFILE_RELEASE, keys.keys[k], 0.0));
    check(gingerfile_insert(SESSION, 0, 4, 60, 3.0).refusal == 7, "7 was to come: there is no event of kind 4");

    /* a cue at the last strike; a beat on, and back */
    const size_t last = keys.count - 1;
    uint64_t at_cue[MOST_KEYS] = {0}, counts[MOST_KEYS] = {0}, counts_again[MOST_KEYS] = {0};
    uint64_t forces = play(samples, last * beat).value;
    accepted(gingerfile_cue(SESSION));
    count_keys(at_cue);
    const gingerfile_report first = play(samples + last * beat, beat);
    check(count_keys(counts) == first.contacts, "a play tells another sum than that of the keys");

    const uint64_t replayed = accepted(gingerfile_go(SESSION, SCRATCH, last * beat)).value;
    count_keys(counts_again);
    check(memcmp(counts_again, at_cue, sizeof at_cue) == 0, "a step back leaves a key's count where it was");
    const gingerfile_report second = play(again, beat);
    check(memcmp(again, samples + last * beat, beat * sizeof *again) == 0, "a step back plays something else");
    count_keys(counts_again);
    check(second.contacts == first.contacts && memcmp(counts_again, counts, sizeof counts) == 0,
          "a step back counts something else");

    forces += first.value + play(samples + keys.count * beat, 4 * beat).value;
    write_wav(argv[2], samples, count);
    printf("from C: %zu samples, %llu forces; a step back replays %llu, and the count is %llu again, %llu of it for key %d\n",
           count, (unsigned long long)forces, (unsigned long long)replayed, (unsigned long long)second.contacts,
           (unsigned long long)counts[last], keys.keys[last]);
    free(work);
    free(scratch);
    free(samples);
    free(again);
    return 0;
}
