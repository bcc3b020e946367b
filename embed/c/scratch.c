/* What scratch decides: `scratch INSTRUMENT` makes one list of calls again and again, each time with something else in scratch
   before every play and go. Samples, forces, answers, words and work memory are the same each time, and nothing behind the cells
   that are lent is written. A play and a go with one cell fewer are refused as 9, and nothing at all is written. */
#include "test.h"

enum { BEHIND = 8, COUNT = 512, BLOCKS = 6, CALLS = BLOCKS + 2 };

/* What is put into scratch; the last one stands for what the call before has left. */
static const double contents[] = { NAN, 0.0, -0.0, INFINITY, -INFINITY, 1e300, 5e-324, -1.0, 0.5 };
enum { CONTENTS = sizeof contents / sizeof *contents, LEFT_OVER = CONTENTS - 1 };

/* All that a list of calls leaves. */
typedef struct {
    uint64_t words[GINGERFILE_WORDS];
    double work[LARGEST_WORK], out[BLOCKS][COUNT], trace[BLOCKS][COUNT];
    gingerfile_report reports[CALLS];
} left;

static left first, now, before;
static double scratch[LARGEST_SCRATCH + BEHIND], scratch_before[LARGEST_SCRATCH + BEHIND];

#define SESSION file, length, now.words, GINGERFILE_WORDS, now.work, sizes.work

static void fill(int content)
{
    for (size_t i = 0; i < LARGEST_SCRATCH + BEHIND; i++)
        if (content != LEFT_OVER || i >= sizes.scratch)
            scratch[i] = contents[content];
    memcpy(scratch_before, scratch, sizeof scratch);
}

/* Whether no cell behind the first n is another than before the call. */
static int kept_from(size_t n)
{
    return memcmp(scratch + n, scratch_before + n, (LARGEST_SCRATCH + BEHIND - n) * sizeof *scratch) == 0;
}

static gingerfile_report play(int content, size_t cells, int block)
{
    fill(content);
    const gingerfile_report report = gingerfile_play(SESSION, scratch, cells, now.out[block], COUNT, now.trace[block], COUNT);
    check(kept_from(cells), "a play has written behind the cells that it was lent");
    return report;
}

static gingerfile_report go(int content, size_t cells, uint64_t p)
{
    fill(content);
    const gingerfile_report report = gingerfile_go(SESSION, scratch, cells, p);
    check(kept_from(cells), "a go has written behind the cells that it was lent");
    return report;
}

/* The call is refused as 9, and nothing has changed. */
static void refused(gingerfile_report report)
{
    const gingerfile_report nothing = { .refusal = 9 };
    check(memcmp(&report, &nothing, sizeof report) == 0, "a call with one cell too few is not refused as 9");
    check(kept_from(0) && memcmp(&now, &before, sizeof now) == 0, "a refused call has written something");
}

static void insert(uint64_t position, uint64_t kind, uint64_t key)
{
    check(gingerfile_insert(SESSION, position, kind, key, 3.0).refusal == 0, "an insert is refused");
}

/* Strikes while others ring, a pedal, a cue, and a step back behind it and on again. */
static void make_list(int content)
{
    int made = 0;
    memset(&now, 0, sizeof now);
    check(gingerfile_open(SESSION).refusal == 0, "the session is not opened");
    insert(10, GINGERFILE_STRIKE, 60);
    insert(300, GINGERFILE_PEDAL, 1);
    insert(700, GINGERFILE_STRIKE, 36);
    insert(1300, GINGERFILE_RELEASE, 60);
    for (int block = 0; block < BLOCKS; block++) {
        if (block == 2)
            check(gingerfile_cue(SESSION).refusal == 0, "the cue is refused");
        if (block == 4) {
            now.reports[made++] = go(content, sizes.scratch, 200);
            now.reports[made++] = go(content, sizes.scratch, 2 * COUNT + 100);
        }
        now.reports[made++] = play(content, sizes.scratch, block);
    }
    for (int i = 0; i < CALLS; i++)
        check(now.reports[i].refusal == 0, "a call with just enough cells is refused");
}

int main(int argc, char **argv)
{
    read_instrument(argc, argv);
    check(sizes.scratch == sizes.strings, "scratch is not one cell for each string");

    for (int content = 0; content < CONTENTS; content++) {
        make_list(content);
        if (content == 0)
            first = now;
        check(memcmp(&now, &first, sizeof now) == 0, "what stands in scratch decides something");
        before = now;
        refused(play(content, sizes.scratch - 1, 0));
        refused(go(content, sizes.scratch - 1, 200));
    }
    check(first.reports[CALLS - 1].contacts > 0, "no string is in contact");
    printf("from C: %zu scratch cells, filled in %d ways: %d plays and goes each give the same; with one cell fewer, 9\n",
           sizes.scratch, CONTENTS, CALLS);
    return 0;
}
