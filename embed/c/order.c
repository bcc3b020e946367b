/* Words in another order: `order INSTRUMENT` inserts two events of different kinds at one position, in either order, and makes
   every call on the session's words, and on the same with the two events changed about. The first are accepted; the others are
   refused as 7, and nothing is written. */
#include "test.h"

enum { COUNT = 4, KINDS = 4, EVENT = 4 };

/* Kinds by the order in which they act, with a key that each may have. */
static const uint64_t kinds[KINDS] = { GINGERFILE_RELEASE, GINGERFILE_HAND_DAMP, GINGERFILE_PEDAL, GINGERFILE_STRIKE };
static const uint64_t key_of[KINDS] = { 60, 60, 1, 60 };

static uint64_t words[GINGERFILE_WORDS], words_before[GINGERFILE_WORDS];
static double work[LARGEST_WORK], work_before[LARGEST_WORK], scratch[LARGEST_SCRATCH], out[COUNT], trace[COUNT];

#define SESSION file, length, words, GINGERFILE_WORDS, work, sizes.work
#define SCRATCH scratch, sizes.scratch

static void insert(uint64_t position, int rank)
{
    check(gingerfile_insert(SESSION, position, kinds[rank], key_of[rank], 2.0).refusal == 0, "an insert is refused");
}

static uint64_t call(int which)
{
    switch (which) {
    case 0: return gingerfile_play(SESSION, SCRATCH, out, COUNT, trace, COUNT).refusal;
    case 1: return gingerfile_cue(SESSION).refusal;
    case 2: return gingerfile_go(SESSION, SCRATCH, 9).refusal;
    case 3: return gingerfile_insert(SESSION, 5, GINGERFILE_PEDAL, 0, 0.0).refusal;
    case 4: return gingerfile_remove(SESSION, 1).refusal;
    default: return gingerfile_energies(SESSION).refusal;
    }
}

/* Every call on the same session gives this number; a refused one writes nothing. */
static int calls_give(uint64_t refusal)
{
    memcpy(words_before, words, sizeof words);
    memcpy(work_before, work, sizeof work);
    for (int which = 0; which < 6; which++) {
        for (int i = 0; i < LARGEST_SCRATCH; i++)
            scratch[i] = NAN;
        for (int i = 0; i < COUNT; i++)
            out[i] = trace[i] = 0.5;
        check(call(which) == refusal, refusal == 0 ? "words in order are refused" : "words out of order are not refused as 7");
        for (int i = 0; refusal != 0 && i < COUNT; i++)
            check(out[i] == 0.5 && trace[i] == 0.5, "a refused call has written output or trace");
        if (refusal != 0)
            check(memcmp(words, words_before, sizeof words) == 0 && memcmp(work, work_before, sizeof work) == 0,
                  "a refused call has written words or work memory");
        memcpy(words, words_before, sizeof words);
        memcpy(work, work_before, sizeof work);
    }
    return 6;
}

/* The event's words and the next one's, changed about. */
static void change_about(size_t index)
{
    uint64_t first[EVENT], *at = words + GINGERFILE_EVENTS + EVENT * index;
    memcpy(first, at, sizeof first);
    memcpy(at, at + EVENT, sizeof first);
    memcpy(at + EVENT, first, sizeof first);
}

int main(int argc, char **argv)
{
    read_instrument(argc, argv);

    int accepted = 0, refused = 0;
    for (int early = 0; early < KINDS; early++)
        for (int late = early + 1; late < KINDS; late++)
            for (int first_added = 0; first_added < 2; first_added++) {
                check(gingerfile_open(SESSION).refusal == 0, "the session is not opened");
                insert(3, 3);
                insert(7, first_added ? late : early);
                insert(7, first_added ? early : late);
                insert(8, 0);
                check(words[GINGERFILE_EVENTS + EVENT + 1] == kinds[early] && words[GINGERFILE_EVENTS + 2 * EVENT + 1] == kinds[late],
                      "events of one position do not stand by their kinds");
                accepted += calls_give(0);
                change_about(1);
                refused += calls_give(7);
            }
    printf("from C: events of two kinds at one position: %d calls accepted; changed about, %d refused as 7\n", accepted, refused);
    return 0;
}
