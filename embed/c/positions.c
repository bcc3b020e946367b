/* Positions of 64 bits: `positions INSTRUMENT` hands in the record of a silent session at several positions, across the last of 32
   bits and before the end among them, and makes one list of calls from each. Samples, forces, answers and words are those of the list
   from 0, every position as much later (where a string's cells begin in work memory goes with the position). At the end itself plays,
   goes and inserts are accepted, and one past it they are 11. Records with a position past the end, up to the last of 64 bits, are 7 in
   every call, and nothing is written. */
#include "test.h"
#include <inttypes.h>

enum { SPAN = 1000, CALLS = 14, EVENTS = 64, EVENT_WORDS = 4, CUES = 4, CUE_WORDS = 72 };

static const uint64_t end = UINT64_C(9007199254740992), former_end = UINT64_C(2000000000);

/* All that calls leave. */
typedef struct {
    uint64_t words[GINGERFILE_WORDS];
    double work[LARGEST_WORK], out[2 * SPAN], trace[2 * SPAN];
    gingerfile_report reports[CALLS];
    size_t made, played;
} left;

static left first, now, before;
static double scratch[LARGEST_SCRATCH];

#define SESSION file, length, now.words, GINGERFILE_WORDS, now.work, sizes.work

/* Output and trace of all plays stand one behind the other. */
static gingerfile_report play(size_t count)
{
    check(now.played + count <= 2 * SPAN, "the list plays too much");
    const gingerfile_report report = gingerfile_play(SESSION, scratch, sizes.scratch, now.out + now.played, count,
                                                     now.trace + now.played, count);
    if (report.refusal == 0)
        now.played += count;
    return report;
}

static gingerfile_report go(uint64_t p)
{
    return gingerfile_go(SESSION, scratch, sizes.scratch, p);
}

static gingerfile_report insert(uint64_t position, uint64_t kind, uint64_t key)
{
    return gingerfile_insert(SESSION, position, kind, key, 3.0);
}

/* A silent session at the base, with no events and no cues. */
static void hand_in(uint64_t base)
{
    memset(&now, 0, sizeof now);
    check(gingerfile_open(SESSION).refusal == 0, "the session is not opened");
    now.words[GINGERFILE_T] = base;
}

static uint64_t *event(uint64_t *words, size_t i) { return words + GINGERFILE_EVENTS + EVENT_WORDS * i; }
static uint64_t *cue(uint64_t *words, size_t i) { return words + GINGERFILE_CUES + CUE_WORDS * i; }

static void keep(gingerfile_report report, uint64_t steps_back)
{
    check(report.refusal == 0, "a call of the list is refused");
    report.value -= steps_back;
    now.reports[now.made++] = report;
}

/* 0 was never written. */
static void earlier(uint64_t *position, uint64_t base)
{
    if (*position != 0)
        *position -= base;
}

/* Strikes, a pedal and a release over 1,000 samples, with cues, goes and edits between; then every position in words and answers
   as if the base were 0. */
static void make_list(uint64_t base)
{
    hand_in(base);
    keep(gingerfile_cue(SESSION), 0);
    keep(insert(base + 10, GINGERFILE_STRIKE, 60), base);
    keep(insert(base + 300, GINGERFILE_PEDAL, 1), base);
    keep(insert(base + SPAN, GINGERFILE_RELEASE, 60), base);
    keep(play(450), 0);
    keep(gingerfile_cue(SESSION), 0);
    keep(play(200), 0);
    keep(insert(base + 600, GINGERFILE_STRIKE, 36), base); /* back to 450 */
    keep(play(400), 0);
    keep(go(base + 460), 0);
    keep(gingerfile_remove(SESSION, 1), base); /* the pedal: back to the base */
    keep(go(base + 900), 0);
    keep(gingerfile_cue(SESSION), 0);
    keep(play(SPAN - 900), 0);
    check(now.words[GINGERFILE_T] == base + SPAN, "the list ends elsewhere");

    /* what was removed or dropped still stands past the count, and in slots that keep nothing */
    now.words[GINGERFILE_T] -= base;
    for (size_t i = 0; i < EVENTS; i++)
        earlier(event(now.words, i), base);
    for (size_t i = 0; i < CUES; i++)
        earlier(cue(now.words, i) + 1, base);
}

/* The call is refused by this number, and nothing has changed. */
static void refused(gingerfile_report report, uint64_t number)
{
    const gingerfile_report nothing = { .refusal = number };
    check(memcmp(&report, &nothing, sizeof report) == 0, "a call is not refused by its number");
    check(memcmp(&now, &before, sizeof now) == 0, "a refused call has written something");
}

/* At the end: t is there, with cues at the end and 100 samples ahead of it. */
static void at_the_end(void)
{
    hand_in(end - 100);
    check(gingerfile_cue(SESSION).refusal == 0, "a cue is refused");
    check(insert(end - 100, GINGERFILE_STRIKE, 60).refusal == 0, "an insert is refused");
    before = now;
    refused(play(101), 11);
    check(play(100).refusal == 0 && now.words[GINGERFILE_T] == end, "a play to the end is refused");
    check(gingerfile_cue(SESSION).refusal == 0 && cue(now.words, 1)[1] == end, "a cue at the end is refused");
    check(play(0).refusal == 0, "a play of nothing at the end is refused");
    check(go(end).refusal == 0 && go(end - 50).value == 50 && go(end).value == 0, "a go at the end is refused");
    check(insert(end, GINGERFILE_STRIKE, 64).value == end, "an insert at the end is refused");
    before = now;
    refused(play(1), 11);
    refused(go(end + 1), 11);
    refused(go(UINT64_MAX), 11);
    refused(insert(end + 1, GINGERFILE_STRIKE, 64), 11);
    refused(insert(UINT64_MAX, GINGERFILE_STRIKE, 64), 11);
    const gingerfile_report back = insert(end - 1, GINGERFILE_RELEASE, 60);
    check(back.refusal == 0 && back.value == end - 100 && back.dropped == 1, "an edit does not step back from the end");
    check(gingerfile_remove(SESSION, 2).value == end - 100, "the event at the end is not removed");
}

/* From 0 every position but those of a million samples is too far for a go; an event may be put at each. */
static void from_0(void)
{
    hand_in(0);
    check(insert(end, GINGERFILE_STRIKE, 60).refusal == 0, "an insert at the end is refused");
    check(insert(former_end + 1, GINGERFILE_STRIKE, 60).refusal == 0, "an insert past the former end is refused");
    before = now;
    refused(go(former_end), 16);
    refused(go(former_end + 1), 16);
    refused(go(end), 16);
    refused(go(end + 1), 11);
    refused(insert(end + 1, GINGERFILE_STRIKE, 60), 11);
}

/* Every call refuses the words as 7. */
static void no_session(void)
{
    before = now;
    refused(play(1), 7);
    refused(gingerfile_cue(SESSION), 7);
    refused(go(0), 7);
    refused(insert(0, GINGERFILE_STRIKE, 60), 7);
    refused(gingerfile_remove(SESSION, 0), 7);
    check(gingerfile_energies(SESSION).refusal == 7, "the energies are told");
}

/* t, an event and a kept cue at the end are right; further on no sum wraps to a right one. */
static void past_the_end(void)
{
    static const uint64_t past[] = { UINT64_C(9007199254740993), UINT64_C(1) << 63, UINT64_MAX - 100, UINT64_MAX };
    hand_in(end);
    check(insert(end, GINGERFILE_STRIKE, 60).refusal == 0 && gingerfile_cue(SESSION).refusal == 0, "a record at the end is refused");
    static left right;
    right = now;
    for (size_t i = 0; i < sizeof past / sizeof *past; i++) {
        uint64_t *const places[] = { now.words + GINGERFILE_T, event(now.words, 0), cue(now.words, 0) + 1 };
        for (size_t j = 0; j < sizeof places / sizeof *places; j++) {
            now = right;
            *places[j] = past[i];
            no_session();
        }
    }
}

/* A count of all samples up to t, on the way to the end: it grows by the samples in contact, and one more would be 7. */
static void counts(void)
{
    hand_in(end - SPAN);
    now.words[GINGERFILE_CONTACT_SAMPLES] = end - SPAN;
    check(insert(end - SPAN + 10, GINGERFILE_STRIKE, 60).refusal == 0, "an insert is refused");
    const gingerfile_report played = play(SPAN);
    check(played.refusal == 0, "a play to the end is refused");
    check(played.contacts > end - SPAN && played.contacts < end, "the count does not grow by the samples in contact");
    check(now.words[GINGERFILE_CONTACT_SAMPLES] == end - SPAN, "a key that was not struck counts");
    hand_in(end - SPAN);
    now.words[GINGERFILE_CONTACT_SAMPLES] = end - SPAN + 1;
    no_session();
}

int main(int argc, char **argv)
{
    static const uint64_t bases[] = { 0, UINT64_C(2000000000) - 500, UINT64_C(2147483648) - 500, UINT64_C(4294967296) - 500,
                                      UINT64_C(1) << 52, UINT64_C(9007199254740992) - SPAN };
    enum { BASES = sizeof bases / sizeof *bases };
    read_instrument(argc, argv);
    check(GINGERFILE_END == end, "the header has another end");
    for (size_t i = 0; i < LARGEST_SCRATCH; i++)
        scratch[i] = NAN;

    for (size_t i = 0; i < BASES; i++) {
        make_list(bases[i]);
        if (i == 0)
            first = now;
        check(memcmp(now.out, first.out, sizeof now.out) == 0, "a later list has other samples");
        check(memcmp(now.trace, first.trace, sizeof now.trace) == 0, "a later list has other forces");
        check(memcmp(now.reports, first.reports, sizeof now.reports) == 0, "a later list has other answers");
        check(memcmp(now.words, first.words, sizeof now.words) == 0, "a later list has other words");
    }
    check(first.reports[CALLS - 1].contacts > 0, "no string is in contact");
    at_the_end();
    from_0();
    past_the_end();
    counts();
    printf("from C: one list from %d positions up to %" PRIu64 " gives the same; at the end, and past it 11 or 7\n", BASES,
           bases[BASES - 1]);
    return 0;
}
