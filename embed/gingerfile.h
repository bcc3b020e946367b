/* The rehearsal piano for C: libgingerfile.a, made by `scripts/build gingerfile`. Numbers and slices alone cross; a slice is
   a pointer and a length in elements. Slices of one call must not overlap. Nothing is kept between calls: the host owns the
   instrument's file, the session's words and the work memory, and hands them to every call.

   Every call answers a refusal's number, 0 for none. A refused call changes nothing, scratch neither, and the other numbers of
   its answer are 0. An accepted play or go leaves in scratch what it likes.
   docs/EMBEDDING.md is the page for hosts.

   A host sees to three things.

   Floats   rounded to nearest, and subnormal numbers neither flushed to zero nor taken as zeros: audio hosts often set that.
            Otherwise samples, forces and counts are not the proved ones. The library does not set it itself. At the start of
            a thread, or around the calls: _mm_setcsr(0x1f80) of <xmmintrin.h>; or one by one fesetround(FE_TONEAREST),
            _MM_SET_FLUSH_ZERO_MODE(_MM_FLUSH_ZERO_OFF) and _MM_SET_DENORMALS_ZERO_MODE(_MM_DENORMALS_ZERO_OFF).
   Stack    GINGERFILE_STACK bytes below the frame that a call is made in, which is more than any call was measured to take:
            read 18,488, adjust 19,048, open 23,560, energies 36,744, cue 36,888, insert 39,400, play 39,960, remove 42,648,
            go 43,416, decimate 96. embed/c/stack.c measures them, and makes each call with exactly the promised stack.
   Threads  any number of them may make calls at the same time, each on its own words, work, scratch, output and trace; the
            instrument's file is only read and may be shared. A call allocates nothing, takes no lock and makes no system call.

   Refusals, of which a call tests those that concern it in this order:

    1 to 6  the file: table, chain, lengths, fields, over 32 strings, a key twice
    7       the words are no session's on this instrument, or an event's numbers no event's; words kept by an earlier version,
            541 with one count for all keys, are none. Of gingerfile_adjust: there are not as many weights as keys, the instrument has
            no such key, or a weight that is to stand is NaN or outside 0 to 100
    8       work memory has fewer cells than gingerfile_read says
    9       scratch has fewer cells than gingerfile_read says, which is one for each string
   10       the trace is shorter than the output
   11       t + m, p or a position exceeds GINGERFILE_END
   12       the score has 64 events
   13       a velocity is NaN or outside -100 to 100
   14       the index has no event
   15       four other cues are kept
   16       a go would replay more than 1,000,000 samples
   17       the factor exceeds 64 or the input 1,048,576 samples
   18       there are not 127 taps
   19       the decimator's output has another length than gingerfile_decimated says
   20       the bytes lent for a file are fewer than it has */
#ifndef GINGERFILE_H
#define GINGERFILE_H

#include <stddef.h>
#include <stdint.h>

#ifdef __cplusplus
extern "C" {
#endif

/* A session's words, one a number: the position t, the number of events, 64 events, four cues, the piano now. A host may
   read them, keep copies of them and make its own. Words of another number than 616, or that are no session's, are refused as 7.

   Flags are 0 or 1. Any NaN is read as NaN, whatever its bits. These may hold anything: events past the number of events, a cue
   that is not kept, the words of a hammer that does not fly, the velocity of an event that is not a strike, and what is said
   of counts below. An accepted call writes all words, so these then hold what the library puts there.

   616 zeros are a session: at position 0, with no events and no cues. So words that no call has written may pass, and the work
   memory is then taken as the strings' state, whatever it holds; gingerfile_open writes both. */
enum {
    GINGERFILE_WORDS = 616,
    GINGERFILE_T = 0,
    GINGERFILE_COUNT = 1,
    /* Events of 4 words: position, kind, key, and a strike's velocity by its bits. They stand by position; those of one
       position by kind, a release first, then a hand damp, a pedal move and a strike; those of one kind as they were added. */
    GINGERFILE_EVENTS = 2,
    /* Cues of 72 words: 1 where one is kept, its position, its piano. */
    GINGERFILE_CUES = 258,
    /* The piano now, 70 words: 16 held, 16 hand-damped, 16 damper resistances, 16 contact samples, the pedal, whether a hammer
       flies, its key's index, its place and speed, peak force; floats by their bits. */
    GINGERFILE_PIANO = 546,
    /* The contact samples of the piano now, 16 words, one a key in the file's order: the samples up to t on which the hammer that
       struck the key was in contact. Where the sum over the instrument's keys is above t, or that of a kept cue above its
       position, the words are refused as 7. Counts past the instrument's keys may be anything and decide nothing. */
    GINGERFILE_CONTACT_SAMPLES = 594
};

/* The last position, 2 to the power of 53, so that a double has every position too. Positions and counts are of 64 bits. */
#define GINGERFILE_END UINT64_C(9007199254740992)

/* Bytes of stack that every call has room in, below the frame that it is made in; and what to give a thread that makes calls,
   which has its own needs beside them. */
enum { GINGERFILE_STACK = 53248, GINGERFILE_THREAD = 65536 };

/* Bytes of the longest file that an instrument has: 16 keys and 32 strings. */
enum { GINGERFILE_LONGEST_FILE = 2200 };

/* Kinds of an event; the pedal's key is 1 for down, 0 for up. The numbers do not say which acts first. */
enum { GINGERFILE_STRIKE = 0, GINGERFILE_RELEASE = 1, GINGERFILE_PEDAL = 2, GINGERFILE_HAND_DAMP = 3 };

typedef struct {
    uint64_t refusal;
    /* play: the number of forces; go: the number of samples replayed; insert and remove: t; adjust: the new file's bytes. */
    uint64_t value;
    /* insert and remove: the number of cues dropped. */
    uint64_t dropped;
    /* play: the contact samples of all keys at the position after it. */
    uint64_t contacts;
} gingerfile_report;

typedef struct {
    uint64_t refusal;
    /* Samples a second. */
    double fs;
    size_t keys;
    size_t strings;
    /* GINGERFILE_WORDS, cells of work memory, cells of scratch: one for each string. */
    size_t words;
    size_t work;
    size_t scratch;
} gingerfile_sizes;

/* What an instrument file asks of its player. Refuses 1 to 6. */
gingerfile_sizes gingerfile_read(const uint8_t *file, size_t file_length);

/* A session in silence at position 0, with no events and no cues. Words and work may hold anything before. Refuses 1 to 8. */
gingerfile_report gingerfile_open(const uint8_t *file, size_t file_length, uint64_t *words, size_t words_length, double *work,
                                 size_t work_length);

/* Renders as many samples as `out` has; the first forces of `trace` are those of the samples with a hammer. Answers how many there
   are, and the contact samples of all keys. Refuses 1 to 11. */
gingerfile_report gingerfile_play(const uint8_t *file, size_t file_length, uint64_t *words, size_t words_length, double *work,
                                 size_t work_length, double *scratch, size_t scratch_length, double *out,
                                 size_t out_length, double *trace, size_t trace_length);

/* Keeps the state at t; no change where t is kept already. Refuses 1 to 8 and 15. */
gingerfile_report gingerfile_cue(const uint8_t *file, size_t file_length, uint64_t *words, size_t words_length, double *work,
                                size_t work_length);

/* To position p, from the nearest of 0, the kept cues and t. Refuses 1 to 9, 11 and 16. */
gingerfile_report gingerfile_go(const uint8_t *file, size_t file_length, uint64_t *words, size_t words_length, double *work,
                               size_t work_length, double *scratch, size_t scratch_length, uint64_t p);

/* Places an event after all of earlier position, and at its own position after those of its kind and of the kinds that act
   before it. `velocity` counts for a strike alone. Refuses 1 to 8 and 11 to 13. */
gingerfile_report gingerfile_insert(const uint8_t *file, size_t file_length, uint64_t *words, size_t words_length,
                                   double *work, size_t work_length, uint64_t position, uint64_t kind, uint64_t key,
                                   double velocity);

/* Removes the event at an index from 0. Refuses 1 to 8 and 14. */
gingerfile_report gingerfile_remove(const uint8_t *file, size_t file_length, uint64_t *words, size_t words_length,
                                   double *work, size_t work_length, size_t index);

typedef struct {
    uint64_t refusal;
    /* The keys, in the file's order; zeros past them. */
    size_t count;
    double energies[16];
    uint8_t keys[16];
} gingerfile_key_energies;

/* Each key's energy now. Nothing is written. Refuses 1 to 8. */
gingerfile_key_energies gingerfile_energies(const uint8_t *file, size_t file_length, const uint64_t *words,
                                            size_t words_length, const double *work, size_t work_length);

/* Writes the instrument's file anew with other weights into `out`: key keys[i] gets weights[i], and where a key comes twice the later
   weight stands. Answers the new file's length, at most GINGERFILE_LONGEST_FILE; bytes of `out` beyond it stay as they were.
   Refuses 1 to 7 and 20. */
gingerfile_report gingerfile_adjust(const uint8_t *file, size_t file_length, const uint8_t *keys, size_t keys_length,
                                    const double *weights, size_t weights_length, uint8_t *out, size_t out_length);

/* How many samples the decimator makes of n. */
size_t gingerfile_decimated(size_t n, size_t factor);

/* Every factor-th sample of x behind 127 taps; a copy for factor 0 or 1. Gives the refusal's number: 17 to 19. */
uint64_t gingerfile_decimate(const double *x, size_t x_length, const double *taps, size_t taps_length, size_t factor,
                             double *out, size_t out_length);

#ifdef __cplusplus
}
#endif

#endif
