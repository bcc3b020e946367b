/* How much stack each call takes: `stack`. It prints the bytes that a call touches below the frame it is made in, the most of
   two instruments, the largest there is and the least; then it makes every call on a stack of GINGERFILE_STACK bytes with a page
   below it that cannot be touched, and on a thread of GINGERFILE_THREAD bytes. It ends with 1 where one has no room.

   Each call is the first that its process makes of the library, so that the C library's way of finding memcpy is in it. */
#define _GNU_SOURCE
#include "gingerfile.h"
#include <math.h>
#include <pthread.h>
#include <signal.h>
#include <stdio.h>
#include <stdlib.h>
#include <string.h>
#include <sys/mman.h>
#include <sys/wait.h>
#include <ucontext.h>
#include <unistd.h>

enum { PAGE = 4096, WIDE = 256 * 1024, PAINT = 0xa5 };

/* All that the calls are lent; the processes share it. */
static struct {
    uint8_t file[4096];
    size_t length, key_count, work_length, scratch_length, touched;
    uint64_t words[GINGERFILE_WORDS], refusal;
    double work[5 * 32 * (2 * 2000 + 2 * 66 + 5)], scratch[32], out[64], trace[64];
    double x[640], taps[127], decimated[10], weights[16];
    uint8_t keys[16], adjusted[GINGERFILE_LONGEST_FILE];
} *lent;

#define SESSION lent->file, lent->length, lent->words, GINGERFILE_WORDS, lent->work, lent->work_length
#define SCRATCH lent->scratch, lent->scratch_length

/* ---- an instrument file, as docs/FORMAT.md has it */

static void put(const void *bytes, size_t count)
{
    memcpy(lent->file + lent->length, bytes, count);
    lent->length += count;
}

static void put_pair(uint32_t offset, uint32_t length)
{
    put(&offset, 4);
    put(&length, 4);
}

static void put_instrument(uint32_t keys, uint8_t strings, uint16_t n, uint16_t stages)
{
    const double common[9] = {48000, 7.5, 0.009, 1e7, 0.1, 2e-5, 0.0012, 1, 0.02};
    const double key[4] = {0.3, 1, 0.12, 0.3}, string[5] = {3, 0.1, -0.6, 0.998, 0.1};
    /* 19 quarters: no other exponent has as deep a power with both roots */
    const uint32_t sections = keys + 1, h = 256 + 19, first = 4 + 8 * sections, size = 36 + 44 * strings;
    lent->length = 0;
    lent->key_count = keys;
    put(&sections, 4);
    put_pair(first, 76);
    for (uint32_t k = 0; k < keys; k++)
        put_pair(first + 76 + k * size, size);
    put(common, sizeof common);
    put(&h, 4);
    for (uint32_t k = 0; k < keys; k++) {
        const uint8_t head[4] = {(uint8_t)(40 + k), 1, strings, 0};
        lent->keys[k] = head[0];
        put(head, 4);
        put(key, sizeof key);
        for (uint8_t s = 0; s < strings; s++) {
            put(&n, 2);
            put(&stages, 2);
            put(string, sizeof string);
        }
    }
}

/* ---- the calls, each on a session in contact with a cue behind it and an event between the two */

static void call_read(void) { lent->refusal = gingerfile_read(lent->file, lent->length).refusal; }
static void call_open(void) { lent->refusal = gingerfile_open(SESSION).refusal; }
static void call_play(void) { lent->refusal = gingerfile_play(SESSION, SCRATCH, lent->out, 64, lent->trace, 64).refusal; }
static void call_cue(void) { lent->refusal = gingerfile_cue(SESSION).refusal; }
static void call_go(void) { lent->refusal = gingerfile_go(SESSION, SCRATCH, 40).refusal; }
static void call_insert(void) { lent->refusal = gingerfile_insert(SESSION, 35, GINGERFILE_STRIKE, 40, 2.0).refusal; }
static void call_remove(void) { lent->refusal = gingerfile_remove(SESSION, 1).refusal; }
static void call_energies(void) { lent->refusal = gingerfile_energies(SESSION).refusal; }
static void call_adjust(void)
{
    const size_t count = lent->key_count;
    lent->refusal = gingerfile_adjust(lent->file, lent->length, lent->keys, count, lent->weights, count, lent->adjusted,
                                      GINGERFILE_LONGEST_FILE).refusal;
}
static void call_decimated(void) { lent->refusal = gingerfile_decimated(640, 64) != 10; }
static void call_decimate(void)
{
    lent->refusal = gingerfile_decimate(lent->x, 640, lent->taps, 127, 64, lent->decimated, 10);
}

static const struct {
    const char *name;
    void (*make)(void);
} calls[] = {{"read", call_read},         {"open", call_open},     {"play", call_play},
             {"cue", call_cue},           {"go", call_go},         {"insert", call_insert},
             {"remove", call_remove},     {"energies", call_energies}, {"adjust", call_adjust},
             {"decimated", call_decimated}, {"decimate", call_decimate}};

enum { CALLS = sizeof calls / sizeof *calls };

static void fail(const char *what, const char *name)
{
    fprintf(stderr, "stack: %s: %s\n", name, what);
    _exit(1);
}

static void accepted(const char *name)
{
    if (lent->refusal != 0)
        fail("the call was refused", name);
}

static void prepare(void)
{
    const gingerfile_sizes sizes = gingerfile_read(lent->file, lent->length);
    lent->work_length = sizes.work;
    lent->scratch_length = sizes.scratch;
    for (size_t i = 0; i < sizes.scratch; i++)
        lent->scratch[i] = NAN;
    call_open();
    accepted("open");
    gingerfile_insert(SESSION, 0, GINGERFILE_STRIKE, 40, 3.0);
    gingerfile_insert(SESSION, 36, GINGERFILE_PEDAL, 1, 0.0);
    gingerfile_go(SESSION, SCRATCH, 30);
    call_cue();
    accepted("cue");
    lent->refusal = gingerfile_go(SESSION, SCRATCH, 50).refusal;
    accepted("go");
}

/* ---- a stack of its own */

static ucontext_t here, there;
static unsigned char *low;
static const char *name_now;
static void (*make_now)(void);

/* Paint is looked at here, so that neither the way in nor the way out counts. */
static void entry(void)
{
    const unsigned char *top = __builtin_frame_address(0);
    const unsigned char *lowest = low;
    make_now();
    while (lowest < top && *lowest == PAINT)
        lowest++;
    if ((size_t)(top - lowest) > lent->touched)
        lent->touched = top - lowest;
}

static void no_room(int number)
{
    (void)number;
    fail("no room for the call", name_now);
}

/* Makes a call on a stack of `size` bytes, below which nothing can be touched. */
static void call_on(size_t size)
{
    static unsigned char aside[65536];
    const stack_t other = {.ss_sp = aside, .ss_size = sizeof aside};
    struct sigaction action = {.sa_handler = no_room, .sa_flags = SA_ONSTACK};
    unsigned char *pages = mmap(NULL, PAGE + size, PROT_READ | PROT_WRITE, MAP_PRIVATE | MAP_ANONYMOUS, -1, 0);
    if (pages == MAP_FAILED || mprotect(pages, PAGE, PROT_NONE) != 0 || sigaltstack(&other, NULL) != 0 ||
        sigaction(SIGSEGV, &action, NULL) != 0 || getcontext(&there) != 0)
        fail("no memory for a stack", name_now);
    low = pages + PAGE;
    for (volatile unsigned char *cell = low; cell < low + size; cell++)
        *cell = PAINT;
    there.uc_stack.ss_sp = low;
    there.uc_stack.ss_size = size;
    there.uc_link = &here;
    makecontext(&there, entry, 0);
    swapcontext(&here, &there);
    accepted(name_now);
}

static void wide_call(void) { call_on(WIDE); }
static void promised_call(void) { call_on(GINGERFILE_STACK); }

static void *thread_main(void *nothing)
{
    make_now();
    return nothing;
}

static void thread_call(void)
{
    pthread_attr_t attributes;
    pthread_t thread;
    if (pthread_attr_init(&attributes) != 0 || pthread_attr_setstacksize(&attributes, GINGERFILE_THREAD) != 0 ||
        pthread_create(&thread, &attributes, thread_main, NULL) != 0 || pthread_join(thread, NULL) != 0)
        fail("no thread", name_now);
    accepted(name_now);
}

/* In a process of its own, which has made no call. */
static void in_process(void (*work)(void))
{
    int status;
    const pid_t child = fork();
    if (child == 0) {
        work();
        _exit(0);
    }
    if (child < 0 || waitpid(child, &status, 0) != child || status != 0)
        fail("it has no room, or was refused", name_now);
}

static void largest(void) { put_instrument(16, 2, 2000, 66); }
static void least(void) { put_instrument(1, 1, 4, 0); }

int main(void)
{
    void (*const instruments[])(void) = {largest, least};
    lent = mmap(NULL, sizeof *lent, PROT_READ | PROT_WRITE, MAP_SHARED | MAP_ANONYMOUS, -1, 0);
    if (lent == MAP_FAILED)
        return 1;
    int within = 1;
    printf("bytes of stack:");
    for (int i = 0; i < CALLS; i++) {
        name_now = calls[i].name;
        make_now = calls[i].make;
        lent->touched = 0;
        for (int k = 0; k < 2; k++) {
            in_process(instruments[k]);
            in_process(prepare);
            in_process(wide_call);
            in_process(prepare);
            in_process(promised_call);
            in_process(prepare);
            in_process(thread_call);
        }
        printf(" %s %zu%s", name_now, lent->touched, i + 1 < CALLS ? "," : "\n");
        fflush(stdout);
        within = within && lent->touched <= GINGERFILE_STACK;
    }
    printf("each made on a stack of %d bytes, and on a thread of %d\n", GINGERFILE_STACK, GINGERFILE_THREAD);
    return within ? 0 : 1;
}
