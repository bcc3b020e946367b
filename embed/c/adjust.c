/* Weights set in an instrument's file: `adjust INSTRUMENT`. Each file that gingerfile_adjust writes is compared with one made by
   hand, byte for byte, and so are the bytes beyond it; of a refused call every byte is as it was lent. */
#include "test.h"

enum { ROOM = GINGERFILE_LONGEST_FILE + 16, LENT = 0xa5, MOST_KEYS = 16 };

static uint8_t wanted[ROOM], out[ROOM], keys[MOST_KEYS];
static size_t key_count;
static int written, refused;

/* Where a section begins, as docs/FORMAT.md has it; 0 is common, the others are the keys'. */
static size_t section(size_t index)
{
    uint32_t offset;
    memcpy(&offset, file + 4 + 8 * index, 4);
    return offset;
}

/* The index of a key; as many as there are where it is none's. */
static size_t index_of(uint8_t key)
{
    size_t k = 0;
    while (k < key_count && keys[k] != key)
        k++;
    return k;
}

/* A call with so many bytes lent; the number that it gives, and every byte, is as wanted. */
static void call(uint64_t refusal, const uint8_t *names, size_t name_count, const double *weights, size_t weight_count,
                 size_t room, const char *what)
{
    memset(out, LENT, sizeof out);
    memset(wanted, LENT, sizeof wanted);
    if (refusal == 0) {
        memcpy(wanted, file, length);
        for (size_t i = 0; i < name_count; i++)
            memcpy(wanted + section(1 + index_of(names[i])) + 4, weights + i, 8);
    }
    const gingerfile_report report =
        gingerfile_adjust(file, length, names, name_count, weights, weight_count, out, room);
    check(report.refusal == refusal && report.value == (refusal == 0 ? length : 0), what);
    check(report.dropped == 0 && report.contacts == 0, what);
    check(memcmp(out, wanted, sizeof out) == 0, what);
    *(refusal == 0 ? &written : &refused) += 1;
}

static void accepted(const uint8_t *names, const double *weights, size_t count, const char *what)
{
    call(0, names, count, weights, count, ROOM, what);
    call(0, names, count, weights, count, length, what);
    call(20, names, count, weights, count, length - 1, "one byte too few is not refused as 20");
    call(20, names, count, weights, count, 0, "no bytes are not refused as 20");
}

/* Whatever is lent. */
static void wrong(const uint8_t *names, size_t name_count, const double *weights, size_t weight_count, const char *what)
{
    call(7, names, name_count, weights, weight_count, ROOM, what);
    call(7, names, name_count, weights, weight_count, length - 1, what);
    call(7, names, name_count, weights, weight_count, 0, what);
}

static void set_weights(void)
{
    const double good[] = {0.0, -0.0, 5e-324, 0.25, 1.0, 100.0}, bad[] = {NAN, -5e-324, -1.0, 100.5, INFINITY, -INFINITY};
    double all[MOST_KEYS];
    accepted(keys, good, 0, "no pair changes the file");
    for (size_t i = 0; i < sizeof good / sizeof *good; i++) {
        for (size_t k = 0; k < key_count; k++) {
            accepted(keys + k, good + i, 1, "a weight is not set as by hand");
            wrong(keys + k, 1, bad + i, 1, "a wrong weight is not refused as 7");
            all[k] = good[(i + k) % (sizeof good / sizeof *good)];
        }
        accepted(keys, all, key_count, "all weights are not set as by hand");
        all[key_count - 1] = bad[i];
        wrong(keys, key_count, all, key_count, "a wrong weight at the end is not refused as 7");
    }
}

static void name_keys(void)
{
    const double two[] = {0.75, 0.5};
    const uint8_t twice[] = {keys[0], keys[0]};
    uint8_t none = 0;
    while (index_of(none) < key_count)
        none++;
    const uint8_t one_wrong[] = {keys[0], none};
    accepted(twice, two, 2, "the later weight does not stand");
    wrong(&none, 1, two, 1, "a key that is not there is not refused as 7");
    wrong(one_wrong, 2, two, 2, "a second key that is not there is not refused as 7");
    wrong(twice, 2, two, 1, "fewer weights than keys are not refused as 7");
    wrong(twice, 1, two, 2, "more weights than keys are not refused as 7");
}

/* A file that is none's is refused for that, whatever else is wrong. */
static void spoil_file(void)
{
    const double weight = NAN;
    file[0] = 0;
    call(1, keys, 1, &weight, 1, 0, "a file without sections is not refused as 1");
    file[0] = (uint8_t)(key_count + 1);
    file[section(1) + 3] = 1;
    call(4, keys, 1, &weight, 1, 0, "a fourth byte of 1 is not refused as 4");
    file[section(1) + 3] = 0;
}

/* The new file is an instrument's like any other: it has the same sizes, and the old weights make the old file of it. */
static void there_and_back(void)
{
    double weights[MOST_KEYS], old[MOST_KEYS];
    uint8_t again[ROOM];
    for (size_t k = 0; k < key_count; k++) {
        weights[k] = 3.0 + (double)k;
        memcpy(old + k, file + section(k + 1) + 4, 8);
    }
    call(0, keys, key_count, weights, key_count, ROOM, "all weights are not set");
    const gingerfile_sizes sizes = gingerfile_read(file, length), others = gingerfile_read(out, length);
    check(memcmp(&sizes, &others, sizeof sizes) == 0, "the new file asks for something else");
    const gingerfile_report back = gingerfile_adjust(out, length, keys, key_count, old, key_count, again, ROOM);
    check(back.refusal == 0 && back.value == length && memcmp(again, file, length) == 0, "the old weights give another file");
}

int main(int argc, char **argv)
{
    read_instrument(argc, argv);
    key_count = sizes.keys;
    for (size_t k = 0; k < key_count; k++)
        keys[k] = file[section(k + 1)];

    set_weights();
    name_keys();
    spoil_file();
    there_and_back();
    printf("from C: %d files with other weights, as by hand; %d calls refused, with no byte written\n", written, refused);
    return 0;
}
