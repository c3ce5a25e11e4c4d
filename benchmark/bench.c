// Times the block ciphers and the mode: the plain C beside the proved library, where that is linked (-DLIBRARY).
#include "plain.h"

#include <stdio.h>
#include <stdlib.h>
#include <string.h>
#include <time.h>

#ifdef LIBRARY
#include "library.h"
#endif

enum { RUNS = 15, LARGEST = 1 << 20, ROOM = 2 * LARGEST + 64 };
static const double RUN_SECONDS = 0.02;

// One implementation. Each call works out the cipher's keys anew; a length of 0 is a refusal.
typedef struct {
    void (*encrypt)(int label, const uint8_t *key, uint8_t *data, size_t len);
    void (*decrypt)(int label, const uint8_t *key, uint8_t *data, size_t len);
    size_t (*seal)(int label, const uint8_t *key, const setting *s, const uint8_t *message, size_t n, uint8_t *out,
                   size_t room);
    size_t (*open)(int label, const uint8_t *key, const setting *s, const uint8_t *stream, size_t len, int mark,
                   uint8_t *out, size_t room);
} implementation;

static void plain_encrypt(int label, const uint8_t *key, uint8_t *data, size_t len)
{
    cipher c;
    if (cipher_init(&c, label, key))
        return;
    for (size_t i = 0; i + 16 <= len; i += 16)
        block_store(c.encrypt(&c, block_load(data + i)), data + i);
}

static void plain_decrypt(int label, const uint8_t *key, uint8_t *data, size_t len)
{
    cipher c;
    if (cipher_init(&c, label, key))
        return;
    for (size_t i = 0; i + 16 <= len; i += 16)
        block_store(c.decrypt(&c, block_load(data + i)), data + i);
}

static size_t plain_seal(int label, const uint8_t *key, const setting *s, const uint8_t *message, size_t n,
                         uint8_t *out, size_t room)
{
    cipher c;
    size_t len;
    int mark;
    if (cipher_init(&c, label, key) || elmd_seal(&c, s, message, n, out, room, &len, &mark))
        return 0;
    return len;
}

static size_t plain_open(int label, const uint8_t *key, const setting *s, const uint8_t *stream, size_t len, int mark,
                         uint8_t *out, size_t room)
{
    cipher c;
    size_t n;
    if (cipher_init(&c, label, key) || elmd_open(&c, s, stream, len, mark, out, room, &n))
        return 0;
    return n;
}

static const implementation plain = {plain_encrypt, plain_decrypt, plain_seal, plain_open};
#ifdef LIBRARY
static const implementation library = {library_encrypt, library_decrypt, library_seal, library_open};
#endif

enum operation { ENCRYPT, DECRYPT, SEAL, OPEN };
static const char *const operation_names[] = {"E", "D", "seal", "open"};

// What one case works on: whole blocks, so that the mark is 1.
typedef struct {
    int label;
    enum operation operation;
    size_t size;
    const uint8_t *key;
    setting setting;
    const uint8_t *message;
    const uint8_t *stream;
    size_t stream_len;
} task;

// Works the task into out, and says how many bytes came out. E and D go on from what out holds.
static size_t perform(const implementation *with, const task *t, uint8_t *out)
{
    switch (t->operation) {
    case ENCRYPT:
        with->encrypt(t->label, t->key, out, t->size);
        return t->size;
    case DECRYPT:
        with->decrypt(t->label, t->key, out, t->size);
        return t->size;
    case SEAL:
        return with->seal(t->label, t->key, &t->setting, t->message, t->size, out, ROOM);
    default:
        return with->open(t->label, t->key, &t->setting, t->stream, t->stream_len, 1, out, ROOM);
    }
}

static double seconds(void)
{
    struct timespec now;
    clock_gettime(CLOCK_MONOTONIC, &now);
    return (double)now.tv_sec + (double)now.tv_nsec * 1e-9;
}

static double timed(const implementation *with, const task *t, uint8_t *out, size_t times)
{
    double start = seconds();
    for (size_t i = 0; i < times; i++)
        perform(with, t, out);
    return seconds() - start;
}

// How often to repeat the task for a run that is long enough to time.
static size_t repeats(const implementation *with, const task *t, uint8_t *out)
{
    size_t times = 1;
    while (timed(with, t, out, times) < RUN_SECONDS)
        times *= 2;
    return times;
}

// Megabytes of message a second, in a run.
static double speed(const implementation *with, const task *t, uint8_t *out, size_t times)
{
    return (double)t->size * (double)times / timed(with, t, out, times) / 1e6;
}

static double larger(double a, double b)
{
    return a < b ? b : a;
}

static void fail(const task *t, const char *what)
{
    fprintf(stderr, "cipher %d, %s, %zu bytes: %s\n", t->label, operation_names[t->operation], t->size, what);
    exit(1);
}

static uint8_t message[LARGEST], stream[ROOM], out[ROOM], expected[ROOM];

static void report(const char *cipher_name, const task *t)
{
    memcpy(expected, t->message, t->size);
    size_t len = perform(&plain, t, expected);
    if (len == 0 || (t->operation == OPEN && (len != t->size || memcmp(expected, t->message, len) != 0)))
        fail(t, "the plain C is wrong");
#ifdef LIBRARY
    memcpy(out, t->message, t->size);
    if (perform(&library, t, out) != len || memcmp(out, expected, len) != 0)
        fail(t, "the library's answer is another");
#endif
    // in turn, so that a busy moment of the machine hits both
    double base = 0, rate = 0;
    size_t base_times = repeats(&plain, t, out);
#ifdef LIBRARY
    size_t times = repeats(&library, t, out);
#endif
    for (int run = 0; run < RUNS; run++) {
        base = larger(base, speed(&plain, t, out, base_times));
#ifdef LIBRARY
        rate = larger(rate, speed(&library, t, out, times));
#endif
    }
    printf("%-7s %-5s %8zu %12.1f", cipher_name, operation_names[t->operation], t->size, base);
    if (rate > 0)
        printf(" %12.1f %8.2f", rate, rate / base);
    puts("");
    fflush(stdout);
}

int main(void)
{
    static const struct {
        int label;
        const char *name;
    } ciphers[] = {{AES_10, "AES-10"}, {AES_6, "AES-6"}, {SPECK, "Speck"}};
    static const size_t sizes[] = {64, 4096, LARGEST};
    static const uint8_t key[16] = {0, 1, 2, 3, 4, 5, 6, 7, 8, 9, 10, 11, 12, 13, 14, 15}, number[8] = {1};
    static const uint8_t heading[] = "a heading of some bytes";

    plain_init();
    for (size_t i = 0; i < sizeof message; i++)
        message[i] = (uint8_t)(i * 167 + i / 256);
    printf("%-7s %-5s %8s %12s", "cipher", "", "bytes", "plain MB/s");
#ifdef LIBRARY
    printf(" %12s %8s", "library MB/s", "ratio");
#endif
    puts("");
    for (size_t c = 0; c < sizeof ciphers / sizeof *ciphers; c++) {
        // a check behind each 127 blocks, the tag whole
        const uint8_t settings[8] = {(uint8_t)ciphers[c].label, 0, 127, 0, 128, 0, 0, 0};
        for (enum operation o = ENCRYPT; o <= OPEN; o++) {
            for (size_t i = 0; i < sizeof sizes / sizeof *sizes; i++) {
                task t = {ciphers[c].label,
                          o,
                          sizes[i],
                          key,
                          {number, settings, heading, sizeof heading - 1},
                          message,
                          stream,
                          0};
                t.stream_len = plain_seal(t.label, key, &t.setting, message, t.size, stream, sizeof stream);
                report(ciphers[c].name, &t);
            }
        }
    }
    return 0;
}
