// ELmD v2.0 and its block ciphers in plain C: the yardstick that the proved library is timed against.
#ifndef PLAIN_H
#define PLAIN_H

#include <endian.h>
#include <stddef.h>
#include <stdint.h>
#include <string.h>

// Sixteen bytes as two words, the first byte highest.
typedef struct {
    uint64_t hi, lo;
} block;

static inline uint64_t load64(const uint8_t *p)
{
    uint64_t x;
    memcpy(&x, p, 8);
    return be64toh(x);
}

static inline void store64(uint64_t x, uint8_t *p)
{
    x = htobe64(x);
    memcpy(p, &x, 8);
}

static inline block block_load(const uint8_t *bytes)
{
    return (block){load64(bytes), load64(bytes + 8)};
}

static inline void block_store(block b, uint8_t *bytes)
{
    store64(b.hi, bytes);
    store64(b.lo, bytes + 8);
}

enum label { AES_6 = 6, AES_10 = 10, SPECK = 32, PAPER = 255 };

typedef struct {
    uint32_t encrypt[44];
    uint32_t decrypt[44]; // with InvMixColumns applied
} aes_keys;

// A block cipher is two functions over the keys that it holds.
typedef struct cipher cipher;
struct cipher {
    block (*encrypt)(const cipher *, block);
    block (*decrypt)(const cipher *, block);
    int label;
    int is_double;
    union {
        aes_keys aes;
        uint64_t speck[32];
        block paper;
    } keys;
};

// Fills the AES tables; to be called once, before the rest.
void plain_init(void);

enum refusal {
    ACCEPTED = 0,
    WRONG_LABEL = 11,
    BAD_CHECK_DISTANCE = 12,
    BAD_CHECK_LENGTH = 13,
    BAD_TAG_LENGTH = 14,
    BAD_SPARE = 15,
    LONG_HEADING = 21,
    BAD_LENGTH = 22,
    SHORT_STREAM_ROOM = 24,
    BAD_STREAM_LENGTH = 32,
    SHORT_MESSAGE_ROOM = 37,
    BAD_CHECK = 38,
    BAD_TAG = 40,
};

// ACCEPTED, or WRONG_LABEL where no cipher has the label.
int cipher_init(cipher *c, int label, const uint8_t key[16]);

// What both ends of a message agree on.
typedef struct {
    const uint8_t *number;   // 8 bytes
    const uint8_t *settings; // 8 bytes
    const uint8_t *heading;
    size_t heading_len;
} setting;

// Each returns a refusal. Sealing writes the stream and says how long it is, and whether the last block was whole.
int elmd_seal(const cipher *c, const setting *s, const uint8_t *message, size_t n, uint8_t *out, size_t room,
              size_t *stream_len, int *mark);

// Opening writes the message. It needs room for whole blocks, and leaves zeros there if the stream is not right.
int elmd_open(const cipher *c, const setting *s, const uint8_t *stream, size_t stream_len, int mark, uint8_t *out,
              size_t room, size_t *n);

#endif
