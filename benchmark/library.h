// What the proved library exports, as `rt lib` builds it in the crate's folder: a slice crosses as a pointer and a length.
// bench.c calls the four library_* functions only; fit what stands above them to the crate's exports.
#ifndef LIBRARY_H
#define LIBRARY_H

#include "plain.h"

// The cipher is picked by its label, and its keys are worked out in each call.
// The first works on whole blocks in place. The others answer a length, or 0 for any refusal.
extern void proved_blocks(uint8_t label, uint8_t forth, const uint8_t *key, size_t key_len, uint8_t *data, size_t len);
extern size_t proved_seal(uint8_t label, const uint8_t *key, size_t key_len, const uint8_t *settings, size_t settings_len,
                        const uint8_t *nonce, size_t nonce_len, const uint8_t *heading, size_t heading_len,
                        const uint8_t *message, size_t n, uint8_t *out, size_t room);
extern size_t proved_open(uint8_t label, const uint8_t *key, size_t key_len, const uint8_t *settings, size_t settings_len,
                        const uint8_t *nonce, size_t nonce_len, const uint8_t *heading, size_t heading_len,
                        const uint8_t *stream, size_t len, uint8_t mark, uint8_t *out, size_t room);

static void library_encrypt(int label, const uint8_t *key, uint8_t *data, size_t len)
{
    proved_blocks((uint8_t)label, 1, key, 16, data, len);
}

static void library_decrypt(int label, const uint8_t *key, uint8_t *data, size_t len)
{
    proved_blocks((uint8_t)label, 0, key, 16, data, len);
}

static size_t library_seal(int label, const uint8_t *key, const setting *s, const uint8_t *message, size_t n,
                           uint8_t *out, size_t room)
{
    return proved_seal((uint8_t)label, key, 16, s->settings, 8, s->number, 8, s->heading, s->heading_len, message, n,
                     out, room);
}

static size_t library_open(int label, const uint8_t *key, const setting *s, const uint8_t *stream, size_t len, int mark,
                           uint8_t *out, size_t room)
{
    return proved_open((uint8_t)label, key, 16, s->settings, 8, s->number, 8, s->heading, s->heading_len, stream, len,
                     (uint8_t)mark, out, room);
}

#endif
