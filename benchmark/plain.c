#include "plain.h"

// Blocks

// The n bytes of a short block, then 80 and zeros.
static block load_short(const uint8_t *bytes, size_t n)
{
    uint8_t b[16] = {0};
    memcpy(b, bytes, n);
    b[n] = 0x80;
    return block_load(b);
}

static block xor(block a, block b)
{
    return (block){a.hi ^ b.hi, a.lo ^ b.lo};
}

// Doubling and halving in GF(2^128) with x^128 + x^7 + x^2 + x + 1.
static block twice(block a)
{
    return (block){a.hi << 1 | a.lo >> 63, a.lo << 1 ^ (a.hi >> 63) * 0x87};
}

static block half(block a)
{
    uint64_t odd = a.lo & 1;
    a.lo ^= odd * 0x87;
    return (block){a.hi >> 1 | odd << 63, a.lo >> 1 | a.hi << 63};
}

static block times3(block a)
{
    return xor(twice(a), a);
}

static block times5(block a)
{
    return xor(twice(twice(a)), a);
}

static block times7(block a)
{
    return xor(twice(times3(a)), a);
}

// AES-128, a column to a word, with a table for each byte of a column

static uint8_t sbox[256], inv_sbox[256];
static uint32_t te[4][256], td[4][256];

static uint8_t xtime(uint8_t a)
{
    return (uint8_t)(a << 1 ^ (a >> 7) * 0x1b);
}

static uint8_t rotl8(uint8_t a, int n)
{
    return (uint8_t)(a << n | a >> (8 - n));
}

static uint32_t ror32(uint32_t a, int n)
{
    return n ? a >> n | a << (32 - n) : a;
}

void plain_init(void)
{
    // p runs over the powers of 3, q over those of its inverse
    uint8_t p = 1, q = 1;
    do {
        p = p ^ xtime(p);
        q ^= (uint8_t)(q << 1);
        q ^= (uint8_t)(q << 2);
        q ^= (uint8_t)(q << 4);
        q ^= (q >> 7) * 0x09;
        sbox[p] = q ^ rotl8(q, 1) ^ rotl8(q, 2) ^ rotl8(q, 3) ^ rotl8(q, 4) ^ 0x63;
    } while (p != 1);
    sbox[0] = 0x63;
    for (int i = 0; i < 256; i++)
        inv_sbox[sbox[i]] = (uint8_t)i;
    for (int i = 0; i < 256; i++) {
        uint8_t s = sbox[i], s2 = xtime(s);
        uint32_t e = (uint32_t)s2 << 24 | (uint32_t)s << 16 | (uint32_t)s << 8 | (uint8_t)(s2 ^ s);
        uint8_t r = inv_sbox[i], r2 = xtime(r), r4 = xtime(r2), r8 = xtime(r4);
        uint32_t d = (uint32_t)(r8 ^ r4 ^ r2) << 24 | (uint32_t)(r8 ^ r) << 16 | (uint32_t)(r8 ^ r4 ^ r) << 8 |
                     (uint8_t)(r8 ^ r2 ^ r);
        for (int k = 0; k < 4; k++) {
            te[k][i] = ror32(e, 8 * k);
            td[k][i] = ror32(d, 8 * k);
        }
    }
}

static uint32_t inv_mix_column(uint32_t w)
{
    return td[0][sbox[w >> 24]] ^ td[1][sbox[w >> 16 & 255]] ^ td[2][sbox[w >> 8 & 255]] ^ td[3][sbox[w & 255]];
}

static void aes_schedule(aes_keys *k, const uint8_t key[16])
{
    uint32_t *w = k->encrypt;
    for (int i = 0; i < 4; i++)
        w[i] = (uint32_t)key[4 * i] << 24 | (uint32_t)key[4 * i + 1] << 16 | (uint32_t)key[4 * i + 2] << 8 | key[4 * i + 3];
    uint8_t rcon = 1;
    for (int i = 4; i < 44; i++) {
        uint32_t t = w[i - 1];
        if (i % 4 == 0) {
            t = (uint32_t)(sbox[t >> 16 & 255] ^ rcon) << 24 | (uint32_t)sbox[t >> 8 & 255] << 16 |
                (uint32_t)sbox[t & 255] << 8 | sbox[t >> 24];
            rcon = xtime(rcon);
        }
        w[i] = w[i - 4] ^ t;
    }
    for (int i = 0; i < 44; i++)
        k->decrypt[i] = inv_mix_column(w[i]);
}

typedef struct {
    uint32_t w[4];
} columns;

static columns split(block b)
{
    return (columns){{(uint32_t)(b.hi >> 32), (uint32_t)b.hi, (uint32_t)(b.lo >> 32), (uint32_t)b.lo}};
}

static block join(columns s)
{
    return (block){(uint64_t)s.w[0] << 32 | s.w[1], (uint64_t)s.w[2] << 32 | s.w[3]};
}

static columns add_key(columns s, const uint32_t *k)
{
    return (columns){{s.w[0] ^ k[0], s.w[1] ^ k[1], s.w[2] ^ k[2], s.w[3] ^ k[3]}};
}

// SubBytes, ShiftRows, MixColumns, AddRoundKey
static columns forward_round(columns s, const uint32_t *k)
{
#define COLUMN(a, b, c, d)                                                                                             \
    te[0][s.w[a] >> 24] ^ te[1][s.w[b] >> 16 & 255] ^ te[2][s.w[c] >> 8 & 255] ^ te[3][s.w[d] & 255]
    return add_key((columns){{COLUMN(0, 1, 2, 3), COLUMN(1, 2, 3, 0), COLUMN(2, 3, 0, 1), COLUMN(3, 0, 1, 2)}}, k);
#undef COLUMN
}

// InvSubBytes, InvShiftRows, InvMixColumns, AddRoundKey
static columns backward_round(columns s, const uint32_t *k)
{
#define COLUMN(a, b, c, d)                                                                                             \
    td[0][s.w[a] >> 24] ^ td[1][s.w[b] >> 16 & 255] ^ td[2][s.w[c] >> 8 & 255] ^ td[3][s.w[d] & 255]
    return add_key((columns){{COLUMN(0, 3, 2, 1), COLUMN(1, 0, 3, 2), COLUMN(2, 1, 0, 3), COLUMN(3, 2, 1, 0)}}, k);
#undef COLUMN
}

// The same without the columns' mixing
#define COLUMN(box, a, b, c, d)                                                                                        \
    (uint32_t)box[s.w[a] >> 24] << 24 | (uint32_t)box[s.w[b] >> 16 & 255] << 16 |                                      \
        (uint32_t)box[s.w[c] >> 8 & 255] << 8 | box[s.w[d] & 255]

static columns last_forward_round(columns s, const uint32_t *k)
{
    return add_key((columns){{COLUMN(sbox, 0, 1, 2, 3), COLUMN(sbox, 1, 2, 3, 0), COLUMN(sbox, 2, 3, 0, 1),
                              COLUMN(sbox, 3, 0, 1, 2)}},
                   k);
}

static columns last_backward_round(columns s, const uint32_t *k)
{
    return add_key((columns){{COLUMN(inv_sbox, 0, 3, 2, 1), COLUMN(inv_sbox, 1, 0, 3, 2), COLUMN(inv_sbox, 2, 1, 0, 3),
                              COLUMN(inv_sbox, 3, 2, 1, 0)}},
                   k);
}

#undef COLUMN

static block aes10_encrypt(const cipher *c, block b)
{
    const uint32_t *k = c->keys.aes.encrypt;
    columns s = add_key(split(b), k);
    for (int i = 1; i < 10; i++)
        s = forward_round(s, k + 4 * i);
    return join(last_forward_round(s, k + 40));
}

static block aes10_decrypt(const cipher *c, block b)
{
    const aes_keys *k = &c->keys.aes;
    columns s = add_key(split(b), k->encrypt + 40);
    for (int i = 9; i > 0; i--)
        s = backward_round(s, k->decrypt + 4 * i);
    return join(last_backward_round(s, k->encrypt));
}

// Six rounds, all of them with the columns' mixing.
static block aes6_encrypt(const cipher *c, block b)
{
    const uint32_t *k = c->keys.aes.encrypt;
    columns s = add_key(split(b), k);
    for (int i = 1; i <= 6; i++)
        s = forward_round(s, k + 4 * i);
    return join(s);
}

static block aes6_decrypt(const cipher *c, block b)
{
    const aes_keys *k = &c->keys.aes;
    columns s = split(b);
    for (int i = 0; i < 4; i++)
        s.w[i] = inv_mix_column(s.w[i]);
    s = add_key(s, k->decrypt + 24);
    for (int i = 5; i > 0; i--)
        s = backward_round(s, k->decrypt + 4 * i);
    return join(last_backward_round(s, k->encrypt));
}

// Speck128/128

static uint64_t rol64(uint64_t x, int n)
{
    return x << n | x >> (64 - n);
}

static uint64_t ror64(uint64_t x, int n)
{
    return x >> n | x << (64 - n);
}

static void speck_schedule(uint64_t keys[32], const uint8_t key[16])
{
    uint64_t l = load64(key), k = load64(key + 8);
    for (uint64_t i = 0; i < 32; i++) {
        keys[i] = k;
        l = (ror64(l, 8) + k) ^ i;
        k = rol64(k, 3) ^ l;
    }
}

static block speck_encrypt(const cipher *c, block b)
{
    uint64_t x = b.hi, y = b.lo;
    for (int i = 0; i < 32; i++) {
        x = (ror64(x, 8) + y) ^ c->keys.speck[i];
        y = rol64(y, 3) ^ x;
    }
    return (block){x, y};
}

static block speck_decrypt(const cipher *c, block b)
{
    uint64_t x = b.hi, y = b.lo;
    for (int i = 31; i >= 0; i--) {
        y = ror64(y ^ x, 3);
        x = rol64((x ^ c->keys.speck[i]) - y, 8);
    }
    return (block){x, y};
}

// The cipher for work by hand: xor with the key

static block paper_crypt(const cipher *c, block b)
{
    return xor(b, c->keys.paper);
}

int cipher_init(cipher *c, int label, const uint8_t key[16])
{
    c->label = label;
    c->is_double = label == AES_6;
    switch (label) {
    case AES_6:
        aes_schedule(&c->keys.aes, key);
        c->encrypt = aes6_encrypt;
        c->decrypt = aes6_decrypt;
        return ACCEPTED;
    case AES_10:
        aes_schedule(&c->keys.aes, key);
        c->encrypt = aes10_encrypt;
        c->decrypt = aes10_decrypt;
        return ACCEPTED;
    case SPECK:
        speck_schedule(c->keys.speck, key);
        c->encrypt = speck_encrypt;
        c->decrypt = speck_decrypt;
        return ACCEPTED;
    case PAPER:
        c->keys.paper = block_load(key);
        c->encrypt = paper_crypt;
        c->decrypt = paper_crypt;
        return ACCEPTED;
    default:
        return WRONG_LABEL;
    }
}

// ELmD v2.0

enum { MAX_HEADING = 65536, MAX_MESSAGE = 16777216 };

static block E(const cipher *c, block b)
{
    return c->encrypt(c, b);
}

static block D(const cipher *c, block b)
{
    return c->decrypt(c, b);
}

static int judge(const cipher *c, const setting *s)
{
    const uint8_t *p = s->settings;
    if (p[0] != c->label)
        return WRONG_LABEL;
    if ((p[1] << 8 | p[2]) > 127)
        return BAD_CHECK_DISTANCE;
    if (p[3] >> 1 != 0)
        return BAD_CHECK_LENGTH;
    if (p[4] != 128)
        return BAD_TAG_LENGTH;
    if (p[5] | p[6] | p[7])
        return BAD_SPARE;
    if (s->heading_len > MAX_HEADING)
        return LONG_HEADING;
    return ACCEPTED;
}

// L, from which every mask is made.
static block base(const cipher *c)
{
    block l = E(c, (block){0, 0});
    return c->is_double ? E(c, l) : l;
}

// The heading's blocks, number and settings first, mixed into one.
static block heading_value(const cipher *c, const setting *s, block l)
{
    block b = {load64(s->number), load64(s->settings)};
    block mask = times3(l);
    block v = E(c, xor(b, mask));
    const uint8_t *p = s->heading;
    size_t left = s->heading_len;
    for (; left >= 16; left -= 16, p += 16) {
        mask = twice(mask);
        v = xor(E(c, xor(block_load(p), mask)), twice(v));
    }
    if (left > 0)
        v = xor(E(c, xor(load_short(p, left), times7(mask))), twice(v));
    return v;
}

int elmd_seal(const cipher *c, const setting *s, const uint8_t *message, size_t n, uint8_t *out, size_t room,
              size_t *stream_len, int *mark)
{
    int refusal = judge(c, s);
    if (refusal)
        return refusal;
    if (n == 0 || n > MAX_MESSAGE)
        return BAD_LENGTH;
    size_t t = s->settings[2];
    int cut_tag = s->settings[3] & 1;
    size_t blocks = (n + 15) / 16, last = n - 16 * (blocks - 1);
    size_t checks = t ? (blocks - 1) / t : 0;
    size_t tag_len = cut_tag ? last : 16;
    size_t length = 16 * (blocks + checks) + tag_len;
    if (room < length)
        return SHORT_STREAM_ROOM;

    block l = base(c);
    block w = heading_value(c, s, l);
    block sum = {0, 0}, mask = l, spot = times5(l);
    size_t until_check = t;
    for (size_t i = 1; i < blocks; i++) {
        block p = block_load(message);
        message += 16;
        sum = xor(sum, p);
        block x = E(c, xor(p, mask));
        block y = xor(x, times3(w));
        w = xor(x, twice(w));
        mask = twice(mask);
        block_store(xor(D(c, y), spot), out);
        out += 16;
        spot = twice(spot);
        if (t && --until_check == 0) {
            until_check = t;
            block_store(xor(D(c, w), spot), out);
            out += 16;
            spot = twice(spot);
        }
    }
    if (last == 16) {
        sum = xor(sum, block_load(message));
    } else {
        sum = xor(sum, load_short(message, last));
        mask = times7(half(mask));
    }
    block x = E(c, xor(sum, mask));
    block y = xor(x, times3(w));
    w = xor(x, twice(w));
    block_store(xor(D(c, y), spot), out);
    out += 16;
    spot = twice(spot);

    y = xor(E(c, xor(sum, twice(mask))), times3(w));
    y.lo ^= 1;
    uint8_t tag[16];
    block_store(xor(D(c, y), spot), tag);
    memcpy(out, tag, tag_len);
    *stream_len = length;
    *mark = last == 16;
    return ACCEPTED;
}

// How many message blocks a stream has, or 0 if none has this length.
static size_t count_blocks(size_t stream_len, int mark, size_t t, int cut_tag)
{
    size_t rest = stream_len % 16;
    if ((cut_tag && !mark) != (rest != 0))
        return 0;
    size_t places = stream_len / 16; // of blocks and checks
    if (rest == 0)
        places = places ? places - 1 : 0;
    if (places == 0)
        return 0;
    size_t blocks = places;
    if (t) {
        if ((places - 1) % (t + 1) == t)
            return 0;
        blocks = places - (places - 1) / (t + 1);
    }
    return blocks > MAX_MESSAGE / 16 ? 0 : blocks;
}

// The bytes of a short last block, or 0 if it is not 1 to 15 bytes, 80 and zeros.
static size_t filled_bytes(const uint8_t b[16])
{
    size_t n = 15;
    while (n > 0 && b[n] == 0)
        n--;
    return b[n] == 0x80 ? n : 0;
}

static int open_blocks(const cipher *c, const setting *s, const uint8_t *stream, size_t stream_len, int mark,
                       size_t blocks, uint8_t *out, size_t *n)
{
    size_t t = s->settings[2];
    block l = base(c);
    block w = heading_value(c, s, l);
    block sum = {0, 0}, mask = l, spot = times5(l);
    size_t until_check = t, left = stream_len;
    for (size_t i = 1; i < blocks; i++) {
        block y = E(c, xor(block_load(stream), spot));
        stream += 16, left -= 16;
        spot = twice(spot);
        block p = xor(D(c, xor(y, times3(w))), mask);
        w = xor(y, w);
        mask = twice(mask);
        sum = xor(sum, p);
        block_store(p, out);
        out += 16;
        if (t && --until_check == 0) {
            until_check = t;
            block wrong = xor(xor(D(c, w), spot), block_load(stream));
            stream += 16, left -= 16;
            spot = twice(spot);
            if (wrong.hi | wrong.lo)
                return BAD_CHECK;
        }
    }
    if (!mark)
        mask = times7(half(mask));
    block y = E(c, xor(block_load(stream), spot));
    stream += 16, left -= 16;
    spot = twice(spot);
    block total = xor(D(c, xor(y, times3(w))), mask);
    w = xor(y, w);
    block_store(xor(total, sum), out);

    size_t last = mark ? 16 : filled_bytes(out);
    y = xor(E(c, xor(total, twice(mask))), times3(w));
    y.lo ^= 1;
    uint8_t tag[16], wrong = 0;
    block_store(xor(D(c, y), spot), tag);
    for (size_t i = 0; i < left; i++)
        wrong |= tag[i] ^ stream[i];
    if (wrong || last == 0 || ((s->settings[3] & 1) && last != left))
        return BAD_TAG;
    memset(out + last, 0, 16 - last);
    *n = 16 * (blocks - 1) + last;
    return ACCEPTED;
}

int elmd_open(const cipher *c, const setting *s, const uint8_t *stream, size_t stream_len, int mark, uint8_t *out,
              size_t room, size_t *n)
{
    int refusal = judge(c, s);
    if (refusal)
        return refusal;
    size_t blocks = count_blocks(stream_len, mark, s->settings[2], s->settings[3] & 1);
    if (blocks == 0)
        return BAD_STREAM_LENGTH;
    if (room < 16 * blocks)
        return SHORT_MESSAGE_ROOM;
    refusal = open_blocks(c, s, stream, stream_len, mark, blocks, out, n);
    if (refusal)
        memset(out, 0, 16 * blocks);
    return refusal;
}
