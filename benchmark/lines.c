// Reads lines of keys, settings, messages and streams from standard input and answers them, to hold plain.c to vectors.
//
//   K key (16 bytes)   N number (8)   P settings (8)   H heading   nothing is printed
//   M message (1 to 4096)             the stream: S mark bytes
//   S mark bytes                      the message: M bytes
//   B block (16)                      its encryption: B bytes
//
// Bytes are lower case digits, or a dash for none. A refusal prints R and its number: 91 for an unknown letter, 92 for a
// bad form or length, 93 where a line that is needed has not come.
#include "plain.h"

#include <stdio.h>
#include <stdlib.h>
#include <string.h>

enum { INPUT = 65536, BAD_LETTER = 91, BAD_FORM = 92, MISSING = 93 };

typedef struct {
    uint8_t bytes[INPUT];
    size_t len;
    int known;
} field;

static field key, number, settings, heading, given;
static uint8_t result[2 * INPUT];

static int digit(char c)
{
    if (c >= '0' && c <= '9')
        return c - '0';
    if (c >= 'a' && c <= 'f')
        return c - 'a' + 10;
    return -1;
}

// Whether the text is bytes, from least to most of them.
static int read_bytes(const char *text, size_t len, size_t least, size_t most, field *f)
{
    if (len == 1 && text[0] == '-')
        len = 0;
    else if (len == 0 || len % 2 != 0)
        return 0;
    if (len / 2 < least || len / 2 > most)
        return 0;
    for (size_t i = 0; i < len; i += 2) {
        int high = digit(text[i]), low = digit(text[i + 1]);
        if (high < 0 || low < 0)
            return 0;
        given.bytes[i / 2] = (uint8_t)(high << 4 | low);
    }
    if (f != &given)
        memcpy(f->bytes, given.bytes, len / 2);
    f->len = len / 2;
    f->known = 1;
    return 1;
}

static void print_bytes(const char *head, const uint8_t *bytes, size_t n)
{
    fputs(head, stdout);
    for (size_t i = 0; i < n; i++)
        printf("%02x", bytes[i]);
    puts("");
}

static int message_line(void)
{
    cipher c;
    setting s = {number.bytes, settings.bytes, heading.bytes, heading.len};
    size_t stream_len;
    int mark, refusal = cipher_init(&c, settings.bytes[0], key.bytes);
    if (!refusal)
        refusal = elmd_seal(&c, &s, given.bytes, given.len, result, sizeof result, &stream_len, &mark);
    if (!refusal)
        print_bytes(mark ? "S 1 " : "S 0 ", result, stream_len);
    return refusal;
}

static int stream_line(int mark)
{
    cipher c;
    setting s = {number.bytes, settings.bytes, heading.bytes, heading.len};
    size_t n;
    int refusal = cipher_init(&c, settings.bytes[0], key.bytes);
    if (!refusal)
        refusal = elmd_open(&c, &s, given.bytes, given.len, mark, result, sizeof result, &n);
    if (!refusal)
        print_bytes("M ", result, n);
    return refusal;
}

static int block_line(void)
{
    cipher c;
    int refusal = cipher_init(&c, settings.bytes[0], key.bytes);
    if (refusal)
        return refusal;
    block_store(c.encrypt(&c, block_load(given.bytes)), result);
    block back = c.decrypt(&c, block_load(result)), b = block_load(given.bytes);
    if (back.hi != b.hi || back.lo != b.lo)
        exit(1);
    print_bytes("B ", result, 16);
    return 0;
}

static int answer(const char *line, size_t len)
{
    if (len == 0 || line[0] == 0 || !strchr("KNPHMSB", line[0]))
        return BAD_LETTER;
    char letter = line[0];
    int mark = 0;
    if (len < 2 || line[1] != ' ')
        return BAD_FORM;
    line += 2, len -= 2;
    if (letter == 'S') {
        if (len < 2 || (line[0] != '0' && line[0] != '1') || line[1] != ' ')
            return BAD_FORM;
        mark = line[0] == '1';
        line += 2, len -= 2;
    }
    switch (letter) {
    case 'K':
        return read_bytes(line, len, 16, 16, &key) ? 0 : BAD_FORM;
    case 'N':
        return read_bytes(line, len, 8, 8, &number) ? 0 : BAD_FORM;
    case 'P':
        return read_bytes(line, len, 8, 8, &settings) ? 0 : BAD_FORM;
    case 'H':
        return read_bytes(line, len, 0, INPUT, &heading) ? 0 : BAD_FORM;
    }
    size_t least = letter == 'M' ? 1 : letter == 'B' ? 16 : 0;
    size_t most = letter == 'M' ? 4096 : letter == 'B' ? 16 : INPUT;
    if (!read_bytes(line, len, least, most, &given))
        return BAD_FORM;
    if (!key.known || !settings.known || (letter != 'B' && (!number.known || !heading.known)))
        return MISSING;
    return letter == 'M' ? message_line() : letter == 'S' ? stream_line(mark) : block_line();
}

int main(void)
{
    static char text[INPUT];
    size_t len = fread(text, 1, sizeof text, stdin);
    plain_init();
    for (size_t from = 0; from < len;) {
        const char *end = memchr(text + from, '\n', len - from);
        size_t to = end ? (size_t)(end - text) : len;
        int refusal = answer(text + from, to - from);
        if (refusal)
            printf("R %d\n", refusal);
        from = to + 1;
    }
    return 0;
}
