/* sgtin_plain: `tdl canon pure` written by hand in C, for the one kind SGTIN.

   It reads pure identity URIs of trade items, one a line, from standard input, and writes a line for each to standard output: `ok` and
   the canonical GS1 Digital Link URI, `no reading` for any other text, or `no long` for a text of more than 2,048 bytes. The status
   is 0 if each line was answered by `ok`, otherwise 1; 4 and 5 say that a read or a write failed.

   It has no tables, no other kind, no file and no option, and nothing about it is proved. bench/lines compares tdl with it:
   gcc -O2 -o sgtin_plain sgtin_plain.c */
#include <stddef.h>
#include <stdlib.h>
#include <string.h>
#include <unistd.h>

typedef unsigned char byte;

enum {
    LONGEST_TEXT = 2048,   /* the most bytes of a text, without the end of its line */
    LONGEST_SERIAL = 20,   /* the most characters of a serial number, AI (21) */
    BLOCK = 1 << 16,       /* the bytes that a read asks for and a write gives */
    LONGEST_ANSWER = 256   /* more than an answer has: 44 bytes and 20 escaped characters */
};

static const char SCHEME[] = "urn:epc:id:sgtin:";
static const char STEM[] = "ok https://id.gs1.org/01/";
static const char HEX[] = "0123456789ABCDEF";

/* The 82 characters of GS1 General Specifications, figure 7.11-1. */
static const char SET_82[] = "!\"%&'()*+,-./0123456789:;<=>?ABCDEFGHIJKLMNOPQRSTUVWXYZ_abcdefghijklmnopqrstuvwxyz";
/* Those of them that an EPC URI writes as an escape (TDS 2.0, section 7.1). */
static const char ESCAPED_IN_URI[] = "\"%&/<>?";
/* Those, besides letters and digits, that a Digital Link URI writes unchanged. */
static const char PLAIN_IN_LINK[] = "-._";

/* How a byte of the serial of a pure identity URI is read. */
enum reading { INVALID, PLAIN, TO_ESCAPE, ESCAPE };

static byte reading_of[256];       /* by the byte */
static byte is_escaped[256];       /* whether an EPC URI writes the character as an escape */
static byte value_of_digit[256];   /* the value of a hexadecimal digit of either case, 255 of any other byte */
static char escape_of[256][3];     /* the escape of a character, in upper case */

static int is_alphanumeric(byte c) {
    return (c >= '0' && c <= '9') || (c >= 'A' && c <= 'Z') || (c >= 'a' && c <= 'z');
}

/* Fills the four tables. */
static void make_tables(void) {
    memset(value_of_digit, 255, sizeof value_of_digit);
    for (int value = 0; value < 16; value++) {
        byte digit = (byte)HEX[value];
        value_of_digit[digit] = (byte)value;
        if (value > 9)
            value_of_digit[digit - 'A' + 'a'] = (byte)value;
    }
    for (const char *at = SET_82; *at; at++) {
        byte c = (byte)*at;
        is_escaped[c] = strchr(ESCAPED_IN_URI, c) != NULL;
        escape_of[c][0] = '%';
        escape_of[c][1] = HEX[c >> 4];
        escape_of[c][2] = HEX[c & 15];
        if (is_escaped[c])
            reading_of[c] = c == '%' ? ESCAPE : INVALID;
        else
            reading_of[c] = is_alphanumeric(c) || strchr(PLAIN_IN_LINK, c) ? PLAIN : TO_ESCAPE;
    }
}

/* Returns the check digit of 13 digits (GS1 General Specifications, section 7.9). */
static byte check_digit(const byte *digits) {
    unsigned sum = 0;
    for (int i = 0; i < 13; i++)
        sum += (unsigned)(digits[i] - '0') * (i % 2 ? 1 : 3);
    return (byte)('0' + (10 - sum % 10) % 10);
}

/* Returns the length of the company prefix at the start of `digits`, which are 13 digits with one dot after 6 to 12 of them, or 0. */
static int prefix_length(const byte *digits) {
    int dot = -1;
    for (int i = 0; i < 14; i++) {
        if (digits[i] == '.') {
            if (dot >= 0)
                return 0;
            dot = i;
        } else if (digits[i] < '0' || digits[i] > '9') {
            return 0;
        }
    }
    return dot >= 6 && dot <= 12 ? dot : 0;
}

/* Writes the GTIN of a company prefix and of an indicator digit with the item reference, which are divided by a dot. */
static byte *write_gtin(byte *out, const byte *digits, int prefix) {
    out[0] = digits[prefix + 1];
    memcpy(out + 1, digits, (size_t)prefix);
    memcpy(out + 1 + prefix, digits + prefix + 2, (size_t)(12 - prefix));
    out[13] = check_digit(out);
    return out + 14;
}

/* Returns the character that the escape at `text` stands for, or 0. Only the characters that need one have an escape. */
static byte unescape(const byte *text, const byte *end) {
    if (end - text < 3)
        return 0;
    unsigned high = value_of_digit[text[1]], low = value_of_digit[text[2]];
    if (high > 15 || low > 15)
        return 0;
    byte c = (byte)(high << 4 | low);
    return is_escaped[c] ? c : 0;
}

static byte *write_escape(byte *out, byte c) {
    memcpy(out, escape_of[c], 3);
    return out + 3;
}

/* Writes a serial of an EPC URI as a Digital Link URI has it. Returns NULL if it is not a serial. */
static byte *write_serial(byte *out, const byte *text, const byte *end) {
    int count = 0;
    while (text < end) {
        byte c = *text;
        if (++count > LONGEST_SERIAL)
            return NULL;
        switch (reading_of[c]) {
        case PLAIN:
            *out++ = c;
            text++;
            break;
        case TO_ESCAPE:
            out = write_escape(out, c);
            text++;
            break;
        case ESCAPE:
            c = unescape(text, end);
            if (!c)
                return NULL;
            out = write_escape(out, c);
            text += 3;
            break;
        default:
            return NULL;
        }
    }
    return count ? out : NULL;
}

/* Writes the answer `ok` to a pure identity URI of a trade item. Returns NULL for any other text. */
static byte *write_link(byte *out, const byte *text, size_t length) {
    const size_t scheme = sizeof SCHEME - 1, stem = sizeof STEM - 1;
    /* the prefix and the item reference with their dot are 14 bytes, and a dot follows */
    if (length < scheme + 15 || memcmp(text, SCHEME, scheme) != 0)
        return NULL;
    const byte *digits = text + scheme;
    int prefix = prefix_length(digits);
    if (!prefix || digits[14] != '.')
        return NULL;
    memcpy(out, STEM, stem);
    out = write_gtin(out + stem, digits, prefix);
    memcpy(out, "/21/", 4);
    out = write_serial(out + 4, digits + 15, text + length);
    if (out)
        *out++ = '\n';
    return out;
}

static byte output[BLOCK + LONGEST_ANSWER];
static size_t written;
static int status;

/* Writes the answers that are held to standard output. */
static void flush(void) {
    size_t at = 0;
    while (at < written) {
        ssize_t count = write(STDOUT_FILENO, output + at, written - at);
        if (count <= 0)
            exit(5);
        at += (size_t)count;
    }
    written = 0;
}

/* Holds an answer that is not `ok`. */
static void reject(const char *answer) {
    size_t length = strlen(answer);
    memcpy(output + written, answer, length);
    written += length;
    status = 1;
}

/* Answers a text, which may end with a carriage return that is not part of it. */
static void answer(const byte *text, size_t length) {
    if (length && text[length - 1] == '\r')
        length--;
    if (written >= BLOCK)
        flush();
    if (length > LONGEST_TEXT) {
        reject("no long\n");
        return;
    }
    byte *end = write_link(output + written, text, length);
    if (end)
        written = (size_t)(end - output);
    else
        reject("no reading\n");
}

static byte input[BLOCK];

/* Answers each line of standard input; a last line may have no line feed. */
int main(void) {
    size_t held = 0; /* the bytes of a line whose end has not been read */
    ssize_t count;
    make_tables();
    while ((count = read(STDIN_FILENO, input + held, sizeof input - held)) > 0) {
        byte *line = input, *end = input + held + count, *feed;
        while ((feed = memchr(line, '\n', (size_t)(end - line)))) {
            answer(line, (size_t)(feed - line));
            line = feed + 1;
        }
        held = (size_t)(end - line);
        /* so many bytes show that the line is too long, even if the last one is a carriage return */
        if (held > LONGEST_TEXT + 2)
            held = LONGEST_TEXT + 2;
        memmove(input, line, held);
    }
    if (count < 0)
        return 4;
    if (held)
        answer(input, held);
    flush();
    return status;
}
