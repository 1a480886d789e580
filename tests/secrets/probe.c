/* One call of the library on bytes from the command line, for counting instructions. Whatever the bytes are, the program itself does
   the same work: hex digits are read and written without a branch, and strings of equal length take equal steps.

   probe seal|open|guess|build|unpack|idle INSTANCE ASSOC_LEN TEXT_LEN HEX
   HEX is key, nonce, tag, associated data, text. seal and build do not read the tag; build and unpack, of a parcel with counter 42 of
   station 12, read neither nonce nor associated data; guess opens with 1,024 tags, none of them the one given; idle makes no call. Prints
   the answer's number, the output and the tag. */
#include "parcel.h"
#include <stdio.h>
#include <stdlib.h>
#include <string.h>

enum { STRING = 16, ASSOC = 256, TEXT = 4096, INPUT = 3 * STRING + ASSOC + TEXT };

static uint8_t digit(char c)
{
    return (uint8_t)((c & 15) + 9 * (c >> 6));
}

static void read_hex(uint8_t *to, const char *hex, size_t len)
{
    for (size_t i = 0; i < len; i++)
        to[i] = (uint8_t)(digit(hex[2 * i]) << 4 | digit(hex[2 * i + 1]));
}

static void print_hex(const uint8_t *from, size_t len)
{
    static const char digits[] = "0123456789abcdef";
    char line[2 * TEXT + 1];
    for (size_t i = 0; i < len; i++) {
        line[2 * i] = digits[from[i] >> 4];
        line[2 * i + 1] = digits[from[i] & 15];
    }
    line[2 * len] = '\n';
    fwrite(line, 1, 2 * len + 1, stdout);
}

enum { STATION = 12, LAST = 41, ADDED = PARCEL_ADDED_BYTES, HEADER = PARCEL_HEADER_BYTES };

/* Seals text and gives ciphertext and tag, or opens these, by way of a parcel. */
static uint64_t in_a_parcel(int builds, uint32_t instance, const uint8_t *key, const uint8_t *text, size_t m, uint8_t *out, uint8_t *tag)
{
    static uint8_t parcel[TEXT + ADDED] = {0xA7, 0x5C, 0, 0, STATION, 0, 0, 0, 0, 0, 0, 0, LAST + 1};
    if (builds) {
        uint64_t answer = parcel_build(instance, key, STRING, STATION, LAST, text, m, parcel, m + ADDED);
        memcpy(out, parcel + HEADER, m);
        memcpy(tag, parcel + HEADER + m, STRING);
        return answer;
    }
    parcel[2] = (uint8_t)instance;
    parcel[13] = (uint8_t)(m >> 8);
    parcel[14] = (uint8_t)m;
    memcpy(parcel + HEADER, text, m);
    memcpy(parcel + HEADER + m, tag, STRING);
    return parcel_open(key, STRING, parcel, m + ADDED, out, m);
}

enum { GUESSES = 1024 };

/* 8 if every opening gives that, with tags whose first two bytes are others than this one's; else what the first gives that does not. */
static uint64_t guessed(uint32_t instance, const uint8_t *key, const uint8_t *nonce, const uint8_t *assoc, size_t a, const uint8_t *text,
                        size_t m, const uint8_t *tag, uint8_t *out)
{
    uint8_t other[STRING];
    memcpy(other, tag, STRING);
    for (unsigned i = 1; i <= GUESSES; i++) {
        other[0] = (uint8_t)(tag[0] ^ i);
        other[1] = (uint8_t)(tag[1] ^ i >> 8);
        uint32_t number = isap_number(isap_open(instance, key, STRING, nonce, STRING, assoc, a, text, m, other, STRING, out, m));
        if (number != ISAP_WRONG_TAG)
            return number;
    }
    return ISAP_WRONG_TAG;
}

int main(int argc, char **argv)
{
    static uint8_t in[INPUT], out[TEXT];
    if (argc != 6)
        return 2;
    uint32_t instance = (uint32_t)atoi(argv[2]);
    size_t a = (size_t)atoi(argv[3]), m = (size_t)atoi(argv[4]);
    size_t len = 3 * STRING + a + m;
    if (a > ASSOC || m > TEXT || strlen(argv[5]) != 2 * len)
        return 2;
    read_hex(in, argv[5], len);
    uint8_t *key = in, *nonce = key + STRING, *tag = nonce + STRING, *assoc = tag + STRING, *text = assoc + a;
    uint64_t answer = 0;
    if (strcmp(argv[1], "seal") == 0)
        answer = isap_seal(instance, key, STRING, nonce, STRING, assoc, a, text, m, out, m, tag, STRING);
    if (strcmp(argv[1], "open") == 0)
        answer = isap_open(instance, key, STRING, nonce, STRING, assoc, a, text, m, tag, STRING, out, m);
    if (strcmp(argv[1], "guess") == 0)
        answer = guessed(instance, key, nonce, assoc, a, text, m, tag, out);
    if (strcmp(argv[1], "build") == 0 || strcmp(argv[1], "unpack") == 0)
        answer = in_a_parcel(argv[1][0] == 'b', instance, key, text, m, out, tag);
    uint8_t number = (uint8_t)answer;
    print_hex(&number, 1);
    print_hex(out, m);
    print_hex(tag, STRING);
    return 0;
}
