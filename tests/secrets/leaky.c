/* A library that leaks: stands between marked.c and the library (linked with --wrap) and lets a jump or an address depend on secret bytes,
   as the environment's LEAK says: jump or address, a hyphen, and the name of the bytes. The script `undefined` demands that memcheck sees
   each. */
#include "wrapped.h"
#include <stdio.h>
#include <stdlib.h>
#include <string.h>

static volatile size_t seen;

/* Compares with other bytes and leaves at the first that differs. */
static void jump(const uint8_t *bytes, size_t len)
{
    static const uint8_t other[ISAP_TEXT_MAX];
    size_t same = 0;
    while (same < len && bytes[same] == other[same])
        same++;
    seen = same;
}

/* Looks up a table by the last byte. */
static void address(const uint8_t *bytes, size_t len)
{
    static volatile uint8_t table[256];
    if (len > 0)
        seen = table[bytes[len - 1]];
}

static int wanted(const char *how, const char *name)
{
    char leak[16];
    snprintf(leak, sizeof leak, "%s-%s", how, name);
    return strcmp(getenv("LEAK"), leak) == 0;
}

static void leak(const char *name, const uint8_t *bytes, size_t len)
{
    if (wanted("jump", name))
        jump(bytes, len);
    if (wanted("address", name))
        address(bytes, len);
}

uint64_t __wrap_isap_seal(uint32_t instance, const uint8_t *key, size_t key_len, const uint8_t *nonce, size_t nonce_len,
                          const uint8_t *assoc, size_t assoc_len, const uint8_t *text, size_t text_len, uint8_t *out, size_t out_len,
                          uint8_t *tag, size_t tag_len)
{
    leak("key", key, key_len);
    leak("nonce", nonce, nonce_len);
    leak("assoc", assoc, assoc_len);
    leak("text", text, text_len);
    return __real_isap_seal(instance, key, key_len, nonce, nonce_len, assoc, assoc_len, text, text_len, out, out_len, tag, tag_len);
}

uint64_t __wrap_isap_open(uint32_t instance, const uint8_t *key, size_t key_len, const uint8_t *nonce, size_t nonce_len,
                          const uint8_t *assoc, size_t assoc_len, const uint8_t *text, size_t text_len, const uint8_t *tag,
                          size_t tag_len, uint8_t *out, size_t out_len)
{
    leak("key", key, key_len);
    leak("nonce", nonce, nonce_len);
    leak("assoc", assoc, assoc_len);
    leak("text", text, text_len);
    leak("tag", tag, tag_len);
    return __real_isap_open(instance, key, key_len, nonce, nonce_len, assoc, assoc_len, text, text_len, tag, tag_len, out, out_len);
}
