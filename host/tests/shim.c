/*
 * What the AEAD interface allows beyond the library: overlapping buffers, null pointers of length 0, lengths of more than 32 bits. Its
 * memory from the heap is the test's (linked with --wrap), which may have none, and sees what is given back.
 */
#include <stddef.h>
#include <stdint.h>
#include <stdlib.h>
#include <string.h>

#include "api.h"
#include "checks.h"
#include "crypto_aead.h"
#include "isap.h"

enum { TEXT = 100, ROOM = ISAP_TEXT_MAX + CRYPTO_ABYTES };

static const unsigned char key[CRYPTO_KEYBYTES] = {7, 1}, nonce[CRYPTO_NPUBBYTES] = {3, 9};
static unsigned char text[ISAP_TEXT_MAX], sealed[ROOM], opened[ROOM];
static unsigned long long sealed_len, opened_len;

static bool no_memory;
static size_t block_len;
static unsigned long taken, given_back;

void *__wrap_malloc(size_t len);
void __wrap_free(void *block);
void __real_free(void *block);

/* Zeros, so that what is not wiped shows. */
void *__wrap_malloc(size_t len)
{
    if (no_memory)
        return NULL;
    taken++;
    block_len = len;
    return calloc(len, 1);
}

void __wrap_free(void *block)
{
    static const unsigned char zeros[ROOM];
    given_back++;
    check(block_len <= sizeof zeros && memcmp(block, zeros, block_len) == 0);
    __real_free(block);
}

static int seal_text(unsigned long long len)
{
    return crypto_aead_encrypt(sealed, &sealed_len, text, len, key, 5, NULL, nonce, key);
}

static void in_place(ptrdiff_t shift)
{
    unsigned char both[16 + TEXT + CRYPTO_ABYTES + 16];
    unsigned char *from = both + 16, *to = both + 16 + shift;
    unsigned long long len = 0;
    check(seal_text(TEXT) == 0 && sealed_len == TEXT + CRYPTO_ABYTES);
    memcpy(from, text, TEXT);
    check(crypto_aead_encrypt(to, &len, from, TEXT, key, 5, NULL, nonce, key) == 0);
    check(len == sealed_len && memcmp(to, sealed, sealed_len) == 0);
    memcpy(from, sealed, sealed_len);
    check(crypto_aead_decrypt(to, &len, NULL, from, sealed_len, key, 5, nonce, key) == 0);
    check(len == TEXT && memcmp(to, text, TEXT) == 0);
}

static void nothing_lent(void)
{
    unsigned char other[CRYPTO_ABYTES];
    unsigned long long len = 0;
    check(crypto_aead_encrypt(sealed, &sealed_len, NULL, 0, NULL, 0, NULL, nonce, key) == 0 && sealed_len == CRYPTO_ABYTES);
    check(crypto_aead_encrypt(other, &len, text, 0, text, 0, NULL, nonce, key) == 0 && memcmp(sealed, other, sizeof other) == 0);
    check(crypto_aead_decrypt(NULL, &opened_len, NULL, sealed, sealed_len, NULL, 0, nonce, key) == 0 && opened_len == 0);
}

static void longest(void)
{
    check(seal_text(ISAP_TEXT_MAX) == 0 && sealed_len == ROOM);
    check(crypto_aead_decrypt(opened, &opened_len, NULL, sealed, sealed_len, key, 5, nonce, key) == 0);
    check(opened_len == ISAP_TEXT_MAX && memcmp(opened, text, ISAP_TEXT_MAX) == 0);
    check(crypto_aead_encrypt(sealed, &sealed_len, text, 1, text, ISAP_ASSOC_MAX, NULL, nonce, key) == 0);
}

/* Neither output nor length is written from here to where it is checked. */
static void begin_untouched(void)
{
    memset(opened, 0xEE, sizeof opened);
    opened_len = 12345;
}

static void check_untouched(void)
{
    check(opened_len == 12345 && opened[0] == 0xEE && memcmp(opened, opened + 1, sizeof opened - 1) == 0);
}

/* Each gives -1. */
static void refused(void)
{
    static const unsigned long long over = 1ull << 32, most = ~0ull;
    const unsigned long long texts[] = {ISAP_TEXT_MAX + 1, over, over + 8, most, most - 15};
    begin_untouched();
    for (size_t i = 0; i < sizeof texts / sizeof texts[0]; i++) {
        check(crypto_aead_encrypt(opened, &opened_len, text, texts[i], key, 5, NULL, nonce, key) == -1);
        check(crypto_aead_decrypt(opened, &opened_len, NULL, sealed, texts[i] | 16, key, 5, nonce, key) == -1);
        check(crypto_aead_encrypt(opened, &opened_len, text, 8, key, texts[i], NULL, nonce, key) == -1);
        check(crypto_aead_decrypt(opened, &opened_len, NULL, sealed, 24, key, texts[i], nonce, key) == -1);
    }
    check(crypto_aead_encrypt(opened, &opened_len, text, 8, text, ISAP_ASSOC_MAX + 1, NULL, nonce, key) == -1);
    check(seal_text(8) == 0);
    for (unsigned long long len = 0; len < sealed_len; len++)
        check(crypto_aead_decrypt(opened, &opened_len, NULL, sealed, len, key, 5, nonce, key) == -1);
    sealed[sealed_len - 1] ^= 1;
    check(crypto_aead_decrypt(opened, &opened_len, NULL, sealed, sealed_len, key, 5, nonce, key) == -1);
    check_untouched();
}

/* Each gives -2, but for what is refused by its lengths. */
static void without_memory(void)
{
    check(seal_text(TEXT) == 0);
    begin_untouched();
    no_memory = true;
    check(crypto_aead_encrypt(opened, &opened_len, text, TEXT, key, 5, NULL, nonce, key) == -2);
    check(crypto_aead_encrypt(opened, &opened_len, NULL, 0, NULL, 0, NULL, nonce, key) == -2);
    check(crypto_aead_decrypt(opened, &opened_len, NULL, sealed, sealed_len, key, 5, nonce, key) == -2);
    check(crypto_aead_encrypt(opened, &opened_len, text, ISAP_TEXT_MAX + 1, key, 5, NULL, nonce, key) == -1);
    check(crypto_aead_decrypt(opened, &opened_len, NULL, sealed, CRYPTO_ABYTES - 1, key, 5, nonce, key) == -1);
    no_memory = false;
    check_untouched();
}

int main(void)
{
    for (size_t i = 0; i < sizeof text; i++)
        text[i] = (unsigned char)(i * 31);
    for (ptrdiff_t shift = -16; shift <= 16; shift += 4)
        in_place(shift);
    nothing_lent();
    longest();
    refused();
    without_memory();
    check(taken > 0 && given_back == taken);
    return checks_ended("shim");
}
