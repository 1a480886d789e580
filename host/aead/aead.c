/*
 * Compiled once for each instance, with ISAP_INSTANCE its number. The library asks for an output that overlaps nothing and for pointers
 * that are not null; the interface promises neither, so the output is made in memory of this file's own and copied when all is read.
 */
#include "crypto_aead.h"

#include <stdlib.h>
#include <string.h>

#include "api.h"
#include "isap.h"

enum { WELL = 0, REFUSED = -1, NO_MEMORY = -2 };

/* What is lent where a length is 0. */
static const uint8_t nothing;

static const uint8_t *lent(const unsigned char *bytes, unsigned long long len)
{
    return len == 0 ? &nothing : bytes;
}

/* Hands the output over, if there is one, and wipes and frees what it was made in: it may hold plaintext. */
static int hand_over(uint64_t answer, unsigned char *to, uint8_t *made, size_t len)
{
    volatile uint8_t *wiped = made;
    int status = isap_number(answer) == ISAP_ENDED_WELL ? WELL : REFUSED;
    if (status == WELL && len > 0)
        memcpy(to, made, len);
    for (size_t i = 0; i < len; i++)
        wiped[i] = 0;
    free(made);
    return status;
}

int crypto_aead_encrypt(unsigned char *c, unsigned long long *clen, const unsigned char *m, unsigned long long mlen,
                        const unsigned char *ad, unsigned long long adlen, const unsigned char *nsec, const unsigned char *npub,
                        const unsigned char *k)
{
    (void)nsec;
    if (mlen > ISAP_TEXT_MAX || adlen > ISAP_ASSOC_MAX)
        return REFUSED;
    size_t len = (size_t)mlen;
    uint8_t *made = malloc(len + ISAP_TAG_BYTES);
    if (made == NULL)
        return NO_MEMORY;
    uint64_t answer = isap_seal(ISAP_INSTANCE, k, CRYPTO_KEYBYTES, npub, CRYPTO_NPUBBYTES, lent(ad, adlen), (size_t)adlen, lent(m, mlen),
                                len, made, len, made + len, ISAP_TAG_BYTES);
    int status = hand_over(answer, c, made, len + ISAP_TAG_BYTES);
    if (status == WELL)
        *clen = mlen + ISAP_TAG_BYTES;
    return status;
}

int crypto_aead_decrypt(unsigned char *m, unsigned long long *mlen, unsigned char *nsec, const unsigned char *c, unsigned long long clen,
                        const unsigned char *ad, unsigned long long adlen, const unsigned char *npub, const unsigned char *k)
{
    (void)nsec;
    if (clen < ISAP_TAG_BYTES || clen - ISAP_TAG_BYTES > ISAP_TEXT_MAX || adlen > ISAP_ASSOC_MAX)
        return REFUSED;
    size_t len = (size_t)clen - ISAP_TAG_BYTES;
    uint8_t *made = malloc((size_t)clen); /* the tag's length more than is needed, so that it is never of none */
    if (made == NULL)
        return NO_MEMORY;
    uint64_t answer = isap_open(ISAP_INSTANCE, k, CRYPTO_KEYBYTES, npub, CRYPTO_NPUBBYTES, lent(ad, adlen), (size_t)adlen, c, len, c + len,
                                ISAP_TAG_BYTES, made, len);
    int status = hand_over(answer, m, made, len);
    if (status == WELL)
        *mlen = len;
    return status;
}
