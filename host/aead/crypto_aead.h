/*
 * The AEAD interface of NIST's lightweight cryptography project, over the library: one archive for each instance, each with these two
 * calls. Link one of them, and the library behind it.
 *
 * c is the ciphertext with the tag of 16 bytes behind it. Text may be up to 1,048,576 bytes, associated data up to 256. nsec is not used.
 * Buffers may overlap in any way, and a pointer whose length is 0 may be null. Both give 0, or -1 with nothing written: a length above the
 * limits, or in an opening fewer than 16 bytes or a wrong tag. Both need memory from the heap for as long as they last, as much as c has
 * bytes; where there is none they give -2, with nothing written.
 */
#ifndef ISAP_CRYPTO_AEAD_H
#define ISAP_CRYPTO_AEAD_H

#ifdef __cplusplus
extern "C" {
#endif

int crypto_aead_encrypt(unsigned char *c, unsigned long long *clen, const unsigned char *m, unsigned long long mlen,
                        const unsigned char *ad, unsigned long long adlen, const unsigned char *nsec, const unsigned char *npub,
                        const unsigned char *k);

int crypto_aead_decrypt(unsigned char *m, unsigned long long *mlen, unsigned char *nsec, const unsigned char *c, unsigned long long clen,
                        const unsigned char *ad, unsigned long long adlen, const unsigned char *npub, const unsigned char *k);

#ifdef __cplusplus
}
#endif

#endif
