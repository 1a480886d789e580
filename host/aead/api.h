/* Lengths of the AEAD interface of NIST's lightweight cryptography project. */
#ifndef ISAP_AEAD_API_H
#define ISAP_AEAD_API_H

#define CRYPTO_KEYBYTES 16
#define CRYPTO_NSECBYTES 0
#define CRYPTO_NPUBBYTES 16
#define CRYPTO_ABYTES 16
#define CRYPTO_NOOVERLAP 1

#endif
