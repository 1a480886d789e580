/*
 * Writes the known-answer file of one instance through the AEAD interface, in the form of NIST's lightweight cryptography project: key and
 * nonce 00 to 0F, texts of 0 to 32 bytes 00 01 02 .., for each associated data of 0 to 32 bytes 00 01 02 ... Each is opened again.
 */
#include <stdio.h>
#include <string.h>

#include "api.h"
#include "crypto_aead.h"

enum { LONGEST = 32 };

static void print_hex(const char *name, const unsigned char *bytes, unsigned long long len)
{
    printf("%s = ", name);
    for (unsigned long long i = 0; i < len; i++)
        printf("%02X", bytes[i]);
    putchar('\n');
}

/* Whether the ciphertext opens to the text. */
static int opens(const unsigned char *sealed, unsigned long long sealed_len, unsigned long long assoc_len, const unsigned char *counting,
                 unsigned long long text_len)
{
    unsigned char opened[LONGEST];
    unsigned long long opened_len = 0;
    int status = crypto_aead_decrypt(opened, &opened_len, NULL, sealed, sealed_len, counting, assoc_len, counting, counting);
    return status == 0 && opened_len == text_len && memcmp(opened, counting, text_len) == 0;
}

static int one_case(int count, unsigned long long text_len, unsigned long long assoc_len, const unsigned char *counting)
{
    unsigned char sealed[LONGEST + CRYPTO_ABYTES];
    unsigned long long sealed_len = 0;
    if (crypto_aead_encrypt(sealed, &sealed_len, counting, text_len, counting, assoc_len, NULL, counting, counting) != 0)
        return 0;
    printf("Count = %d\n", count);
    print_hex("Key", counting, CRYPTO_KEYBYTES);
    print_hex("Nonce", counting, CRYPTO_NPUBBYTES);
    print_hex("PT", counting, text_len);
    print_hex("AD", counting, assoc_len);
    print_hex("CT", sealed, sealed_len);
    putchar('\n');
    return opens(sealed, sealed_len, assoc_len, counting, text_len);
}

int main(void)
{
    unsigned char counting[LONGEST];
    int count = 0;
    for (int i = 0; i < LONGEST; i++)
        counting[i] = (unsigned char)i;
    for (int text_len = 0; text_len <= LONGEST; text_len++) {
        for (int assoc_len = 0; assoc_len <= LONGEST; assoc_len++) {
            if (!one_case(++count, (unsigned long long)text_len, (unsigned long long)assoc_len, counting)) {
                fprintf(stderr, "case %d is not sealed and opened\n", count);
                return 1;
            }
        }
    }
    return 0;
}
