/* Seals and opens four bytes. */
#include <isap.h>
#include <stdio.h>

int main(void)
{
    const uint8_t key[16] = {1}, nonce[16] = {2}, assoc[2] = {0, 7}, text[4] = {'t', 'i', 'c', 'k'};
    uint8_t sealed[4], tag[16], opened[4];
    uint64_t answer = isap_seal(ISAP_A_128A, key, 16, nonce, 16, assoc, 2, text, 4, sealed, 4, tag, 16);
    if (isap_number(answer) == ISAP_ENDED_WELL)
        answer = isap_open(ISAP_A_128A, key, 16, nonce, 16, assoc, 2, sealed, 4, tag, 16, opened, 4);
    if (isap_number(answer) == ISAP_ENDED_WELL)
        printf("%.4s after %u rounds\n", (const char *)opened, (unsigned)isap_rounds(answer));
    return (int)isap_number(answer);
}
