/*
 * isap.h: sealing and opening for a host in C. This header is the manual of the five calls.
 *
 * A sealing turns a text into a ciphertext of the same length and a tag of 16 bytes. An opening takes both and gives the text back, if
 * key, nonce, associated data, ciphertext and tag are those of the sealing. Associated data is vouched for and not hidden. Never use a
 * nonce twice with the same key for sealing. Instances 1 to 4 are those of ISAP v2.0; 5 is Spook[128,512,su].
 *
 * Answers. Each call returns 64 bits: an answer number (isap_number) and rounds (isap_rounds). The whole calls check 1 to 7 in this order
 * and give the first that applies:
 *
 *   0  ended well                            out has the whole text or ciphertext; of a sealing, tag has the tag
 *   1  instance is not 1 to 5                every lent byte is as it was
 *   2  key is not 16 bytes                   every lent byte is as it was
 *   3  nonce is not 16 bytes                 every lent byte is as it was
 *   4  associated data is above 256 bytes    every lent byte is as it was
 *   5  text is above 1,048,576 bytes         every lent byte is as it was
 *   6  out is not as long as text            every lent byte is as it was
 *   7  tag is not 16 bytes                   every lent byte is as it was
 *   8  the tag is not the right one (open)   every lent byte is as it was: no text is written before the tag was checked
 *
 * Rounds are 0 with 1 to 7, the verification's with 8, all that the call took with 0. The largest figure is 3,149,256: instance 2, 256
 * bytes of associated data, 1,048,576 of text.
 *
 *   - In instances 1 to 4, where rounds are those of the permutation, a sealing takes as many as an opening of its result. An empty text
 *     costs the encryption's re-keying too: with no associated data a call that ends well takes 350, 3,144, 350 and 3,176.
 *   - In instance 5 a round of Clyde and a round A or B of Shadow count one each. With u and v the numbers of 32-byte blocks of associated
 *     data and text, a last short one counted, verification and sealing take 24 + 12(1 + u + v). An opening walks a second time for the
 *     text and takes 12 + 12(u + v) more, or none more if the text is empty. With neither data nor text each takes 36.
 *
 * Document 01's other numbers (9, 10, 11, 100) belong to jobs in slices, which a host in C does not call; 12 to 14 belong to parcels
 * (parcel.h), whose text has a smaller limit of its own.
 *
 * Pointers. A buffer is lent as a pointer and a length in bytes, for the time of the call, at any alignment. No pointer may be null, also
 * where the length is 0: lend the address of any byte then. Behind each pointer there must be as many bytes as the length says, also
 * where a call will be refused. What is lent as const is read only, and such buffers may overlap one another. out, and the tag of a
 * sealing, must not overlap each other nor anything else that is lent: text is not sealed or opened in place. Bytes outside the lent ones
 * are not written.
 *
 * Surroundings. The code is for x86-64, System V calling convention. It keeps nothing between calls and has no writable data, so threads
 * may call it at the same time on buffers of their own. It allocates nothing, does no input or output, does not touch errno, raises no
 * signal and calls nothing but memcpy and memset. It uses SSE2 registers and the 128 bytes below the stack pointer (the red zone).
 *
 * Time. A call's time depends on instance, lengths and answer. A call cannot be stopped on the way: with a long text ask for its rounds
 * beforehand (isap_plan_seal, isap_plan_total). The library's source has no branch and no index that depends on a byte of key, text or
 * state; what a compiler or a processor makes of it is not proved.
 *
 * Stack. A call uses less than ISAP_STACK_BYTES, however long the text is, and leaves copies of the key and of inner states in the part
 * that it used. A host that shares its stack with code that it does not trust overwrites as many bytes after the call.
 */
#ifndef ISAP_H
#define ISAP_H

#include <stddef.h>
#include <stdint.h>

#ifdef __cplusplus
extern "C" {
#endif

/* Lengths in bytes. */
#define ISAP_KEY_BYTES 16
#define ISAP_NONCE_BYTES 16
#define ISAP_TAG_BYTES 16
#define ISAP_ASSOC_MAX 256
#define ISAP_TEXT_MAX 1048576

/*
 * Stack that is enough for a call with the C library's memcpy and memset, but not for a dynamic linker that looks these two up at their
 * first call. At least a quarter of it is margin over what was measured.
 */
#define ISAP_STACK_BYTES 4096

/* Instances. */
#define ISAP_A_128A 1
#define ISAP_A_128 2
#define ISAP_K_128A 3
#define ISAP_K_128 4
#define ISAP_SPOOK_128_512_SU 5

/* Answer numbers. */
#define ISAP_ENDED_WELL 0
#define ISAP_BAD_INSTANCE 1
#define ISAP_BAD_KEY 2
#define ISAP_BAD_NONCE 3
#define ISAP_LONG_ASSOC 4
#define ISAP_LONG_TEXT 5
#define ISAP_BAD_OUT 6
#define ISAP_BAD_TAG 7
#define ISAP_WRONG_TAG 8

/* The number of an answer. */
static inline uint32_t isap_number(uint64_t answer)
{
    return (uint32_t)(answer & 0xFFFFFFFFu);
}

/* The rounds of an answer. */
static inline uint32_t isap_rounds(uint64_t answer)
{
    return (uint32_t)(answer >> 32);
}

/* Seals text: the ciphertext goes to out, the tag to tag. Answers 0 to 7. */
uint64_t isap_seal(uint32_t instance, const uint8_t *key, size_t key_len, const uint8_t *nonce, size_t nonce_len, const uint8_t *assoc,
                   size_t assoc_len, const uint8_t *text, size_t text_len, uint8_t *out, size_t out_len, uint8_t *tag, size_t tag_len);

/* Opens the ciphertext text: the plaintext goes to out if tag is right, and nothing else does. Answers 0 to 8. */
uint64_t isap_open(uint32_t instance, const uint8_t *key, size_t key_len, const uint8_t *nonce, size_t nonce_len, const uint8_t *assoc,
                   size_t assoc_len, const uint8_t *text, size_t text_len, const uint8_t *tag, size_t tag_len, uint8_t *out,
                   size_t out_len);

/*
 * Rounds to plan for, from the lengths alone. Answers 0, or 1, 4, 5 in this order with 0 rounds. With 0 the rounds are those that a wrong
 * tag takes (verify), those of a sealing (seal), and those of an opening with a right tag (total). In instances 1 to 4 the last two are
 * equal.
 */
uint64_t isap_plan_verify(uint32_t instance, uint32_t assoc_len, uint32_t text_len);
uint64_t isap_plan_seal(uint32_t instance, uint32_t assoc_len, uint32_t text_len);
uint64_t isap_plan_total(uint32_t instance, uint32_t assoc_len, uint32_t text_len);

#ifdef __cplusplus
}
#endif

#endif
