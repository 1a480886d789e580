/*
 * parcel.h: parcels on the air for a host in C. This header is the manual of the seven calls that build, read and open them. What isap.h
 * says of pointers, surroundings, time and stack holds for these calls too.
 *
 * A parcel is a text sealed for the radio, in one row of bytes. Numbers are big-endian:
 *
 *   from     bytes
 *   0        2      the mark, A7 5C
 *   2        1      instance, 1 to 5
 *   3        2      station
 *   5        8      counter
 *   13       2      m, the text's length, at most 4,096
 *   15       m      ciphertext
 *   15 + m   16     tag
 *
 * The first 15 bytes are the associated data of the sealing. Its nonce is station and counter as they stand there, then six zero bytes.
 *
 * The counter, at the sender. For each key, and under it for each station number, the host keeps one number in memory that outlives a loss
 * of power: the last counter used. It must never go back, and no counter may be used twice.
 *
 *   - Under a new key the last counter is 0: the first parcel has counter 1. No parcel with counter 0 is built, but one that comes over the
 *     air is read and opened like any other.
 *   - A building that answers 0 has used the counter last + 1. Store this as the last counter, and be sure that it is stored, before the
 *     first byte of the parcel leaves the mast. A loss of power before that costs a parcel that nobody has heard; one after it skips a
 *     counter, which does no harm. If a parcel leaves first, a loss of power in between makes its counter repeat.
 *   - A loss of power while storing must leave the old number or the new one, not a mixture.
 *   - A refusal has used no counter: what is stored stays. Nor does sending the same bytes again use one.
 *   - 13 says that the last counter is 2^64 - 1 and has no next. No mast sends so many parcels, but erased memory often reads so. Do not
 *     begin anew from 0 under the same key: take a new key.
 *   - Memory put back from a copy, a swapped board and a second sender with the same key and station number make counters repeat as well.
 *     Each sender needs a station number or a key of its own, and a new key where its last counter is not known for sure. With a key for
 *     parcels nothing else is sealed.
 *
 * If two parcels of one instance have the same key, station and counter, whoever hears both has the xor of their two texts without the
 * key; and where one text is known or guessed, the other as well. In instances 1 to 4 that goes as far as the shorter text does. In
 * instance 5 it takes texts of equal length, and goes to the end of the first 32-byte block in which they differ. docs/COUNTERS.md shows
 * it, and says what a crew does when a board is swapped or a counter is lost.
 *
 * The counter, at the receiver. The fields that are read from a parcel are what the air brought; they are the sender's if parcel_open
 * answers 0 for the same bytes. That does not say that the parcel is new: a recorded one opens as well. A receiver that obeys what it opens
 * keeps, for each key and station, the largest counter that it has obeyed, and obeys none that is not above it.
 *
 * Answers. parcel_build and parcel_open return a number and rounds in 64 bits, which isap_number and isap_rounds take apart.
 *
 *   0   ended well                                   out has the whole parcel, or the whole text
 *   1   instance is not 1 to 5                       every lent byte is as it was
 *   2   key is not 16 bytes                          every lent byte is as it was
 *   5   text is above 4,096 bytes                    every lent byte is as it was
 *   6   out is not text + 31 bytes (build)           every lent byte is as it was
 *   6   out is not as long as the text (open)        every lent byte is as it was
 *   8   the tag is not the right one (open)          every lent byte is as it was: no text is written before the tag was checked
 *   12  the mark is not A7 5C                        every lent byte is as it was
 *   13  last is already the largest counter (build)  every lent byte is as it was
 *   14  the parcel is cut short                      every lent byte is as it was
 *
 * A call gives the first that applies, in this order:
 *
 *   building   1, 2, 5, 6, 13
 *   reading    14 (fewer than two bytes), 12, 14 (fewer than 15 bytes), 1, 5, 14 (ciphertext and tag are not all there)
 *   opening    those of reading, then 2, 6, 8
 *
 * Parcels have a limit of their own for 5: a text of more than PARCEL_TEXT_MAX bytes is refused, though the calls of isap.h take up to
 * ISAP_TEXT_MAX.
 *
 * Rounds are, with 0, those of isap_plan_seal(instance, 15, m) for a building and those of isap_plan_total(instance, 15, m) for an
 * opening, and those of isap_plan_verify(instance, 15, m) with 8; else there are none.
 *
 * Linking. libparcel.a stands alone: it has a copy of the sealing's code inside and shows the seven calls, none of isap.h's. A host that
 * makes those too links libisap.a beside it, in either order.
 */
#ifndef PARCEL_H
#define PARCEL_H

#include "isap.h"

#ifdef __cplusplus
extern "C" {
#endif

/* Lengths in bytes: what stands before the ciphertext, what a parcel has more than its text, the longest text. */
#define PARCEL_HEADER_BYTES 15
#define PARCEL_ADDED_BYTES 31
#define PARCEL_TEXT_MAX 4096

/* Stack that is enough for a call, as ISAP_STACK_BYTES is for those of isap.h. */
#define PARCEL_STACK_BYTES 4096

/* Answer numbers that isap.h does not have. */
#define PARCEL_WRONG_MARK 12
#define PARCEL_COUNTER_SPENT 13
#define PARCEL_CUT_SHORT 14

/* Builds the parcel of text, with the counter last + 1, in out. Answers 0, 1, 2, 5, 6, 13. */
uint64_t parcel_build(uint32_t instance, const uint8_t *key, size_t key_len, uint16_t station, uint64_t last, const uint8_t *text,
                      size_t text_len, uint8_t *out, size_t out_len);

/* The last counter after a building that was given last and answered so, to be stored before the parcel leaves the mast. */
static inline uint64_t parcel_counter_to_keep(uint64_t answer, uint64_t last)
{
    return isap_number(answer) == ISAP_ENDED_WELL ? last + 1 : last;
}

/*
 * Opens the parcel at the start of a buffer: the text goes to out if the tag is right, and nothing else does. out_len must be what
 * parcel_text says. Have room for PARCEL_TEXT_MAX bytes, or hold parcel_text against the room that there is before you lend it: the length
 * comes from the air, and the call writes as much as it was lent. Bytes behind the parcel are not looked at. Answers 0, 1, 2, 5, 6, 8, 12,
 * 14.
 */
uint64_t parcel_open(const uint8_t *key, size_t key_len, const uint8_t *parcel, size_t parcel_len, uint8_t *out, size_t out_len);

/*
 * Read the parcel at the start of a buffer; no key is needed and no tag is checked. Bytes behind the parcel are not looked at.
 * parcel_number gives 0 if the parcel is whole, else 1, 5, 12 or 14. The others give a field, or 0 where parcel_number does not give 0.
 * parcel_text is the text's length: the ciphertext has as many bytes and stands at parcel + PARCEL_HEADER_BYTES, the 16 bytes of tag
 * behind it.
 */
uint32_t parcel_number(const uint8_t *parcel, size_t parcel_len);
uint32_t parcel_instance(const uint8_t *parcel, size_t parcel_len);
uint16_t parcel_station(const uint8_t *parcel, size_t parcel_len);
uint64_t parcel_counter(const uint8_t *parcel, size_t parcel_len);
uint32_t parcel_text(const uint8_t *parcel, size_t parcel_len);

#ifdef __cplusplus
}
#endif

#endif
