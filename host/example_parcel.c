/* Sends four bytes as a parcel and opens it. */
#include <inttypes.h>
#include <parcel.h>
#include <stdio.h>

int main(void)
{
    const uint8_t key[16] = {1}, text[4] = {'t', 'i', 'c', 'k'};
    uint8_t parcel[4 + PARCEL_ADDED_BYTES], opened[PARCEL_TEXT_MAX]; /* room for whatever a sender may have sealed */
    uint64_t last = 41; /* as it was stored */
    uint64_t answer = parcel_build(ISAP_A_128A, key, 16, 12, last, text, 4, parcel, sizeof parcel);
    last = parcel_counter_to_keep(answer, last); /* to be stored here, before the parcel is sent */
    if (isap_number(answer) == ISAP_ENDED_WELL)
        answer = parcel_open(key, 16, parcel, sizeof parcel, opened, parcel_text(parcel, sizeof parcel));
    if (isap_number(answer) == ISAP_ENDED_WELL)
        printf("%.4s from station %u, counter %" PRIu64 "\n", (const char *)opened, (unsigned)parcel_station(parcel, sizeof parcel), last);
    return (int)isap_number(answer);
}
