#include "painted.h"

#include <string.h>
#include <ucontext.h>

_Alignas(16) uint8_t painted[PAINTED_BYTES];

static size_t depth_on(uint8_t paint, void (*work)(void))
{
    static ucontext_t outside, inside;
    memset(painted, paint, sizeof painted);
    getcontext(&inside);
    inside.uc_stack.ss_sp = painted;
    inside.uc_stack.ss_size = sizeof painted;
    inside.uc_link = &outside;
    makecontext(&inside, work, 0);
    swapcontext(&outside, &inside);
    size_t lowest = 0;
    while (lowest < sizeof painted && painted[lowest] == paint)
        lowest++;
    return sizeof painted - lowest;
}

size_t painted_depth(void (*work)(void))
{
    size_t one = depth_on(0xA5, work), other = depth_on(0x5A, work);
    return one > other ? one : other;
}
