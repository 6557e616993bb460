/* Prints order numbers that fall together in a journal's index.

   The index is the kit's `indexmap` with its hasher of a fixed seed. Numbers whose hashes have zeros under the mask
   begin their search at one place; with the mask's upper byte they have one tag there too.

   colliding MASK COUNT */
#include <stdint.h>
#include <stdio.h>
#include <stdlib.h>

static const uint64_t STATE = 0x243f6a8885a308d3u, MULTIPLIER = 0x9e3779b97f4a7c15u ^ 16;

int main(int count, char **words) {
    if (count != 3) return 1;
    uint32_t mask = strtoul(words[1], NULL, 16);
    long left = atol(words[2]);
    for (uint64_t number = 0; left > 0; number++) {
        unsigned __int128 product = (unsigned __int128)(STATE ^ number) * MULTIPLIER;
        uint64_t hash = (uint64_t)product ^ (uint64_t)(product >> 64);
        if ((uint32_t)(hash ^ hash >> 32) & mask) continue;
        printf("%llu\n", (unsigned long long)number);
        left--;
    }
    return 0;
}
