/* Writes names whose keys collide in a peer's journal, as many as its word says, eight bytes each as frames have them.

   The journal finds a key by a hash whose seed is known. These hashes begin within 64 of the 16,384 groups that the table of a full
   history has, and share a tag of 8 bits (0 and 1 are one), so a look-up compares its key with nearly all of them. One name in
   32,768 has such a hash. */
#include <stdint.h>
#include <stdio.h>
#include <stdlib.h>

static uint32_t hash_of(uint64_t name) {
    unsigned __int128 product = (unsigned __int128)(name ^ 0x243f6a8885a308d3) * (0x9e3779b97f4a7c15 ^ 16);
    uint64_t folded = (uint64_t)product ^ (uint64_t)(product >> 64);
    return (uint32_t)(folded ^ folded >> 32);
}

static int collides(uint32_t hash) {
    return hash % 16384 < 64 && hash >> 24 < 2;
}

int main(int count, char **words) {
    long wanted = count == 2 ? atol(words[1]) : 0;
    for (uint64_t stamp = 1; wanted > 0; stamp++) {
        uint64_t name = stamp << 16; /* the administrator's */
        if (collides(hash_of(name))) {
            uint64_t written = __builtin_bswap64(name);
            fwrite(&written, sizeof written, 1, stdout);
            wanted--;
        }
    }
    return 0;
}
