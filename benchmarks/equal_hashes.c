/* Finds clients whose SYN keys have hashes that agree in their lowest bits where the hash takes in no secret: a folded
   multiplication from a fixed state, over the two words that a key is hashed as. Usage: equal_hashes NUMBER. It prints
   the address and the port of so many clients. */
#include <stdint.h>
#include <stdio.h>
#include <stdlib.h>

enum { BITS = 12, LEAST_PORT = 1024, MOST_PORT = 65535 };

static const uint64_t START = 0x243f6a8885a308d3, MULTIPLIER = 0x9e3779b97f4a7c15;

static uint64_t folded(uint64_t a, uint64_t b) {
    unsigned __int128 product = (unsigned __int128)a * b;
    return (uint64_t)product ^ (uint64_t)(product >> 64);
}

/* The state with one more word of eight bytes. */
static uint64_t taken_in(uint64_t state, uint64_t word) { return folded(state ^ word, MULTIPLIER ^ 2 * 8); }

int main(int count, char **words) {
    long wanted = count > 1 ? atol(words[1]) : 0;
    for (uint64_t address = 0x0b000000; wanted > 0; address++)
        for (uint64_t port = LEAST_PORT; port <= MOST_PORT && wanted > 0; port++) {
            uint64_t hash = taken_in(taken_in(START, address << 16 | port), 0);
            if ((hash & ((1 << BITS) - 1)) == 0) {
                printf("%llu %llu\n", (unsigned long long)address, (unsigned long long)port);
                wanted--;
            }
        }
    return 0;
}
