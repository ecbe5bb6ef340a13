/* Prints names of twelve letters and digits that all lie in one place of a hash table of the library
 * `indexmap` with its own hasher, whose seed is fixed: of each name's hash the bits that choose the place
 * in a table of up to 43,000 entries are the same, and so is the mark by which a look-up tells entries
 * apart before it compares them. With the number of names as its argument; 25,000 take half a minute.
 * `names.py --colliding` measures a script that has these names. */
#include <stdint.h>
#include <stdio.h>
#include <stdlib.h>

enum { LENGTH = 12, LETTERS = 52, SIGNS = 62 };

static const char SIGN[] = "abcdefghijklmnopqrstuvwxyzABCDEFGHIJKLMNOPQRSTUVWXYZ0123456789";

/* The halves of a product, joined. */
static uint64_t folded(uint64_t a, uint64_t b) {
    unsigned __int128 product = (unsigned __int128)a * b;
    return (uint64_t)product ^ (uint64_t)(product >> 64);
}

/* The state after a write of `count` bytes that count as this word. */
static uint64_t written(uint64_t state, uint64_t word, uint64_t count) {
    return folded(state ^ word, 0x9e3779b97f4a7c15 ^ (2 * count));
}

static uint64_t with_byte(uint64_t state, char byte) {
    return written(state, 0x10101 * (uint64_t)(unsigned char)byte, 1);
}

int main(int count, char **words) {
    long left = count > 1 ? atol(words[1]) : 25000;
    char name[LENGTH + 1] = {0};
    for (uint64_t number = 0; left > 0; number++) {
        uint64_t state = written(0x243f6a8885a308d3, LENGTH, 8), rest = number;
        for (int i = 0; i < LENGTH - 1; i++) {
            int most = i == 0 ? LETTERS : SIGNS;
            name[i] = SIGN[rest % most];
            rest /= most;
            state = with_byte(state, name[i]);
        }
        for (int last = 0; last < SIGNS && left > 0; last++) {
            uint64_t hash = with_byte(state, SIGN[last]);
            if (((hash ^ hash >> 32) & 0xff000fff) == 0x55000123) {
                name[LENGTH - 1] = SIGN[last];
                puts(name);
                left--;
            }
        }
    }
}
