// Makes and prints a derivation over 4,096 predicates, and reads it back, at 50,000 and at 100,000
// steps. Prints the seconds of both, and the ratio of the larger to the smaller; it fails where that
// is above 2.5.
#include <stdint.h>
#include <stdio.h>
#include <time.h>

uint64_t answer_text_printed(uint32_t steps);
uint64_t answer_text_read_back(uint32_t steps);

static const int ROUNDS = 5;

static double now(void) {
    struct timespec time;
    clock_gettime(CLOCK_PROCESS_CPUTIME_ID, &time);
    return time.tv_sec + time.tv_nsec * 1e-9;
}

static double seconds(uint64_t (*work)(uint32_t), uint32_t steps) {
    double least = 1e9;
    for (int i = 0; i < ROUNDS; i++) {
        double start = now();
        work(steps);
        double took = now() - start;
        if (took < least) least = took;
    }
    return least;
}

int main(void) {
    const uint32_t few = 50000, many = 100000;
    if (answer_text_read_back(few) != few || answer_text_read_back(many) != many) return 1;
    double printed = seconds(answer_text_printed, many);
    double small = seconds(answer_text_read_back, few), large = seconds(answer_text_read_back, many);
    printf("%u steps, %llu bytes: made and printed in %.3f s, read back in %.3f s\n", many, (unsigned long long)answer_text_printed(many), printed, large - printed);
    printf("%u steps in %.3f s, %u in %.3f s, ratio %.2f\n", few, small, many, large, large / small);
    return large <= 2.5 * small ? 0 : 1;
}
