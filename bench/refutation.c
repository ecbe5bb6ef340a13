// Checks a refutation of 12,287 nodes over 200 literals many times, and counts its nodes by a plain
// walk of the same language as often. Prints both times a node and their ratio.
#include <stdint.h>
#include <stdio.h>
#include <time.h>

uint64_t farkas_proof_checked(uint32_t times);
uint64_t farkas_proof_counted(uint32_t times);

static const int ROUNDS = 5;

static double now(void) {
    struct timespec time;
    clock_gettime(CLOCK_PROCESS_CPUTIME_ID, &time);
    return time.tv_sec + time.tv_nsec * 1e-9;
}

static double seconds(uint64_t (*walk)(uint32_t), uint32_t times) {
    double least = 1e9;
    for (int i = 0; i < ROUNDS; i++) {
        double start = now();
        walk(times);
        double took = now() - start;
        if (took < least) least = took;
    }
    return least;
}

int main(void) {
    const uint32_t counts = 1000, checks = 100;
    uint64_t nodes = farkas_proof_counted(1);
    if (nodes == 0 || farkas_proof_checked(1) != 1) return 1;
    // What each call spends on making the tree is taken off.
    double counted = (seconds(farkas_proof_counted, counts) - seconds(farkas_proof_counted, 0)) / counts / nodes;
    double checked = (seconds(farkas_proof_checked, checks) - seconds(farkas_proof_checked, 0)) / checks / nodes;
    printf("%llu nodes: counted in %.2f ns a node, checked in %.1f ns a node, ratio %.1f\n", (unsigned long long)nodes, counted * 1e9, checked * 1e9, checked / counted);
    return 0;
}
