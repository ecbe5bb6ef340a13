// Reads one kind of text of about 16 MiB, five times, and counts its brackets by two plain loops of the
// same language: one that counts those that are open, a byte at a time, and one that counts them all,
// many bytes at once. Prints the speeds, their ratios and the peak of memory per byte of text.
#include <stdint.h>
#include <stdio.h>
#include <stdlib.h>
#include <string.h>
#include <sys/resource.h>
#include <time.h>

int64_t sexp_read_trees(const uint8_t *text, size_t length);
uint64_t sexp_read_brackets(const uint8_t *text, size_t length);
uint64_t sexp_read_depth(const uint8_t *text, size_t length);

static const size_t SIZE = 16u << 20;
static const int ROUNDS = 5;

static double now(void) {
    struct timespec time;
    clock_gettime(CLOCK_PROCESS_CPUTIME_ID, &time);
    return time.tv_sec + time.tv_nsec * 1e-9;
}

static long peak(void) {
    struct rusage usage;
    getrusage(RUSAGE_SELF, &usage);
    return usage.ru_maxrss * 1024;
}

static void fill(uint8_t *text, const char *kind) {
    if (strcmp(kind, "comment") == 0) {
        memset(text, 'x', SIZE);
        text[0] = ';';
        return;
    }
    char piece[5000];
    if (strcmp(kind, "commands") == 0) {
        strcpy(piece, "(assert (p 1 2 3))\n");
    } else {
        memset(piece, '(', 2000);
        memset(piece + 2000, ')', 2000);
        piece[4000] = 0;
    }
    size_t length = strlen(piece), at = 0;
    memset(text, ' ', SIZE);
    for (; at + length <= SIZE; at += length) memcpy(text + at, piece, length);
}

int main(int count, char **words) {
    const char *kind = count > 1 ? words[1] : "commands";
    uint8_t *text = malloc(SIZE);
    fill(text, kind);
    double scalar = 1e9, vector = 1e9, read = 1e9;
    uint64_t brackets = 0, depth = 0;
    int64_t trees = 0;
    for (int i = 0; i < ROUNDS; i++) {
        double start = now();
        depth = sexp_read_depth(text, SIZE);
        double middle = now();
        brackets = sexp_read_brackets(text, SIZE);
        double end = now();
        if (middle - start < scalar) scalar = middle - start;
        if (end - middle < vector) vector = end - middle;
    }
    long before = peak();
    for (int i = 0; i < ROUNDS; i++) {
        double start = now();
        trees = sexp_read_trees(text, SIZE);
        double took = now() - start;
        if (took < read) read = took;
    }
    printf("%-9s %8lld trees %9llu brackets %5llu deep  reader %6.1f MB/s  scalar loop %6.1f MB/s, ratio %5.2f  vector loop %6.1f MB/s, ratio %5.2f  memory %4.1f bytes a byte\n", kind,
        (long long)trees, (unsigned long long)brackets, (unsigned long long)depth, SIZE / read / 1e6, SIZE / scalar / 1e6, read / scalar, SIZE / vector / 1e6, read / vector, (double)(peak() - before) / SIZE);
    return trees < 0;
}
