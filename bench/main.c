// Times one inner and one outer pass of this library beside a plain C decoder, on the same block, in one run.
#include "plain.h"
#include <stdbool.h>
#include <stdio.h>
#include <stdlib.h>
#include <string.h>
#include <time.h>

// The library's functions: a slice is a pointer and a length.
bool lochsaucer_inner(uint8_t way, size_t m, size_t n, const uint8_t *rows, size_t rows_len, const int16_t *priors, size_t priors_len,
                      uint32_t *work, size_t work_len, int16_t *out, size_t out_len);
bool lochsaucer_outer(uint8_t way, size_t n, const int16_t *priors, size_t priors_len, uint32_t *work, size_t work_len, int16_t *out,
                      size_t out_len, int16_t *data, size_t data_len, uint8_t *decided, size_t decided_len);

enum { P = 942, M_BITS = 6, K = 8 * P + 24, N = 2 * K, SYMBOLS = N / M_BITS, SLOTS = 1 << M_BITS, WORK = 40 * K + 256, TURNS = 101 };

static uint8_t rows[SYMBOLS * SLOTS];
static int16_t inner_priors[N], outer_priors[N], ours[N], theirs[N], our_data[K], their_data[K];
static uint32_t work[WORK];
static uint8_t decided[K];
static plain_room room;
static uint64_t state = 88172645463325252u;

static uint32_t next_random(void) {
    state ^= state << 13;
    state ^= state >> 7;
    state ^= state << 17;
    return (uint32_t)(state >> 32);
}

static double now(void) {
    struct timespec t;
    clock_gettime(CLOCK_MONOTONIC, &t);
    return t.tv_sec * 1e6 + t.tv_nsec / 1e3;
}

static int ascending(const void *a, const void *b) {
    double x = *(const double *)a, y = *(const double *)b;
    return x < y ? -1 : x > y;
}

static double median(double *times) {
    qsort(times, TURNS, sizeof *times, ascending);
    return times[TURNS / 2];
}

static double ours_inner[TURNS], ours_outer[TURNS], plain_inner_time[TURNS], plain_outer_time[TURNS];

int main(void) {
    for (size_t i = 0; i < sizeof rows; i++) rows[i] = next_random() % 256;
    for (int j = 0; j < N; j++) {
        inner_priors[j] = (int16_t)(next_random() % 1023) - 511;
        outer_priors[j] = (int16_t)(next_random() % 1023) - 511;
    }
    for (int way = 1; way <= 3; way++) {
        bool same = true;
        for (int turn = 0; turn < TURNS; turn++) {
            double t0 = now();
            bool a = lochsaucer_inner(way, M_BITS, SYMBOLS, rows, sizeof rows, inner_priors, N, work, WORK, ours, N);
            double t1 = now();
            plain_inner(rows, inner_priors, M_BITS, SYMBOLS, &room, theirs);
            double t2 = now();
            same &= a && !memcmp(ours, theirs, sizeof ours);
            double t3 = now();
            bool b = lochsaucer_outer(way, K, outer_priors, N, work, WORK, ours, N, our_data, K, decided, K);
            double t4 = now();
            plain_outer(outer_priors, K, &room, theirs, their_data);
            double t5 = now();
            same &= b && !memcmp(ours, theirs, sizeof ours) && !memcmp(our_data, their_data, sizeof our_data);
            ours_inner[turn] = t1 - t0;
            plain_inner_time[turn] = t2 - t1;
            ours_outer[turn] = t4 - t3;
            plain_outer_time[turn] = t5 - t4;
        }
        double oi = median(ours_inner), pi = median(plain_inner_time), oo = median(ours_outer), po = median(plain_outer_time);
        printf("way %d: inner %.0f us (plain C %.0f), outer %.0f us (plain C %.0f), both %.0f us (plain C %.0f), ratio %.2f, same numbers %s\n",
               way, oi, pi, oo, po, oi + oo, pi + po, (oi + oo) / (pi + po), same ? "yes" : "NO");
    }
    return 0;
}
