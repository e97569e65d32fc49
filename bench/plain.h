#ifndef PLAIN_H
#define PLAIN_H
#include <stdint.h>

enum { MOST_COSTS = 2048 * 512, MOST_COLUMNS = 4 * 8193, MOST_BITS = 3 * 8192 };

typedef struct {
    int32_t costs[MOST_COSTS], forward[MOST_COLUMNS], backward[MOST_COLUMNS], zeros[MOST_BITS], ones[MOST_BITS];
} plain_room;

// The inner extrinsics of n symbols of m bits, and the outer extrinsics with the reliability of each data bit.
void plain_inner(const uint8_t *rows, const int16_t *priors, int m, int n, plain_room *room, int16_t *out);
void plain_outer(const int16_t *priors, int stages, plain_room *room, int16_t *out, int16_t *data);
#endif
