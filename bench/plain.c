// A plain edge-list min-sum decoder of the inner and the outer trellis, for comparison: each stage's
// edge costs are looked up once, forward and backward run over the edges, and each edge updates each
// bit of its word. No structure of the trellis is used.
#include "plain.h"
#include <string.h>

enum { TOP = 0x7fffffff };

static int32_t zero_cost(int16_t prior) { return prior > 0 ? prior : 0; }
static int32_t one_cost(int16_t prior) { return prior < 0 ? -prior : 0; }

typedef struct { int from, to, word, slot; } edge_t;

static int32_t hold(int32_t x) { return x < -511 ? -511 : x > 511 ? 511 : x; }

// One pass over a trellis whose edges are the same in every stage, with a cost for each edge and stage.
static void pass(const edge_t *edges, int count, int states, int stages, int bits, const int32_t *costs,
                 int32_t *forward, int32_t *backward, int closed, int32_t *zeros, int32_t *ones) {
    for (int s = 0; s < states; s++) forward[s] = s == 0 ? 0 : TOP;
    for (int k = 0; k < stages; k++) {
        int32_t *next = forward + (k + 1) * states, *here = forward + k * states;
        for (int s = 0; s < states; s++) next[s] = TOP;
        for (int i = 0; i < count; i++) {
            if (here[edges[i].from] == TOP) continue;
            int32_t c = here[edges[i].from] + costs[k * count + i];
            if (c < next[edges[i].to]) next[edges[i].to] = c;
        }
    }
    for (int s = 0; s < states; s++) backward[stages * states + s] = closed && s ? TOP : 0;
    for (int k = stages - 1; k >= 0; k--) {
        int32_t *next = backward + (k + 1) * states, *here = backward + k * states;
        for (int s = 0; s < states; s++) here[s] = TOP;
        for (int i = 0; i < count; i++) {
            if (next[edges[i].to] == TOP) continue;
            int32_t c = next[edges[i].to] + costs[k * count + i];
            if (c < here[edges[i].from]) here[edges[i].from] = c;
        }
    }
    for (int k = 0; k < stages; k++) {
        int32_t *z = zeros + k * bits, *o = ones + k * bits;
        for (int b = 0; b < bits; b++) z[b] = o[b] = TOP;
        for (int i = 0; i < count; i++) {
            int32_t f = forward[k * states + edges[i].from], g = backward[(k + 1) * states + edges[i].to];
            if (f == TOP || g == TOP) continue;
            int32_t c = f + costs[k * count + i] + g;
            for (int b = 0; b < bits; b++) {
                if (edges[i].word >> b & 1) {
                    if (c < o[b]) o[b] = c;
                } else if (c < z[b]) {
                    z[b] = c;
                }
            }
        }
    }
}

void plain_inner(const uint8_t *rows, const int16_t *priors, int m, int n, plain_room *room, int16_t *out) {
    edge_t edges[512];
    int slots = 1 << m, count = 2 * slots;
    for (int i = 0; i < count; i++) {
        int acc = i >> m, slot = 0;
        edges[i].from = acc;
        edges[i].word = i & (slots - 1);
        for (int b = 0; b < m; b++) {
            acc ^= edges[i].word >> b & 1;
            slot = 2 * slot + acc;
        }
        edges[i].to = acc;
        edges[i].slot = slot;
    }
    for (int k = 0; k < n; k++) {
        int32_t words[256] = {0};
        for (int b = 0; b < m; b++) {
            int32_t z = zero_cost(priors[k * m + b]), o = one_cost(priors[k * m + b]);
            for (int w = 0; w < 1 << b; w++) {
                words[w + (1 << b)] = words[w] + o;
                words[w] += z;
            }
        }
        for (int i = 0; i < count; i++)
            room->costs[k * count + i] = rows[k * slots + edges[i].slot] + words[edges[i].word];
    }
    pass(edges, count, 2, n, m, room->costs, room->forward, room->backward, 0, room->zeros, room->ones);
    for (int j = 0; j < n * m; j++) out[j] = (int16_t)hold(room->zeros[j] - room->ones[j] - priors[j]);
}

void plain_outer(const int16_t *priors, int stages, plain_room *room, int16_t *out, int16_t *data) {
    edge_t edges[8];
    for (int i = 0; i < 8; i++) {
        int s = i / 2, u = i % 2, c0 = u ^ s / 2, c1 = u ^ s % 2 ^ s / 2;
        edges[i] = (edge_t){s, u + 2 * (s % 2), c0 + 2 * c1 + 4 * u, 0};
    }
    for (int k = 0; k < stages; k++)
        for (int i = 0; i < 8; i++) {
            int w = edges[i].word;
            room->costs[k * 8 + i] = (w & 1 ? one_cost(priors[2 * k]) : zero_cost(priors[2 * k])) +
                                     (w & 2 ? one_cost(priors[2 * k + 1]) : zero_cost(priors[2 * k + 1]));
        }
    pass(edges, 8, 4, stages, 3, room->costs, room->forward, room->backward, 1, room->zeros, room->ones);
    for (int k = 0; k < stages; k++) {
        for (int b = 0; b < 2; b++)
            out[2 * k + b] = (int16_t)hold(room->zeros[3 * k + b] - room->ones[3 * k + b] - priors[2 * k + b]);
        int32_t z = room->zeros[3 * k + 2], o = room->ones[3 * k + 2];
        data[k] = z == TOP || o == TOP ? 0 : (int16_t)(z - o);
    }
}
