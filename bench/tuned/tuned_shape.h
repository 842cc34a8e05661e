/* The shape of vectors, as far as their lists tell it one by one: while they are read, and of what an update makes of them. */
#ifndef BENCH_TUNED_SHAPE_H
#define BENCH_TUNED_SHAPE_H

#include "tuned_parts.h"

/* What a vector's lists come to. */
struct shape {
    uint32_t pairs, soundings, pointers, begins, ends; /* how many */
    uint32_t bad;                                      /* not 0: a coordinate beyond its limit, or a VRPT that no edge may have */
    struct ends at;
};

/* NAME, ORNT, USAG, TOPI, MASK: all that isn't free is compared at once. */
ALWAYS void add_pointers(struct shape *shape, const uint8_t *at, const uint8_t *end)
{
    for (; at < end; at += 9) {
        uint64_t entry = eight(at);
        uint32_t id = (uint32_t)(entry >> 8), topology = (uint32_t)(entry >> 56);
        shape->bad |= (entry & UINT64_C(0x00FFFF00000000FF)) != UINT64_C(0x00FFFF0000000078) || at[8] != 255;
        shape->pointers++;
        shape->begins += topology == 1;
        shape->ends += topology == 2;
        shape->at.begin = topology == 1 ? id : shape->at.begin;
        shape->at.end = topology == 2 ? id : shape->at.end;
    }
}

/* Y and X of an entry. A number above twice its limit, once the limit was added, is beyond it on one of both sides. */
ALWAYS uint32_t beyond(const uint8_t *at, uint32_t north)
{
    const uint32_t east = 2 * north;
    return (uint32_t)(four(at) + north > 2 * north) | (uint32_t)(four(at + 4) + east > 2 * east);
}

#if defined(__GNUC__)
/* Four numbers at a time: which are beyond their limits. */
typedef int32_t quad __attribute__((vector_size(16)));

ALWAYS quad quad_beyond(const uint8_t *at, quad least, quad most)
{
    quad numbers;
    memcpy(&numbers, at, sizeof numbers);
    return (numbers > most) | (numbers < least);
}

ALWAYS uint32_t quad_any(quad numbers)
{
    return (uint32_t)(numbers[0] | numbers[1] | numbers[2] | numbers[3]);
}

ALWAYS uint32_t pairs_beyond(const uint8_t *at, uint32_t count, uint32_t north)
{
    const int32_t y = (int32_t)north, x = 2 * y;
    const quad limit = {y, x, y, x};
    quad out = {0, 0, 0, 0};
    if (count == 1)
        return beyond(at, north);
    for (; count >= 2; count -= 2, at += 16)
        out |= quad_beyond(at, -limit, limit);
    return quad_any(out) | (count > 0 ? beyond(at, north) : 0);
}

/* Four soundings are three times four numbers; a depth has no limit. */
ALWAYS uint32_t soundings_beyond(const uint8_t *at, uint32_t count, uint32_t north)
{
    const int32_t y = (int32_t)north, x = 2 * y, high = INT32_MAX, low = INT32_MIN;
    const quad most[] = {{y, x, high, y}, {x, high, y, x}, {high, y, x, high}}, least[] = {{-y, -x, low, -y}, {-x, low, -y, -x}, {low, -y, -x, low}};
    quad out = {0, 0, 0, 0};
    for (; count >= 4; count -= 4, at += 48)
        out |= quad_beyond(at, least[0], most[0]) | quad_beyond(at + 16, least[1], most[1]) | quad_beyond(at + 32, least[2], most[2]);
    uint32_t rest = 0;
    for (; count > 0; count--, at += 12)
        rest |= beyond(at, north);
    return quad_any(out) | rest;
}
#else
ALWAYS uint32_t pairs_beyond(const uint8_t *at, uint32_t count, uint32_t north)
{
    uint32_t out = 0;
    for (; count > 0; count--, at += 8)
        out |= beyond(at, north);
    return out;
}

ALWAYS uint32_t soundings_beyond(const uint8_t *at, uint32_t count, uint32_t north)
{
    uint32_t out = 0;
    for (; count > 0; count--, at += 12)
        out |= beyond(at, north);
    return out;
}
#endif

ALWAYS void add_pairs(struct shape *shape, const uint8_t *at, uint32_t count, uint32_t north)
{
    shape->pairs += count;
    shape->bad |= pairs_beyond(at, count, north);
}

ALWAYS void add_soundings(struct shape *shape, const uint8_t *at, uint32_t count, uint32_t north)
{
    shape->soundings += count;
    shape->bad |= soundings_beyond(at, count, north);
}

ALWAYS bool unshaped(enum class class, const struct shape *shape)
{
    if (shape->bad != 0)
        return true;
    if (class == EDGE)
        return shape->soundings > 0 || shape->pointers != 2 || shape->begins != 1 || shape->ends != 1;
    bool one_pair = shape->pairs == 1 && shape->soundings == 0;
    return shape->pointers > 0 || !(one_pair || (class == ISOLATED && shape->pairs == 0 && shape->soundings > 0));
}

#endif
