/* The packer of tiles in plain C: the same bytes as `rle_enc::pack` gives for rows of 64 pixels at 24 bits ('Run-length bitmaps' in
 * crates/run_lengths/README.md). Three masks of 64 bits a row say where a run may begin and how far it goes. */
#ifndef PACKER_H
#define PACKER_H
#include <emmintrin.h>
#include <stddef.h>
#include <stdint.h>
#include <string.h>

enum { SIDE = 64, PACKED_ROOM = 3 * SIDE * SIDE + 64 };

/* Bits of the pixels of a tile, a word a row. */
struct masks {
    uint64_t background[SIDE]; /* the pixel is the one a row earlier, or black in the first row */
    uint64_t next[SIDE];       /* the pixel behind it, in the same stretch, has its colour */
    uint64_t alone[SIDE];      /* neither */
};

/* Which of 64 pixels are equal. */
static inline uint64_t equal_pixels(const uint32_t *a, const uint32_t *b) {
    uint64_t mask = 0;
#pragma GCC unroll 4
    for (int i = 0; i < SIDE; i += 16) {
        const __m128i *x = (const __m128i *)(a + i), *y = (const __m128i *)(b + i);
        __m128i first = _mm_packs_epi32(_mm_cmpeq_epi32(_mm_loadu_si128(x), _mm_loadu_si128(y)),
                                        _mm_cmpeq_epi32(_mm_loadu_si128(x + 1), _mm_loadu_si128(y + 1)));
        __m128i last = _mm_packs_epi32(_mm_cmpeq_epi32(_mm_loadu_si128(x + 2), _mm_loadu_si128(y + 2)),
                                       _mm_cmpeq_epi32(_mm_loadu_si128(x + 3), _mm_loadu_si128(y + 3)));
        mask |= (uint64_t)(uint32_t)_mm_movemask_epi8(_mm_packs_epi16(first, last)) << i;
    }
    return mask;
}

/* The masks of h rows; behind the last pixel stands one more, of any value. No run goes from the first row into the rest. */
static inline void find_masks(struct masks *m, const uint32_t *pixels, size_t h) {
    static const uint32_t black[SIDE];
    for (size_t r = 0; r < h; r++) {
        const uint32_t *row = pixels + r * SIDE;
        m->background[r] = equal_pixels(row, r == 0 ? black : row - SIDE);
        m->next[r] = equal_pixels(row, row + 1);
        if (r == 0 || r == h - 1) m->next[r] &= ~(uint64_t)0 >> 1;
        m->alone[r] = ~(m->background[r] | m->next[r]);
    }
}

/* How many bits from a place on are one, to the end of a stretch at most. */
static inline size_t count_ones(const uint64_t *masks, size_t at, size_t end) {
    size_t row = at / SIDE;
    uint64_t zeros = ~masks[row] >> at % SIDE;
    if (zeros != 0) return (size_t)__builtin_ctzll(zeros);
    for (row++; row < end / SIDE; row++)
        if (masks[row] != ~(uint64_t)0) return row * SIDE + (size_t)__builtin_ctzll(~masks[row]) - at;
    return end - at;
}

/* A code and a length, in the shortest of its three forms. */
static inline uint8_t *put_length(uint8_t *out, uint8_t code, uint8_t long_code, size_t n) {
    if (n < 32) {
        *out++ = (uint8_t)(code + n);
    } else if (n < 288) {
        *out++ = code;
        *out++ = (uint8_t)(n - 32);
    } else {
        *out++ = long_code;
        *out++ = (uint8_t)n;
        *out++ = (uint8_t)(n >> 8);
    }
    return out;
}

/* Blue, green and red; a fourth byte is written over by what follows. */
static inline uint8_t *put_pixel(uint8_t *out, uint32_t color) {
    memcpy(out, &color, 4);
    return out + 3;
}

/* The runs of a stretch. */
static inline uint8_t *pack_stretch(uint8_t *out, const struct masks *m, const uint32_t *pixels, size_t at, size_t end) {
    while (at < end) {
        size_t alone = count_ones(m->alone, at, end);
        if (alone > 0) {
            out = put_length(out, 0x80, 0xF4, alone);
            for (size_t i = 0; i < alone; i++) out = put_pixel(out, pixels[at + i]);
            at += alone;
            if (at == end) break;
        }
        size_t background = count_ones(m->background, at, end);
        size_t color = 1 + count_ones(m->next, at, end);
        if (background >= color) {
            out = put_length(out, 0x00, 0xF0, background);
            at += background;
        } else {
            out = put_pixel(put_length(out, 0x60, 0xF3, color), pixels[at]);
            at += color;
        }
    }
    return out;
}

/* Packs h rows of 64 pixels, the bottom row first; `out` has PACKED_ROOM bytes. */
static inline size_t pack(uint8_t *out, const uint32_t *pixels, size_t h) {
    struct masks m;
    find_masks(&m, pixels, h);
    uint8_t *behind = pack_stretch(out, &m, pixels, 0, SIDE);
    return (size_t)(pack_stretch(behind, &m, pixels, SIDE, h * SIDE) - out);
}
#endif
