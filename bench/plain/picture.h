/* A flat picture: a word a pixel, row by row from the top, all black at first. */
#ifndef PICTURE_H
#define PICTURE_H
#include <stdbool.h>
#include <stdint.h>
#include <stdio.h>
#include <stdlib.h>
#include <string.h>

struct picture {
    uint32_t *pixels;
    int w, h;
};

struct rect {
    int x, y, w, h;
};

/* Ends the program where a run isn't one that it is for, or memory is wanting. */
static inline void give_up(const char *why) {
    fprintf(stderr, "%s\n", why);
    exit(3);
}

static inline void *room_for(void *old, size_t bytes) {
    void *room = realloc(old, bytes);
    if (room == NULL) give_up("out of memory");
    return room;
}

/* There is room behind the last pixel, where a packer looks at one more. */
static inline struct picture new_picture(int w, int h) {
    struct picture p = {calloc((size_t)w * (size_t)h + 1, sizeof(uint32_t)), w, h};
    if (p.pixels == NULL) give_up("out of memory");
    return p;
}

/* What two rectangles have in common; one without columns or rows has no pixel. */
static inline struct rect common(struct rect a, struct rect b) {
    int left = a.x > b.x ? a.x : b.x, top = a.y > b.y ? a.y : b.y;
    int right = a.x + a.w < b.x + b.w ? a.x + a.w : b.x + b.w;
    int bottom = a.y + a.h < b.y + b.h ? a.y + a.h : b.y + b.h;
    struct rect r = {left, top, right - left, bottom - top};
    return r;
}

static inline bool is_empty(struct rect r) { return r.w <= 0 || r.h <= 0; }

static inline struct rect whole(const struct picture *p) {
    struct rect r = {0, 0, p->w, p->h};
    return r;
}

static inline uint32_t *pixel_at(const struct picture *p, int x, int y) { return p->pixels + (size_t)y * (size_t)p->w + (size_t)x; }

/* Fills a rectangle that lies on the picture: its first row pixel by pixel, the others from it. */
static inline void fill_rect(const struct picture *p, struct rect r, uint32_t color) {
    uint32_t *first = pixel_at(p, r.x, r.y);
    for (int x = 0; x < r.w; x++) first[x] = color;
    for (int y = 1; y < r.h; y++) memcpy(first + (size_t)y * (size_t)p->w, first, (size_t)r.w * sizeof *first);
}

/* Copies a rectangle from one picture to the same place of another of its size. */
static inline void copy_rect(const struct picture *to, const struct picture *from, struct rect r) {
    for (int y = r.y; y < r.y + r.h; y++) memcpy(pixel_at(to, r.x, y), pixel_at(from, r.x, y), (size_t)r.w * sizeof(uint32_t));
}

/* The next line of the input with a zero for its end, or NULL; it stays until the next call. A last line that isn't ended ends the program. */
static inline char *next_line(size_t *length) {
    enum { STEP = 1 << 16 };
    static char *text;
    static size_t room, from, to;
    for (size_t seen = from;;) {
        char *end = to > seen ? memchr(text + seen, '\n', to - seen) : NULL;
        if (end != NULL) {
            char *line = text + from;
            *end = 0;
            *length = (size_t)(end - line);
            from = (size_t)(end - text) + 1;
            return line;
        }
        if (from > 0) memmove(text, text + from, to - from);
        to -= from;
        from = 0;
        seen = to;
        if (room - to < STEP) text = room_for(text, room = 2 * room + STEP);
        size_t got = fread(text + to, 1, STEP, stdin);
        if (got == 0 && to > 0) give_up("a last line that isn't ended");
        if (got == 0) return NULL;
        to += got;
    }
}
#endif
