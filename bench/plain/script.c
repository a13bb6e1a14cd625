/* script: reads a script on its input, draws it on a flat picture, keeps an entry for each line, and writes the capture, as `rdp_host script`
 * does. It is for one viewer, who owns the session; for the lines fill, copy and blit by CC, text, save, restore and the loads; and for takes
 * of fills and loads, of blits too for a viewer without caches, or of more than 256 drawings of any of these kinds. The picture's width is a
 * multiple of 64. All else, and each line that the host would refuse, ends it with 3. */
#include "packer.h"
#include "picture.h"

enum kind { FILL, COPY, BLIT, TEXT, SAVE, RESTORE, LOAD };

struct image {
    int w, h;
    uint32_t pixels[];
};

struct glyph {
    int x, y, w, h, step; /* the cell from the pen, and the bytes of a row */
    uint8_t bits[];
};

/* The glyphs of a text, each with the pen's way to it. */
struct run {
    int count;
    struct {
        const struct glyph *glyph;
        int delta;
    } of[];
};

struct box {
    int16_t x, y, w, h;
};

/* What a line of a drawing asked for, and which pixels it touches. */
struct entry {
    enum kind kind;
    uint32_t color;
    struct box rect, clip, touched; /* a clip without pixels is none */
    int16_t x, y;                   /* the source's corner */
    const void *shown;              /* the image or the run */
};

enum { IMAGES = 255, FONTS = 3, CODES = 256, BLOCKS = 15, BRUSHES = 63, ENTRIES = 1 << 20, JUMP = 256, RUN = 64 };

static struct picture picture;
static struct image *images[IMAGES];
static struct glyph *glyphs[FONTS][CODES];
static uint32_t *brushes[BRUSHES];
static struct image *blocks[BLOCKS];
static struct entry *entries;
static size_t count, room;

/* The viewer: what it confirmed, what was sent, and the registers of its last OpaqueRect. */
static bool has_zero_bounds, has_packed, has_markers, has_caches, has_taken;
static size_t seen;
static int last_type = 1, last_fields[7], last_bounds[4];

static void refuse_unless(bool holds) {
    if (!holds) give_up("a line that isn't for this program");
}

/* ---- the words of a line: a pointer goes over them, each with its space before it */

static int digit_value(char c) {
    if (c >= '0' && c <= '9') return c - '0';
    if (c >= 'A' && c <= 'F') return c - 'A' + 10;
    if (c >= 'a' && c <= 'f') return c - 'a' + 10;
    return -1;
}

/* A number without a leading zero, which may be below zero. */
static int number_here(const char **at) {
    const char *p = *at;
    bool is_negative = *p == '-';
    if (is_negative) p++;
    const char *first = p;
    int n = 0;
    while (*p >= '0' && *p <= '9' && p - first < 6) n = 10 * n + (*p++ - '0');
    refuse_unless(p > first && (*first != '0' || p - first == 1));
    *at = p;
    return is_negative ? -n : n;
}

static int number_within(const char **at, int least, int most) {
    refuse_unless(*(*at)++ == ' ');
    int n = number_here(at);
    refuse_unless(least <= n && n <= most);
    return n;
}

static int coordinate(const char **at) { return number_within(at, -4096, 4095); }

static uint32_t digits(const char **at, int count) {
    uint32_t n = 0;
    for (int i = 0; i < count; i++) {
        int value = digit_value(*(*at)++);
        refuse_unless(value >= 0);
        n = 16 * n + (uint32_t)value;
    }
    return n;
}

static uint32_t color_word(const char **at) {
    refuse_unless(*(*at)++ == ' ');
    return digits(at, 6);
}

static struct rect rect_words(const char **at) {
    struct rect r;
    r.x = coordinate(at);
    r.y = coordinate(at);
    r.w = number_within(at, 1, 2048);
    r.h = number_within(at, 1, 2048);
    return r;
}

static bool skips(const char **at, const char *word) {
    size_t length = strlen(word);
    if (strncmp(*at, word, length) != 0) return false;
    *at += length;
    return true;
}

static void source_copied(const char **at) { refuse_unless(skips(at, " CC")); }

static bool is_inside(struct rect a, int w, int h) { return a.x >= 0 && a.y >= 0 && a.x + a.w <= w && a.y + a.h <= h; }

/* The clip at a line's end, or one without pixels. */
static struct rect clip_at_end(const char **at) {
    struct rect clip = {0, 0, 0, 0};
    if (skips(at, " clip")) {
        clip = rect_words(at);
        refuse_unless(is_inside(clip, picture.w, picture.h));
    }
    refuse_unless(**at == 0);
    return clip;
}

/* ---- entries */

static struct box boxed(struct rect r) {
    struct box b = {(int16_t)r.x, (int16_t)r.y, (int16_t)r.w, (int16_t)r.h};
    return b;
}

static struct rect unboxed(struct box b) {
    struct rect r = {b.x, b.y, b.w, b.h};
    return r;
}

static struct entry *new_entry(enum kind kind, struct rect r, struct rect clip, struct rect touched) {
    refuse_unless(count < ENTRIES);
    if (count == room) entries = room_for(entries, (room = 2 * room + 1024) * sizeof *entries);
    struct entry *e = &entries[count++];
    e->kind = kind;
    e->rect = boxed(r);
    e->clip = boxed(clip);
    e->touched = boxed(touched);
    return e;
}

/* The pixels of a rectangle that its clip lets through. */
static struct rect shown_part(struct rect r, struct rect clip) { return common(r, is_empty(clip) ? whole(&picture) : clip); }

/* ---- drawings */

static void read_fill(const char *at) {
    struct rect r = rect_words(&at);
    uint32_t color = color_word(&at);
    struct rect clip = clip_at_end(&at), part = shown_part(r, clip);
    if (!is_empty(part)) fill_rect(&picture, part, color);
    new_entry(FILL, r, clip, part)->color = color;
}

/* Old pixels move, so where a copy goes down its rows go from the last one up. */
static void copy_within(struct rect part, int right, int down) {
    for (int i = 0; i < part.h; i++) {
        int y = part.y + (down < 0 ? part.h - 1 - i : i);
        memmove(pixel_at(&picture, part.x, y), pixel_at(&picture, part.x + right, y + down), (size_t)part.w * sizeof(uint32_t));
    }
}

static void read_copy(const char *at) {
    struct rect r = rect_words(&at);
    source_copied(&at);
    struct rect source = {0, 0, r.w, r.h};
    source.x = coordinate(&at);
    source.y = coordinate(&at);
    struct rect clip = clip_at_end(&at), part = shown_part(r, clip);
    refuse_unless(is_inside(source, picture.w, picture.h));
    if (!is_empty(part)) copy_within(part, source.x - r.x, source.y - r.y);
    struct entry *e = new_entry(COPY, r, clip, part);
    e->x = (int16_t)source.x;
    e->y = (int16_t)source.y;
}

/* Draws a part of an image whose pixel (0, 0) would stand at (x, y). */
static void draw_image(const struct image *image, struct rect part, int x, int y) {
    for (int row = part.y; row < part.y + part.h; row++) {
        const uint32_t *from = image->pixels + (row - y) * image->w + (part.x - x);
        memcpy(pixel_at(&picture, part.x, row), from, (size_t)part.w * sizeof *from);
    }
}

static void read_blit(const char *at) {
    struct rect r = rect_words(&at);
    source_copied(&at);
    const struct image *image = images[number_within(&at, 0, IMAGES - 1)];
    struct rect source = {0, 0, r.w, r.h};
    source.x = coordinate(&at);
    source.y = coordinate(&at);
    struct rect clip = clip_at_end(&at), part = shown_part(r, clip);
    refuse_unless(image != NULL && is_inside(source, image->w, image->h));
    if (!is_empty(part)) draw_image(image, part, r.x - source.x, r.y - source.y);
    struct entry *e = new_entry(BLIT, r, clip, part);
    e->shown = image;
    e->x = (int16_t)source.x;
    e->y = (int16_t)source.y;
}

/* The bits of a row of a glyph, its first column the top bit. */
static uint64_t row_bits(const struct glyph *g, int row) {
    const uint8_t *bytes = g->bits + row * g->step;
    uint64_t bits = 0;
    for (int i = 0; i < g->step; i++) bits |= (uint64_t)bytes[i] << (56 - 8 * i);
    return bits & ~(uint64_t)0 << (64 - g->w);
}

/* Draws the one bits of a glyph whose cell stands at (x, y), those of a part of the picture. */
static void draw_glyph(const struct glyph *g, int x, int y, struct rect part, uint32_t color) {
    struct rect cell = {x, y, g->w, g->h};
    cell = common(cell, part);
    if (is_empty(cell)) return;
    uint64_t columns = ~(uint64_t)0 >> (cell.x - x);
    if (cell.x + cell.w < x + g->w) columns &= ~(~(uint64_t)0 >> (cell.x + cell.w - x));
    for (int row = cell.y; row < cell.y + cell.h; row++) {
        uint32_t *pixels = pixel_at(&picture, 0, row);
        for (uint64_t bits = row_bits(g, row - y) & columns; bits != 0;) {
            int column = __builtin_clzll(bits);
            pixels[x + column] = color;
            bits &= ~(UINT64_C(1) << (63 - column));
        }
    }
}

/* The smallest rectangle that has the cells of a run. */
static struct rect run_cells(const struct run *run, int x, int y) {
    int left = x + run->of[0].glyph->x, top = y + run->of[0].glyph->y, right = left, bottom = top;
    for (int i = 0; i < run->count; i++) {
        const struct glyph *g = run->of[i].glyph;
        x += run->of[i].delta;
        if (x + g->x < left) left = x + g->x;
        if (y + g->y < top) top = y + g->y;
        if (x + g->x + g->w > right) right = x + g->x + g->w;
        if (y + g->y + g->h > bottom) bottom = y + g->y + g->h;
    }
    struct rect r = {left, top, right - left, bottom - top};
    return r;
}

static void read_text(const char *at) {
    int x = coordinate(&at), y = coordinate(&at), pairs = 0;
    uint32_t color = color_word(&at);
    struct glyph **font = glyphs[number_within(&at, 0, FONTS - 1)];
    for (const char *p = at; *p != 0; p++) pairs += *p == ':';
    refuse_unless(1 <= pairs && pairs <= RUN);
    struct run *run = room_for(NULL, sizeof *run + (size_t)pairs * sizeof run->of[0]);
    run->count = pairs;
    for (int i = 0; i < pairs; i++) {
        run->of[i].glyph = font[number_within(&at, 0, CODES - 1)];
        refuse_unless(*at++ == ':' && run->of[i].glyph != NULL);
        run->of[i].delta = number_here(&at);
        refuse_unless(0 <= run->of[i].delta && run->of[i].delta <= (i == 0 ? 0 : 127));
    }
    struct rect clip = clip_at_end(&at), cells = run_cells(run, x, y), part = common(shown_part(cells, clip), whole(&picture));
    int pen = x;
    for (int i = 0; i < pairs; i++) {
        const struct glyph *g = run->of[i].glyph;
        pen += run->of[i].delta;
        if (!is_empty(part)) draw_glyph(g, pen + g->x, y + g->y, part, color);
    }
    struct entry *e = new_entry(TEXT, cells, clip, part);
    e->color = color;
    e->shown = run;
    e->x = (int16_t)x;
    e->y = (int16_t)y;
}

static void read_save(const char *at) {
    struct rect none = {0, 0, 0, 0};
    struct image **block = &blocks[number_within(&at, 0, BLOCKS - 1)];
    struct rect r = rect_words(&at);
    refuse_unless(*at == 0 && is_inside(r, picture.w, picture.h));
    *block = room_for(*block, sizeof **block + (size_t)r.w * (size_t)r.h * sizeof(uint32_t));
    (*block)->w = r.w;
    (*block)->h = r.h;
    for (int y = 0; y < r.h; y++) memcpy((*block)->pixels + y * r.w, pixel_at(&picture, r.x, r.y + y), (size_t)r.w * sizeof(uint32_t));
    new_entry(SAVE, r, none, r);
}

static void read_restore(const char *at) {
    struct rect none = {0, 0, 0, 0};
    const struct image *block = blocks[number_within(&at, 0, BLOCKS - 1)];
    struct rect r = {0, 0, 0, 0};
    r.x = coordinate(&at);
    r.y = coordinate(&at);
    refuse_unless(*at == 0 && block != NULL);
    r.w = block->w;
    r.h = block->h;
    refuse_unless(is_inside(r, picture.w, picture.h));
    draw_image(block, r, r.x, r.y);
    new_entry(RESTORE, r, none, r);
}

/* ---- loads: what they bring stays, since entries show it */

static void new_load(const void *shown) {
    struct rect none = {0, 0, 0, 0};
    new_entry(LOAD, none, none, none)->shown = shown;
}

static void read_image(const char *at) {
    struct image **slot = &images[number_within(&at, 0, IMAGES - 1)];
    int w = number_within(&at, 1, 64), h = number_within(&at, 1, 64);
    struct image *image = room_for(NULL, sizeof *image + (size_t)(w * h) * sizeof(uint32_t));
    image->w = w;
    image->h = h;
    refuse_unless(*at++ == ' ');
    size_t given = strlen(at);
    refuse_unless(given == 6 || given == 6 * (size_t)(w * h));
    for (int i = 0; i < w * h; i++) image->pixels[i] = i > 0 && given == 6 ? image->pixels[0] : digits(&at, 6);
    new_load(*slot = image);
}

static void read_brush(const char *at) {
    uint32_t **slot = &brushes[number_within(&at, 0, BRUSHES - 1)];
    uint32_t *brush = room_for(NULL, 64 * sizeof *brush);
    refuse_unless(*at++ == ' ');
    for (int i = 0; i < 64; i++) brush[i] = digits(&at, 6);
    refuse_unless(*at == 0);
    new_load(*slot = brush);
}

static void read_glyph(const char *at) {
    struct glyph **font = glyphs[number_within(&at, 0, FONTS - 1)];
    struct glyph **slot = &font[number_within(&at, 0, CODES - 1)];
    int x = number_within(&at, -128, 127), y = number_within(&at, -128, 127);
    int w = number_within(&at, 1, 64), h = number_within(&at, 1, 64), step = (w + 7) / 8;
    struct glyph *glyph = room_for(NULL, sizeof *glyph + (size_t)(step * h));
    glyph->x = x;
    glyph->y = y;
    glyph->w = w;
    glyph->h = h;
    glyph->step = step;
    refuse_unless(*at++ == ' ');
    for (int i = 0; i < step * h; i++) glyph->bits[i] = (uint8_t)digits(&at, 2);
    refuse_unless(*at == 0);
    new_load(*slot = glyph);
}

/* ---- a frame's bytes */

enum { BEFORE_ORDERS = 26, MOST_USER_DATA = 16383, LONGEST_ORDER = 32, PACKET_HEAD = 33 };

static uint8_t *frame, orders[MOST_USER_DATA];
static size_t frame_size, frame_room, orders_size;
static unsigned order_count;

static uint8_t *put_low(uint8_t *p, unsigned n) {
    p[0] = (uint8_t)n;
    p[1] = (uint8_t)(n >> 8);
    return p + 2;
}

static uint8_t *put_high(uint8_t *p, unsigned n) {
    p[0] = (uint8_t)(n >> 8);
    p[1] = (uint8_t)n;
    return p + 2;
}

static uint8_t *put_bytes(uint8_t *p, const char *bytes, size_t size) { return (uint8_t *)memcpy(p, bytes, size) + size; }

/* Puts the headers of a packet whose update has a body of so many bytes, and gives room for it. */
static uint8_t *put_packet(size_t body) {
    if (frame_size + PACKET_HEAD + body > frame_room) frame = room_for(frame, frame_room = 2 * frame_room + PACKET_HEAD + body);
    uint8_t *first = frame + frame_size, *p = first;
    unsigned total = (unsigned)body + 18, behind = total < 128 ? 14 : 15;
    p = put_high(put_bytes(p, "\x03\0", 2), total + behind);
    p = put_bytes(p, "\x02\xF0\x80\x68\0\x01\x03\xEB\x70", 9);
    if (total < 128) *p++ = (uint8_t)total;
    else p = put_high(p, 0x8000 | total);
    p = put_low(p, total);
    p = put_bytes(p, "\x17\0\xEA\x03\xEA\x03\x01\0\0\x01", 10);
    p = put_low(p, total - 14);
    p = put_bytes(p, "\x02\0\0\0", 4);
    frame_size += (size_t)(p - first) + body;
    return p;
}

/* Puts the orders that were gathered as an update. */
static void put_gathered(void) {
    if (order_count == 0) return;
    uint8_t *p = put_packet(8 + orders_size);
    p = put_low(put_bytes(p, "\0\0\0\0", 4), order_count);
    memcpy(put_bytes(p, "\0\0", 2), orders, orders_size);
    orders_size = 0;
    order_count = 0;
}

static void gather(const uint8_t *order, size_t size) {
    if (BEFORE_ORDERS + orders_size + size > MOST_USER_DATA) put_gathered();
    memcpy(orders + orders_size, order, size);
    orders_size += size;
    order_count++;
}

/* Bounds: a byte of flags, and the edges that changed: one signed byte that is added, or two bytes. */
static uint8_t *put_bounds(uint8_t *p, const int *bounds) {
    uint8_t *flags = p++;
    *flags = 0;
    for (int i = 0; i < 4; i++) {
        int by = bounds[i] - last_bounds[i];
        if (by == 0) continue;
        if (by == (int8_t)by) {
            *flags |= (uint8_t)(0x10 << i);
            *p++ = (uint8_t)by;
        } else {
            *flags |= (uint8_t)(1 << i);
            p = put_low(p, (unsigned)bounds[i]);
        }
    }
    return p;
}

/* Gathers an OpaqueRect: what differs from the last one. */
static void gather_fill(struct rect r, uint32_t color, struct rect clip) {
    int fields[7] = {r.x, r.y, r.w, r.h, (int)(color >> 16), color >> 8 & 255, color & 255};
    uint8_t order[LONGEST_ORDER], *p = order + 1;
    int control = 1, flags = 0;
    bool is_moved = false, is_near = true;
    for (int i = 0; i < 7; i++) {
        int by = fields[i] - last_fields[i];
        if (by == 0) continue;
        flags |= 1 << i;
        if (i >= 4) continue;
        is_moved = true;
        is_near &= by == (int8_t)by;
    }
    bool is_delta = is_moved && is_near;
    if (last_type != 0x0A) {
        control |= 8;
        *p++ = 0x0A;
        last_type = 0x0A;
    }
    if (is_delta) control |= 0x10;
    if (flags == 0) control |= 0x40;
    else *p++ = (uint8_t)flags;
    struct rect inside = common(r, clip);
    if (!is_empty(clip) && (inside.x != r.x || inside.y != r.y || inside.w != r.w || inside.h != r.h)) {
        int bounds[4] = {clip.x, clip.y, clip.x + clip.w - 1, clip.y + clip.h - 1};
        control |= 4;
        if (has_zero_bounds && memcmp(bounds, last_bounds, sizeof bounds) == 0) control |= 0x20;
        else p = put_bounds(p, bounds);
        memcpy(last_bounds, bounds, sizeof bounds);
    }
    for (int i = 0; i < 7; i++) {
        if (!(flags & 1 << i)) continue;
        if (i >= 4) *p++ = (uint8_t)fields[i];
        else if (is_delta) *p++ = (uint8_t)(fields[i] - last_fields[i]);
        else p = put_low(p, (unsigned)fields[i]);
        last_fields[i] = fields[i];
    }
    order[0] = (uint8_t)control;
    gather(order, (size_t)(p - order));
}

/* Puts a tile as an update of its own, packed where that is shorter. */
static void put_tile(int x, int y) {
    static uint32_t wire[SIDE * SIDE + 1];
    static uint8_t data[PACKED_ROOM];
    int h = picture.h - y < SIDE ? picture.h - y : SIDE;
    for (int row = 0; row < h; row++) memcpy(wire + (h - 1 - row) * SIDE, pixel_at(&picture, x, y + row), SIDE * sizeof *wire);
    size_t raw = 3 * SIDE * (size_t)h, size = has_packed ? pack(data, wire, (size_t)h) : raw;
    if (size >= raw) {
        uint8_t *p = data;
        for (int i = 0; i < h * SIDE; i++) p = put_pixel(p, wire[i]);
    }
    bool is_packed = size < raw;
    if (!is_packed) size = raw;
    uint8_t *p = put_bytes(put_packet(22 + size), "\x01\0\x01\0", 4);
    p = put_low(put_low(p, (unsigned)x), (unsigned)y);
    p = put_low(put_low(p, (unsigned)x + SIDE - 1), (unsigned)(y + h - 1));
    p = put_low(put_low(p, SIDE), (unsigned)h);
    p = put_low(put_low(put_low(p, 24), is_packed ? 0x401 : 0), (unsigned)size);
    memcpy(p, data, size);
}

/* The tiles that go with the frame, and how many times one was touched. */
static uint8_t is_touched[2048 / SIDE][2048 / SIDE];
static size_t touches;

static void touch(struct rect r) {
    if (is_empty(r)) return;
    touches++;
    for (int y = r.y / SIDE; y <= (r.y + r.h - 1) / SIDE; y++)
        for (int x = r.x / SIDE; x <= (r.x + r.w - 1) / SIDE; x++) is_touched[y][x] = 1;
}

/* Puts the tiles that are touched, which are untouched then. */
static void put_touched(void) {
    if (touches == 0) return;
    touches = 0;
    for (int y = 0; y < (picture.h + SIDE - 1) / SIDE; y++)
        for (int x = 0; x < picture.w / SIDE; x++)
            if (is_touched[y][x]) put_tile(x * SIDE, y * SIDE);
    memset(is_touched, 0, sizeof is_touched);
}

static void gather_marker(int action) {
    const uint8_t marker[5] = {0x36, (uint8_t)action, 0, 0, 0};
    gather(marker, sizeof marker);
}

/* The digits of each byte. */
static char digits_of[256][2];

static void write_digits_of(void) {
    for (int i = 0; i < 256; i++) {
        digits_of[i][0] = "0123456789abcdef"[i / 16];
        digits_of[i][1] = "0123456789abcdef"[i % 16];
    }
}

/* Writes a frame as a line of the capture. */
static void write_frame(void) {
    static char *text;
    static size_t text_room;
    if (2 * frame_size > text_room) text = room_for(text, text_room = 4 * frame_size);
    for (size_t i = 0; i < frame_size; i++) memcpy(text + 2 * i, digits_of[frame[i]], 2);
    fwrite("1 ", 1, 2, stdout);
    fwrite(text, 2, frame_size, stdout);
    putchar('\n');
}

static void take(void) {
    if (has_taken && seen == count) {
        printf("1 nothing\n");
        return;
    }
    struct rect none = {0, 0, 0, 0};
    frame_size = 0;
    if (has_markers) gather_marker(0);
    if (!has_taken) gather_fill(whole(&picture), 0, none);
    bool is_jump = count - seen > JUMP;
    for (size_t i = seen; i < count; i++) {
        const struct entry *e = &entries[i];
        if (is_jump || (e->kind == BLIT && !has_caches)) {
            touch(unboxed(e->touched));
        } else if (e->kind == FILL) {
            gather_fill(unboxed(e->rect), e->color, unboxed(e->clip));
        } else {
            refuse_unless(e->kind == LOAD);
        }
    }
    put_gathered();
    put_touched();
    if (has_markers) {
        gather_marker(1);
        put_gathered();
    } else {
        put_bytes(put_packet(4), "\x03\0\0\0", 4);
    }
    has_taken = true;
    seen = count;
    write_frame();
}

/* ---- the script */

/* Reads the first lines, and gives the next one: a script whose second line is no `invite` is one of a viewer `plain`. */
static const char *read_head(void) {
    size_t length;
    const char *line = next_line(&length), *preset = "plain";
    refuse_unless(line != NULL && skips(&line, "size"));
    int w = number_within(&line, 64, 2048), h = number_within(&line, 1, 2048);
    refuse_unless(*line == 0 && w % SIDE == 0);
    picture = new_picture(w, h);
    line = next_line(&length);
    if (line != NULL && strncmp(line, "invite", 6) == 0) {
        refuse_unless(strcmp(line, "invite ann owner") == 0);
        preset = next_line(&length);
        refuse_unless(preset != NULL && skips(&preset, "join ann "));
        line = NULL;
    }
    bool is_plain = strcmp(preset, "plain") == 0, is_bare = strcmp(preset, "bare") == 0;
    has_markers = strcmp(preset, "marked") == 0;
    refuse_unless(is_plain || is_bare || has_markers || strcmp(preset, "full") == 0);
    has_zero_bounds = has_packed = !is_plain;
    has_caches = !is_plain && !is_bare;
    printf("1 joined %d %d %s\n", w, h, preset);
    return line != NULL ? line : next_line(&length);
}

static void read_line(const char *at) {
    if (*at == '@') refuse_unless(skips(&at, "@1 "));
    if (skips(&at, "fill")) read_fill(at);
    else if (skips(&at, "take")) refuse_unless(*at == 0), take();
    else if (skips(&at, "copy")) read_copy(at);
    else if (skips(&at, "blit")) read_blit(at);
    else if (skips(&at, "text")) read_text(at);
    else if (skips(&at, "save")) read_save(at);
    else if (skips(&at, "restore")) read_restore(at);
    else if (skips(&at, "image")) read_image(at);
    else if (skips(&at, "brush")) read_brush(at);
    else if (skips(&at, "glyph")) read_glyph(at);
    else refuse_unless(false);
}

int main(void) {
    size_t length = 0;
    write_digits_of();
    for (const char *line = read_head(); line != NULL; line = next_line(&length)) {
        refuse_unless(length <= 32768);
        read_line(line);
    }
    return ferror(stdout) != 0;
}
