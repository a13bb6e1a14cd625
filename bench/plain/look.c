/* look V: reads a capture of fills and marks, and prints the picture that viewer V saw at its last mark, as `rdp_look V` does. It is for
 * viewers `full`, `bare` and `marked`, and for OpaqueRect orders alone; what else a capture may have ends it with 3. */
#include "picture.h"

/* The last fields of an OpaqueRect, and the last bounds. */
struct registers {
    int type, place[4], color[3], bounds[4];
};

/* What an order of an update asks for: a fill where its rectangle has a pixel, or a mark. */
struct asked {
    struct rect rect;
    uint32_t color;
    bool is_mark;
};

enum { CHANGES = 64 };

struct viewer {
    bool has_joined, has_markers;
    struct picture now, shown; /* as it is, and as it was at the last mark */
    struct registers last;
    struct rect changes[CHANGES]; /* where they differ */
    size_t changed;
    unsigned long marks, orders;
    uint8_t *bytes; /* those of the packets that aren't obeyed yet */
    size_t held, room;
};

static struct viewer viewer;
static struct asked *asked;
static uint8_t joined[65536 / 8];

/* The byte that two digits write, by the number that the two have in memory; -1 of all else. */
static int16_t byte_of[65536];

static uint16_t pair_at(const char *digits) {
    uint16_t pair;
    memcpy(&pair, digits, sizeof pair);
    return pair;
}

static void number_digits(void) {
    static const char digits[] = "0123456789abcdef";
    memset(byte_of, 0xFF, sizeof byte_of);
    for (int i = 0; i < 256; i++) {
        const char pair[2] = {digits[i / 16], digits[i % 16]};
        byte_of[pair_at(pair)] = (int16_t)i;
    }
}

static int low_word(const uint8_t *p) { return p[0] | p[1] << 8; }

static int high_word(const uint8_t *p) { return p[0] << 8 | p[1]; }

static void refuse_unless(bool holds) {
    if (!holds) give_up("not a capture of fills and marks");
}

/* ---- orders */

/* Remembers where the two pictures differ; where that is at too many places, as one rectangle around them. */
static void note_change(struct rect r) {
    if (viewer.changed == CHANGES) {
        struct rect *around = viewer.changes;
        for (size_t i = 1; i < CHANGES; i++) {
            struct rect c = viewer.changes[i];
            int right = around->x + around->w > c.x + c.w ? around->x + around->w : c.x + c.w;
            int bottom = around->y + around->h > c.y + c.h ? around->y + around->h : c.y + c.h;
            if (c.x < around->x) around->x = c.x;
            if (c.y < around->y) around->y = c.y;
            around->w = right - around->x;
            around->h = bottom - around->y;
        }
        viewer.changed = 1;
    }
    viewer.changes[viewer.changed++] = r;
}

static void mark(void) {
    for (size_t i = 0; i < viewer.changed; i++) copy_rect(&viewer.shown, &viewer.now, viewer.changes[i]);
    viewer.changed = 0;
    viewer.marks++;
}

static void obey(const struct asked *a) {
    if (a->is_mark) {
        mark();
    } else if (!is_empty(a->rect)) {
        fill_rect(&viewer.now, a->rect, a->color);
        note_change(a->rect);
    }
}

/* Bounds: a byte of flags, and the edges that changed: in two bytes, or one that is added. */
static const uint8_t *read_bounds(const uint8_t *p, const uint8_t *end) {
    refuse_unless(p < end);
    int flags = *p++;
    for (int i = 0; i < 4; i++) {
        if (flags & 1 << i) {
            refuse_unless(end - p >= 2);
            viewer.last.bounds[i] = (int16_t)low_word(p);
            p += 2;
        } else if (flags & 0x10 << i) {
            refuse_unless(p < end);
            viewer.last.bounds[i] += (int8_t)*p++;
        }
    }
    return p;
}

/* An OpaqueRect: the flags of its seven fields, bounds, and the fields that changed. */
static const uint8_t *read_fill(const uint8_t *p, const uint8_t *end, struct asked *a) {
    struct registers *last = &viewer.last;
    int control = *p++;
    if (control & 8) {
        refuse_unless(p < end);
        last->type = *p++;
    }
    int omitted = control >> 6;
    refuse_unless(last->type == 0x0A && omitted <= 1);
    int flags = 0;
    if (omitted == 0) {
        refuse_unless(p < end);
        flags = *p++;
    }
    if ((control & 0x24) == 4) p = read_bounds(p, end);
    for (int i = 0; i < 4; i++) {
        if (!(flags & 1 << i)) continue;
        if (control & 0x10) {
            refuse_unless(p < end);
            last->place[i] += (int8_t)*p++;
            refuse_unless(last->place[i] == (int16_t)last->place[i]);
        } else {
            refuse_unless(end - p >= 2);
            last->place[i] = (int16_t)low_word(p);
            p += 2;
        }
    }
    for (int i = 0; i < 3; i++) {
        if (!(flags & 0x10 << i)) continue;
        refuse_unless(p < end);
        last->color[i] = *p++;
    }
    refuse_unless(last->place[2] >= 1 && last->place[3] >= 1);
    struct rect rect = {last->place[0], last->place[1], last->place[2], last->place[3]};
    a->rect = common(rect, whole(&viewer.now));
    if (control & 4) {
        const int *b = last->bounds;
        struct rect bounds = {b[0], b[1], b[2] - b[0] + 1, b[3] - b[1] + 1};
        a->rect = common(a->rect, bounds);
    }
    a->color = (uint32_t)(last->color[0] << 16 | last->color[1] << 8 | last->color[2]);
    a->is_mark = false;
    return p;
}

/* A frame marker, which ends a frame with 1. */
static const uint8_t *read_marker(const uint8_t *p, const uint8_t *end, struct asked *a) {
    refuse_unless(end - p >= 5 && p[0] == 0x36 && p[1] <= 1 && p[2] == 0 && p[3] == 0 && p[4] == 0);
    memset(a, 0, sizeof *a);
    a->is_mark = viewer.has_markers && p[1] == 1;
    return p + 5;
}

/* The orders of an update, which are read whole before the first is obeyed. */
static void obey_orders(const uint8_t *p, const uint8_t *end) {
    refuse_unless(end - p >= 8);
    int count = low_word(p + 4);
    p += 8;
    for (int i = 0; i < count; i++) {
        refuse_unless(p < end);
        if ((*p & 3) == 1) {
            p = read_fill(p, end, &asked[i]);
            viewer.orders++;
        } else {
            p = read_marker(p, end, &asked[i]);
        }
    }
    refuse_unless(p == end);
    for (int i = 0; i < count; i++) obey(&asked[i]);
}

/* ---- packets */

static void obey_update(const uint8_t *body, const uint8_t *end) {
    refuse_unless(end - body >= 4);
    if (low_word(body) == 0) {
        obey_orders(body, end);
    } else {
        refuse_unless(memcmp(body, "\x03\0\0\0", 4) == 0 && end - body == 4);
        if (!viewer.has_markers) mark();
    }
}

/* A whole packet: a Send Data Indication of one update. */
static void obey_packet(const uint8_t *p, size_t size) {
    refuse_unless(size >= 14 && memcmp(p + 4, "\x02\xF0\x80\x68\x00\x01\x03\xEB\x70", 9) == 0);
    const uint8_t *share = p + 14, *end = p + size;
    int count = p[13];
    if (count >= 0x80) {
        refuse_unless(size >= 15 && count < 0xC0);
        count = high_word(p + 13) & 0x3FFF;
        share++;
    }
    refuse_unless(end - share == count && count >= 18);
    int total = low_word(share);
    refuse_unless(18 <= total && total <= count && (share[2] & 15) == 7 && share[14] == 2 && share[15] == 0);
    obey_update(share + 18, share + total);
}

/* Obeys the whole packets among the bytes that are held, and keeps the others. It stays a function, so that a profile tells it apart. */
__attribute__((noinline)) static void obey_held(void) {
    size_t at = 0;
    while (viewer.held - at >= 4) {
        const uint8_t *p = viewer.bytes + at;
        size_t size = (size_t)high_word(p + 2);
        refuse_unless(p[0] == 3 && size >= 7);
        if (viewer.held - at < size) break;
        obey_packet(p, size);
        at += size;
    }
    if (at > 0) memmove(viewer.bytes, viewer.bytes + at, viewer.held - at);
    viewer.held -= at;
}

/* ---- lines */

/* Reads the bytes of a line behind those that are held. */
static void hold_bytes(const char *digits, size_t length) {
    size_t size = length / 2, needed = viewer.held + size;
    if (needed > viewer.room) viewer.bytes = room_for(viewer.bytes, viewer.room = 2 * needed);
    uint8_t *out = viewer.bytes + viewer.held;
    int seen = 0;
    for (size_t i = 0; i < size; i++) {
        int byte = byte_of[pair_at(digits + 2 * i)];
        seen |= byte;
        out[i] = (uint8_t)byte;
    }
    refuse_unless(seen >= 0);
    viewer.held = needed;
}

/* Looks at the bytes of a line that are another viewer's. */
static void judge_bytes(const char *digits, size_t length) {
    int seen = 0;
    for (size_t i = 0; i < length; i += 2) seen |= byte_of[pair_at(digits + i)];
    refuse_unless(seen >= 0);
}

/* Joins a viewer, by the sides of its picture and the words that it joined with. */
static void join(const char *words, size_t length, bool is_shown) {
    char preset[16];
    int w, h, behind = 0;
    if (sscanf(words, "joined %d %d %15[a-z]%n", &w, &h, preset, &behind) != 3) behind = 0;
    refuse_unless((size_t)behind == length && w >= 4 && w % 4 == 0 && w <= 2048 && h >= 1 && h <= 2048);
    bool is_marked = strcmp(preset, "marked") == 0;
    refuse_unless(is_marked || strcmp(preset, "full") == 0 || strcmp(preset, "bare") == 0);
    if (!is_shown) return;
    viewer.has_joined = true;
    viewer.has_markers = is_marked;
    viewer.now = new_picture(w, h);
    viewer.shown = new_picture(w, h);
    viewer.last.type = 1;
}

static void read_line(const char *line, size_t length, int wanted) {
    char *behind;
    long number = strtol(line, &behind, 10);
    refuse_unless(number >= 1 && number <= 65535 && *behind == ' ');
    behind++;
    length -= (size_t)(behind - line);
    uint8_t *known = &joined[number / 8], bit = (uint8_t)(1 << number % 8);
    if (length > 7 && memcmp(behind, "joined ", 7) == 0) {
        refuse_unless(!(*known & bit));
        *known |= bit;
        join(behind, length, number == wanted);
        return;
    }
    refuse_unless(*known & bit);
    if (length == 4 && memcmp(behind, "left", 4) == 0) return;
    if (length == 7 && memcmp(behind, "nothing", 7) == 0) return;
    refuse_unless(length > 0 && length % 2 == 0);
    if (number == wanted) {
        hold_bytes(behind, length);
        obey_held();
    } else {
        judge_bytes(behind, length);
    }
}

/* ---- the picture at the last mark */

static void print_picture(void) {
    const struct picture *p = &viewer.shown;
    printf("P6\n# marks %lu orders %lu tiles 0\n%d %d\n255\n", viewer.marks, viewer.orders, p->w, p->h);
    uint8_t row[3 * 2048];
    for (int y = 0; y < p->h; y++) {
        for (int x = 0; x < p->w; x++) {
            uint32_t color = *pixel_at(p, x, y);
            row[3 * x] = (uint8_t)(color >> 16);
            row[3 * x + 1] = (uint8_t)(color >> 8);
            row[3 * x + 2] = (uint8_t)color;
        }
        fwrite(row, 3, (size_t)p->w, stdout);
    }
}

int main(int argc, char **argv) {
    int wanted = argc == 2 ? atoi(argv[1]) : 0;
    if (wanted < 1 || wanted > 65535) give_up("usage: look V");
    number_digits();
    asked = room_for(NULL, 65536 * sizeof *asked);
    size_t length;
    for (char *line; (line = next_line(&length)) != NULL;) read_line(line, length, wanted);
    if (!viewer.has_joined) {
        printf("line 0\n");
        return 3;
    }
    refuse_unless(viewer.held == 0);
    if (viewer.marks == 0) printf("no mark\n");
    else print_picture();
    return ferror(stdout) != 0;
}
