#!/usr/bin/env python3
"""A model of scripts and of what their viewers are sent at 24 and at 16 bits, on the slow path and by the fast one, with pointers, apart from
the crates: it was written from the rules that docs/session.md, docs/frames.md and docs/protocol.md tell, and shares nothing with their code or
definitions.

python3 bench/script_model.py capture SCRIPT     writes the capture
python3 bench/script_model.py looks SCRIPT NAME  writes for each viewer the row `look` that its bytes must give, under this name

A line that breaks a rule isn't looked for: the scripts are right ones.
"""
import sys, zlib

# ---- colours

def cut(c): return (c >> 19) << 11 | (c >> 10 & 63) << 5 | (c >> 3 & 31)
def wide(v): return (v >> 11) << 19 | (v >> 5 & 63) << 10 | (v & 31) << 3

class Depth:
    """What a colour of a session is on the wire."""
    def __init__(self, bits): self.bits, self.size = bits, bits // 8
    def of(self, c): return c if self.bits == 24 else cut(c)
    def back(self, v): return v if self.bits == 24 else wide(v)
    def pixel(self, v): return v.to_bytes(self.size, 'little')
    def pixels(self, vs): return b''.join(self.pixel(v) for v in vs)
    def field(self, c):
        """The three bytes of a colour field."""
        return [c >> 16, c >> 8 & 255, c & 255] if self.bits == 24 else [cut(c) & 255, cut(c) >> 8, 0]

# ---- raster operations

def rop3(code, p, s, d):
    out = 0
    for k in range(8):
        if code >> k & 1:
            out |= (p if k & 4 else ~p) & (s if k & 2 else ~s) & (d if k & 1 else ~d)
    return out & 0xFFFFFF

def needs_pattern(code): return code >> 4 != code & 15
def needs_source(code): return (code >> 2 & 0x33) != (code & 0x33)

# ---- run lengths

def packed(pixels, w, depth):
    """The packer's bytes of pixels in wire order."""
    out = bytearray()
    def head(short, long_one, n):
        if n < 32: out.append(short + n)
        elif n < 288: out.extend([short, n - 32])
        else: out.extend([long_one, n & 255, n >> 8])
    def literals(some):
        if some:
            head(0x80, 0xF4, len(some))
            out.extend(depth.pixels(some))
    for start, end in ((0, w), (w, len(pixels))):
        at, some = start, []
        above = lambda i: 0 if start == 0 else pixels[i - w]
        while at < end:
            b = 0
            while at + b < end and pixels[at + b] == above(at + b): b += 1
            c = 1
            while at + c < end and pixels[at + c] == pixels[at]: c += 1
            if b >= 1 and b >= c or c >= 2:
                literals(some)
                some = []
                if b >= 1 and b >= c:
                    head(0, 0xF0, b)
                    at += b
                else:
                    head(0x60, 0xF3, c)
                    out.extend(depth.pixel(pixels[at]))
                    at += c
            else:
                some.append(pixels[at])
                at += 1
        literals(some)
    return bytes(out)

def bitmap_data(rows, no_header, depth):
    """Whether an image goes packed, and its bytes; its rows come from the top, in the session's colours."""
    pixels = [depth.of(c) for row in reversed(rows) for c in row]
    if no_header:
        data = packed(pixels, len(rows[0]), depth)
        if len(data) < depth.size * len(pixels): return True, data
    return False, depth.pixels(pixels)

# ---- packets

def le(n, size): return (n % (1 << 8 * size)).to_bytes(size, 'little')

def packet(body, kind=2):
    """A slow update, by its body, or a PDU of another kind."""
    total = 18 + len(body)
    share = le(total, 2) + bytes.fromhex('1700ea03ea0301000001') + le(total - 14, 2) + bytes([kind, 0, 0, 0]) + body
    count = bytes([total]) if total < 128 else (0x8000 | total).to_bytes(2, 'big')
    mcs = bytes.fromhex('02f08068000103eb70') + count + share
    return bytes([3, 0]) + (len(mcs) + 4).to_bytes(2, 'big') + mcs

def fast_packet(code, data):
    """An update of the fast path, alone in its packet: a length of one byte where that is below 128."""
    behind = bytes([code]) + le(len(data), 2) + data
    total = 2 + len(behind)
    head = bytes([total]) if total < 128 else (0x8000 | total + 1).to_bytes(2, 'big')
    return bytes([0]) + head + behind

# ---- orders: names of the fields' kinds

BRUSH = ['1', '1', '1', '1', 'e']
ORDERS = {
    'DstBlt': (0x00, ['c'] * 4 + ['1']),
    'PatBlt': (0x01, ['c'] * 4 + ['1', 'k', 'k'] + BRUSH),
    'ScrBlt': (0x02, ['c'] * 4 + ['1', 'c', 'c']),
    'OpaqueRect': (0x0A, ['c'] * 4 + ['1'] * 3),
    'SaveBitmap': (0x0B, ['4'] + ['c'] * 4 + ['1']),
    'MemBlt': (0x0D, ['2'] + ['c'] * 4 + ['1', 'c', 'c', '2']),
    'Mem3Blt': (0x0E, ['2'] + ['c'] * 4 + ['1', 'c', 'c', 'k', 'k'] + BRUSH + ['2']),
    'GlyphIndex': (0x1B, ['1'] * 4 + ['k', 'k'] + ['2'] * 8 + BRUSH + ['2', '2', 'v']),
}
FLAGS = {0x00: 1, 0x01: 2, 0x02: 1, 0x0A: 1, 0x0B: 1, 0x0D: 2, 0x0E: 3, 0x1B: 3}
SIZES = {'1': 1, '2': 2, '4': 4, 'e': 7}

class Registers:
    def __init__(self):
        self.type, self.bounds = 0x01, (0, 0, 0, 0)
        self.values = {code: [{'k': (0, 0, 0), 'v': b''}.get(kind, 0) for kind in kinds] for code, kinds in ORDERS.values()}

    def write(self, name, values, bounds, zero_bounds):
        code, kinds = ORDERS[name]
        last = self.values[code]
        control, out = 1, bytearray()
        changed = [i for i in range(len(kinds)) if values[i] != last[i]]
        moved = [values[i] - last[i] for i in changed if kinds[i] == 'c']
        delta = bool(moved) and all(-128 <= m <= 127 for m in moved)
        if code != self.type:
            control |= 8
            out.append(code)
        if delta: control |= 0x10
        flags = sum(1 << i for i in changed).to_bytes(FLAGS[code], 'little')
        omitted = 0
        while omitted < len(flags) and flags[len(flags) - 1 - omitted] == 0: omitted += 1
        control |= omitted << 6
        out.extend(flags[:len(flags) - omitted])
        if bounds is not None:
            x, y, w, h = bounds
            edges = (x, y, x + w - 1, y + h - 1)
            control |= 4
            if edges == self.bounds and zero_bounds: control |= 0x20
            else:
                flag, tail = 0, bytearray()
                for i in range(4):
                    by = edges[i] - self.bounds[i]
                    if by == 0: continue
                    if -128 <= by <= 127:
                        flag |= 0x10 << i
                        tail.extend(le(by, 1))
                    else:
                        flag |= 1 << i
                        tail.extend(le(edges[i], 2))
                out.append(flag)
                out.extend(tail)
            self.bounds = edges
        for i in changed:
            kind, value = kinds[i], values[i]
            if kind == 'c': out.extend(le(value - last[i], 1) if delta else le(value, 2))
            elif kind == 'k': out.extend(value)
            elif kind == 'v': out.extend(bytes([len(value)]) + value)
            else: out.extend(le(value, SIZES[kind]))
        self.type, self.values[code] = code, list(values)
        return bytes([control]) + bytes(out)

def secondary(kind, extra, tail):
    return bytes([3]) + le(6 + len(tail) - 13, 2) + le(extra, 2) + bytes([kind]) + tail

# ---- drawings, as dictionaries

def meet(a, b):
    x, y = max(a[0], b[0]), max(a[1], b[1])
    r, d = min(a[0] + a[2], b[0] + b[2]), min(a[1] + a[3], b[1] + b[3])
    return (x, y, r - x, d - y) if r > x and d > y else None

def line_pixels(x0, y0, x1, y1):
    dx, dy = abs(x1 - x0), abs(y1 - y0)
    sx, sy = (1 if x1 > x0 else -1), (1 if y1 > y0 else -1)
    if dx >= dy: return [(x0 + sx * i, y0 + sy * ((2 * i * dy + dx) // (2 * dx))) for i in range(dx + 1)]
    return [(x0 + sx * ((2 * i * dx + dy) // (2 * dy)), y0 + sy * i) for i in range(dy + 1)]

class Surface:
    def __init__(self, w, h):
        self.w, self.h = w, h
        self.rows = [[0] * w for _ in range(h)]
        self.images, self.brushes, self.glyphs, self.blocks = {}, {}, {}, {}
        self.count = 0

    def all(self): return (0, 0, self.w, self.h)

    def area(self, d):
        """Its rectangle, clip and the surface."""
        area = meet(self.rect(d), self.all())
        return meet(area, d['clip']) if area and d.get('clip') else area

    def rect(self, d):
        kind = d['kind']
        if kind == 'text':
            x, cells = d['x'], []
            for (code, delta), (_, g) in zip(d['run'], d['holds']['glyphs']):
                x += delta
                cells.append((x + g[0], d['y'] + g[1], g[2], g[3]))
            l, t = min(c[0] for c in cells), min(c[1] for c in cells)
            return (l, t, max(c[0] + c[2] for c in cells) - l, max(c[1] + c[3] for c in cells) - t)
        if kind == 'line':
            x0, y0, x1, y1 = d['ends']
            return (min(x0, x1), min(y0, y1), abs(x1 - x0) + 1, abs(y1 - y0) + 1)
        if kind == 'restore':
            w, h, _ = d['holds']['block']
            return (d['x'], d['y'], w, h)
        return d['rect']

    def holds(self, d):
        """What the slots that it names hold; or the refusal."""
        got = {}
        if 'image' in d:
            if d['image'] not in self.images: return f"empty-slot {d['image']}"
            got['image'] = self.images[d['image']]
        if 'brush' in d and d['kind'] != 'load_brush':
            if d['brush'] not in self.brushes: return f"empty-slot {d['brush']}"
            got['brush'] = self.brushes[d['brush']]
        if d['kind'] == 'text':
            for code, _ in d['run']:
                if (d['font'], code) not in self.glyphs: return f'empty-slot {code}'
            got['glyphs'] = [self.glyphs[d['font'], code] for code, _ in d['run']]
        if d['kind'] == 'restore':
            if d['slot'] not in self.blocks: return f"empty-slot {d['slot']}"
            w, h, _ = got['block'] = self.blocks[d['slot']]
            if d['x'] < 0 or d['y'] < 0 or d['x'] + w > self.w or d['y'] + h > self.h: return f"slot-size {d['slot']}"
        if 'image' in d:
            w, h, _ = got['image'][1]
            _, _, rw, rh = d['rect']
            if d['sx'] < 0 or d['sy'] < 0 or d['sx'] + rw > w or d['sy'] + rh > h: return f"slot-size {d['image']}"
        return got

    def draw(self, d):
        """Draws what fits, and numbers it."""
        self.count += 1
        d['number'] = self.count
        kind = d['kind']
        if kind == 'load_image': self.images[d['slot']] = (self.count, d['content'])
        elif kind == 'load_brush': self.brushes[d['slot']] = (self.count, d['content'])
        elif kind == 'load_glyph': self.glyphs[d['font'], d['code']] = (self.count, d['content'])
        elif kind == 'save':
            x, y, w, h = d['rect']
            self.blocks[d['slot']] = (w, h, [row[x:x + w] for row in self.rows[y:y + h]])
        else:
            area = self.area(d)
            if area is None: return
            old = [row[:] for row in self.rows]
            new = self.formula(d, old)
            for y in range(area[1], area[1] + area[3]):
                for x in range(area[0], area[0] + area[2]):
                    c = new(x, y)
                    if c is not None: self.rows[y][x] = c

    def formula(self, d, old):
        kind, holds = d['kind'], d['holds']
        if kind == 'fill': return lambda x, y: d['color']
        if kind == 'restore': return lambda x, y: holds['block'][2][y - d['y']][x - d['x']]
        if kind == 'line':
            on = set(line_pixels(*d['ends']))
            return lambda x, y: d['color'] if (x, y) in on else None
        if kind == 'text':
            on, at = set(), d['x']
            for (code, delta), (_, g) in zip(d['run'], holds['glyphs']):
                at += delta
                gx, gy, cx, cy, rows = g
                step = (cx + 7) // 8
                for r in range(cy):
                    for c in range(cx):
                        if rows[r * step + c // 8] >> (7 - c % 8) & 1: on.add((at + gx + c, d['y'] + gy + r))
            return lambda x, y: d['color'] if (x, y) in on else None
        code = d['rop']
        def p(x, y): return holds['brush'][1][8 * (y % 8) + x % 8] if 'brush' in holds else 0
        if kind == 'copy':
            dx, dy = d['sx'] - d['rect'][0], d['sy'] - d['rect'][1]
            return lambda x, y: rop3(code, 0, old[y + dy][x + dx], old[y][x])
        if 'image' in holds:
            w, h, pixels = holds['image'][1]
            dx, dy = d['sx'] - d['rect'][0], d['sy'] - d['rect'][1]
            return lambda x, y: rop3(code, p(x, y), pixels[(y + dy) * w + x + dx], old[y][x])
        return lambda x, y: rop3(code, p(x, y), 0, old[y][x])

    def tiles(self, rect):
        """The numbers of the tiles that have a pixel of a rectangle inside the surface."""
        if rect is None: return set()
        x, y, w, h = rect
        across = (self.w + 63) // 64
        return {ty * across + tx for ty in range(y // 64, (y + h - 1) // 64 + 1) for tx in range(x // 64, (x + w - 1) // 64 + 1)}

# ---- the board

INKS = [0xFFFFFF, 0xFF0000, 0x00FF00, 0x0000FF]

class Board:
    def __init__(self, w, h):
        self.w, self.h = w, h
        self.ink, self.pen, self.last, self.popup, self.signs, self.loaded = 0, None, (0, 0), None, 0, set()

    def once(self, key, drawing):
        if key in self.loaded: return []
        self.loaded.add(key)
        return [drawing]

    def restore(self): return {'kind': 'restore', 'slot': 15, 'x': self.popup[0], 'y': self.popup[1]}

    def react(self, event):
        kind, w, h = event[0], self.w, self.h
        fill = lambda x, y, fw, fh, c: {'kind': 'fill', 'rect': (x, y, fw, fh), 'color': c}
        if kind == 'mouse':
            flags, x, y = event[1], min(event[2], w - 1), min(event[3], h - 1)
            self.last = (x, y)
            if flags & 0x9000 == 0x9000 and self.popup:
                out, (px, py) = [self.restore()], self.popup
                if px <= x < px + 64 and py <= y < py + 16: self.ink = (x - px) // 16
                self.popup = None
                return out
            if flags & 0x9000 == 0x9000:
                self.pen = (x, y)
                return [fill(x - 2, y - 2, 5, 5, INKS[self.ink])]
            if flags & 0x1000:
                self.pen = None
                return []
            if flags & 0xA000 == 0xA000 and w >= 64 and h >= 16:
                out = [self.restore()] if self.popup else []
                px, py = self.popup = (min(x, w - 64), min(y, h - 16))
                self.pen = None
                return out + [{'kind': 'save', 'slot': 15, 'rect': (px, py, 64, 16)}] + [fill(px + 16 * i, py, 16, 16, INKS[i]) for i in range(4)]
            if flags & 0x0800 and self.pen:
                (ox, oy), self.pen = self.pen, (x, y)
                if ox != x and oy != y: return [{'kind': 'line', 'ends': (ox, oy, x, y), 'color': INKS[self.ink]}]
                if (ox, oy) != (x, y): return [fill(min(ox, x), min(oy, y), abs(ox - x) + 1, abs(oy - y) + 1, INKS[self.ink])]
            return []
        if kind == 'key' and not event[2]:
            code = event[1]
            if code == 0x3B: return [fill(0, 0, w, h, 0)]
            if code == 0x3C: return [{'kind': 'dst', 'rect': (0, 0, w, h), 'rop': 0x55}]
            if code == 0x3D and h > 16:
                return [{'kind': 'copy', 'rect': (0, 0, w, h - 16), 'rop': 0xCC, 'sx': 0, 'sy': 16}, fill(0, h - 16, w, 16, 0)]
            if code == 0x3E:
                brush = [0xFFFFFF if (i // 8 + i % 8) % 2 == 0 else 0 for i in range(64)]
                return self.once('brush', {'kind': 'load_brush', 'slot': 63, 'content': brush}) \
                    + [{'kind': 'pat', 'rect': (0, 0, w, h), 'rop': 0x5A, 'brush': 63}]
            if code == 0x3F:
                image = (16, 16, [16 * x << 16 | 16 * y << 8 | 255 for y in range(16) for x in range(16)])
                return self.once('image', {'kind': 'load_image', 'slot': 255, 'content': image}) \
                    + [{'kind': 'blit', 'rect': self.last + (16, 16), 'rop': 0x66, 'image': 255, 'sx': 0, 'sy': 0}]
        if kind == 'char' and 0x21 <= event[1] <= 0x7E and w >= 8 and h >= 8:
            code, n = event[1], self.signs
            self.signs += 1
            rows = bytes((code << k | code >> (8 - k)) & 255 for k in range(8))
            return self.once(code, {'kind': 'load_glyph', 'font': 3, 'code': code, 'content': (0, 0, 8, 8, rows)}) \
                + [{'kind': 'text', 'x': 8 * (n % (w // 8)), 'y': 8 * (n // (w // 8) % (h // 8)), 'color': INKS[self.ink], 'font': 3, 'run': [(code, 0)]}]
        return []

# ---- viewers

PRESETS = {
    'plain': dict(orders={'pat'}, zero=False, header=False, brush=False, glyph=False, marker=False, bc=[(0, 0)] * 3, gc=[(0, 0)] * 10),
    'full': dict(orders={'dst', 'pat', 'scr', 'mem', 'mem3', 'save', 'glyph'}, zero=True, header=True, brush=True, glyph=True, marker=False,
                 bc=[(120, 768), (120, 3072), (336, 12288)],
                 gc=[(254, 4), (254, 4), (254, 8), (254, 8), (254, 16), (254, 32), (254, 64), (254, 128), (254, 256), (64, 2048)]),
}
PRESETS['marked'] = dict(PRESETS['full'], marker=True)
PRESETS['bare'] = dict(PRESETS['full'], bc=[(0, 0)] * 3, gc=[(0, 0)] * 10)

class Cache:
    """Keys with their indices, the one whose last use is longest ago first."""
    def __init__(self, entries): self.entries, self.held = entries, []
    def use(self, key):
        for i, (k, index) in enumerate(self.held):
            if k == key:
                self.held.append(self.held.pop(i))
                return False, index
        index = len(self.held) if len(self.held) < self.entries else self.held.pop(0)[1]
        self.held.append((key, index))
        return True, index

# ---- pointers

def pointer_shape(key, wide):
    """What message 6 says of a pointer behind its entry: hot spot, sides, lengths, colours and mask, rows from the bottom."""
    holder, code = key
    rows = [code << k & 255 | code >> 8 - k for k in range(8)] if code else [0xFF << 7 - k & 255 for k in range(8)]
    color = ((holder + 1) * 0x111111 & 0xFFFFFF).to_bytes(3, 'little')
    more = 8 if wide else 0
    xor = b''.join(b''.join(color if row >> 7 - x & 1 else bytes(3) for x in range(8)) + bytes(3 * more) for row in reversed(rows))
    mask = b''.join(bytes([255 - row, 255 if wide else 0]) for row in reversed(rows))
    return bytes(4) + le(8 + more, 2) + le(8, 2) + le(len(mask), 2) + le(len(xor), 2) + xor + mask

class Desk:
    """What a viewer with a pointer cache was told."""
    def __init__(self, cells, wide): self.cache, self.wide, self.told = Cache(cells), wide, None

    def tell(self, key):
        """The packet before a frame with this pointer; no bytes where it was told last."""
        if key == self.told: return b''
        self.told = key
        miss, index = self.cache.use(key)
        return packet(le(6, 4) + le(index, 2) + pointer_shape(key, self.wide) if miss else le(7, 4) + le(index, 2), 0x1B)

class Viewer:
    def __init__(self, words):
        p = PRESETS[words[0]]
        self.__dict__.update(p)
        self.bc, self.gc, self.cautious, self.fast, self.depth = list(p['bc']), list(p['gc']), False, False, Depth(24)
        cells = 0
        for word in words[1:]:
            if word == 'cautious': self.cautious = True
            elif word == 'fast': self.fast = True
            elif word == 'bpp=16': self.depth = Depth(16)
            elif word.startswith('pointer='): cells = int(word[8:])
            else:
                pair = tuple(int(n) for n in word[4:].split(','))
                (self.bc if word[0] == 'b' else self.gc)[int(word[2])] = pair
        self.number, self.blocks, self.registers = 0, {}, Registers()
        self.desk = Desk(cells, self.cautious) if cells else None
        self.images = [Cache(min(e, 512)) for e, _ in self.bc]
        self.glyph_caches = [Cache(min(e, 254)) for e, _ in self.gc]
        self.brushes = Cache(64)
        self.asked, self.stopped = set(), False
        self.marks = self.orders_sent = self.tiles_sent = 0
        self.shown = None

    def update(self, count, some):
        """An update of so many orders, on the path that the viewer takes."""
        if self.fast: return fast_packet(0, le(count, 2) + some)
        return packet(bytes(4) + le(count, 2) + bytes(2) + some)

    def bitmap(self, body): return fast_packet(1, body) if self.fast else packet(body)

    def synchronize(self): return fast_packet(3, b'') if self.fast else packet(bytes([3, 0, 0, 0]))

    def has_room(self, some):
        """Whether these orders go in one update: the user data of a slow one, or the whole packet of a fast one, has at most 16,383 bytes."""
        counted = len(fast_packet(0, bytes(2) + some)) if self.fast else 18 + 8 + len(some)
        return counted <= 16383

    def image_cache(self, image):
        w, h, _ = image
        cell = 3 * (4 * ((w + 3) // 4)) * h
        return next((k for k, (e, c) in enumerate(self.bc) if e > 0 and c >= cell), None)

    def run_cache(self, glyphs):
        keys = {k for k, _ in glyphs}
        cell = max(4 * ((len(g[4]) + 3) // 4) for _, g in glyphs)
        return next((k for k, (e, c) in enumerate(self.gc) if min(e, 254) >= len(keys) and c >= cell), None)

    def supports(self, d):
        kind, has = d['kind'], self.orders
        if kind == 'fill': return 'pat' in has
        if kind == 'dst': return 'dst' in has
        if kind == 'pat': return 'pat' in has and self.brush
        if kind == 'copy': return 'scr' in has
        if kind == 'blit': return 'mem' in has and self.image_cache(d['holds']['image'][1]) is not None
        if kind == 'blit3': return 'mem3' in has and self.brush and self.image_cache(d['holds']['image'][1]) is not None
        if kind == 'text': return 'glyph' in has and self.glyph and not self.cautious and self.run_cache(d['holds']['glyphs']) is not None
        if kind in ('save', 'restore'): return 'save' in has
        return False

    def cut_of(self, d, surface):
        """The drawing as it is walked; none where it is passed over."""
        if not self.cautious or d['kind'] not in ('fill', 'dst', 'pat', 'copy', 'blit', 'blit3'): return d
        area = surface.area(d)
        if area is None or d.get('rop') == 0xAA: return None
        c = dict(d, rect=area)
        c.pop('clip', None)
        if 'sx' in d: c['sx'], c['sy'] = d['sx'] + area[0] - d['rect'][0], d['sy'] + area[1] - d['rect'][1]
        return c

    def place(self, w, h):
        need = w * (20 * ((h + 19) // 20))
        taken = sorted((p, p + bw * (20 * ((bh + 19) // 20))) for p, bw, bh in self.blocks.values())
        at = 0
        for start, end in taken:
            if at + need <= start: break
            at = max(at, end)
        return at if at + need <= 57600 else None

    def take(self, session):
        """The bytes of a frame; none where nothing is due."""
        surface, length = session.surface, len(session.journal)
        if self.stopped or length == self.number and not self.asked: return None
        first = self.number == 0
        pending = [d for entry in session.journal[self.number:] for d in entry]
        dirty = surface.tiles(surface.all()) if first and 'pat' not in self.orders else set()
        orders = []
        depth = self.depth
        if self.marker: orders.append(bytes([0x36, 0, 0, 0, 0]))
        def say(name, values, bounds=None): orders.append(self.registers.write(name, values, bounds, self.zero))
        def fill(rect, color): return list(rect) + depth.field(color)
        if first and 'pat' in self.orders:
            say('OpaqueRect', fill(surface.all(), 0))
        if len(pending) > 256:
            for d in pending:
                if d['kind'] == 'save': self.blocks.pop(d['slot'], None)
                dirty |= self.touched(d, surface)
        else:
            for whole in pending:
                d = self.cut_of(whole, surface)
                if d is None or d['kind'].startswith('load'): continue
                if not self.sent(d, surface, dirty, say, orders): dirty |= self.touched(d, surface)
        out = self.desk.tell((session.holder % 16, session.typed)) if self.desk else b''
        gathered = b''
        count = 0
        for o in orders:
            if gathered and not self.has_room(gathered + o):
                out, gathered, count = out + self.update(count, gathered), b'', 0
            gathered, count = gathered + o, count + 1
        if count: out += self.update(count, gathered)
        across = (surface.w + 63) // 64
        for n in sorted(dirty | self.asked):
            x, y = n % across * 64, n // across * 64
            w, h = min(64, surface.w - x), min(64, surface.h - y)
            is_packed, data = bitmap_data([row[x:x + w] for row in surface.rows[y:y + h]], self.header, depth)
            body = bytes([1, 0, 1, 0]) + b''.join(le(v, 2) for v in (x, y, x + w - 1, y + h - 1, w, h, depth.bits, 0x401 if is_packed else 0, len(data)))
            out += self.bitmap(body + data)
            self.tiles_sent += 1
        out += self.update(1, bytes([0x36, 1, 0, 0, 0])) if self.marker else self.synchronize()
        self.number, self.asked = length, set()
        self.marks += 1
        self.orders_sent += sum(1 for o in orders if o[0] & 3 == 1)
        self.shown = [[depth.back(depth.of(c)) for c in row] for row in surface.rows]
        return out

    def touched(self, d, surface):
        if d['kind'].startswith('load'): return set()
        return surface.tiles(d['rect'] if d['kind'] == 'save' else surface.area(d))

    def sent(self, d, surface, dirty, say, orders):
        """Whether a drawing goes as an order; it is written then."""
        kind, depth = d['kind'], self.depth
        if kind == 'save': self.blocks.pop(d['slot'], None)
        if not self.supports(d): return False
        if kind == 'copy':
            source = (d['sx'], d['sy']) + d['rect'][2:]
            if surface.tiles(source) & dirty: return False
        if kind == 'save':
            x, y, w, h = d['rect']
            if surface.tiles(d['rect']) & dirty: return False
            at = self.place(w, h)
            if at is None: return False
            self.blocks[d['slot']] = (at, w, h)
            say('SaveBitmap', [at, x, y, x + w - 1, y + h - 1, 0])
            return True
        if kind == 'restore':
            if d['slot'] not in self.blocks: return False
            at, w, h = self.blocks[d['slot']]
            say('SaveBitmap', [at, d['x'], d['y'], d['x'] + w - 1, d['y'] + h - 1, 1])
            return True
        rect, clip = surface.rect(d), d.get('clip')
        bounds = clip if clip and meet(rect, clip) != rect else None
        black = (0, 0, 0)
        style = 0x85 if depth.bits == 24 else 0x84
        cached = lambda entry: [0, 0, style, entry, 0]
        if kind == 'fill': say('OpaqueRect', list(rect) + depth.field(d['color']), bounds)
        elif kind == 'dst': say('DstBlt', list(rect) + [d['rop']], bounds)
        elif kind == 'copy': say('ScrBlt', list(rect) + [d['rop'], d['sx'], d['sy']], bounds)
        elif kind == 'pat':
            entry = self.brush_of(d, orders)
            say('PatBlt', list(rect) + [d['rop'], black, black] + cached(entry), bounds)
        elif kind == 'blit':
            cache, index = self.image_of(d, orders)
            say('MemBlt', [cache] + list(rect) + [d['rop'], d['sx'], d['sy'], index], bounds)
        elif kind == 'blit3':
            cache, index = self.image_of(d, orders)
            entry = self.brush_of(d, orders)
            say('Mem3Blt', [cache] + list(rect) + [d['rop'], d['sx'], d['sy'], black, black] + cached(entry) + [index], bounds)
        elif kind == 'text':
            glyphs = d['holds']['glyphs']
            cache, run = self.run_cache(glyphs), b''
            for (code, delta), (key, g) in zip(d['run'], glyphs):
                miss, index = self.glyph_caches[cache].use(key)
                if miss:
                    bits = g[4] + bytes(-len(g[4]) % 4)
                    orders.append(secondary(3, 0, bytes([cache, 1]) + le(index, 2) + b''.join(le(v, 2) for v in g[:4]) + bits))
                run += bytes([index, delta])
            x, y, w, h = rect
            say('GlyphIndex', [cache, 3, 0, 1, tuple(depth.field(d['color'])), black, x, y, x + w, y + h, 0, 0, 0, 0, 0, 0, 0, 0, 0, d['x'], d['y'], run], bounds)
        return True

    def image_of(self, d, orders):
        key, (w, h, pixels) = d['holds']['image']
        cache = self.image_cache((w, h, pixels))
        miss, index = self.images[cache].use(key)
        if miss:
            more = -w % 4
            rows = [pixels[r * w:(r + 1) * w] for r in range(h)]
            rows = [row + [row[-1]] * more for row in rows]
            is_packed, data = bitmap_data(rows, self.header, self.depth)
            orders.append(secondary(2 if is_packed else 0, 0x400 if is_packed else 0,
                                    bytes([cache, 0, w + more, h, self.depth.bits]) + le(len(data), 2) + le(index, 2) + data))
        return cache, index

    def brush_of(self, d, orders):
        key, pixels = d['holds']['brush']
        miss, index = self.brushes.use(key)
        if miss:
            rows = [pixels[8 * r:8 * r + 8] for r in range(8)]
            data = self.depth.pixels([self.depth.of(c) for row in reversed(rows) for c in row])
            head = [5, 8, 8, 0, 0xC0] if self.depth.bits == 24 else [4, 8, 8, 0, 0x80]
            orders.append(secondary(7, 0, bytes([index] + head) + data))
        return index

# ---- a script

class Session:
    def __init__(self, w, h):
        self.surface, self.board = Surface(w, h), Board(w, h)
        self.journal, self.rows, self.roles, self.viewers, self.holder, self.joins = [], {}, {}, {}, 0, 0
        self.typed = 0
        self.gone = {}

    def join(self, name, words):
        if name not in self.rows: return '0 refused not-invited'
        if len(self.viewers) == 16: return '0 refused room-full'
        self.joins += 1
        v = self.joins
        self.roles[v], self.viewers[v] = self.rows[name], Viewer(words)
        self.journal.append([])
        if self.holder == 0 and self.roles[v] != 'view': self.holder = v
        return f"{v} joined {self.surface.w} {self.surface.h} {' '.join(words)}"

    def leave(self, v):
        self.gone[v] = self.viewers.pop(v)
        self.journal.append([])
        if self.holder == v:
            named = lambda role: sorted(u for u in self.viewers if self.roles[u] == role)
            self.holder = next(iter(named('owner') + named('control')), 0)
        return f'{v} left'

    def draw_all(self, drawings):
        for d in drawings:
            d['holds'] = self.surface.holds(d)
            self.surface.draw(d)
        self.journal.append(drawings)

    def event(self, v, event):
        if event[0] == 'key' and event[1] == 0x58:
            if event[2]: return None
            if v == self.holder:
                may = [u for u in sorted(self.viewers) if self.roles[u] != 'view']
                self.holder = next((u for u in may if u > v), may[0])
            elif self.roles[v] == 'owner': self.holder = v
            else: return f'{v} refused not-holder {self.holder}'
            self.journal.append([])
            return None
        if v != self.holder: return f'{v} refused not-holder {self.holder}'
        if event[0] == 'char' and 0x21 <= event[1] <= 0x7E: self.typed = event[1]
        self.draw_all(self.board.react(event))

    def draw(self, v, d):
        if v != self.holder: return f'{v} refused not-holder {self.holder}'
        rule = broken_rule(d, self.surface)
        if rule: return f'{v} refused bad-drawing {rule}'
        holds = self.surface.holds(d)
        if isinstance(holds, str): return f'{v} refused {holds}'
        self.draw_all([d])

def broken_rule(d, surface):
    """The rules of drawings that the scripts break."""
    rects = [d['rect']] if 'rect' in d else []
    if any(not (1 <= w <= 2048 and 1 <= h <= 2048 and -4096 <= x <= 4095 and -4096 <= y <= 4095) for x, y, w, h in rects): return 1
    clip = d.get('clip')
    if clip and meet(clip, surface.all()) != clip: return 2
    if 'rop' in d and (needs_pattern(d['rop']) and 'brush' not in d or needs_source(d['rop']) and 'sx' not in d): return 3
    if d['kind'] == 'copy' and meet((d['sx'], d['sy']) + d['rect'][2:], surface.all()) != (d['sx'], d['sy']) + d['rect'][2:]: return 4
    if d['kind'] == 'save' and meet(d['rect'], surface.all()) != d['rect']: return 9
    return 0

def drawing(kind, w):
    clip = None
    if len(w) > 5 and w[-5] == 'clip': w, clip = w[:-5], tuple(int(n) for n in w[-4:])
    n = lambda i: int(w[i])
    rect = tuple(int(k) for k in w[:4]) if kind in ('fill', 'dst', 'pat', 'copy', 'blit', 'blit3') else None
    d = {'kind': kind}
    if clip: d['clip'] = clip
    if rect: d['rect'] = rect
    if kind == 'fill': d['color'] = int(w[4], 16)
    if kind in ('dst', 'pat', 'copy', 'blit', 'blit3'): d['rop'] = int(w[4], 16)
    if kind == 'pat': d['brush'] = n(5)
    if kind == 'copy': d['sx'], d['sy'] = n(5), n(6)
    if kind in ('blit', 'blit3'): d['image'], d['sx'], d['sy'] = n(5), n(6), n(7)
    if kind == 'blit3': d['brush'] = n(8)
    if kind == 'text':
        d.update(x=n(0), y=n(1), color=int(w[2], 16), font=n(3), run=[tuple(int(k) for k in p.split(':')) for p in w[4:]])
    if kind == 'line': d['ends'], d['color'] = (n(0), n(1), n(2), n(3)), int(w[4], 16)
    if kind == 'save': d['slot'], d['rect'] = n(0), tuple(int(k) for k in w[1:5])
    if kind == 'restore': d['slot'], d['x'], d['y'] = n(0), n(1), n(2)
    colors = lambda text: [int(text[i:i + 6], 16) for i in range(0, len(text), 6)]
    if kind == 'image':
        pixels = colors(w[3])
        d = {'kind': 'load_image', 'slot': n(0), 'content': (n(1), n(2), pixels if len(pixels) > 1 else pixels * (n(1) * n(2)))}
    if kind == 'brush': d = {'kind': 'load_brush', 'slot': n(0), 'content': colors(w[1])}
    if kind == 'glyph': d = {'kind': 'load_glyph', 'font': n(0), 'code': n(1), 'content': (n(2), n(3), n(4), n(5), bytes.fromhex(w[6]))}
    return d

def run(text):
    """The lines of a script's capture, and its session."""
    lines = [line.split(' ') for line in text.splitlines()]
    session = Session(int(lines[0][1]), int(lines[0][2]))
    out = []
    if len(lines) < 2 or lines[1][0] != 'invite':
        lines[1:1] = [['invite', 'host', 'owner'], ['join', 'host', 'plain']]
    for w in lines[1:]:
        v = 1
        if w[0][0] == '@': v, w = int(w[0][1:]), w[1:]
        form, w = w[0], w[1:]
        answer = None
        if form == 'invite': session.rows[w[0]] = w[1]
        elif form == 'join': answer = session.join(w[0], w[1:])
        elif form == 'leave': answer = session.leave(v)
        elif form == 'take':
            bytes_of = session.viewers[v].take(session)
            answer = f'{v} nothing' if bytes_of is None else f'{v} {bytes_of.hex()}'
        elif form == 'suppress': session.viewers[v].stopped = True
        elif form == 'allow': session.viewers[v].stopped = False
        elif form == 'refresh':
            s = session.surface
            session.viewers[v].asked |= s.tiles(meet(tuple(int(n) for n in w), s.all()))
        elif form == 'key': answer = session.event(v, ('key', int(w[0], 16), w[1] == 'up'))
        elif form == 'char': answer = session.event(v, ('char', int(w[0])))
        elif form == 'mouse': answer = session.event(v, ('mouse', int(w[0], 16), int(w[1]), int(w[2])))
        else: answer = session.draw(v, drawing(form, w))
        if answer is not None: out.append(answer)
    return out, session

def picture(rows): return b''.join(c.to_bytes(3, 'big') for row in rows for c in row)

if __name__ == '__main__':
    what, path = sys.argv[1:3]
    out, session = run(open(path).read())
    if what == 'capture':
        for line in out: print(line)
    elif what == 'looks':
        for v, viewer in sorted({**session.gone, **session.viewers}.items()):
            if viewer.shown is None: print(f'look {sys.argv[3]} {v} no-mark')
            else:
                s = session.surface
                print(f'look {sys.argv[3]} {v} picture {viewer.marks} {viewer.orders_sent} {viewer.tiles_sent} {s.w} {s.h} {zlib.adler32(picture(viewer.shown)):08x}')
    else:
        v = int(sys.argv[3])
        viewer = {**session.gone, **session.viewers}[v]
        sys.stdout.buffer.write(f'P6\n{session.surface.w} {session.surface.h}\n255\n'.encode() + picture(viewer.shown))
