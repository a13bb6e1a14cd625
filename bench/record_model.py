#!/usr/bin/env python3
"""A model of session records apart from the crates: it was written from the tables of crates/record_rules/README.md, and shares nothing with their code or
definitions. What of a script is refused it takes from the script's capture.

python3 bench/record_model.py SCRIPT CAPTURE

prints how many entries the script's journal has, and the bytes of its record in hexadecimal; `-` in place of the bytes where the capture
doesn't tell which of two drawings of one viewer is the refused one.
"""
import sys

ROLES = {'owner': 0, 'control': 1, 'view': 2}
SHAPES = ['fill', 'dst', 'pat', 'copy', 'blit', 'blit3', 'text', 'line', 'save', 'restore', 'image', 'brush', 'glyph']
CLIPPED = SHAPES[:8]

def le(n, size): return (n % (1 << 8 * size)).to_bytes(size, 'little')
def color(word): return bytes.fromhex(word)
def rect(words): return b''.join(le(int(w), 2) for w in words)

def shape(kind, w):
    b = lambda word: le(int(word), 1)
    s = lambda word: le(int(word), 2)
    if kind == 'fill': return rect(w[:4]) + color(w[4])
    if kind == 'dst': return rect(w[:4]) + color(w[4])
    if kind == 'pat': return rect(w[:4]) + color(w[4]) + b(w[5])
    if kind == 'copy': return rect(w[:4]) + color(w[4]) + s(w[5]) + s(w[6])
    if kind == 'blit': return rect(w[:4]) + color(w[4]) + b(w[5]) + s(w[6]) + s(w[7])
    if kind == 'blit3': return rect(w[:4]) + color(w[4]) + b(w[5]) + s(w[6]) + s(w[7]) + b(w[8])
    if kind == 'text':
        pairs = [p.split(':') for p in w[4:]]
        return s(w[0]) + s(w[1]) + color(w[2]) + b(w[3]) + le(len(pairs), 1) + b''.join(b(c) + b(d) for c, d in pairs)
    if kind == 'line': return b''.join(s(x) for x in w[:4]) + color(w[4])
    if kind == 'save': return b(w[0]) + rect(w[1:5])
    if kind == 'restore': return b(w[0]) + s(w[1]) + s(w[2])
    if kind == 'image':
        pixels = bytes.fromhex(w[3])
        if len(pixels) == 3: pixels = pixels * (int(w[1]) * int(w[2]))
        return b(w[0]) + b(w[1]) + b(w[2]) + pixels
    if kind == 'brush': return b(w[0]) + bytes.fromhex(w[1])
    if kind == 'glyph': return b''.join(b(x) for x in w[:6]) + bytes.fromhex(w[6])

def draw(kind, words):
    clip = b'\0'
    if kind in CLIPPED and len(words) > 5 and words[-5] == 'clip':
        clip, words = b'\1' + rect(words[-4:]), words[:-5]
    return clip + le(SHAPES.index(kind), 1) + shape(kind, words)

def event(kind, w):
    if kind == 'key': return le(1, 1) + le(int(w[0], 16), 2) + le(int(w[1] == 'up'), 2) + le(0, 2)
    if kind == 'char': return le(2, 1) + le(int(w[0]), 2) + le(0, 4)
    return le(3, 1) + le(int(w[0], 16), 2) + le(int(w[1]), 2) + le(int(w[2]), 2)

class Session:
    """Who is present, by number with the role, and who holds control."""
    def __init__(self): self.here, self.holder, self.joins = {}, 0, 0
    def join(self, role):
        self.joins += 1
        self.here[self.joins] = role
        if self.holder == 0 and role != 2: self.holder = self.joins
    def leave(self, v):
        del self.here[v]
        if self.holder == v:
            firsts = [u for r in (0, 1) for u in sorted(self.here) if self.here[u] == r]
            self.holder = firsts[0] if firsts else 0
    def next(self, v):
        may = [u for u in sorted(self.here) if self.here[u] != 2]
        return ([u for u in may if u > v] or may or [0])[0]

def main(script, capture):
    lines = open(script).read().split('\n')[:-1]
    told = open(capture).read().split('\n')[:-1]
    if told and told[-1].startswith('line '):
        k = int(told[-1].split()[1])
        lines, told = lines[:k - 1], told[:-1]
    if not lines: return print(0, '')
    _, w, h = lines[0].split()
    rest = [l.split(' ') for l in lines[1:]]
    if not rest or rest[0][0] != 'invite': rest = [['invite', 'host', 'owner'], ['join', 'host', 'plain']] + rest
    rows = [(l[1], ROLES[l[2]]) for l in rest if l[0] == 'invite']
    head = b'RDPJ1\n' + le(int(w), 2) + le(int(h), 2) + le(len(rows), 1) + b''.join(le(r, 1) + le(len(n), 1) + n.encode() for n, r in rows)
    s, entries, sure = Session(), [], True
    refused = sum(1 for t in told if t.split()[1] == 'refused' and t.split()[0] != '0')
    bodies = 0
    at = 0
    for l in rest:
        if l[0] == 'invite': continue
        v = 1
        if l[0].startswith('@'): v, l = int(l[0][1:]), l[1:]
        kind, words = l[0], l[1:]
        if kind in ('join', 'leave', 'take'):
            line, at = told[at].split(), at + 1
            if kind == 'join' and line[1] == 'joined':
                role = dict(rows)[words[0]]
                s.join(role)
                entries.append(le(1, 1) + le(s.joins, 4) + le(role, 1))
            if kind == 'leave':
                s.leave(v)
                entries.append(le(2, 1) + le(v, 4))
        elif kind in ('suppress', 'allow', 'refresh'): pass
        elif kind == 'key' and int(words[0], 16) == 0x58:
            if words[1] == 'up': continue
            bodies += 1
            if v == s.holder: to = s.next(v)
            elif s.here[v] == 0: to = v
            else:
                at += 1
                continue
            s.holder = to
            entries.append(le(3, 1) + le(v, 4) + le(to, 4))
        else:
            bodies += 1
            if v != s.holder:
                at += 1
                continue
            if at < len(told) and told[at].split()[:2] == [str(v), 'refused']:
                # this one, or a later one that writes nothing else before it
                sure = False
            entries.append(le(4, 1) + le(v, 4) + event(kind, words) if kind in ('key', 'char', 'mouse') else le(5, 1) + le(v, 4) + draw(kind, words))
    others = sum(1 for e in entries if e[0] in (1, 2))
    number = others + bodies - refused
    data = head + b''.join(le(len(e), 2) + e for e in entries)
    print(number, data.hex() if sure and number == len(entries) else '-')

main(*sys.argv[1:])
