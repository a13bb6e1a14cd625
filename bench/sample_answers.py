#!/usr/bin/env python3
"""A model of the connection sequence apart from the crates: it was written from the tables that docs/protocol.md tells, and shares
nothing with their code or definitions. It prints, for each place of a sample client's stream from FROM up to TO, which is left out, and
each other value of the byte there: the place, the value, and the number and place of the refusal; or 0 and how many bytes are there of a
packet that isn't whole. With the word `sample` it writes the sample client's stream, whole, and so many Input packets behind it, each
with one key that is released.

python3 bench/sample_answers.py 0 904 | sha256sum
python3 bench/sample_answers.py sample 0 > FILE

The first command made bench/answers.sha256, the digest of 230,520 lines. It is what `worked_runs` must find in its row `changes`: there the
same lines are made of what `Conn` answers.
"""
import sys

class Refuse(Exception):
    def __init__(self, k, at):
        self.k, self.at = k, at

def u16le(b, i): return b[i] | b[i+1] << 8
def u16be(b, i): return b[i] << 8 | b[i+1]
def u32le(b, i): return u16le(b, i) | u16le(b, i+2) << 16

class Reader:
    """A window [i, end) of the stream; `bad` is the refusal that a field which doesn't fit gives."""
    def __init__(self, b, i, end, bad):
        self.b, self.i, self.end, self.bad = b, i, end, bad
    def left(self): return self.end - self.i
    def fail(self, at=None): raise Refuse(self.bad, self.i if at is None else at)
    def skip(self, n):
        if self.left() < n: self.fail()
        self.i += n
        return self.i - n
    def byte(self): return self.b[self.skip(1)]
    def exact(self, want):
        if self.left() < len(want) or self.b[self.i:self.i+len(want)] != bytes(want): self.fail()
        self.i += len(want)
    def le16(self): return u16le(self.b, self.skip(2))
    def be16(self): return u16be(self.b, self.skip(2))
    def le32(self): return u32le(self.b, self.skip(4))
    def ber(self):
        at = self.i
        if self.left() < 1: self.fail(at)
        c = self.b[at]
        if c < 0x80: n, size = c, 1
        elif c == 0x81: size = 2
        elif c == 0x82: size = 3
        else: self.fail(at)
        if self.left() < size: self.fail(at)
        if size == 2: n = self.b[at+1]
        if size == 3: n = u16be(self.b, at+1)
        self.i += size
        return n
    def per(self):
        at = self.i
        if self.left() < 1: self.fail(at)
        c = self.b[at]
        if c < 0x80:
            self.i += 1
            return c
        if c & 0xC0 != 0x80 or self.left() < 2: self.fail(at)
        self.i += 2
        return (c & 0x3F) << 8 | self.b[at+1]
    def within(self, n):
        """The next n bytes as a window; too few are refused at their first."""
        if self.left() < n: self.fail()
        w = Reader(self.b, self.i, self.i + n, self.bad)
        self.i += n
        return w
    def done(self):
        if self.left(): self.fail()

def request(b, s, e):
    """A Connection Request."""
    if e - (s+4) < 1: raise Refuse(3, e)
    if b[s+4] != (e - s) - 5: raise Refuse(3, s + 4)
    if e - s < 6: raise Refuse(3, e)
    if b[s+5] != 0xE0: raise Refuse(3, s + 5)
    if e - s < 11: raise Refuse(3, e)
    i = s + 11
    if i < e and b[i] != 1:
        j = b.find(b'\r\n', i, e)
        i = e if j < 0 else j + 2
    if e - i >= 8 and b[i] == 1: return u32le(b, i + 4)
    return None

def integers(r):
    """Eight integers, whose values aren't compared."""
    r.exact([0x30])
    w = r.within(r.ber())
    for _ in range(8):
        w.exact([2])
        at = w.i
        n = w.ber()
        if not 1 <= n <= 4: w.fail(at)
        w.skip(n)
    w.done()

def initial(b, s, e):
    """Gives the number of static virtual channels."""
    r = Reader(b, s, e, 4)
    r.exact([0x7F, 0x65])
    w = r.within(r.ber())
    for _ in range(2):
        w.exact([4])
        w.within(w.ber())
    w.exact([1, 1]); w.skip(1)
    for _ in range(3): integers(w)
    w.exact([4])
    user = w.within(w.ber())
    w.done()
    r.done()
    return client_data(b, user.i, user.end)

def client_data(b, s, e):
    """The GCC request with the client's blocks; gives the number of static virtual channels."""
    r = Reader(b, s, e, 7)
    r.exact([0, 5, 0, 0x14, 0x7C, 0, 1])
    r.per()
    r.exact([0, 8, 0, 0x10, 0, 1, 0xC0, 0])
    r.exact([0x44, 0x75, 0x63, 0x61])
    n = r.per()
    if n > r.left(): r.fail()
    w = Reader(b, r.i, r.i + n, 7)
    core = net = False
    channels = 0
    while w.left():
        start = w.i
        kind = w.le16()
        if kind == 0xC001 and core or kind == 0xC003 and net: raise Refuse(7, start)
        at = w.i
        size = w.le16()
        if size < 4 or start + size > w.end or kind == 0xC001 and size < 132: raise Refuse(7, at)
        if kind == 0xC001:
            core = True
            def half(o): return u16le(b, start + o) if o + 2 <= size else None
            supported, high, beta = half(142), half(140), half(132)
            # 24 or 16 bits for each pixel; which of them it is doesn't show in these lines
            if supported is not None: offered = supported & 3
            elif high is not None: offered = high in (24, 16)
            else: offered = beta in (0xCA04, 0xCA03)
            if not offered: raise Refuse(8, start)
        elif kind == 0xC003:
            net = True
            v = Reader(b, start + 4, start + size, 7)
            at = v.i
            channels = v.le32()
            if channels > 31: raise Refuse(9, at)
            for _ in range(channels): v.skip(12)
        w.i = start + size
    if not core: w.fail()
    if w.end != e: raise Refuse(7, w.end)
    return channels

def domain(b, s, e):
    """A domain PDU of a client."""
    r = Reader(b, s, e, 5)
    c = r.byte()
    if c == 0x04:
        # what follows the two integers is dropped: one client in use leaves a byte over here
        for _ in range(2): counted(r)
        return ('erect',)
    if c == 0x28:
        r.done()
        return ('attach',)
    if c == 0x38:
        user = user_of(r); channel = r.be16()
        r.done()
        return ('join', user, channel)
    if c == 0x64:
        user = user_of(r); channel = r.be16()
        at = r.i
        if r.byte() & 0x30 != 0x30: r.fail(at)
        n = r.per()
        if n != r.left(): r.fail()
        return ('data', user, channel, r.i)
    if c in (0x20, 0x21, 0x22):
        at = r.i
        d = r.byte()
        if 2 * (c & 3) + (d >> 7) > 4: r.fail(at)
        r.done()
        return ('bye',)
    if c == 0x30:
        # reason 3 by the basic encoding rules, as one client in use writes it: one field
        r = Reader(b, s, e, 5)
        r.exact([0x30, 6, 2, 2, 0, 3, 0x30, 0])
        r.done()
        return ('bye',)
    raise Refuse(5, s)

def counted(r):
    n = r.byte()
    r.skip(n)

def user_of(r):
    """An initiator."""
    at = r.i
    u = r.be16() + 1001
    if u > 65535: r.fail(at)
    return u

def info(b, s, e):
    """A Client Info."""
    r = Reader(b, s, e, 10)
    at = r.i
    if u16le(b, r.skip(2)) & 0x40 == 0: r.fail(at)
    r.skip(2)
    r.skip(4)
    flags = r.le32()
    wide = flags & 0x10 != 0
    counts = [r.le16() for _ in range(5)]
    for n in counts:
        r.skip(n)
        r.exact([0, 0] if wide else [0])

LEAST = {1: 24, 2: 28, 3: 88, 4: 40, 8: 8, 15: 8, 16: 52}

def confirm(b, s, e):
    """A Confirm Active behind its share control header."""
    r = Reader(b, s, e, 11)
    r.skip(4); r.skip(2)
    n = r.le16()
    r.skip(2); r.skip(n)
    count = r.le16()
    r.skip(2)
    for _ in range(count):
        at = r.i
        kind = r.le16(); size = r.le16()
        if size < max(4, LEAST.get(kind, 4)) or at + size > e: r.fail(at)
        r.i = at + size

def share(b, s, e):
    """What a share PDU says, with the place of what is read further."""
    r = Reader(b, s, e, 12)
    total = r.le16()
    if total < 6 or total > e - s: r.fail(s)
    r.end = s + total
    at = r.i
    kind = r.le16() & 15
    if kind not in (3, 7): r.fail(at)
    r.skip(2)
    if kind == 3: return ('confirm', r.i, r.end)
    r.skip(4); r.skip(1); r.skip(1); r.skip(2)
    kind = r.byte()
    at = r.i
    if r.byte() & 0x20: raise Refuse(13, at)
    r.skip(2)
    if kind == 0x1F:
        r.exact([1, 0]); r.skip(2)
        return ('synchronize',)
    if kind == 0x14:
        at = r.i
        action = r.le16()
        if action not in (1, 4): r.fail(at)
        r.skip(2); r.skip(4)
        return ('request' if action == 1 else 'cooperate',)
    if kind == 0x1C: return ('input', r.i, r.end)
    if kind == 0x21:
        n = r.byte(); r.skip(3)
        for _ in range(4 * n): r.skip(2)
        return ('refresh',)
    if kind == 0x23:
        r.byte(); r.skip(3)
        return ('suppress',)
    return ({0x24: 'shutdown', 0x27: 'fonts', 0x2B: 'keys'}.get(kind, 'other'),)

def events(b, s, e):
    """The body of an Input."""
    r = Reader(b, s, e, 14)
    n = r.le16(); r.skip(2)
    for _ in range(n): r.skip(4); r.skip(2); r.skip(6)

IO = 1003

# the places of share PDUs, from that of the Confirm Active on
SHARES = ('confirm', 0, 1, 2, 3, 'ready')

def fast(b, i):
    """The size of a fast-path packet of input, once it is whole, with its events read; None before."""
    if len(b) - i < 2: return None
    n, header = b[i+1], 2
    if n >= 0x80:
        if len(b) - i < 3: return None
        n, header = u16be(b, i+1) & 0x7FFF, 3
    if n < header: raise Refuse(2, i + 1)
    if len(b) - i < n: return None
    if b[i] >= 0x40: raise Refuse(14, i)
    r = Reader(b, i + header, i + n, 14)
    for _ in range(b[i] >> 2 or r.byte()):
        at = r.i
        code = r.byte() >> 5
        if code > 4: r.fail(at)
        for size in ((1,), (2, 2, 2), (2, 2, 2), (), (2,))[code]: r.skip(size)
    return n

def handshake(b):
    """How a stream ends: ('between',), ('within', n) or ('refused', k, at)."""
    stage, i, channels, joined = 'request', 0, 0, set()
    try:
        while True:
            if stage == 'over': return ('between',)
            if i == len(b): return ('between',)
            if b[i] & 3 == 0 and stage in SHARES:
                n = fast(b, i)
                if n is None: return ('within', len(b) - i)
                i += n
                continue
            if b[i] != 3: raise Refuse(1, i)
            if len(b) - i < 4: return ('within', len(b) - i)
            n = u16be(b, i + 2)
            if n < 7: raise Refuse(2, i + 2)
            if len(b) - i < n: return ('within', len(b) - i)
            s, e = i, i + n
            i = e
            if stage == 'request':
                request(b, s, e)
                stage = 'initial'
                continue
            r = Reader(b, s + 4, e, 3)
            r.exact([2, 0xF0, 0x80])
            at = r.i
            if stage == 'initial':
                channels = initial(b, at, e)
                stage = 'erect'
                continue
            p = domain(b, at, e)
            if p[0] == 'bye':
                stage = 'over'
                continue
            if stage == 'erect':
                if p[0] != 'erect': raise Refuse(5, at)
                stage = 'attach'
                continue
            if stage == 'attach':
                if p[0] != 'attach': raise Refuse(5, at)
                stage = 'joins'
                continue
            user = 1004 + channels
            if stage == 'joins':
                if p[0] == 'join':
                    if p[1] != user: raise Refuse(6, at + 1)
                    if p[2] != IO and not 1004 <= p[2] <= user: raise Refuse(6, at + 3)
                    joined.add(p[2])
                elif p[0] == 'data':
                    if not {user, IO} <= joined:
                        raise Refuse(6, at + 1 if p[1] != user else at + 3)
                    if p[2] == IO:
                        info(b, p[3], e)
                        if p[1] != user: raise Refuse(6, at + 1)
                        stage = 'confirm'
                    else: other(p, user, at)
                else: raise Refuse(5, at)
                continue
            if p[0] != 'data': raise Refuse(5, at)
            if p[2] != IO:
                other(p, user, at)
                continue
            q = share(b, p[3], e)
            stage = shares(b, stage, q, p, user, at)
    except Refuse as x:
        return ('refused', x.k, x.at)

def other(p, user, at):
    """Data on another channel than the I/O channel."""
    if p[1] != user: raise Refuse(6, at + 1)
    if not 1004 <= p[2] <= user: raise Refuse(6, at + 3)

FINALS = ['synchronize', 'cooperate', 'request', 'fonts']

def shares(b, stage, q, p, user, at):
    """The stage after a share PDU."""
    if q[0] == 'confirm' and stage != 'ready': confirm(b, q[1], q[2])
    if q[0] == 'input': events(b, q[1], q[2])
    unexpected, after = False, stage
    if stage == 'confirm':
        if q[0] == 'confirm': after = 0
        elif q[0] not in ('input', 'refresh', 'suppress', 'other'): unexpected = True
    elif stage == 'ready':
        if q[0] == 'shutdown': after = 'over'
    else:
        if q[0] == FINALS[stage]: after = 'ready' if stage == 3 else stage + 1
        elif q[0] == 'keys': unexpected = stage != 3
        elif q[0] not in ('input', 'refresh', 'suppress', 'other'): unexpected = True
    if unexpected: raise Refuse(12, p[3])
    if p[1] != user: raise Refuse(6, at + 1)
    return after

# ---- the sample client

def pkt(mcs): return bytes([3, 0]) + (len(mcs) + 7).to_bytes(2, 'big') + bytes([2, 0xF0, 0x80]) + bytes(mcs)
def ints(*vs):
    out = b''
    for v in vs:
        n = max(1, (v.bit_length() + 7) // 8)
        if v >> (8 * n - 1): n += 1
        out += bytes([2, n]) + v.to_bytes(n, 'big')
    return out
def params(*vs):
    c = ints(*vs)
    return bytes([0x30, len(c)]) + c
def data(body):
    n = bytes([len(body)]) if len(body) < 128 else (0x8000 | len(body)).to_bytes(2, 'big')
    return pkt(bytes([0x64, 0, 6, 3, 0xEB, 0x70]) + n + body)
def sharedata(kind, body):
    total = 18 + len(body)
    return data(total.to_bytes(2, 'little') + bytes([0x17, 0, 0xEF, 3, 0xEA, 3, 1, 0, 0, 1]) + (total - 14).to_bytes(2, 'little') + bytes([kind, 0, 0, 0]) + body)

def packets(name):
    """The sample client's packets, for a client of this name."""
    core = bytearray(144)
    core[0:4] = bytes([1, 0xC0, 0x90, 0]); core[4:8] = bytes([4, 0, 8, 0])
    core[8] = 64; core[10] = 48; core[140] = 24; core[142] = 7
    net = bytes([3, 0xC0, 0x2C, 0, 3, 0, 0, 0])
    for nm in (b'rdpdr', b'cliprdr', b'rdpsnd'): net += nm.ljust(8, b'\0') + bytes(4)
    blocks = bytes(core) + bytes([2, 0xC0, 0x0C, 0]) + bytes(8) + net
    gcc = bytes.fromhex('00050014 7c0001 80d6 0008001000 01c000 44756361 80c8'.replace(' ', '')) + blocks
    ci = bytes.fromhex('040101 040101 0101ff'.replace(' ', '')) + params(34, 2, 0, 1, 0, 1, 65535, 2) + params(1, 1, 1, 1, 0, 1, 1056, 2) \
        + params(65535, 64535, 65535, 1, 0, 1, 65535, 2) + bytes([4, 0x81, len(gcc)]) + gcc
    s = [bytes.fromhex('030000130ee00000000000') + bytes.fromhex('0100080000000000')]
    s += [pkt(bytes([0x7F, 0x65, 0x82]) + len(ci).to_bytes(2, 'big') + ci)]
    s += [pkt([4, 1, 0, 1, 0]), pkt([0x28])]
    for c in (0x3EF, 0x3EB, 0x3EC, 0x3ED, 0x3EE): s += [pkt(bytes([0x38, 0, 6]) + c.to_bytes(2, 'big'))]
    user = name.encode('utf-16le')
    s += [data(bytes.fromhex('40000000 00000000 10000000 0000'.replace(' ', '')) + len(user).to_bytes(2, 'little') + bytes(6) + bytes(2) + user + bytes(2) + bytes(6))]
    sets = b''
    def st(t, n, put=()):
        v = bytearray(n)
        v[0:2] = t.to_bytes(2, 'little'); v[2:4] = n.to_bytes(2, 'little')
        for o, x in put: v[o] = x
        return bytes(v)
    sets = st(1, 24) + st(3, 88, [(34, 0x82), (37, 1)]) + st(4, 40) + st(15, 8) + st(16, 52) + st(8, 10)
    ca = bytes.fromhex('ea030100 ea03 0400'.replace(' ', '')) + (len(sets) + 4).to_bytes(2, 'little') + b'RDP\0' + bytes([6, 0, 0, 0]) + sets
    s += [data((6 + len(ca)).to_bytes(2, 'little') + bytes([0x13, 0, 0xEF, 3]) + ca)]
    s += [sharedata(0x1F, bytes.fromhex('0100ea03')), sharedata(0x14, bytes([4]) + bytes(7)), sharedata(0x14, bytes([1]) + bytes(7))]
    s += [sharedata(0x27, bytes.fromhex('0000000003003200'))]
    return s

def sample(): return b''.join(packets('ann'))

def answer(b):
    e = handshake(b)
    return (e[1], e[2]) if e[0] == 'refused' else (0, 0) if e[0] == 'between' else (0, e[1])

if __name__ == '__main__':
    whole = sample()
    if sys.argv[1] == 'sample':
        released = sharedata(0x1C, bytes.fromhex('01000000 00000000 0400 0080 1e00 0000'.replace(' ', '')))
        sys.stdout.buffer.write(whole + int(sys.argv[2]) * released)
        sys.exit()
    for place in range(int(sys.argv[1]), min(int(sys.argv[2]), len(whole))):
        for value in range(256):
            if value != whole[place]:
                changed = bytearray(whole)
                changed[place] = value
                print(place, value, *answer(bytes(changed)))
