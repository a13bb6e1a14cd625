#!/usr/bin/env python3
"""Clients of `rdp_host serve`, over the loopback interface: an owner who clicks, guests who watch, clients that never read or go without a
word. They go through the connection sequence as the sample client does, which confirms fills and no cache, and count what they are sent:
packets, orders, tiles and marks. They don't look at pixels. Who only watches in the parts `idle`, `same` and `links` is `rdp_view`, which
reads what it is sent as the proof does, and whose status says whether that was right.

python3 bench/serve_load.py PART PORT PID FILE
python3 bench/serve_load.py links PART
python3 bench/serve_load.py port

PART is one of those at the end of this file. PORT is where the program listens on this machine, with the owner `ann` and the guests `bob`
and `cy+`, for just as many links as the part makes. PID is its process: what processor time and memory it takes is read in /proc. The rows
of a table go to standard output. To FILE goes what the program must write at its end: for each link, in their order, an expression of awk
for its line. The other two print how many links a part makes, and a port that is free. `bench/serve.sh` runs each part with a program of its
own.
"""
import os
import random
import select
import signal
import socket
import statistics
import struct
import subprocess
import sys
import threading
import time

from sample_answers import packets, pkt, sharedata

# How many packets the host answers each packet of the sample client with; the first frame comes behind the last answer.
ANSWERS = [1, 1, 0, 1, 1, 1, 1, 1, 1, 2, 0, 1, 1, 1, 1]

# The update that ends a frame of a client which confirmed no frame markers: a Synchronize; and the same on the fast path.
MARK = bytes.fromhex('0300002402f08068000103eb70161600' '1700ea03ea030100000108000200000003000000')
FAST_MARK = bytes.fromhex('0005030000')

# A client's ultimatum of reason 3, user requested, and the host's to a client that it doesn't serve.
BYE = pkt([0x21, 0x80])
REFUSED = pkt([0x20, 0x80])

# How long anything may take, in seconds, before the load gives up.
PATIENCE = 240

# The network viewer, a number of marks that it doesn't come to, and what it confirms where several watch, one after the other.
RDP_VIEW = os.environ.get('RDP_VIEW')
OUT_OF_REACH = 65535
PRESETS = ['plain', 'full', 'marked', 'bare']

# The statuses of a viewer that has seen enough, and of one whose host has gone.
SEEN, GONE, SENT_AWAY = 0, 35, 36

# The codes of the ends of links.
LEFT, READ_FAULT, WRITE_FAULT, BAD_PACKET, TRUNCATED, NOT_INVITED, ROOM_FULL = 0, 4, 5, 21, 35, 36, 37

# How many links come one after another in the part `links`.
MANY = int(os.environ.get('MANY', '10000'))

# How many events are sent in the part `same`.
EVENTS = 4000

# The most viewers of a session, and the sides of the picture that the clicks lie in.
MOST = 16
WIDE, HIGH = 1024, 768


def event(kind, a, b, c):
    """An Input packet of one event."""
    return sharedata(0x1C, struct.pack('<HHIHHHH', 1, 0, 0, kind, a, b, c))


def click(i):
    """A press of the left button: a dot of 5 by 5 pixels in the ink."""
    return event(0x8001, 0x9000, 8 + i * 37 % (WIDE - 16), 8 + i * 53 % (HIGH - 16))


# F2 pressed: the whole picture inverted, which goes to these clients as all tiles, unpacked: 192 of them, 2.4 MB.
INVERT = event(4, 0, 0x3C, 0)

# So many such frames are more than the system keeps for a client that doesn't read.
FRAMES = 3


# The most clicks that are sent together.
BURST = 64


def length(held, at):
    """The length of the packet that begins there, by its head: of the fast path ([MS-RDPBCGR] 2.2.9.1.2), whose first byte is 0 with this host,
    or of the slow one."""
    if held[at] == 0: return (held[at+1] & 0x7F) << 8 | held[at+2] if held[at+1] & 0x80 else held[at+1]
    if held[at] == 3: return held[at+2] << 8 | held[at+3]
    raise ValueError('no packet begins here')


class Link:
    """A connection to the host, with what it was sent so far."""

    def __init__(self, port, kept=None):
        begin = time.perf_counter()
        while True:
            self.socket = socket.socket()
            self.socket.settimeout(PATIENCE)
            if kept:
                self.socket.setsockopt(socket.SOL_SOCKET, socket.SO_RCVBUF, kept)
            try:
                self.socket.connect(('127.0.0.1', port))
                break
            except ConnectionRefusedError:
                # the program hasn't opened its port yet
                if time.perf_counter() - begin > PATIENCE: raise
                self.socket.close()
                time.sleep(0.05)
        self.socket.setsockopt(socket.IPPROTO_TCP, socket.TCP_NODELAY, 1)
        self.rest = b''
        self.last = b''
        self.packets = self.orders = self.tiles = self.marks = 0
        self.is_over = False

    def send(self, data): self.socket.sendall(data)

    def read(self):
        """Reads once, and counts the whole packets."""
        data = self.socket.recv(1 << 18)
        if not data: self.is_over = True
        held = self.rest + data
        at = 0
        while len(held) - at >= 4:
            end = at + length(held, at)
            if end > len(held): break
            self.count(held[at:end])
            at = end
        self.rest = held[at:]

    def count(self, packet):
        self.packets += 1
        self.last = packet
        if packet in (MARK, FAST_MARK): self.marks += 1
        elif packet[0] == 0:
            # behind the length, which has one or two bytes, the update's code and the size of its data
            at = 2 + (packet[1] >> 7)
            if packet[at] == 0: self.orders += struct.unpack_from('<H', packet, at + 3)[0]
            if packet[at] == 1: self.tiles += struct.unpack_from('<H', packet, at + 5)[0]
        elif len(packet) >= 40 and packet[7] == 0x68:
            # behind the header of the data, whose count has one or two bytes, and of the share
            kind = 28 + (packet[13] >> 7)
            if packet[kind] == 2:
                update, first, second = struct.unpack_from('<HHH', packet, kind + 4)
                if update == 0: self.orders += second
                if update == 1: self.tiles += first

    def until(self, done):
        """Reads until this is so, or the host has ended the connection."""
        while not done() and not self.is_over: self.read()
        if not done(): raise ValueError('the host ended a connection')

    def to_end(self):
        """Reads until the host ends the connection, and gives it up."""
        while not self.is_over: self.read()
        self.socket.close()

    def reset(self):
        """Gives the connection up so that the host's side is reset."""
        self.socket.setsockopt(socket.SOL_SOCKET, socket.SO_LINGER, struct.pack('ii', 1, 0))
        self.socket.close()


class GivenUp:
    """Waits in a thread of its own until the host ends a link."""

    def __init__(self, link):
        self.link = link
        self.began = time.perf_counter()
        self.thread = threading.Thread(target=self.wait)
        self.thread.start()

    def wait(self):
        self.link.to_end()
        self.took = time.perf_counter() - self.began

    def time(self):
        self.thread.join()
        return self.took


class Watcher:
    """A run of `rdp_view`: it joins by a name, watches until so many marks, and writes the picture."""

    def __init__(self, port, name, marks, preset):
        self.run = subprocess.Popen([RDP_VIEW, str(port), name, str(marks), preset], stdout=subprocess.PIPE)

    def picture(self, *statuses):
        """Waits for its end, by one of these statuses; what it wrote behind the head of the picture."""
        shown = self.run.communicate(timeout=PATIENCE)[0]
        if self.run.returncode not in statuses: raise ValueError(f'rdp_view ended with status {self.run.returncode}')
        return shown.split(b'\n255\n', 1)[1]


class Room:
    """A host, with the links to it in their order, and what it must say of each at its end."""

    def __init__(self, port, pid):
        self.port, self.pid = port, pid
        self.lines = []
        self.joins = 0
        self.viewers = []
        self.ready = select.epoll()
        self.by_number = {}

    def connect(self, kept=None):
        link = Link(self.port, kept)
        self.lines.append(None)
        link.number, link.viewer = len(self.lines), 0
        return link

    def ends(self, link, codes, place=0):
        """How the host must say that a link ended: by one of these codes."""
        self.lines[link.number - 1] = f'{link.number} {link.viewer} ({"|".join(map(str, codes))}) {place}'

    def greet(self, name, kept=None):
        """A client that went through the connection sequence."""
        link = self.connect(kept)
        for packet, answers in zip(packets(name), ANSWERS):
            wanted = link.packets + answers
            link.send(packet)
            link.until(lambda: link.packets >= wanted)
        return link

    def join(self, name='bob', kept=None):
        """A viewer with its first frame, whom the others have heard of."""
        others = {link: link.marks + 1 for link in self.viewers}
        link = self.greet(name, kept)
        link.until(lambda: link.marks)
        self.joins += 1
        link.viewer = self.joins
        self.ends(link, [LEFT])
        self.read_until(others)
        self.viewers.append(link)
        self.by_number[link.socket.fileno()] = link
        self.ready.register(link.socket, select.EPOLLIN)
        return link

    def watch(self, name='bob', marks=OUT_OF_REACH, preset='plain'):
        """A viewer that is `rdp_view`, whom the others have heard of."""
        due = self.one_more()
        watcher = Watcher(self.port, name, marks, preset)
        self.read_until(due)
        return watcher

    def stop(self):
        """Ends the host, as a signal does."""
        os.kill(self.pid, signal.SIGTERM)

    def fill(self, count=MOST):
        """Lets viewers in until there are so many."""
        while len(self.viewers) < count: self.join()

    def forget(self, link):
        """Reads no more of a viewer's link."""
        self.viewers.remove(link)
        del self.by_number[link.socket.fileno()]
        self.ready.unregister(link.socket)

    def read_until(self, due):
        """Reads until each of these viewers has so many marks; when that was."""
        begin = time.perf_counter()
        due = {link: marks for link, marks in due.items() if link.marks < marks}
        while due:
            if time.perf_counter() - begin > PATIENCE: raise TimeoutError(f'{len(due)} viewers wait for a mark')
            for number, _ in self.ready.poll(1):
                link = self.by_number[number]
                link.read()
                if link.is_over: raise ValueError('the host ended a connection')
                if link in due and link.marks >= due[link]: del due[link]
        return time.perf_counter()

    def one_more(self): return {link: link.marks + 1 for link in self.viewers}

    def follow(self, packet):
        """Sends a packet of the first viewer, who holds control, that makes an entry; the time until the last viewer's mark."""
        due = self.one_more()
        begin = time.perf_counter()
        self.viewers[0].send(packet)
        return self.read_until(due) - begin

    def times_of_clicks(self, count):
        """The times from a click to the last viewer's mark, with a pause before each."""
        times = []
        for i in range(count):
            time.sleep(0.005)
            times.append(self.follow(click(i)))
        return times

    def end(self, link, how):
        """Ends a viewer's link, and waits until it has left and the others have heard of it."""
        self.forget(link)
        due = self.one_more()
        how(link)
        link.to_end()
        self.read_until(due)

    def close(self):
        """Has all viewers leave, the holder last."""
        while self.viewers: self.end(self.viewers[-1], lambda link: link.send(BYE))

    def processor(self):
        """The processor time of the host's threads, in seconds. Of threads that have ended it has none."""
        spent = 0
        for thread in os.listdir(f'/proc/{self.pid}/task'):
            with open(f'/proc/{self.pid}/task/{thread}/schedstat') as it: spent += int(it.read().split()[0])
        return spent / 1e9

    def status(self, field):
        """A field of the host's status; the system gives memory in KiB."""
        with open(f'/proc/{self.pid}/status') as it:
            for line in it:
                if line.startswith(field + ':'): return int(line.split()[1])

    def memory(self): return self.status('VmRSS')


# The figures that are otherwise than wanted; a part in which some are ends with this status, once all of it is done. What must be so, and
# isn't, ends it at once.
MISSED = 3
missed = []


def row(what, seen, wanted='', is_met=True):
    print(f'| {what} | {seen} | {wanted} |', flush=True)
    if not is_met:
        print(f'{what}: {seen}, and wanted is {wanted}', file=sys.stderr)
        missed.append(what)


def milliseconds(seconds): return f'{1000 * seconds:.2f} ms'


def spread(times):
    """The median of times, and what 19 of 20 of them don't pass."""
    return f'{milliseconds(statistics.median(times))}, {milliseconds(statistics.quantiles(times, n=20)[-1])}'


def clicked(what, times):
    """The row of the times from clicks to the last mark."""
    row(f'{what}: median, 19 of 20', spread(times), 'median below 5 ms', statistics.median(times) < 0.005)


def idle(room):
    """16 viewers who do nothing: processor time, and memory."""
    owner = room.join('ann')
    one = room.memory()
    watchers = [room.watch() for _ in range(MOST - 1)]
    quiet(room)
    all_of_them = room.memory()
    packets_before = owner.packets
    begin, spent = time.perf_counter(), room.processor()
    time.sleep(10)
    spent, took = room.processor() - spent, time.perf_counter() - begin
    quiet(room)
    if owner.packets != packets_before: raise ValueError('somebody was sent something')
    row('processor time of 16 idle viewers over 10 s, 15 of them rdp_view', f'{100 * spent / took:.2f}% of a processor', 'below 1%', spent < took / 100)
    row('memory with 1 viewer, with 16', f'{one} KiB, {all_of_them} KiB')
    row('memory for each viewer more', f'{(all_of_them - one) / (MOST - 1):.0f} KiB')
    room.stop()
    pictures = len({watcher.picture(GONE, SENT_AWAY) for watcher in watchers})
    row('pictures that the viewers saw, when the host had gone', pictures, 1)
    if pictures != 1: raise ValueError('the viewers saw other pictures')


def clicks(room):
    """The time from the holder's click to the last mark of N viewers."""
    room.join('ann')
    for count in (1, 2, 4, 8, 16):
        room.fill(count)
        spent = room.processor()
        times = room.times_of_clicks(200)
        spent = (room.processor() - spent) / len(times)
        many = f'{count} viewers' if count > 1 else 'one viewer'
        clicked(f'from a click to the last mark, {many}', times)
        row(f'processor time of the host for such a click, {many}', milliseconds(spent))
    room.close()


def paced(room, rate, count):
    """So many clicks, at so many a second: how long sending them took, how much later all viewers had the last one, and how many tiles
    they were sent. A viewer who falls more than 256 drawings behind is sent tiles in place of orders."""
    holder = room.viewers[0]
    goals = {link: link.orders + count for link in room.viewers}
    tiles = sum(link.tiles for link in room.viewers)
    made, waiting = 0, b''
    begin = time.perf_counter()
    sent = None
    while goals:
        now = time.perf_counter()
        # a client that got its turn late doesn't make up for it at once
        due = min(count, made + BURST, int((now - begin) * rate) + 1)
        waiting += b''.join(click(i) for i in range(made, due))
        made = due
        if waiting:
            try: waiting = waiting[holder.socket.send(waiting, socket.MSG_DONTWAIT):]
            except BlockingIOError: pass
            if made == count and not waiting: sent = time.perf_counter()
        for number, _ in room.ready.poll(0 if waiting else 0.0005):
            link = room.by_number[number]
            link.read()
            if link in goals and link.orders >= goals[link]: del goals[link]
        more = sum(link.tiles for link in room.viewers) - tiles
        if more: break
        if now - begin > PATIENCE: raise TimeoutError('the last drawing')
    over = time.perf_counter()
    # a packet that was begun is ended
    holder.send(waiting)
    return (sent or over) - begin, over - (sent or over), more


def quiet(room):
    """Reads until nothing comes for a second."""
    while True:
        came = room.ready.poll(1)
        if not came: return
        for number, _ in came: room.by_number[number].read()


def try_rate(room, per_second):
    """Clicks at so many a second for two seconds; the row's figures, or None where a viewer didn't follow."""
    marks, spent = sum(link.marks for link in room.viewers), room.processor()
    took, later, tiles = paced(room, per_second, 2 * per_second)
    spent = room.processor() - spent
    frames = (sum(link.marks for link in room.viewers) - marks) / MOST
    quiet(room)
    print(f'{per_second} a second: sent in {took:.2f} s, the last mark {milliseconds(later)} later, {frames:.0f} frames a viewer, '
          f'{spent:.2f} s of processor time, {tiles} tiles', file=sys.stderr)
    if tiles or later > 0.1 or took > 2.1: return None
    return f'{milliseconds(later)}; {frames / took:.0f}; {spent / took:.2f}'


# How many drawings a second are tried one after the other, and how many a session takes at all.
RATES = (250, 500, 1000, 2000, 3000, 4000, 6000, 8000, 12000, 16000, 24000, 32000, 48000, 64000, 96000, 128000)
DRAWINGS = 1 << 20


def rate(room):
    """How many drawings a second 16 viewers can follow, once in three tries: they are more each time until the viewers don't follow, or the
    session has no room for as many again. What these clients take is in it, which share the processors with the host."""
    room.join('ann')
    room.fill()
    best, figures, drawn, why = 0, '', 0, 'no more rates are tried'
    for per_second in RATES:
        tried = None
        for _ in range(3):
            if drawn + 2 * per_second > DRAWINGS:
                why = 'the session has no room for a higher rate'
                break
            drawn += 2 * per_second
            tried = try_rate(room, per_second)
            if tried: break
        else: why = f'at {per_second} they do not'
        if not tried: break
        best, figures = per_second, tried
    row(f'drawings a second that 16 viewers follow for 2 s, each as an order, and 0.1 s behind at most; {why}', best)
    row('at that: the last mark after the last click; frames a second for each viewer; processors', figures)
    room.close()


def links(room):
    """Many links, one after another: each a viewer that takes the first frame and leaves."""
    count = MANY
    looks = {count // 100: None, count // 2: None, count - 1: None}
    pictures = set()
    begin = time.perf_counter()
    for i in range(1, count + 1):
        pictures.add(Watcher(room.port, 'ann', 1, 'plain').picture(SEEN))
        room.lines.append(f'{i} {i} {LEFT} 0')
        if i in looks: looks[i] = room.memory(), room.status('Threads')
    took = time.perf_counter() - begin
    row(f'{count} links one after another, each rdp_view from its start to its end', milliseconds(took / count))
    row('pictures that they saw', len(pictures), 1)
    if len(pictures) != 1: raise ValueError('they saw other pictures')
    for i, (memory, threads) in looks.items(): row(f'after {i} of them: memory, threads', f'{memory} KiB, {threads}', 'flat')
    (first, (little, _)), _, (last, (much, _)) = looks.items()
    row('memory for each link more', f'{1024 * (much - little) / (last - first):.0f} bytes')


def stuck(room):
    """A viewer that never reads, beside fifteen that do."""
    room.join('ann')
    room.fill(MOST - 1)
    who = room.join(kept=4096)
    clicked('from a click to the last mark of 16 who read', room.times_of_clicks(100))
    room.forget(who)
    room.ends(who, [WRITE_FAULT])
    before = room.memory()
    begin = time.perf_counter()
    for _ in range(FRAMES): room.follow(INVERT)
    took = (time.perf_counter() - begin) / FRAMES
    row('one reads no more: a frame of 192 tiles, unpacked, to the last of the fifteen others', milliseconds(took))
    clicked('from a click to the last mark of the fifteen', room.times_of_clicks(200))
    row('memory before, and with one that reads no more', f'{before} KiB, {room.memory()} KiB')
    due = room.one_more()
    gone = room.read_until(due) - begin
    row('from the first of these frames until the host gave it up', f'{gone:.1f} s')
    clicked('from a click to the last mark of the fifteen then', room.times_of_clicks(100))
    room.close()
    who.socket.close()


def hostile(room):
    """Clients that mean no good, beside an owner and a viewer who are served all the while."""
    room.join('ann')
    room.join()
    before = room.memory()

    def served(what): clicked(f'from a click to the last mark {what}', room.times_of_clicks(100))

    served('of two viewers')
    whole = b''.join(packets('bob'))

    silent = room.connect()
    room.ends(silent, [READ_FAULT])
    given_up = GivenUp(silent)

    halves = []
    for at in (5, 200, 700):
        link = room.connect()
        link.send(whole[:at])
        room.ends(link, [TRUNCATED])
        halves.append(link)
    half = room.join()
    half.send(click(0)[:20])
    room.ends(half, [TRUNCATED])
    served('beside one that says nothing and four that stop inside a packet')

    for i in range(64):
        link = room.connect()
        # half of them begin as a packet does
        link.send(bytes([3 if i % 2 else 0x16]))
        room.ends(link, [TRUNCATED] if i % 2 else [BAD_PACKET])
        link.socket.close()
    served('after 64 that sent a byte each and went')

    for _ in range(4):
        link = room.join()
        room.forget(link)
        room.ends(link, [READ_FAULT, WRITE_FAULT])
        room.viewers[0].send(INVERT)
        while link.tiles < 10: link.read()
        link.reset()
        quiet(room)
    served('after four that reset inside a frame')

    stranger = room.greet('dan')
    stranger.to_end()
    if stranger.last != REFUSED: raise ValueError('a stranger is told that it is refused')
    room.ends(stranger, [NOT_INVITED])

    room.fill()
    served('of 16')
    more = room.greet('bob')
    more.to_end()
    if more.last != REFUSED: raise ValueError('who finds the room full is told that it is refused')
    room.ends(more, [ROOM_FULL])

    row('until the one that said nothing was given up', f'{given_up.time():.1f} s', '30 s')
    for link in halves:
        link.socket.shutdown(socket.SHUT_WR)
        link.to_end()
    room.end(half, lambda link: link.socket.shutdown(socket.SHUT_WR))
    row('memory at first, and with 15 viewers at the end', f'{before} KiB, {room.memory()} KiB')
    room.close()


def any_event(chance):
    """A packet of an event that a client may send: of the mouse, a sign, one of F1 to F5, F12, or a Refresh Rect."""
    kind = chance.random()
    if kind < 0.5: return event(0x8001, chance.choice([0x9000, 0x1000, 0x0800, 0x0800, 0x0800, 0xA000]), chance.randrange(300), chance.randrange(220))
    if kind < 0.7: return event(5, 0, chance.randrange(0x20, 0x80), 0)
    if kind < 0.85: return event(4, 0, chance.randrange(0x3B, 0x40), 0)
    if kind < 0.95: return event(4, 0, 0x58, 0)
    return sharedata(0x21, struct.pack('<B3x4H', 1, chance.randrange(100), chance.randrange(100), chance.randrange(100, 256), chance.randrange(100, 192)))


def same(room):
    """Two who send events, 12 viewers of each kind who watch from the first picture on, and one more after each hundred events, who
    stays for three marks: do all see one picture at the end?"""
    chance = random.Random(1)
    room.join('ann')
    room.join('cy')
    watchers = [room.watch(preset=PRESETS[i % len(PRESETS)]) for i in range(MOST - 4)]
    passing = None
    for i in range(1, EVENTS + 1):
        chance.choice(room.viewers).send(any_event(chance))
        for number, _ in room.ready.poll(0): room.by_number[number].read()
        if i % 100 == 0 and (passing is None or passing.run.poll() is not None):
            if passing: passing.picture(SEEN)
            passing = room.watch(chance.choice(['ann', 'bob', 'cy']), 3, chance.choice(PRESETS))
    quiet(room)
    watchers.append(room.watch())
    quiet(room)
    room.stop()
    if passing: passing.picture(SEEN, GONE)
    pictures = {watcher.picture(GONE) for watcher in watchers}
    row(f'{EVENTS} events of two viewers: pictures that 13 others see at the end, by rdp_view, the last of whom came then', len(pictures), 1)
    if len(pictures) != 1: raise ValueError('they see other pictures')
    picture = min(pictures)
    row('colours of the picture', len({picture[i:i+3] for i in range(0, len(picture), 3)}))


# The parts, with the links that each makes.
PARTS = {'idle': (idle, MOST), 'clicks': (clicks, MOST), 'rate': (rate, MOST), 'stuck': (stuck, MOST), 'links': (links, MANY), 'hostile': (hostile, 90), 'same': (same, MOST + EVENTS // 100)}


def free_port():
    with socket.socket() as it:
        it.bind(('127.0.0.1', 0))
        return it.getsockname()[1]


def main():
    if sys.argv[1:] == ['port']: print(free_port())
    elif sys.argv[1] == 'links' and len(sys.argv) == 3: print(PARTS[sys.argv[2]][1])
    else:
        part, port, pid, file = sys.argv[1:]
        room = Room(int(port), int(pid))
        PARTS[part][0](room)
        with open(file, 'w') as it:
            for line in room.lines: it.write(f'^{line}$\n')
        if missed: sys.exit(MISSED)


if __name__ == '__main__': main()
