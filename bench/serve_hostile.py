#!/usr/bin/env python3
"""Clients of `rdp_host serve` that mean no good, over the loopback interface, beside an owner and viewers who are served all the while. Each
part has one kind of them. Its honest viewers keep what they are sent as a capture; at the end `rdp_look` must read each of these without a
refusal and show the board, which this program draws once more by itself: dots of 5 by 5 white pixels, and the whole picture inverted.

python3 bench/serve_hostile.py PART PORT PID FILE
python3 bench/serve_hostile.py links PART

The words are those of bench/serve_load.py, on which it stands; RDP_LOOK in the environment names the program that looks. No part takes
longer than a quarter of an hour, and but for a crowd none makes more connections than its links and a spare one. `bench/serve.sh` runs the parts.
"""
import multiprocessing
import os
import resource
import select
import signal
import socket
import struct
import subprocess
import sys
import tempfile
import threading
import time

import serve_load
from sample_answers import packets, sharedata
from serve_load import (ANSWERS, BAD_PACKET, BYE, HIGH, INVERT, LEFT, MOST, NOT_INVITED, PATIENCE, READ_FAULT, REFUSED, ROOM_FULL, TRUNCATED,
                        WIDE, WRITE_FAULT, GivenUp, Link, Room, click, clicked, milliseconds, quiet, row)

# How long a part may take, in seconds.
LIMIT = 900

# How often the owner draws while one reads nothing, and how many of these in a second.
DRAWS = int(os.environ.get('DRAWS', '100000'))
DRAWS_A_SECOND = 2500

# How many connections at once send a byte each and go, and how many of them stay.
PASSERS = 64
CROWD = 1000

# The most links that the host serves at a time, and how many descriptors each takes.
MOST_SERVED = 256
EACH = 2

# How long a client that isn't ready has before the host ends it for one that waits, in seconds.
LEAST_TIME = 1

# How many sockets one process has, each opened again as soon as the host ends it; how many come beside them, and how long each of these may
# wait for its first frame, in seconds.
GRABBED = 500
NEWCOMERS = 10
WAIT = 5

# The most links that a host can be asked for: a part that doesn't know how many it makes ends the host itself.
MOST_LINKS = 65535

# How many descriptors the host has in the part `scarce`: bench/serve.sh sees to that.
SCARCE = 64

# A Refresh Rect packet: the whole picture ([MS-RDPBCGR] 2.2.11.2).
REFRESH_ALL = sharedata(0x21, struct.pack('<IHHHH', 1, 0, 0, WIDE - 1, HIGH - 1))

# How many of them come together, and how many at most one by one.
ASKS = 2000
MOST_ASKED = 10000

# A tile has 64 by 64 pixels.
TILES = (WIDE // 64) * (HIGH // 64)

# The first lines of a picture that rdp_look writes.
HEAD = 'P6\n# marks {} orders {} tiles {}\n{} {}\n255\n'

INVERTED = bytes(255 - it for it in range(256))


class Board:
    """The picture that the owner's clicks and F2 leave."""

    def __init__(self): self.pixels = bytearray(3 * WIDE * HIGH)

    def click(self, i):
        x, y = struct.unpack_from('<HH', click(i)[-4:])
        for line in range(y - 2, y + 3):
            at = 3 * (line * WIDE + x - 2)
            self.pixels[at:at+15] = b'\xff' * 15

    def invert(self): self.pixels = bytearray(self.pixels.translate(INVERTED))


class Kept(Link):
    """A link that keeps the updates which it was sent as a capture of viewer 1."""

    def __init__(self, port, kept, capture):
        self.capture = capture
        capture.write(b'1 joined %d %d plain\n' % (WIDE, HIGH))
        super().__init__(port, kept)

    def count(self, packet):
        super().count(packet)
        if self.packets > sum(ANSWERS): self.capture.write(b'1 ' + packet.hex().encode() + b'\n')


class Hall(Room):
    """A host, with honest viewers and others."""

    def __init__(self, port, pid, folder):
        super().__init__(port, pid)
        self.folder = folder
        self.board = Board()
        self.marks = 0

    def connect(self, kept=None):
        link = Kept(self.port, kept, open(f'{self.folder}/{len(self.lines)}', 'wb'))
        self.lines.append(None)
        link.number, link.viewer = len(self.lines), 0
        return link

    def times_of_clicks(self, count):
        times = super().times_of_clicks(count)
        for i in range(count): self.board.click(i)
        return times

    def invert(self):
        self.viewers[0].send(INVERT)
        self.board.invert()

    def descriptors(self): return len(os.listdir(f'/proc/{self.pid}/fd'))

    def open(self, what, viewers=2):
        """The owner, and so many viewers, who see clicks."""
        self.join('ann')
        self.fill(1 + viewers)
        self.what = what
        self.before = self.memory()
        self.seen('before')

    def seen(self, when): clicked(f'{self.what}: from a click to the last mark, {when}', self.times_of_clicks(100))

    def close(self):
        """One more viewer comes, if there is room; all see a click and leave; and what they were sent is looked at."""
        if len(self.viewers) < MOST: self.join()
        self.seen('at the end')
        after, most = self.memory(), self.status('VmHWM')
        honest = list(self.viewers)
        super().close()
        for link in honest: self.must_show_the_board(link)
        row(f'{self.what}: memory before; at the end; the most', f'{self.before}; {after}; {most} KiB')
        marks = sum(link.marks for link in honest)
        row(f'{self.what}: honest viewers whose bytes are read and show the board', f'{len(honest)}, {marks} marks', 'all')

    def must_show_the_board(self, link):
        link.capture.close()
        with open(link.capture.name, 'rb') as it:
            shown = subprocess.run([os.environ['RDP_LOOK'], '1'], stdin=it, stdout=subprocess.PIPE, timeout=LIMIT)
        if shown.returncode: raise ValueError(f'the bytes of link {link.number}: status {shown.returncode}, {shown.stdout[:80]}')
        head = HEAD.format(link.marks, link.orders, link.tiles, WIDE, HIGH).encode()
        if not shown.stdout.startswith(head): raise ValueError(f'link {link.number} was sent something else: {shown.stdout[:80]}')
        if shown.stdout[len(head):] != self.board.pixels: raise ValueError(f'link {link.number} was shown another picture')


def silent(room):
    """Clients that connect and say nothing."""
    room.open('four that say nothing')
    given_up = []
    for _ in range(4):
        link = room.connect()
        room.ends(link, [READ_FAULT])
        given_up.append(GivenUp(link))
    room.seen('beside them')
    row('four that say nothing: until the last was given up', f'{max(it.time() for it in given_up):.1f} s', '30 s')
    room.close()


def halves(room):
    """Clients that stop in the middle of a packet: within their connection sequence, and one viewer within an Input."""
    room.open('five that stop inside a packet')
    whole = b''.join(packets('bob'))
    stopped = []
    for at in (5, 200, 700, len(whole) - 1):
        link = room.connect()
        link.send(whole[:at])
        room.ends(link, [TRUNCATED])
        stopped.append(link)
    viewer = room.join()
    viewer.send(click(0)[:20])
    room.ends(viewer, [TRUNCATED])
    room.seen('beside them')
    for link in stopped:
        link.socket.shutdown(socket.SHUT_WR)
        link.to_end()
    room.end(viewer, lambda link: link.socket.shutdown(socket.SHUT_WR))
    room.close()


def draw_paced(room, count, rate):
    """Clicks, at so many a second, while the viewers read."""
    holder = room.viewers[0]
    begin = time.perf_counter()
    made, waiting = 0, b''
    while made < count or waiting:
        due = min(count, made + 64, int((time.perf_counter() - begin) * rate) + 1)
        waiting += b''.join(click(i) for i in range(made, due))
        for i in range(made, due): room.board.click(i)
        made = max(made, due)
        if waiting:
            try: waiting = waiting[holder.socket.send(waiting, socket.MSG_DONTWAIT):]
            except BlockingIOError: pass
        for number, _ in room.ready.poll(0.0005): room.by_number[number].read()
        if time.perf_counter() - begin > PATIENCE: raise TimeoutError('the last drawing')
    return time.perf_counter() - begin


def unread(room):
    """A client that is let in, and reads nothing at all, while the owner draws many times."""
    room.open('one that reads nothing')
    others = room.one_more()
    had = room.descriptors()
    link = room.connect(kept=4096)
    begin = time.perf_counter()
    link.send(b''.join(packets('bob')))
    room.read_until(others)
    room.joins += 1
    link.viewer = room.joins
    room.ends(link, [WRITE_FAULT])
    tiles = sum(it.tiles for it in room.viewers)
    took = draw_paced(room, DRAWS, DRAWS_A_SECOND)
    quiet(room)
    row(f'one that reads nothing: {DRAWS} drawings of the owner', f'in {took:.0f} s, {sum(it.tiles for it in room.viewers) - tiles} tiles')
    row('one that reads nothing: memory then', f'{room.memory()} KiB')
    # frames of all tiles, in case the system has kept all so far
    for _ in range(4):
        room.invert()
        quiet(room)
    row('one that reads nothing: memory after four frames of all tiles', f'{room.memory()} KiB')
    if room.descriptors() > had: room.seen('beside it')
    while room.descriptors() > had:
        if time.perf_counter() - begin > PATIENCE: raise TimeoutError('it is never given up')
        for number, _ in room.ready.poll(1): room.by_number[number].read()
    row('one that reads nothing: from its connecting until it was given up', f'{time.perf_counter() - begin:.0f} s')
    link.socket.close()
    quiet(room)
    room.close()


def resets(room):
    """Viewers that reset the connection in the middle of a frame of all tiles."""
    room.open('eight that reset inside a frame')
    for _ in range(8):
        link = room.join()
        room.forget(link)
        room.ends(link, [READ_FAULT, WRITE_FAULT])
        room.invert()
        tiles = link.tiles
        while link.tiles < tiles + 10: link.read()
        link.reset()
        quiet(room)
    room.seen('after them')
    room.close()


def passers(room):
    """Many connections at once, each of which sends one byte of the sample client and goes."""
    room.open(f'{PASSERS} at once that send a byte and go')
    whole = b''.join(packets('bob'))
    links = [room.connect() for _ in range(PASSERS)]
    for i, link in enumerate(links):
        byte = whole[i:i+1]
        link.send(byte)
        # only a 3 begins a packet
        room.ends(link, [TRUNCATED] if byte == b'\x03' else [BAD_PACKET])
    room.seen('beside them')
    for link in links: link.socket.close()
    room.seen('after them')
    room.close()


class Crowd:
    """Connections that each say a byte, as soon as the system lets them, and stay."""

    def __init__(self, port, count):
        self.ready = select.epoll()
        self.links = {}
        # when the host ended each that it ended
        self.ended = []
        self.began = time.perf_counter()
        self.have_said = self.gave_up = 0
        for _ in range(count):
            link = socket.socket()
            link.setblocking(False)
            link.connect_ex(('127.0.0.1', port))
            self.links[link.fileno()] = link
            self.ready.register(link, select.EPOLLOUT)

    def look(self):
        """Says what is to be said, and sees who was ended."""
        for number, events in self.ready.poll(0):
            link = self.links[number]
            if events & select.EPOLLOUT and not events & (select.EPOLLERR | select.EPOLLHUP):
                link.send(b'\x03')
                self.have_said += 1
                self.ready.modify(number, select.EPOLLIN)
                continue
            try:
                if link.recv(64): raise ValueError('who only said a byte was answered')
                self.ended.append(time.perf_counter() - self.began)
            except OSError:
                # the system gave up connecting
                self.gave_up += 1
            del self.links[number]
            link.close()

    def look_for(self, seconds):
        begin = time.perf_counter()
        while time.perf_counter() - begin < seconds:
            self.look()
            time.sleep(0.1)

    def leave(self):
        for link in self.links.values(): link.close()
        self.links = {}


class Late(threading.Thread):
    """One who joins, however long that takes."""

    def __init__(self, room):
        super().__init__()
        self.room, self.began = room, time.perf_counter()
        self.start()

    def run(self):
        self.link = self.room.greet('bob')
        self.link.until(lambda: self.link.marks)
        self.took = time.perf_counter() - self.began


def stay(room, what):
    """A crowd that says a byte and stays, one viewer beside the owner who draws, and one more who comes when some of the crowd were ended
    for others of it."""
    room.open(what, 1)
    alone = room.descriptors()
    most = alone + EACH * (MOST_SERVED - len(room.viewers))
    crowd = Crowd(room.port, CROWD)
    crowd.look_for(5)
    spent, took = room.processor(), 10
    crowd.look_for(took)
    spent = room.processor() - spent
    row(f'{what}: processor time of the host over {took} s beside them', f'{100 * spent / took:.2f}% of a processor', 'below 1%', spent < took / 100)
    descriptors, clicks = 0, []

    def draw():
        nonlocal descriptors
        descriptors = max(descriptors, room.descriptors())
        clicks.extend(room.times_of_clicks(5))
        crowd.look_for(0.5)

    while not crowd.ended: draw()
    row(f'{what}: until the first of them was ended', f'{crowd.ended[0]:.1f} s', f'{LEAST_TIME} s')
    if crowd.ended[0] < LEAST_TIME: raise ValueError('somebody was ended too early')
    late = Late(room)
    while late.is_alive(): draw()
    link = late.link
    room.joins += 1
    link.viewer = room.joins
    quiet(room)
    room.viewers.append(link)
    room.by_number[link.socket.fileno()] = link
    room.ready.register(link.socket, select.EPOLLIN)
    row(f'{what}: until one who came then was let in', f'{late.took:.1f} s', f'below {WAIT} s', late.took < WAIT)
    crowd.look()
    row(f'{what}: the host had ended by then; had said their byte', f'{len(crowd.ended)}; {crowd.have_said}')
    row(f'{what}: descriptors of the host with two viewers; at most', f'{alone}; {descriptors}', f'at most {most}')
    if descriptors > most: raise ValueError('too many links at a time')
    clicked(f'{what}: from a click to the last mark, meanwhile', clicks)
    crowd.leave()
    room.seen('when the crowd has gone')
    room.close()
    use_up(room)


def use_up(room):
    """Connects until the port is closed. Which number each link had isn't known: the lines are wanted by their viewers."""
    begin = time.perf_counter()
    while True:
        try:
            with socket.create_connection(('127.0.0.1', room.port), PATIENCE) as link: link.send(b'\x03')
        except OSError: break
        if time.perf_counter() - begin > PATIENCE: raise TimeoutError('the port is never closed')
    others = PARTS[room.name][1] - room.joins
    room.lines = [f'[0-9]+ 0 ({READ_FAULT}|{TRUNCATED}) 0'] * others + [f'[0-9]+ {viewer} {LEFT} 0' for viewer in range(1, room.joins + 1)]


def crowd(room):
    """The host takes as many as it may."""
    stay(room, f'{CROWD} that say a byte and stay')


def scarce(room):
    """The host takes as many as it has descriptors for."""
    stay(room, f'{CROWD} that stay, with {SCARCE} descriptors')


class Grabbers(multiprocessing.Process):
    """Has so many sockets all the while: each says a byte, and is opened again when the host has ended it."""

    def __init__(self, port):
        super().__init__()
        self.port = port
        self.opened, self.is_told = multiprocessing.Value('i', 0), multiprocessing.Event()
        self.start()

    def run(self):
        self.ready, self.links = select.epoll(), {}
        for _ in range(GRABBED): self.another()
        while not self.is_told.is_set():
            for number, events in self.ready.poll(0.1): self.look(number, events)

    def another(self):
        link = socket.socket()
        link.setblocking(False)
        link.connect_ex(('127.0.0.1', self.port))
        self.links[link.fileno()] = link
        self.ready.register(link, select.EPOLLOUT)
        self.opened.value += 1

    def look(self, number, events):
        link = self.links[number]
        if events & select.EPOLLOUT and not events & (select.EPOLLERR | select.EPOLLHUP):
            try:
                link.send(b'\x03')
                self.ready.modify(number, select.EPOLLIN)
                return
            except OSError: pass
        # the host ended it, or the system gave up connecting
        del self.links[number]
        link.close()
        self.another()

    def leave(self):
        self.is_told.set()
        self.join(PATIENCE)


def grab(room):
    """A process that has more sockets than the host serves, and opens each again; ten who come one after another beside them."""
    what = f'{GRABBED} sockets that say a byte and come again'
    room.open(what, 1)
    grabbers = Grabbers(room.port)
    time.sleep(5)
    waited, clicks, left = [], [], []
    for _ in range(NEWCOMERS):
        begin = time.perf_counter()
        link = room.join()
        waited.append(time.perf_counter() - begin)
        clicks.extend(room.times_of_clicks(20))
        room.end(link, lambda link: link.send(BYE))
        left.append(link)
    opened = grabbers.opened.value
    grabbers.leave()
    seen = ', '.join(f'{it:.2f}' for it in waited)
    row(f'{what}: until each of {NEWCOMERS} who came beside them had its first frame', f'{seen} s', f'each below {WAIT} s', max(waited) < WAIT)
    clicked(f'{what}: from a click to the last mark, meanwhile', clicks)
    row(f'{what}: how often one was opened', opened)
    for link in left: room.must_show_the_board(link)
    room.close()
    room.stop()


def refused(room, name, code):
    """A client that goes through the connection sequence and isn't let in."""
    link = room.greet(name)
    link.to_end()
    if link.last != REFUSED: raise ValueError('who is not let in is told so')
    room.ends(link, [code])


def full(room):
    """Sixteen viewers, a seventeenth, and one more when one has left; and a stranger."""
    room.open('sixteen, and a seventeenth', MOST - 1)
    refused(room, 'bob', ROOM_FULL)
    refused(room, 'dan', NOT_INVITED)
    room.seen('after it')
    room.end(room.viewers[-1], lambda link: link.send(BYE))
    room.close()


class Asker(multiprocessing.Process):
    """A viewer that asks for the whole picture whenever it was sent it, until it is told to go. A process of its own, so that its work isn't in
    the times of the others."""

    def __init__(self, link):
        super().__init__()
        self.link, self.is_told, self.asked = link, multiprocessing.Event(), multiprocessing.Value('l')

    def run(self):
        while not self.is_told.is_set() and self.asked.value < MOST_ASKED:
            tiles = self.link.tiles
            self.link.send(REFRESH_ALL)
            self.asked.value += 1
            self.link.until(lambda: self.link.tiles >= tiles + TILES)
        self.is_told.wait(PATIENCE)
        self.link.send(BYE)
        self.link.to_end()


def asks(room):
    """A viewer that asks for the whole picture again and again."""
    room.open('one that asks again and again')
    link = room.join()
    room.forget(link)
    tiles, marks = link.tiles, link.marks
    spent = room.processor()
    link.send(REFRESH_ALL * ASKS)
    link.socket.settimeout(2)
    try:
        while True: link.read()
    except socket.timeout: link.socket.settimeout(PATIENCE)
    frames, tiles = link.marks - marks, link.tiles - tiles
    if tiles > frames * TILES: raise ValueError('more tiles than a frame has')
    row(f'one that asks again and again: sent for {ASKS} requests in one piece', f'{frames} frames, {tiles} tiles', f'{TILES} tiles a frame')
    row('one that asks again and again: processor time of the host for them', milliseconds(room.processor() - spent))
    asker = Asker(link)
    begin, spent = time.perf_counter(), room.processor()
    asker.start()
    room.seen('while it asks whenever it was answered')
    took, spent, asked = time.perf_counter() - begin, room.processor() - spent, asker.asked.value
    row('one that asks again and again: such requests, and processor time of the host in that time', f'{asked} in {took:.1f} s, {100 * spent / took:.0f}% of a processor')
    due = room.one_more()
    asker.is_told.set()
    asker.join(PATIENCE)
    link.socket.close()
    room.read_until(due)
    room.close()


# The parts, with the links that each makes: the owner, two viewers, those that mean no good, and a viewer at the end.
PARTS = {
    'silent': (silent, 4 + 4), 'halves': (halves, 4 + 5), 'unread': (unread, 4 + 1), 'resets': (resets, 4 + 8), 'passers': (passers, 4 + PASSERS),
    'crowd': (crowd, 4 + CROWD), 'scarce': (scarce, 4 + CROWD), 'grab': (grab, MOST_LINKS), 'full': (full, MOST + 3), 'asks': (asks, 4 + 1),
}


def main():
    if sys.argv[1] == 'links': print(PARTS[sys.argv[2]][1])
    else:
        part, port, pid, file = sys.argv[1:]
        signal.alarm(LIMIT)
        serve_load.PATIENCE = LIMIT
        least = CROWD + 100
        resource.setrlimit(resource.RLIMIT_NOFILE, (least, max(least, resource.getrlimit(resource.RLIMIT_NOFILE)[1])))
        with tempfile.TemporaryDirectory() as folder:
            room = Hall(int(port), int(pid), folder)
            room.name = part
            PARTS[part][0](room)
        with open(file, 'w') as it:
            for line in room.lines: it.write(f'^{line}$\n')
        if serve_load.missed: sys.exit(serve_load.MISSED)


if __name__ == '__main__': main()
