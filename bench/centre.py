#!/usr/bin/env python3
"""A centre of rooms behind HAProxy, with its clients, over the loopback interface: what bench/centre.sh runs.

python3 bench/centre.py RDP_HOST REPOSITORY FOLDER

The rooms, their words and HAProxy's configuration are those of examples/centre, on free ports. FOLDER has the certificates, and gets what is
written. Each honest client comes from an address of its own in 127.0.0.0/8, and gives its name twice, as clients do: in the cookie of its
Connection Request, by which HAProxy finds its room, and in its Client Info, which counts in the room. Where something isn't as it is
wanted, the program ends with 1 and says what.
"""
import os
import re
import resource
import shutil
import signal
import socket
import ssl
import statistics
import subprocess
import sys
import time

from sample_answers import packets
from serve_load import ANSWERS, BYE, LEFT, MOST, REFUSED, Link, click, milliseconds, row, spread

# How many scanners come, from how many addresses, and how many are there at a time.
MANY = int(os.environ.get('MANY', '10000'))
ADDRESSES = 250
AT_A_TIME = 400

# How many rooms of sixteen viewers there are at the end.
ROOMS = int(os.environ.get('ROOMS', '20'))

# How many connections one address may have, and make in ten seconds, by the configuration.
MOST_OF_ONE = 10
MOST_IN_TEN = 50

# How long HAProxy waits for a name, in seconds.
INSPECTED = 5

# How long anything may take, in seconds, and all of it.
PATIENCE = 60
LIMIT = 900

# What stored clients send from their Connection Request on; each is named `ann`.
STREAMS = ['rdesktop', 'rdesktop_rdp4', 'xfreerdp_caches', 'xfreerdp_default']

# A line of the log.
LINE = re.compile(r'(?P<address>[\d.]+):\d+ name=(?P<name>\S*) room=(?P<room>\S+) wait=-?\d+ time=(?P<time>\d+) from=(?P<sent>\d+) to=(?P<got>\d+) end=(?P<end>..)')


class Wrong(Exception):
    """Something that isn't as it is wanted."""


def must(is_so, what):
    if not is_so: raise Wrong(what)


def request(cookie):
    """A Connection Request with the cookie of a name ([MS-RDPBCGR] 2.2.1.1)."""
    body = bytes([0xE0, 0, 0, 0, 0, 0]) + b'Cookie: mstshash=' + cookie + b'\r\n' + bytes([1, 0, 8, 0, 0, 0, 0, 0])
    return bytes([3, 0]) + (len(body) + 5).to_bytes(2, 'big') + bytes([len(body)]) + body


class Client(Link):
    """A client of the centre's port, from an address of its own."""

    last_address = 0

    def __init__(self, port, address=None, tls=None):
        if address is None:
            Client.last_address += 1
            address = f'127.1.{Client.last_address // 250}.{Client.last_address % 250 + 1}'
        self.address = address
        self.socket = socket.socket()
        self.socket.settimeout(PATIENCE)
        self.socket.bind((address, 0))
        self.socket.connect(('127.0.0.1', port))
        self.socket.setsockopt(socket.IPPROTO_TCP, socket.TCP_NODELAY, 1)
        if tls: self.socket = tls.wrap_socket(self.socket)
        self.rest = self.last = b''
        self.frames = None
        self.packets = self.orders = self.tiles = self.marks = 0
        self.is_over = False

    def read(self):
        """Reads once; who resets the connection has ended it too."""
        try: super().read()
        except ConnectionResetError: self.is_over = True

    def greet(self, name, cookie=None):
        """Goes through the connection sequence."""
        stream = packets(name)
        stream[0] = request((cookie or name).encode())
        for packet, answers in zip(stream, ANSWERS):
            wanted = self.packets + answers
            self.send(packet)
            self.until(lambda: self.packets >= wanted)
        return self

    def join(self, name, cookie=None):
        """Is a viewer with its first frame."""
        self.greet(name, cookie)
        self.until(lambda: self.marks)
        return self

    def leave(self):
        self.send(BYE)
        self.to_end()

    def is_closed_within(self, seconds):
        """Whether the connection is ended within this time, and nothing was sent."""
        self.socket.settimeout(seconds)
        try: return self.socket.recv(1) == b''
        except ConnectionResetError: return True
        except socket.timeout: return False
        finally: self.socket.close()


def is_listening(port):
    """Whether a socket listens at the port, by the system's own table: a connection would use up a link."""
    with open('/proc/net/tcp') as it: return any(f':{port:04X} ' in line and line.split()[3] == '0A' for line in it)


def free_ports():
    """Ports that nobody has, below those that the system gives clients, of whom there are many here."""
    with open('/proc/sys/net/ipv4/ip_local_port_range') as it: first = int(it.read().split()[0])
    for port in range(first - 1, 1024, -1):
        with socket.socket() as it:
            try: it.bind(('', port))
            except OSError: continue
        yield port


PORTS = free_ports()


def wait_until(done, what):
    begin = time.perf_counter()
    while not done():
        must(time.perf_counter() - begin < PATIENCE, what)
        time.sleep(0.1)


def memory_of(pid):
    """The memory of a process, in KiB."""
    with open(f'/proc/{pid}/status') as it: return next(int(line.split()[1]) for line in it if line.startswith('VmRSS:'))


def processor_of(pids):
    """The processor time of the threads that these processes have now, in seconds."""
    spent = 0
    for pid in pids:
        for thread in os.listdir(f'/proc/{pid}/task'):
            with open(f'/proc/{pid}/task/{thread}/schedstat') as it: spent += int(it.read().split()[0])
    return spent / 1e9


class Host:
    """A room: `rdp_host serve` with the words of its unit, which is started anew when it has ended."""

    def __init__(self, centre, name, words):
        self.centre, self.name, self.words = centre, name, words
        self.port = next(PORTS)
        self.names = [word.rstrip("+") for word in words[4:]]
        self.starts = 0

    def start(self, links=None):
        """Starts it, for so many links or for those of its words."""
        words = list(self.words)
        words[0] = str(self.port)
        if links: words[3] = str(links)
        self.starts += 1
        self.file = f'{self.centre.folder}/{self.name}.{self.starts}'
        with open(self.file, 'w') as it:
            self.process = subprocess.Popen([self.centre.program, 'serve', *words], stdin=subprocess.DEVNULL, stdout=it, env={**os.environ, 'MALLOC_ARENA_MAX': '1'})
        self.centre.started.append(self.process)
        wait_until(lambda: is_listening(self.port), f'room {self.name} opens no port')

    def stop(self):
        """Ends it as `systemctl restart` does."""
        self.process.send_signal(signal.SIGTERM)
        must(self.process.wait(PATIENCE) == -signal.SIGTERM, f'room {self.name} ends by the signal')
        with open(self.file) as it: must(it.read() == '', 'a room that is stopped writes no lines')

    def must_have_ended(self, links):
        """It has ended by itself; its lines say that these links were there, each with its viewer's number, and that each left."""
        status = self.process.wait(PATIENCE)
        must(status == 0, f'room {self.name} ended with {status}')
        with open(self.file) as it: lines = it.read().splitlines()
        must(lines == [f'{i} {i} {LEFT} 0' for i in range(1, links + 1)], f'room {self.name} wrote {lines}')


class Centre:
    """HAProxy, and the rooms behind it."""

    def __init__(self, program, repository, folder):
        self.program, self.repository, self.folder = program, repository, folder
        self.started = []
        self.rooms = {}
        for name in ('maths', 'history'):
            with open(f'{repository}/examples/centre/{name}.conf') as it: words = re.search(r'^SERVE=(.*)$', it.read(), re.M)[1].split()
            self.rooms[name] = Host(self, name, words)
        self.port, self.tls_port = next(PORTS), next(PORTS)
        self.more = [Host(self, f'room{i}', f'0 1024 768 65535 owner{i} guest{i}'.split()) for i in range(ROOMS)]

    def configure(self):
        """The example's configuration with this machine's ports, and the rooms that are more."""
        with open(f'{self.repository}/examples/centre/haproxy.cfg') as it: text = it.read()
        changes = [
            ('log /dev/log local0', 'log stdout format raw local0'),
            ('bind :3389 ', f'bind 127.0.0.1:{self.port} '),
            ('#bind :4389 ', f'bind 127.0.0.1:{self.tls_port} '),
            (' crt host.pem ca-file clients.pem ', f' crt {self.folder}/host.pem ca-file {self.folder}/clients.pem '),
        ]
        # only root can change who it is
        if os.getuid():
            text = ''.join(line for line in text.splitlines(True) if line.split()[:1] not in (['chroot'], ['user'], ['group']))
        changes += [(f'server {room.name} 127.0.0.1:{room.words[0]} ', f'server {room.name} 127.0.0.1:{room.port} ') for room in self.rooms.values()]
        for old, new in changes:
            must(text.count(old) == 1, f'haproxy.cfg has {old!r} once')
            text = text.replace(old, new)
        with open(f'{self.repository}/examples/centre/rooms.map') as it: rows = it.read()
        for room in self.more:
            text += f'\nbackend {room.name}\n    server {room.name} 127.0.0.1:{room.port} maxconn 64\n'
            rows += f'{room.words[4]} {room.name}\n{room.words[5]} {room.name}\n'
        with open(f'{self.folder}/haproxy.cfg', 'w') as it: it.write(text)
        with open(f'{self.folder}/rooms.map', 'w') as it: it.write(rows)

    def start(self):
        self.configure()
        self.log = f'{self.folder}/log'
        with open(self.log, 'w') as it:
            self.proxy = subprocess.Popen(['haproxy', '-db', '-f', f'{self.folder}/haproxy.cfg'], stdin=subprocess.DEVNULL, stdout=it, stderr=subprocess.STDOUT)
        self.started.append(self.proxy)
        wait_until(lambda: is_listening(self.port), 'HAProxy opens no port')
        for room in self.rooms.values(): room.start(LINKS_AT_FIRST if room.name == 'maths' else None)

    def end(self):
        for process in self.started:
            process.kill()
            process.wait()

    def client(self, **how): return Client(self.port, **how)

    def lines(self, since=0):
        """The log's lines as they are now, behind the first so many."""
        with open(self.log, errors='replace') as it: return it.read().splitlines()[since:]

    def logged(self, since=0):
        """The lines of connections; others are HAProxy's own, of its start and of rooms that are away."""
        return [found.groupdict() for found in map(LINE.fullmatch, self.lines(since)) if found]

    def line_of(self, client):
        """The line of a client that is gone."""
        def found(): return [it for it in self.logged() if it['address'] == client.address]
        wait_until(found, f'no line of {client.address}')
        return found()[-1]


class Viewers:
    """The viewers of a room that this program has there, the holder of control first. Each has read all that the others made it be sent."""

    def __init__(self, centre, names=()):
        self.centre, self.them = centre, []
        for name in names: self.join(name)

    def hear(self, count=1):
        """Each reads until it has so many marks more."""
        due = {viewer: viewer.marks + count for viewer in self.them}

        def read():
            for viewer, marks in due.items(): viewer.until(lambda: viewer.marks >= marks)

        return read

    def join(self, name):
        heard = self.hear()
        viewer = self.centre.client().join(name)
        heard()
        self.them.append(viewer)

    def follow(self):
        """The holder draws, and all see it: the time until the last one's mark."""
        heard = self.hear()
        begin = time.perf_counter()
        self.them[0].send(click(self.them[0].marks))
        heard()
        return time.perf_counter() - begin

    def times(self, count=100): return [self.follow() for _ in range(count)]

    def must_be_sent_nothing(self):
        for viewer in self.them:
            viewer.socket.settimeout(0.05)
            try: must(not viewer.socket.recv(1), 'a viewer was sent something of another room')
            except socket.timeout: pass
            finally: viewer.socket.settimeout(PATIENCE)

    def leave(self):
        """All leave, the holder last."""
        while self.them:
            viewer = self.them.pop()
            heard = self.hear()
            viewer.leave()
            heard()


def names(centre):
    """Each name is in its room, and in no other."""
    maths = Viewers(centre, centre.rooms['maths'].names)
    history = Viewers(centre, centre.rooms['history'].names)
    maths.follow()
    history.must_be_sent_nothing()
    history.follow()
    maths.must_be_sent_nothing()
    row('ann, bob, cy and dora, emil: a drawing is seen by all of its room, and by nobody of the other', 'so', 'so')
    return maths, history


def streams(centre, maths):
    """What stored clients send reaches the room of their name."""
    for name in STREAMS:
        with open(f'{centre.repository}/crates/worked_runs/data/{name}.stream') as it:
            stream = bytes.fromhex(''.join(line for line in it if not line.startswith('#')))
        heard = maths.hear(2)
        client = centre.client()
        client.send(stream)
        # it is shown the picture, and leaves by the end of its stream: the others hear of its Join and its Leave
        client.until(lambda: client.tiles + client.orders)
        client.socket.shutdown(socket.SHUT_WR)
        client.to_end()
        heard()
        line = centre.line_of(client)
        must((line['name'], line['room'], line['sent']) == ('ann', 'maths', str(len(stream))), f'the line of {name}: {line}')
    row(f'the stored streams of {len(STREAMS)} real clients, each named ann: in the room maths', 'so', 'so')


def counted_name(centre, maths):
    """The name that counts in the room is that of the Client Info, whatever the cookie says."""
    heard = maths.hear(2)
    centre.client().join('ann', cookie='bob').leave()
    heard()
    row('cookie bob, and Client Info ann: let in, and joined as ann', 'so', 'so: a name is no secret')
    other = centre.client().greet('dora', cookie='bob')
    other.to_end()
    must(other.last == REFUSED, 'who has no row in the room is refused by it')
    row('cookie bob, and Client Info dora, who has no row there: refused by the room', 'so', 'so')


def over_tls(centre, maths):
    """By TLS with a certificate that is known, and without one."""
    def context(name):
        it = ssl.create_default_context(cafile=f'{centre.folder}/host.crt')
        it.check_hostname = False
        if name: it.load_cert_chain(f'{centre.folder}/{name}.pem')
        return it

    heard = maths.hear(2)
    client = Client(centre.tls_port, tls=context('client')).join('cy')
    client.leave()
    heard()
    must(centre.line_of(client)['room'] == 'maths', 'who comes by TLS is in its room')
    row('cy by TLS, with a certificate that is known: in the room maths', 'so', 'so')
    for name in ('stranger', None):
        try:
            Client(centre.tls_port, tls=context(name)).join('cy')
            raise Wrong('somebody without a known certificate is let in')
        except (ssl.SSLError, ConnectionError, ValueError): pass
    row('cy by TLS, with another certificate, and with none: not let in', 'so', 'so')
    through_stunnel(centre, maths)


def through_stunnel(centre, maths):
    """By stunnel on the client's side, with what examples/tunnel/client.conf has, where stunnel is there. It makes its link of `maths` either way."""
    heard = maths.hear(2)
    port = centre.port
    if shutil.which('stunnel'):
        port = next(PORTS)
        with open(f'{centre.folder}/stunnel.conf', 'w') as it:
            it.write(f'foreground = yes\npid =\n[rdp]\nclient = yes\naccept = 127.0.0.1:{port}\nconnect = 127.0.0.1:{centre.tls_port}\n'
                     f'cert = {centre.folder}/client.pem\nCAfile = {centre.folder}/host.crt\nverifyPeer = yes\n')
        quiet = {'stdin': subprocess.DEVNULL, 'stdout': subprocess.DEVNULL, 'stderr': subprocess.DEVNULL}
        centre.started.append(subprocess.Popen(['stunnel', f'{centre.folder}/stunnel.conf'], **quiet))
        wait_until(lambda: is_listening(port), 'stunnel opens no port')
    Client(port).join('cy').leave()
    heard()
    row('cy through stunnel, as by examples/tunnel/client.conf: in the room maths', 'so' if port != centre.port else 'not run: no stunnel here', 'so')


# The links of `maths` up to here: three viewers, the streams, two of whom one isn't let in, one by TLS, and one through stunnel.
LINKS_AT_FIRST = 3 + len(STREAMS) + 2 + 2


def used_up(centre, maths, history):
    """A room whose LINKS are used up ends when all have left, and begins anew."""
    room = centre.rooms['maths']
    maths.leave()
    must(room.process.wait(PATIENCE) == 0, 'maths ends by itself')
    with open(room.file) as it: ends = [line.split() for line in it]
    must([end[2] for end in ends].count('0') == LINKS_AT_FIRST - 1 and [end[2] for end in ends].count('36') == 1, f'maths wrote {ends}')
    must(len({end[1] for end in ends}) == LINKS_AT_FIRST, 'each has its viewer, but for one')
    row(f'maths, for {LINKS_AT_FIRST} links: ended by itself; its lines with code 0, with 36', f'{LINKS_AT_FIRST - 1}, 1', f'{LINKS_AT_FIRST - 1}, 1')
    history.follow()
    # in the second until systemd starts it again a client waits
    late = centre.client()
    late.send(request(b'ann'))
    time.sleep(1)
    room.start()
    late.until(lambda: late.packets)
    row('ann comes while maths begins anew: is kept waiting, and answered', 'so', 'so')
    late.reset()
    return Viewers(centre, room.names)


def restarted(centre, name, here, others):
    """A room is restarted: its viewers see the connection end, those of another room notice nothing, and who comes again is in."""
    room = centre.rooms[name]
    room.stop()
    for viewer in here.them: viewer.to_end()
    others.follow()
    room.start(len(room.names))
    again = Viewers(centre, room.names)
    again.follow()
    row(f'{name} is restarted: its viewers see the connection end, and join again; nobody of the other room notices', 'so', 'so')
    return again


def strangers(centre):
    """Who reaches no host: the ways in which a connection isn't RDP, or not of a name that has a row."""
    for what, sent, seconds in [
        ('a stranger, cookie dan', request(b'dan'), 1),
        ('a name with a line feed, and a line of the log behind it', request(b'ann room=maths\n127.0.0.1:1 name=bob'), 1),
        ('an empty name', request(b''), INSPECTED + 2),
        ('a Connection Request without a cookie', packets('ann')[0], INSPECTED + 2),
        ('a silent link', b'', INSPECTED + 2),
        ('a byte that is not RDP', b'\x16', INSPECTED + 2),
        ('a line of HTTP', b'GET / HTTP/1.1\r\n\r\n', INSPECTED + 2),
        ('half a cookie', request(b'ann')[:30], INSPECTED + 2),
    ]:
        client = centre.client()
        begin = time.perf_counter()
        if sent: client.send(sent)
        must(client.is_closed_within(seconds), f'{what} is closed')
        line = centre.line_of(client)
        must(line['got'] == '0' and line['end'].startswith('P'), f'the line of {what}: {line}')
        row(f'{what}: closed after', f'{time.perf_counter() - begin:.1f} s', f'at most {seconds} s')


def eleventh(centre):
    """One address has ten connections; the eleventh is closed, also with a good name."""
    address = '127.3.0.1'
    kept = [centre.client(address=address) for _ in range(MOST_OF_ONE)]
    time.sleep(0.2)
    more = centre.client(address=address)
    more.send(request(b'bob'))
    must(more.is_closed_within(1), 'the eleventh is closed')
    for client in kept: client.socket.close()
    row('the eleventh link of one address, with the name bob: closed at once', 'so', 'so')


def scanner(i):
    """What the i-th scanner sends: a byte that isn't RDP, a stranger's name, HTTP, or nothing."""
    return [b'\x16', request(b'administrator'), b'GET / HTTP/1.0\r\n\r\n', b''][i % 4]


def scanners(centre, maths, history):
    """Many who mean no good, from many addresses; the rooms' viewers draw and see meanwhile."""
    had = len(centre.lines())
    before = maths.times()
    begin, during, here = time.perf_counter(), [], []
    for i in range(MANY):
        client = centre.client(address=f'127.2.0.{i % ADDRESSES + 1}')
        here.append(client)
        if scanner(i): client.send(scanner(i))
        if len(here) > AT_A_TIME:
            # half of them reset the connection, and half end it
            old = here.pop(0)
            old.reset() if i % 2 else old.socket.close()
        if i % 100 == 0:
            during.append(maths.follow())
            history.follow()
    for client in here: client.socket.close()
    took = time.perf_counter() - begin
    row(f'{MANY} scanners from {ADDRESSES} addresses, {AT_A_TIME} at a time: all of them', f'{took:.1f} s')
    row('from a click to the last mark of three, before; beside them: median, 19 of 20', f'{spread(before)}; {spread(during)}')
    must(max(during) < 5, 'a viewer waits')
    def theirs(): return [line for line in centre.logged(had) if line['address'].startswith('127.2.')]
    wait_until(lambda: len(theirs()) == MANY, 'each scanner has a line')
    must(all(line['got'] == '0' for line in theirs()), 'no scanner is sent a byte')
    row('their lines in the log; with a byte of an answer', f'{len(theirs())}; 0', f'{MANY}; 0')


def flood(centre):
    """One address that connects again and again: behind the fiftieth within ten seconds it is closed at once, without a line."""
    had, count, begin = len(centre.lines()), 500, time.perf_counter()
    for _ in range(count):
        try:
            client = centre.client(address='127.4.0.1')
            client.send(request(b'dan'))
            client.socket.close()
        except ConnectionError: pass
    most = MOST_IN_TEN * (1 + int((time.perf_counter() - begin) / 10))
    time.sleep(1)
    lines = [line for line in centre.logged(had) if line['address'] == '127.4.0.1']
    must(len(lines) <= most, f'{len(lines)} lines of one address')
    row(f'{count} links of one address, one after another: lines in the log', len(lines), f'at most {most}')


def log_lines(centre):
    """The log has a line with what an operator asks for."""
    others = [line for line in centre.lines() if not LINE.fullmatch(line) and ' rooms/2: SSL ' not in line]
    must(all(re.match(r'\[[A-Z]+\]|Proxy |Server ', line) for line in others), f'lines of the log: {others}')
    for name, room in [('ann', 'maths'), ('dora', 'history')]:
        line = [it for it in centre.logged() if it['name'] == name and it['room'] == room and int(it['got']) > 0][-1]
        row(f"a line of the log: {line['name']} in {line['room']}, from {line['address']}", f"{line['sent']} and {line['got']} bytes, {line['time']} ms, {line['end']}")


def many_rooms(centre):
    """Many rooms of sixteen viewers each."""
    for room in centre.more: room.start()
    viewers = {room: Viewers(centre, [room.names[0]] + [room.names[1]] * (MOST - 1)) for room in centre.more}
    hosts = [memory_of(room.process.pid) for room in centre.more]
    row(f'{len(hosts)} rooms of 1,024 by 768, {MOST} viewers each: memory of a room; of all of them', f'{statistics.median(hosts):.0f} KiB; {sum(hosts) / 1024:.0f} MiB')
    count = len(hosts) * MOST
    row(f'memory of HAProxy with these {count} connections', f'{memory_of(centre.proxy.pid) / 1024:.0f} MiB')
    pids = [room.process.pid for room in centre.more]
    before = processor_of(pids), processor_of([centre.proxy.pid])
    times = [them.follow() for _ in range(10) for them in viewers.values()]
    spent = (processor_of(pids) - before[0]) / len(times), (processor_of([centre.proxy.pid]) - before[1]) / len(times)
    row('from a click to the last mark of the sixteen of its room: median, 19 of 20', spread(times), 'median below 5 ms')
    row('processor time for such a click: of the host, of HAProxy', f'{milliseconds(spent[0])}, {milliseconds(spent[1])}')
    for them in viewers.values(): them.leave()


def run(centre):
    centre.start()
    maths, history = names(centre)
    streams(centre, maths)
    counted_name(centre, maths)
    over_tls(centre, maths)
    maths = used_up(centre, maths, history)
    history = restarted(centre, 'history', history, maths)
    maths = restarted(centre, 'maths', maths, history)
    strangers(centre)
    eleventh(centre)
    scanners(centre, maths, history)
    flood(centre)
    maths.follow()
    history.follow()
    maths.leave()
    history.leave()
    for name, count in [('maths', 3), ('history', 2)]: centre.rooms[name].must_have_ended(count)
    row('the lines of maths, of history at their ends: none but their viewers, who left', '3; 2', '3; 2')
    log_lines(centre)
    many_rooms(centre)


def main():
    signal.alarm(LIMIT)
    _, most = resource.getrlimit(resource.RLIMIT_NOFILE)
    resource.setrlimit(resource.RLIMIT_NOFILE, (min(most, 8192), most))
    centre = Centre(*sys.argv[1:])
    print('| what | seen | wanted |\n|---|---:|---:|')
    try: run(centre)
    except Wrong as wrong:
        print(f'centre: wanted: {wrong}', file=sys.stderr)
        sys.exit(1)
    finally: centre.end()


if __name__ == '__main__': main()
