#!/usr/bin/env python3
"""Runs `rdp_host` on worked inputs with one growth of its memory refused, the first, the second and so on, until a run has no such growth; and
the same with all growths from that one on refused. Each run must end, and by want of memory: with status 6, or in the mode serve with the
link's code 6; and what it has written must be a front of what it writes where nothing is refused. Where one growth alone is refused the run may
also do all as if it weren't: room that a list is made with is asked for again when the list first grows, and a thread is done without.
Where two links come one after the other, and one growth alone is refused, one of them ends so at most, and the other is served as ever.

python3 bench/refused_memory.py RDP_HOST REFUSE FOLDER

REFUSE is the library that `bench/refused_memory.sh` makes, FOLDER is for files. The rows of a table go to standard output.
"""
import collections
import os
import socket
import subprocess
import sys
import time

from sample_answers import packets
from serve_load import free_port

HERE = os.path.dirname(os.path.abspath(__file__))
DATA = f'{HERE}/../crates/worked_runs/data/'

# The status of a run, and the code of a link, that wanted memory.
NO_MEMORY = 6

# How long a run may take, in seconds, and how many growths one may have.
PATIENCE = 20
MOST = 5000

# What was seen of a run: its status, what it wrote, what each of its clients was sent, and whether a growth was refused.
Run = collections.namedtuple('Run', 'status said sent refused')


class Refusing:
    """Starts the program with the growth of a number refused, and with all later ones where `all_on` is set; none for 0."""

    def __init__(self, host, library, folder): self.host, self.library, self.mark = host, library, f'{folder}/refused'

    def start(self, words, n, all_on):
        if os.path.exists(self.mark): os.remove(self.mark)
        env = {**os.environ, 'LD_PRELOAD': self.library, 'REFUSE': str(n), 'REFUSE_ALL': '1' if all_on else '0', 'REFUSED': self.mark}
        return subprocess.Popen([self.host, *words], env=env, stdin=subprocess.PIPE, stdout=subprocess.PIPE, stderr=subprocess.DEVNULL)

    def run(self, words, given, n, all_on, clients):
        """A run over an input, beside so many clients of its port, one after the other."""
        program = self.start(words, n, all_on)
        try:
            sent = [sample_client(program, int(words[1])) for _ in range(clients)]
            said, _ = program.communicate(given, timeout=PATIENCE)
        finally:
            program.kill()
            program.wait()
        return Run(program.returncode, said, sent, os.path.exists(self.mark))


def sample_client(program, port):
    """The sample client: it sends all that it has to, and reads to the end; what it was sent."""
    begin = time.perf_counter()
    link = None
    while not link and program.poll() is None:
        try: link = socket.create_connection(('127.0.0.1', port), PATIENCE)
        except ConnectionRefusedError: time.sleep(0.005)
        if time.perf_counter() - begin > PATIENCE: raise TimeoutError('the port is not opened')
    sent = b''
    if link:
        with link:
            try:
                link.sendall(b''.join(packets('ann')))
                link.shutdown(socket.SHUT_WR)
                while data := link.recv(1 << 16): sent += data
            except (ConnectionResetError, BrokenPipeError): pass
    return sent


def links_for_want(run, whole, all_on):
    """Whether a run has the line of each link, and those that didn't end by want of memory are as in the whole run, all but one of them where
    one growth alone was refused. Who didn't join has no number, so the next one has that."""
    lines = [line.split() for line in run.said.splitlines()]
    if len(lines) != len(run.sent) or any(len(line) != 4 for line in lines): return False
    codes = [line[2] for line in lines]
    wanting = codes.count(str(NO_MEMORY).encode())
    if wanting < 1 or (wanting > 1 and not all_on): return False
    return all(line[2:] == [b'0', b'0'] and sent == wanted
               for line, sent, wanted in zip(lines, run.sent, whole.sent) if line[2] != str(NO_MEMORY).encode())


def end_of(run, whole, all_on, what):
    """How a run with a refused growth ended, which wrote a front."""
    if not all(wanted.startswith(sent) for sent, wanted in zip(run.sent, whole.sent)): raise ValueError(f'{what}: no front was sent')
    if run.status == 0 and links_for_want(run, whole, all_on): return 'link'
    if not whole.said.startswith(run.said): raise ValueError(f'{what}: no front was written')
    if run.status == NO_MEMORY: return 'status'
    if all_on or run[:3] != whole[:3]: raise ValueError(f'{what}: status {run.status}, {run.said[-80:]}')
    return 'whole'


def each_growth(refusing, title, words, given=b'', clients=0):
    """A row: how many growths a run has, and how the runs with one of them refused ended."""
    def run(n, all_on):
        args = [str(free_port()) if it == 'PORT' else it for it in words]
        return refusing.run(args, given, n, all_on, clients)

    whole = run(0, False)
    if whole.status: raise ValueError(f'{title}: status {whole.status}')
    counts = []
    for all_on in (False, True):
        ends = collections.Counter()
        for n in range(1, MOST):
            seen = run(n, all_on)
            if not seen.refused: break
            ends[end_of(seen, whole, all_on, f'{title}, growth {n}')] += 1
        else: raise ValueError(f'{title}: there is always one more')
        if seen[:3] != whole[:3]: raise ValueError(f'{title}: two runs differ')
        counts.append(ends)
    for ends, how in zip(counts, ('alone', 'with all later ones')):
        print(f'| {title} | {how} | {sum(ends.values())} | {ends["status"]} | {ends["link"] if clients else ""} | {ends["whole"]} |', flush=True)


def script(name):
    with open(f'{DATA}{name}.script', 'rb') as it: return it.read()


def main():
    refusing = Refusing(*sys.argv[1:])
    for title, name in (('script, one take', 'one_take'), ('script, caches', 'caches_of_their_own'), ('script, saves', 'save_and_restore')):
        each_growth(refusing, title, ['script'], script(name))
    each_growth(refusing, 'answer, the sample client', ['answer', '64', '48', 'ann'], b''.join(packets('ann')))
    each_growth(refusing, 'serve, a link of the sample client', ['serve', 'PORT', '64', '48', '1', 'ann'], clients=1)
    each_growth(refusing, 'serve, two such links', ['serve', 'PORT', '64', '48', '2', 'ann'], clients=2)


if __name__ == '__main__': main()
