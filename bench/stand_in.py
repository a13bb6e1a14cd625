#!/usr/bin/env python3
"""A stand-in for a host: it runs a viewer and plays to it, over the loopback interface, what a host says. That is the answers to the
connection sequence, as they stand in crates/worked_runs/data/sample.answer, with the size of the capture's picture, and then the bytes of
viewer 1 of the capture that stands on standard input, all at once. It reads what the viewer says and looks at none of it. In the viewer's
words, PORT stands for the port. It ends as the viewer does.

python3 bench/stand_in.py PROGRAM WORD.. < CAPTURE
"""
import os
import socket
import struct
import subprocess
import sys
import threading

DATA = os.path.join(os.path.dirname(os.path.dirname(os.path.abspath(__file__))), 'crates', 'worked_runs', 'data')

# The answers are so long, up to the Font Map, and Demand Active has the picture's columns and rows from this place on.
ANSWERS, SIDES = 706, 320


def answers(columns, rows):
    with open(os.path.join(DATA, 'sample.answer')) as file:
        text = ''.join(line.partition('#')[0] for line in file)
    host = bytearray(bytes.fromhex(text)[:ANSWERS])
    struct.pack_into('<HH', host, SIDES, columns, rows)
    return bytes(host)


def played(capture):
    """What the host says to the viewer of a capture."""
    said = []
    for line in capture:
        words = line.split()
        if words[0] != '1': continue
        said.append(answers(int(words[2]), int(words[3])) if words[1] == 'joined' else bytes.fromhex(words[1]))
    return b''.join(said)


def listen(link):
    while link.recv(1 << 16): pass


def accepted(door, run):
    """The viewer's link, or None where it ended before it came."""
    door.settimeout(0.5)
    while run.poll() is None:
        try: return door.accept()[0]
        except socket.timeout: pass
    return None


bytes_said = played(sys.stdin)
door = socket.create_server(('127.0.0.1', 0))
port = str(door.getsockname()[1])
run = subprocess.Popen([port if word == 'PORT' else word for word in sys.argv[1:]], stdin=subprocess.DEVNULL)
link = accepted(door, run)
if link:
    link.settimeout(None)
    listener = threading.Thread(target=listen, args=[link], daemon=True)
    listener.start()
    try: link.sendall(bytes_said)
    except (BrokenPipeError, ConnectionResetError): pass  # the viewer has seen enough, or reads no further
sys.exit(run.wait())
