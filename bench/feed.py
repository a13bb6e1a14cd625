#!/usr/bin/env python3
"""Runs a program with what stands on standard input, byte by byte: through a socket of packets, of which each read gives one. It ends
as the program does.

python3 bench/feed.py PROGRAM WORD.. < FILE
"""
import socket
import subprocess
import sys

ours, theirs = socket.socketpair(socket.AF_UNIX, socket.SOCK_SEQPACKET)
run = subprocess.Popen(sys.argv[1:], stdin=theirs)
theirs.close()
try:
    for byte in sys.stdin.buffer.read():
        ours.send(bytes([byte]))
except BrokenPipeError:
    pass  # the program reads no further
ours.close()
sys.exit(run.wait())
