#!/usr/bin/env python3
"""Runs `rt ARGS ..` and sums the files of each crate once. A plain rt sums those of the crates below one again for each way through
crates.txt that leads to them, which near the top takes minutes before anything is tried. No file may change while it runs, so it is for a
clone that nobody else works in, and never the gate. With a kit that has other names within it is a plain rt.

python3 bench/rt_summed_once.py ARGS ..
"""
import importlib.util
import os
import runpy
import shutil
import sys


def once(method):
    """A method without arguments that answers for each crate's folder what it answered first."""
    kept = {}

    def answer(crate):
        if crate.folder not in kept:
            kept[crate.folder] = method(crate)
        found = kept[crate.folder]
        return list(found) if isinstance(found, list) else found

    return answer


def main():
    rt = shutil.which('rt')
    if rt is None or sys.argv[1:2] == ['ci']:
        sys.exit('rt_summed_once: no rt here' if rt is None else 'rt_summed_once: the gate is a plain `rt ci`')
    rt = os.path.realpath(rt)
    sys.path.insert(0, os.path.dirname(rt))
    if importlib.util.find_spec('rtlib'):
        import rtlib
        crate = getattr(rtlib, 'Crate', None)
        for name in ['stamp', 'below']:
            if hasattr(crate, name):
                setattr(crate, name, once(getattr(crate, name)))
    sys.argv[0] = rt
    runpy.run_path(rt, run_name='__main__')


if __name__ == '__main__':
    main()
