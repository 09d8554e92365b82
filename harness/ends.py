#!/usr/bin/env python3
"""ends.py [FOLDER]: how `pack`, `dlx1` and `catalogue` end, with the programs of FOLDER (crates at the repository's root, where `rt run` leaves them in
crates/NAME/out/NAME). Each is run over a file, over a pipe that gives one byte at a time, on a text that is refused, on no text at all, with a folder in
place of the input, and with an output that is full, a pipe that nobody reads, or a disk of 64 KB (where one can be made: as root). Held to it: the bytes, the
status (0: all was written; 1: a write failed; 2: a read failed), and that a reason stands on the standard error exactly where the status is not 0. Status 1
on a difference."""
import array
import fcntl
import os
import subprocess
import sys
import tempfile
import termios

ROOT = os.path.join(os.path.dirname(os.path.abspath(__file__)), '..')
CRATES = sys.argv[1] if len(sys.argv) > 1 else os.path.join(ROOT, 'crates')
REFUSED = b'refused\t16\n'
failed = []


def program(name):
    return os.path.join(CRATES, name, 'out', name)


def run(name, stdin, stdout=subprocess.PIPE, wait=None):
    """What a program printed, its status and its reason; `wait` is called while it runs."""
    it = subprocess.Popen([program(name)], stdin=stdin, stdout=stdout, stderr=subprocess.PIPE)
    if wait:
        wait(it)
    printed, reason = it.communicate()
    return printed, it.returncode, reason


def hold(case, found, status, printed=None):
    """One run held to what it should be."""
    got, code, reason = found
    wrong = []
    if code != status:
        wrong.append(f'status {code} in place of {status}')
    if bool(reason) != bool(status):
        wrong.append(f'reason {reason!r}')
    if printed is not None and got != printed:
        wrong.append(f'{len(got)} bytes in place of {len(printed)}')
    if wrong:
        failed.append(case)
    print(f'{case}: ' + (', '.join(wrong) if wrong else f'status {code}' + (f', {reason.decode().strip()}' if reason else '')))


def drip(text):
    """Gives a text to a program byte by byte, each once the one before is read."""
    def wait(it):
        pipe, unread = it.stdin.fileno(), array.array('i', [0])
        for byte in text:
            os.write(pipe, bytes([byte]))
            unread[0] = 1
            while unread[0] and it.poll() is None:
                fcntl.ioctl(pipe, termios.FIONREAD, unread)
    return wait


def closed_pipe():
    """The writing end of a pipe that nobody reads."""
    reads, writes = os.pipe()
    os.close(reads)
    return writes


def on_small_disk(name, text, whole):
    """A disk of 64 KB: what stands on it is a beginning of the whole, and the status tells whether it is all."""
    with tempfile.TemporaryDirectory() as disk:
        if subprocess.run(['mount', '-t', 'tmpfs', '-o', 'size=64k', 'tmpfs', disk], capture_output=True).returncode:
            print(f'{name}, a disk of 64 KB: not tried, none can be made here')
            return
        try:
            path = os.path.join(disk, 'printed')
            with open(path, 'wb') as out, open(text) as tray:
                found = run(name, tray, out)
            with open(path, 'rb') as out:
                got = out.read()
        finally:
            subprocess.run(['umount', disk], check=True)
    hold(f'{name}, a disk of 64 KB, {len(whole)} bytes', (got, found[1], found[2]), int(len(whole) > 65536), whole[:65536])


def ends(name, path, stored):
    """All runs of one program."""
    with open(path, 'rb') as text:
        given = text.read()
    with open(path) as text:
        whole = run(name, text)
    hold(f'{name}, a file', whole, 0, stored)
    hold(f'{name}, a pipe that gives one byte at a time', run(name, subprocess.PIPE, wait=drip(given)), 0, whole[0])
    hold(f'{name}, a text that is refused', run(name, subprocess.PIPE, wait=drip(b'config\n')), 0, REFUSED)
    hold(f'{name}, no text at all', run(name, subprocess.DEVNULL), 0, REFUSED)
    folder = os.open(ROOT, os.O_RDONLY)
    hold(f'{name}, a folder as input', run(name, folder), 2, REFUSED)
    os.close(folder)
    with open('/dev/full', 'wb') as full, open(path) as text:
        hold(f'{name}, a full device', run(name, text, full), 1)
    pipe = closed_pipe()
    with open(path) as text:
        hold(f'{name}, a pipe that nobody reads', run(name, text, pipe), 1)
    os.close(pipe)
    on_small_disk(name, path, whole[0])


def stored(crate):
    with open(os.path.join(ROOT, 'crates', crate, 'stdout'), 'rb') as out:
        return out.read()


for name in ('pack', 'dlx1', 'catalogue'):
    ends(name, os.path.join(ROOT, 'crates', name, 'stdin'), stored(name))
soma = os.path.join(ROOT, 'trays', 'soma.tray')
with open(soma) as tray:
    whole = run('pack', tray)
hold('pack, Soma', whole, 0)
if len(whole[0]) <= 65536:
    failed.append('Soma fits a disk of 64 KB')
on_small_disk('pack', soma, whole[0])
print(f'{len(failed)} differences')
sys.exit(1 if failed else 0)
