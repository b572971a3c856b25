"""What the host's tests share: the program, what the second program says, a folder for each test, and what is asked of the host again and again.

KEEPER is the program; LOSSY the same on a disk that loses what was not synced (lossy.c); CHECKED says that it runs under sanitizers, and then what
tries scripts and not the host is left out. KEYED says that every log is keyed: the two programs get --key, and what they say is held to the keyed rules.
"""
import atexit
import errno
import fcntl
import functools
import json
import os
import shutil
import struct
import subprocess
import sys
import tempfile
import termios
import time
import unittest
from pathlib import Path

TOP = Path(__file__).resolve().parent.parent.parent
sys.path.insert(0, str(TOP / "second"))
from expected.given import run_record  # noqa: E402
from grown import log_of  # noqa: E402
from rules import letters, log, passages, shape  # noqa: E402, F401
from rules.blake3 import PLAIN, digest, keyed  # noqa: E402
from rules.log import LONGEST_RECORD, NODE  # noqa: E402, F401
from rules.plain import plain_root  # noqa: E402, F401
from rules.shape import nodes_of  # noqa: E402, F401

# what a program that ends has not given back is of no interest, and looking for it takes seconds on some machines
os.environ.setdefault("ASAN_OPTIONS", "detect_leaks=0")
CHECKED = "CHECKED" in os.environ
KEY = bytes((89 * place + 5) % 256 for place in range(32)) if "KEYED" in os.environ else None


def with_key(program):
    """The program, or where every log is keyed a script that starts it with the key behind its command."""
    if KEY is None or program is None:
        return program
    place = Path(tempfile.mkdtemp())
    atexit.register(shutil.rmtree, place)
    (place / "key").write_bytes(KEY)
    script = place / "keeper"
    script.write_text(f'#!/bin/sh\nword=$1\nshift\nexec "{program}" "$word" --key "{place}/key" "$@"\n')
    script.chmod(0o755)
    return str(script)


KEEPER = with_key(os.environ.get("KEEPER", str(TOP / "target" / "hosts" / "keeper")))
LOSSY = with_key(os.environ.get("LOSSY"))
NODES = 8192  # where the nodes begin in a log's file
PAGE = 4096  # where the second page of sizes stands
COPY = 2048  # where the second copy of a size stands in its page
SEALED = 88 if KEY is None else 120  # how long a copy is
FEWER = 1 if KEY is None else 4  # what is tried by chance is tried so much less where it is tried once more, with keys
RECORDS = tuple(run_record(number, length) for number, length in enumerate((0, 1, 31, 200, 64, 1025, 32, 5, 16384, 7, 100, 3)))


def digest_by(key):
    """The second program's digest function: plain, or under a key."""
    return PLAIN if key is None else keyed(key).mode


def by(key):
    """How the second program's calls are told of a key."""
    return {"digest": digest_by(key)}


@functools.lru_cache(maxsize=None)
def said_of_all(records, key):
    """What the second program says of a log of these records: size, root, nodes."""
    size, nodes = log_of(records, **by(key))
    return size, log.root(size, nodes, **by(key)).root if records else b"", nodes


def said_of(records, key=KEY):
    """The same for a list."""
    return said_of_all(tuple(records), key)


def letter_of(records, index, key=KEY):
    """The second program's letter."""
    size, _, nodes = said_of(records, key)
    return letters.letter_of(size, index, records[index], nodes, **by(key))


def passage_of(records, indexes, key=KEY):
    """The second program's passage letter."""
    size, _, nodes = said_of(records, key)
    return passages.passage_of(size, indexes, [records[index] for index in indexes], nodes, **by(key))


def is_passage(letter):
    """Which kind of letter it is: bytes 8 and 9 are 0 in a letter of one record."""
    return len(letter) >= passages.PASSAGE_HEAD and any(letter[8:passages.PASSAGE_HEAD])


def number_of(size, top, letter, key=KEY):
    """The second program's number on a letter of either kind."""
    check = passages.check_passage if is_passage(letter) else letters.check_letter
    return check(size, top, letter, **by(key)).number


def sealed(size, root, key=KEY):
    """A copy of a size and root, as the pages of a log have it: name, size, root, for a keyed log the tag, and the plain digest of all that."""
    name = b"cinchcleat log 1" if key is None else b"cinchcleat keyed"
    head = name + size.to_bytes(8, "big") + root + (b"" if key is None else digest_by(key)(name))
    return head + digest(head)


def stream_of(records):
    """Records as a stream."""
    return b"".join(struct.pack(">I", len(record)) + record for record in records)


def flipped(data, place):
    """The bytes with one bit changed."""
    return data[:place] + bytes([data[place] ^ 1]) + data[place + 1:]


def read_by_now(pipe):
    """A named pipe, to be written to, as soon as a program has opened it to read, up to ten seconds."""
    until = time.monotonic() + 10
    while True:
        try:
            return os.fdopen(os.open(pipe, os.O_WRONLY | os.O_NONBLOCK), "wb")
        except OSError as error:
            if error.errno != errno.ENXIO or time.monotonic() > until:
                raise
        time.sleep(0.01)


def taken_by_now(pipe):
    """Whether a program has taken all that was written to a pipe, up to ten seconds: it has begun, and reads."""
    until = time.monotonic() + 10
    while struct.unpack("i", fcntl.ioctl(pipe, termios.FIONREAD, bytes(4)))[0] > 0:
        if time.monotonic() > until:
            return False
        time.sleep(0.01)
    return True


def keeper(*words, given=b"", **options):
    """Run the host on its standard input."""
    return subprocess.run([KEEPER, *map(str, words)], input=given, capture_output=True, check=False, **options)


class HostTest(unittest.TestCase):
    """A folder for each test, and what the tests ask of the host again and again."""

    def setUp(self):
        self.folder = Path(tempfile.mkdtemp())
        self.addCleanup(shutil.rmtree, self.folder)
        self.log = self.folder / "log"

    def ran(self, status, words, *asked, given=b"", **options):
        """The host ends with that status and has those words on standard error: what it wrote on standard output."""
        ran = keeper(*asked, given=given, **options)
        self.assertEqual(ran.returncode, status, ran.stderr)
        self.assertIn(words.encode(), ran.stderr)
        return ran.stdout

    def done(self, *words, given=b"", **options):
        """The host does it, and has nothing to say about it: what it writes."""
        ran = keeper(*words, given=given, **options)
        self.assertEqual((ran.returncode, ran.stderr), (0, b""), ran.stderr)
        return ran.stdout

    def refused(self, number, *words, given=b""):
        """The host is refused by the library, names the number and writes nothing else."""
        self.assertEqual(self.ran(1, f" refused, number {number}: ", *words, given=given), b"")

    def failed(self, word, *words, given=b"", **options):
        """The host fails, with that word in what it says, and writes nothing else."""
        self.assertEqual(self.ran(2, word, *words, given=given, **options), b"")

    def object(self, status, *words, given=b""):
        """The one object that the host answers with --json."""
        ran = keeper(*words, "--json", given=given)
        self.assertEqual(ran.returncode, status, ran.stderr)
        self.assertEqual(ran.stdout.count(b"\n"), 1)
        answer = json.loads(ran.stdout)
        self.assertEqual((answer["command"], answer["status"]), (words[0].strip("-"), status))
        return answer

    def holds(self, records, path=None):
        """The log has these records: size, root and every node."""
        size, top, nodes = said_of(records)
        self.assertEqual(self.done("root", path or self.log), f"{size} {top.hex()}\n".encode())
        self.assertEqual((path or self.log).read_bytes()[NODES:NODES + NODE * size], nodes)

    def make(self, *groups, path=None):
        """A log with these groups of records, each kept on its own."""
        for records in groups:
            self.done("append", path or self.log, "--stream", given=stream_of(records))

    def file(self, name, data):
        """A file with these bytes."""
        path = self.folder / name
        path.write_bytes(data)
        return path

    def unchanged(self, path=None):
        """A look at a file, to be compared with another later."""
        about = os.lstat(path or self.log)
        return about.st_ino, about.st_mtime_ns, (path or self.log).read_bytes()

    def records_in(self, path=None):
        """How many records a log has; a log that is missing or empty has none."""
        ran = keeper("root", path or self.log)
        return shape.leaf_count(int(ran.stdout.split()[0]))[1] if ran.returncode == 0 else 0

    def wait_for(self, count, path=None):
        """Until the log has so many records, up to ten seconds."""
        until = time.monotonic() + 10
        while time.monotonic() < until:
            if self.records_in(path) == count:
                return
            time.sleep(0.01)
        self.fail(f"record {count} was not kept while the stream waits")
