"""Batches: together records have the nodes that they have one by one; a refusal or want of room anywhere in a batch; a log that becomes full."""
import functools
import os
import re
import resource
import unittest

from harness import (COPY, LONGEST_RECORD, NODE, NODES, PAGE, RECORDS, TOP, HostTest, digest, keeper, letter_of, log, nodes_of, run_record, said_of,
                     sealed, stream_of)

# how many records, and how many bytes, make a batch full
MOST, BYTES = (int(number) << int(shift or 0) for number, shift in
               re.findall(r"BATCH_(?:RECORDS|BYTES) = (\d+)(?: << (\d+))?", (TOP / "hosts" / "batch.h").read_text()))
SMALL = tuple(run_record(i, i % 4) for i in range(2 * MOST + 2))
LONG = [run_record(i, LONGEST_RECORD) for i in range(2)]
TOO_LONG = bytes(LONGEST_RECORD + 1)
FULL = 2**32


def at_most(length):
    """Before the program starts: no file is longer than this, as on a full disk."""
    return lambda: resource.setrlimit(resource.RLIMIT_FSIZE, (length, length))


def around(bytes_wanted, *behind):
    """Longest records, one that is shorter, so many bytes together, and what comes behind them."""
    whole, rest = divmod(bytes_wanted, LONGEST_RECORD)
    return [LONG[i % 2] for i in range(whole)] + ([run_record(5, rest)] if rest else []) + [run_record(i, length) for i, length in enumerate(behind)]


class BatchTest(HostTest):
    def starts(self, records, count):
        """The log has the first so many of these records, as the second program appends them one by one."""
        size = nodes_of(count)
        nodes = said_of(records)[2][:NODE * size]
        self.assertEqual(self.done("root", self.log), f"{size} {log.root(size, nodes).root.hex()}\n".encode())
        self.assertEqual(self.log.read_bytes()[NODES:NODES + NODE * size], nodes)

    def folder_of(self, records):
        """A folder with a file for each record, and their paths."""
        folder = self.folder / "many"
        folder.mkdir()
        for number, record in enumerate(records):
            (folder / f"{number:05}").write_bytes(record)
        return folder, sorted(folder.iterdir())

    def remove(self):
        """The log, and what is kept beside it."""
        for path in self.folder.glob("log*"):
            path.unlink()

    def said(self, first, count):
        """What an append of so many says."""
        size = nodes_of(first + count)
        return f"appended {count} records, index {first} to {first + count - 1}; size {size}, hashes {size - nodes_of(first)}\n".encode()


class Limits(BatchTest):
    def test_numbers(self):
        """One record less than a batch has, exactly so many, one more; and the same behind a first batch."""
        for count in (MOST - 1, MOST, MOST + 1, 2 * MOST - 1, 2 * MOST, 2 * MOST + 1):
            self.assertEqual(self.done("append", self.log, "--stream", given=stream_of(SMALL[:count])), self.said(0, count))
            self.starts(SMALL, count)
            self.remove()

    def test_bytes(self):
        """One byte less, exactly so many, one more, with a longest record as the last that fits, and records behind; all kept beside the log."""
        for records in (around(BYTES - 1), around(BYTES), around(BYTES - 1, 1, 7, 0, 3), around(BYTES - 1, 2, 0), around(BYTES, 0, 9, 1),
                        around(BYTES - 1) + [LONG[1], b"", b"last"], around(BYTES - 2, 0, 1, 0, 0, 5), around(BYTES) + around(BYTES - 1, 1, 2)):
            self.assertEqual(self.done("append", self.log, "--stream", "--keep-records", given=stream_of(records)), self.said(0, len(records)))
            self.holds(records)
            self.keeps(records)
            self.remove()

    def keeps(self, records):
        """The records stand beside the log, joined, and where each ends."""
        joined, ends = b"".join(records), []
        for record in records:
            ends.append((ends[-1] if ends else 0) + len(record))
        self.assertEqual((self.folder / "log.records").read_bytes()[PAGE:PAGE + len(joined)], joined)
        self.assertEqual((self.folder / "log.index").read_bytes()[PAGE:PAGE + 8 * len(ends)], b"".join(end.to_bytes(8, "big") for end in ends))

    def test_no_bytes_at_all(self):
        records = [b""] * (MOST + 2)
        self.done("append", self.log, "--stream", "--keep-records", given=stream_of(records))
        self.holds(records)
        self.keeps(records)

    def test_files_and_folder(self):
        """More files than a batch has, after others, by name and as a folder; and a letter on each side of the border."""
        self.make(SMALL[:3])
        folder, paths = self.folder_of(SMALL[3:MOST + 4])
        for words in (paths, ("--folder", folder)):
            self.assertEqual(self.done("append", self.log, "--keep-records", *words), self.said(3, MOST + 1))
            self.starts(SMALL, MOST + 4)
            self.keeps(SMALL[3:MOST + 4])
            self.assertIn(b"leaves is the digest of its record", self.done("verify", self.log, "--records"))
            for index in (MOST + 2, MOST + 3):
                self.assertEqual(self.done("letter", self.log, index), letter_of(SMALL[:MOST + 4], index))
            self.remove()
            self.make(SMALL[:3])

    def test_one_by_one_or_together(self):
        """A log that grows by batches and by single records, as they come, is the log of one append of all."""
        taken = 0
        for count in (1, MOST - 2, 1, 1, MOST):
            words = ("--stream",) if count > 1 else ()
            self.done("append", self.log, *words, given=stream_of(SMALL[taken:taken + count]) if count > 1 else SMALL[taken])
            taken += count
        self.starts(SMALL, taken)


class Refused(BatchTest):
    places = (0, 1, MOST // 2, MOST - 1, MOST, MOST + 1)  # first, in the middle and last in a batch, and first and second in the next

    def test_stream(self):
        """What came before the refused record is kept, and what comes behind it is not."""
        for place in self.places:
            self.make(SMALL[:2])
            given = stream_of(SMALL[2:2 + place]) + stream_of([TOO_LONG]) + stream_of(SMALL[:5])
            said = self.ran(1, " refused, number 3: ", "append", self.log, "--stream", "--keep-records", given=given)
            self.assertIn(b"appended nothing" if place == 0 else f" index 2{f' to {1 + place}' if place > 1 else ''}; ".encode(), said)
            self.starts(SMALL, 2 + place)
            if place > 0:
                self.done("verify", self.log, "--records")
            self.done("append", self.log, "--stream", given=stream_of(SMALL[2 + place:4 + place]))
            self.starts(SMALL, 4 + place)
            self.remove()

    def test_files_and_folder(self):
        """Nothing is appended, the refused file is named, and of two the first."""
        folder, paths = self.folder_of(SMALL[2:MOST + 4])
        for place in self.places:
            paths[place].write_bytes(TOO_LONG)
            paths[MOST + 1].write_bytes(TOO_LONG)
            for words in (paths, ("--folder", folder)):
                ran = keeper("append", self.log, "--keep-records", *words)
                self.assertEqual((ran.returncode, ran.stdout), (1, b""))
                self.assertTrue(ran.stderr.startswith(f"keeper: {paths[place]} cannot be appended, and so nothing was\n".encode()), ran.stderr)
                self.assertIn(b" refused, number 3: ", ran.stderr)
                self.assertEqual(list(self.folder.iterdir()), [folder])
            paths[place].write_bytes(SMALL[2 + place])
        paths[MOST + 1].write_bytes(TOO_LONG)
        self.make(SMALL[:2])
        before = self.log.read_bytes()[:NODES]
        self.refused(3, "append", self.log, "--folder", folder)
        self.assertEqual(self.log.read_bytes()[:NODES], before)
        paths[MOST + 1].write_bytes(SMALL[MOST + 3])
        self.done("append", self.log, "--folder", folder)
        self.starts(SMALL, MOST + 4)

    def test_stream_by_bytes(self):
        """The refused record is the one that would make the batch longest, and one behind a batch that its bytes have made full."""
        for records in (around(BYTES - 1), around(BYTES), around(BYTES - 1, 1, 5)):
            self.ran(1, " refused, number 3: ", "append", self.log, "--stream", given=stream_of([*records, TOO_LONG, b"behind"]))
            self.holds(records)
            self.remove()

    def test_what_is_said_first(self):
        """A refused file is said before one behind it that is missing or waited for, and a missing one before a refused one behind it."""
        small, long, missing, waits = self.file("small", b"x"), self.file("long", TOO_LONG), self.folder / "missing", self.folder / "waits"
        os.mkfifo(waits)
        self.ran(1, f"{long} cannot be appended", "append", self.log, small, long, missing)
        self.ran(1, f"{long} cannot be appended", "append", self.log, small, small, long, waits, timeout=30)
        self.failed(f"cannot read {missing}", "append", self.log, small, missing, long)
        self.assertFalse(self.log.exists())


class NoRoom(BatchTest):
    def test_stream_fills_the_file(self):
        """Of a batch without room all is kept that has some, to the last record."""
        self.make(SMALL[:4])
        length = self.log.stat().st_size
        fits = max(count for count in range(len(SMALL)) if NODES + NODE * nodes_of(count) <= length)
        for behind in ([], [TOO_LONG]):
            given = stream_of([*SMALL[4:2 * MOST], *behind])
            out = self.ran(2, "cannot make", "append", self.log, "--stream", given=given, preexec_fn=at_most(length))
            self.assertEqual(out, self.said(4, fits - 4))
            self.starts(SMALL, fits)
            self.remove()
            self.make(SMALL[:4])

    def test_records_fill_their_file(self):
        """The same where the log has room and the records have none."""
        self.done("append", self.log, "--keep-records", given=b"")
        most = 48 * PAGE
        record = bytes(1000)
        fits = (most - PAGE) // len(record)
        out = self.ran(2, "cannot make", "append", self.log, "--stream", given=stream_of([record] * (fits + 100)), preexec_fn=at_most(most + 7))
        self.assertEqual(out, self.said(1, fits))
        self.holds([b""] + [record] * fits)
        self.done("verify", self.log, "--records")
        self.failed("Nothing was appended", "append", self.log, *[self.file("one", record)] * 3, preexec_fn=at_most(most + 7))
        self.holds([b""] + [record] * fits)

    def test_refused_where_nothing_has_room(self):
        """A record that is too long is refused with its number, whatever the disk has; want of room is said before a file behind is missing."""
        self.done("append", self.log, "--keep-records", given=b"")
        length = self.log.stat().st_size
        self.ran(2, "cannot make", "append", self.log, "--stream", given=stream_of([b""] * 2 * MOST), preexec_fn=at_most(length))
        before = self.log.read_bytes()[:NODES]
        for words, given in ((("--stream",), stream_of([TOO_LONG])), ((), TOO_LONG)):
            ran = keeper("append", self.log, *words, given=given, preexec_fn=at_most(length))
            self.assertEqual(ran.returncode, 1, ran.stderr)
            self.assertIn(b" refused, number 3: ", ran.stderr)
        small, missing = self.file("small", b"x"), self.folder / "missing"
        self.failed("Nothing was appended", "append", self.log, small, missing, preexec_fn=at_most(length))
        self.failed("cannot read", "append", self.log, missing, small, preexec_fn=at_most(length))
        self.assertEqual(self.log.read_bytes()[:NODES], before)


class FullLog(BatchTest):
    """A log with three places left, in a file of holes: its leaves are zeros, and of its inner nodes those are there that are looked at."""

    def setUp(self):
        super().setUp()
        self.nodes, self.leaves, looked_at = {}, FULL - 3 - 16384, 16384
        self.pair = functools.lru_cache(maxsize=None)(lambda left, right: digest(left + right))
        first = nodes_of(self.leaves)
        for _ in range(looked_at):
            self.grow(bytes(NODE))
        size = nodes_of(self.leaves)
        copy = sealed(size, self.root())
        with open(self.log, "wb") as file:
            for place in (0, COPY, PAGE, PAGE + COPY):
                file.seek(place)
                file.write(copy)
            try:
                file.truncate(NODES + NODE * nodes_of(FULL))
            except OSError as error:
                self.skipTest(f"no file with such holes can be made here: {error.strerror}")
            file.seek(NODES + NODE * first)
            file.write(b"".join(self.nodes.get(place, bytes(NODE)) for place in range(first, size)))
        if b"cannot map" in keeper("root", self.log).stderr:
            self.skipTest("a file of 256 gigabytes cannot be mapped here, as under the emulator")

    def grow(self, leaf):
        """One more leaf, and the parents that are whole with it."""
        at, height = nodes_of(self.leaves), 1
        self.nodes[at] = leaf
        while self.leaves >> height - 1 & 1:
            self.nodes[at + 1] = self.pair(self.nodes.get(at + 1 - 2**height, bytes(NODE)), self.nodes[at])
            at, height = at + 1, height + 1
        self.leaves += 1

    def root(self):
        """The peaks, folded from the right."""
        left, folded = self.leaves, None
        while left:
            peak = self.nodes.get(nodes_of(left) - 1, bytes(NODE))
            folded = peak if folded is None else self.pair(peak, folded)
            left &= left - 1
        return folded

    def has(self, records):
        """These records behind the log's own, and its root."""
        first = nodes_of(self.leaves)
        for record in records:
            self.grow(digest(record))
        size = nodes_of(self.leaves)
        self.assertEqual(self.done("root", self.log), f"{size} {self.root().hex()}\n".encode())
        with open(self.log, "rb") as file:
            file.seek(NODES + NODE * first)
            self.assertEqual(file.read(NODE * (size - first)), b"".join(self.nodes[place] for place in range(first, size)))

    def test_files(self):
        """Ten files of which three have a place: nothing is appended, and the fourth is named. Three go in, and then none."""
        paths = [self.file(f"file{i}", RECORDS[i]) for i in range(10)]
        for behind in (paths[4:], [self.folder / "missing"]):
            self.ran(1, f"{paths[3]} cannot be appended, and so nothing was", "append", self.log, *paths[:4], *behind)
        self.has([])
        self.assertEqual(self.done("append", self.log, *paths[:3]), self.said(FULL - 3, 3))
        self.has(RECORDS[:3])
        self.refused(2, "append", self.log, paths[3])
        empty = self.folder / "empty"
        empty.mkdir()
        self.assertIn(b"appended nothing", self.done("append", self.log, "--folder", empty))
        self.has([])

    def test_stream(self):
        """Ten records of which three have a place: these are kept. One too long among them is refused first, and behind them is not."""
        self.ran(1, " refused, number 3: ", "append", self.log, "--stream", given=stream_of([RECORDS[0], TOO_LONG, *RECORDS[:5]]))
        self.has(RECORDS[:1])
        out = self.ran(1, " refused, number 2: ", "append", self.log, "--stream", given=stream_of([*RECORDS[1:10], TOO_LONG]))
        self.assertEqual(out, self.said(FULL - 2, 2))
        self.has(RECORDS[1:3])


if __name__ == "__main__":
    unittest.main()
