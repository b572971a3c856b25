"""The root worked out from records by the plain rule: from files, a folder, a stream, kept records; whether it is the log's; and what has none."""
import functools
import os
import signal
import subprocess
import time
import unittest

from harness import KEEPER, KEY, LONGEST_RECORD, NODE, NODES, RECORDS, HostTest, digest_by, flipped, nodes_of, plain_root, run_record, stream_of

MANY = tuple(run_record(number, 37 * number % 90) for number in range(20))
HEAD = 4096  # where the bytes of kept records begin


@functools.lru_cache(maxsize=None)
def digest(data):
    """The second program's digest, each worked out once."""
    return digest_by(KEY)(data)


def rule(records):
    """The second program's root, by the plain rule."""
    return plain_root(list(records), digest)


def halves(records):
    """A wrong rule: split in the middle."""
    middle = len(records) // 2
    return digest(halves(records[:middle]) + halves(records[middle:])) if middle else digest(records[0])


def filled(records):
    """A wrong rule: the last record once more, up to the smallest power of two that is not below their number."""
    count = 1
    while count < len(records):
        count *= 2
    return rule(records + records[-1:] * (count - len(records)))


def swapped(records):
    """A wrong rule: the right side is hashed before the left one."""
    return plain_root(records, lambda data: digest(data if data in records else data[NODE:] + data[:NODE]))


def mirrored(records):
    """A wrong rule: the power of two stands to the right."""
    return swapped(records[::-1])


def twice(records):
    """A wrong rule: what is a side by itself is hashed once more."""
    return plain_root(records, lambda data: digest(digest(data) if data in records else data))


def from_the_left(records):
    """A wrong rule: the powers of two that their number is made of are joined from the left."""
    sides, rest = [], records
    while rest:
        count = 2**(len(rest).bit_length() - 1)
        sides, rest = sides + [rule(rest[:count])], rest[count:]
    return functools.reduce(lambda left, right: digest(left + right), sides)


class PlainTest(HostTest):
    def files(self, records):
        """A file for each record."""
        return [self.file(f"record{number:02}", record) for number, record in enumerate(records)]

    def rooted(self, records):
        """The line that the host has to write."""
        return f"{nodes_of(len(records))} {rule(records).hex()}\n".encode()

    def is_logs(self, records, *words, given=b"", at=""):
        """The host says that this is the root, and the log's."""
        said = f"this is the root of {self.log}{at}, worked out from {len(records)} record{'s' if len(records) > 1 else ''}\n"
        self.assertEqual(self.done("root", self.log, "--records", *words, given=given), self.rooted(records) + said.encode())

    def is_other(self, word, records, logs, *words, given=b""):
        """The host says that the log has another root, and why; an object has both."""
        asked, at = ("root", self.log, "--records", *words), " at that size" if "--size" in words else ""
        self.failed(f"{self.log}{at} has another root: ", *asked, given=given)
        answer = self.object(2, *asked, given=given)
        self.assertEqual((answer["size"], answer["root"], answer["records"]), (nodes_of(len(records)), rule(records).hex(), len(records)))
        self.assertEqual((answer["log_size"], answer["log_root"], answer["log_records"]), (nodes_of(len(logs)), rule(logs).hex(), len(logs)))
        self.assertIs(answer["is_the_logs"], False)
        for part in (word, answer["root"], answer["log_root"]):
            self.assertIn(part, answer["error"])


class Roots(PlainTest):
    def test_every_count(self):
        """Each count up to twenty, as the log was then, from kept records and from a stream."""
        self.done("append", self.log, "--keep-records", "--stream", given=stream_of(MANY))
        for count in range(1, len(MANY) + 1):
            some, size = MANY[:count], ("--size", nodes_of(count))
            self.is_logs(some, *size, at=" at that size")
            self.is_logs(some, "--stream", *size, given=stream_of(some), at=" at that size")
        self.is_logs(MANY)

    def test_every_source(self):
        """Logs of one to twelve records: files, a folder, a stream, those that are kept."""
        folder = self.folder / "records"
        folder.mkdir()
        for count, record in enumerate(RECORDS, 1):
            self.done("append", self.log, "--keep-records", given=record)
            (folder / f"{count:02}").write_bytes(record)
            if count not in (1, 2, 3, 7, 12):
                continue
            some = RECORDS[:count]
            files = self.files(some)
            self.is_logs(some, *files)
            self.is_logs(some, "--folder", folder)
            self.is_logs(some, "--stream", given=stream_of(some))
            self.is_logs(some)
            self.assertEqual(self.done("root", self.log), self.rooted(some))
            self.assertEqual(self.done("root", "--records", *files), self.rooted(some))
            self.assertEqual(self.done("root", "--records", "--folder", folder, "--bytes"), nodes_of(count).to_bytes(8, "big") + rule(some))

    def test_wrong_rules(self):
        """What other rules would say is none of it."""
        for count in (3, 5, 6, 7, 11):
            some = MANY[:count]
            said = self.done("root", "--records", "--stream", "--bytes", given=stream_of(some))
            self.assertEqual(said, nodes_of(count).to_bytes(8, "big") + rule(some))
            for other in (halves, filled, mirrored, swapped, twice) + ((from_the_left,) if count in (7, 11) else ()):
                self.assertNotEqual(other(some), said[8:], (other.__name__, count))

    def test_many(self):
        """A stream that is longer than what is read at once."""
        records = [run_record(number, 80 + number % 48) for number in range(700)]
        self.assertEqual(self.done("root", "--records", "--stream", given=stream_of(records)), self.rooted(records))

    def test_order_of_names(self):
        folder = self.folder / "records"
        (folder / "inner").mkdir(parents=True)
        for name, record in zip(("10", "9", "B", "a"), RECORDS[2:]):
            (folder / name).write_bytes(record)
        (folder / ".hidden").write_bytes(b"no record")
        self.assertEqual(self.ran(0, "inner is not a file", "root", "--records", "--folder", folder), self.rooted(RECORDS[2:6]))

    def test_objects(self):
        self.make(RECORDS[:5])
        files = self.files(RECORDS[:5])
        wanted = {"size": 8, "root": rule(RECORDS[:5]).hex(), "records": 5}
        self.assertEqual(self.object(0, "root", "--records", *files), {"command": "root", **wanted, "status": 0})
        logs = {"is_the_logs": True, "log_size": 8, "log_root": wanted["root"], "log_records": 5}
        self.assertEqual(self.object(0, "root", self.log, "--records", *files), {"command": "root", **wanted, **logs, "status": 0})

    def test_beside_a_writer(self):
        with subprocess.Popen([KEEPER, "append", self.log, "--stream", "--keep-records"], stdin=subprocess.PIPE, stdout=subprocess.DEVNULL) as writer:
            writer.stdin.write(stream_of(RECORDS[:3]))
            writer.stdin.flush()
            self.wait_for(3)
            self.is_logs(RECORDS[:3])
            self.is_logs(RECORDS[:3], *self.files(RECORDS[:3]))
            writer.communicate()
        self.assertEqual(writer.returncode, 0)


class Others(PlainTest):
    def test_not_the_logs(self):
        """Two swapped, one changed, one missing, one more, and the records of an earlier size."""
        self.make(RECORDS[:6])
        logs = list(RECORDS[:6])
        differs, number = "a record is not the one that was logged, or they are in another order", "the number of records is "
        for word, records in ((differs, logs[:3] + [logs[4], logs[3]] + logs[5:]), (differs, [logs[1], logs[0]] + logs[2:]), (differs, logs[::-1]),
                              (differs, logs[:3] + [flipped(logs[3], 199)] + logs[4:]), (differs, [b"\0"] + logs[1:]), (differs, logs[:5] + [b""]),
                              (f"{number}5, ", logs[:2] + logs[3:]), (f"{number}5, ", logs[1:]), (f"{number}7, ", logs + [b"more"]),
                              (f"{number}7, ", logs[:1] + logs), (f"{number}4, with size 7", logs[:4])):
            self.is_other(word, records, logs, "--stream", given=stream_of(records))
        self.is_other("; --size 7 asks for it as it was with so many", logs[:4], logs, *self.files(logs[:4]))

    def test_at_an_earlier_size(self):
        self.make(RECORDS[:6])
        files = self.files(RECORDS[:6])
        self.is_logs(RECORDS[:4], *files[:4], "--size", 7, at=" at that size")
        self.is_other("the number of records is 6, with size 10", RECORDS[:6], RECORDS[:4], *files, "--size", 7)
        self.is_other("a record is not the one", RECORDS[1:5], RECORDS[:4], *files[1:5], "--size", 7)
        self.refused(1, "root", self.log, "--size", 6, "--records", *files)
        self.refused(4, "root", self.log, "--size", 11, "--records", *files)
        self.refused(10, "root", self.log, "--size", 0, "--records", *files)

    def test_same_digest_input(self):
        """The two sides' digests as a record of their own have the root of the two, and are not the log's: the number of records is another."""
        self.make(RECORDS[3:5])
        joined = b"".join(map(digest, RECORDS[3:5]))
        self.assertEqual(rule([joined]), rule(RECORDS[3:5]))
        self.is_other("the number of records is 1, with size 1", [joined], RECORDS[3:5], self.file("joined", joined))

    def test_kept_records_that_were_changed(self):
        self.done("append", self.log, "--keep-records", "--stream", given=stream_of(RECORDS[2:6]))
        kept, ends = self.folder / "log.records", self.folder / "log.index"
        whole, index = kept.read_bytes(), ends.read_bytes()
        kept.write_bytes(flipped(whole, HEAD + 31 + 5))
        records = [RECORDS[2], flipped(RECORDS[3], 5), *RECORDS[4:6]]
        self.is_other(f"a record in {kept}, as {ends} cuts it, is not the one that was logged", records, RECORDS[2:6])
        self.is_other(f"keeper verify {self.log} --records looks further", records[:3], RECORDS[2:5], "--size", 4)
        self.is_logs(RECORDS[2:3], "--size", 1, at=" at that size")
        kept.write_bytes(whole)
        ends.write_bytes(flipped(index, HEAD + 8 + 3))
        self.failed("the record of index 1 cannot be read", "root", self.log, "--records")
        ends.unlink()
        self.failed("log.index is missing", "root", self.log, "--records")

    def test_records_that_are_not_kept(self):
        self.make(RECORDS[:3])
        self.failed("keeps no records beside it: name the log's records behind --records, or give them by", "root", self.log, "--records")
        self.done("append", self.log, "--keep-records", given=RECORDS[3])
        self.failed("keeps its records from index 3 on, and a root is of all: name", "root", self.log, "--records")
        self.is_logs(RECORDS[:4], *self.files(RECORDS[:4]))


class Damaged(PlainTest):
    def test_older_state(self):
        """A log that is read in its older state is held to that, and it is said."""
        self.make(RECORDS[:3], RECORDS[3:5])
        self.log.write_bytes(flipped(self.log.read_bytes(), NODES + NODE * 7))
        files = self.files(RECORDS[:5])
        said = self.ran(0, "is read as it was with the first 3", "root", self.log, "--records", *files[:3])
        self.assertTrue(said.startswith(self.rooted(RECORDS[:3])))
        self.is_other("the number of records is 5, ", RECORDS[:5], RECORDS[:3], *files)

    def test_earlier_peak(self):
        """Nodes that do not lead to the log's root are not compared with."""
        self.make(RECORDS[:6])
        whole, files = self.log.read_bytes(), self.files(RECORDS[:6])
        self.log.write_bytes(flipped(whole, NODES + NODE * 2))
        self.failed("are damaged: the one at position 6", "root", self.log, "--records", *files[:3], "--size", 4)
        self.is_logs(RECORDS[:6], *files)

    def test_no_log(self):
        self.failed("is not a log", "root", self.file("other", bytes(20000)), "--records", *self.files(RECORDS[:2]))
        self.failed("cannot open", "root", self.folder / "missing", "--records", *self.files(RECORDS[:2]))


class Refused(PlainTest):
    def test_no_records(self):
        (self.folder / "empty").mkdir()
        self.make(RECORDS[:2])
        for source in (("--stream",), ("--folder", self.folder / "empty")):
            self.refused(10, "root", "--records", *source)
            self.failed("there are no records, and so no root was worked out; ", "root", self.log, "--records", *source)
        self.assertIn(f"{self.log} has 2 of them", self.object(2, "root", self.log, "--records", "--stream")["error"])
        self.done("append", self.folder / "new", "--stream", "--keep-records")
        self.refused(10, "root", self.folder / "new", "--records")
        self.refused(10, "root", self.folder / "new", "--records", "--stream", given=stream_of(RECORDS[:2]))
        self.assertEqual(self.object(1, "root", "--records", "--stream")["number"], 10)

    def test_long_records(self):
        longest, longer = self.file("longest", bytes(LONGEST_RECORD)), self.file("longer", bytes(LONGEST_RECORD + 1))
        records = [bytes(LONGEST_RECORD), b"x"]
        self.make(records)
        self.is_logs(records, longest, self.file("short", b"x"))
        self.is_logs(records, "--stream", given=stream_of(records))
        self.refused(3, "root", "--records", longest, longer)
        self.assertEqual(self.ran(1, f"{longer} cannot be taken for a record", "root", self.log, "--records", longest, longer), b"")
        self.assertEqual(self.ran(1, "the record of index 1 cannot be taken", "root", "--records", "--stream",
                                  given=stream_of([b"x", bytes(LONGEST_RECORD + 1), b"x"])), b"")
        self.refused(3, "root", "--records", "--stream", given=b"\xff" * 20000)
        (self.folder / "records").mkdir()
        longer.rename(self.folder / "records" / "longer")
        self.refused(3, "root", "--records", "--folder", self.folder / "records")
        self.assertEqual(self.object(1, "root", "--records", "--folder", self.folder / "records")["number"], 3)
        self.assertEqual(self.ran(1, "a log is named before --records", "root", "--records", self.log, longest), b"")

    def test_streams_that_break(self):
        self.make(RECORDS[3:5])
        whole = stream_of(RECORDS[3:5])
        for log in ((), (self.log,)):
            for cut in (1, 3, 4, 100, 203, 206, len(whole) - 1):
                self.failed("the stream ends within a record", "root", *log, "--records", "--stream", given=whole[:cut])
        answer = self.object(2, "root", "--records", "--stream", given=whole[:-1])
        self.assertEqual(answer, {"command": "root", "error": "the stream ends within a record: no root was worked out", "status": 2})
        with open(os.devnull, "wb") as unreadable:
            ran = subprocess.run([KEEPER, "root", "--records", "--stream"], stdin=unreadable, capture_output=True, check=False)
        self.assertEqual((ran.returncode, ran.stdout), (2, b""))
        self.assertIn(b"cannot read standard input", ran.stderr)

    def test_signal(self):
        """Asked to stop before the stream's end: words, and no root of what came."""
        words = [KEEPER, "root", "--records", "--stream"]
        with subprocess.Popen(words, stdin=subprocess.PIPE, stdout=subprocess.PIPE, stderr=subprocess.PIPE) as reader:
            reader.stdin.write(stream_of(RECORDS[:4]))
            reader.stdin.flush()
            time.sleep(0.5)
            reader.send_signal(signal.SIGTERM)
            out, err = reader.communicate()
        self.assertEqual((reader.returncode, out), (2, b""))
        self.assertIn(b"SIGTERM came before the stream's end: no root was worked out", err)

    def test_signal_before_a_file(self):
        """Asked to stop while a pipe that nobody writes to is being opened."""
        os.mkfifo(self.folder / "pipe")
        words = [KEEPER, "root", "--records", self.file("first", b"record"), self.folder / "pipe"]
        with subprocess.Popen(words, stdout=subprocess.PIPE, stderr=subprocess.PIPE) as reader:
            time.sleep(0.5)
            reader.send_signal(signal.SIGTERM)
            out, err = reader.communicate()
        self.assertEqual((reader.returncode, out), (2, b""))
        self.assertIn(b"SIGTERM came before all was read: nothing was done", err)

    def test_files_that_cannot_be_read(self):
        self.make(RECORDS[:2])
        first, second = self.files(RECORDS[:2])
        for path, word in ((self.folder, "Is a directory"), (self.folder / "missing", "No such file"), ("-", "No such file")):
            for log in ((), (self.log,)):
                self.failed(f"cannot read {path}: {word}", "root", *log, "--records", first, path, second, given=RECORDS[1], cwd=self.folder)
        self.failed("cannot read the folder", "root", self.log, "--records", "--folder", self.folder / "missing")


class Use(PlainTest):
    def test_wrong_use(self):
        self.make(RECORDS[:2])
        first, second = self.files(RECORDS[:2])
        before, source = "one word can stand before --records, the log, and there are", "records come from files, from a folder or from a stream"
        alone = "--folder and --stream go with --records"
        for word, words in (("--records needs records", ("--records",)), ("--records needs records", ("--records", "--bytes")),
                            (f"{before} 3", (self.log, first, second, "--records")), (f"{before} 2", (self.log, first, "--records", second)),
                            (source, (self.log, "--records", first, "--stream")), (source, ("--records", "--stream", self.log)),
                            (source, (self.log, "--folder", self.folder, "--records", "--stream")),
                            (source, ("--records", first, "--folder", self.folder)), ("--size goes with a log", ("--records", first, "--size", 1)),
                            ("with --records and a log", (self.log, "--records", first, "--bytes")), (alone, (self.log, "--stream")),
                            (alone, (self.log, "--folder", self.folder)), ("--records takes no value", ("--records=1", first)),
                            ("root takes at most 1 words", ("--", self.log, "--records"))):
            self.failed(f"keeper: wrong use: {word}", "root", *words)
        self.assertIn("two forms of one answer", self.object(2, "root", "--records", first, "--bytes")["error"])

    def test_places_of_words(self):
        """What stands before --records is the log and what stands behind it are records, wherever options stand; behind -- words are words."""
        self.make(RECORDS[:3])
        files = self.files(RECORDS[:3])
        wanted = self.done("root", self.log, "--records", *files)
        self.assertTrue(wanted.startswith(self.rooted(RECORDS[:3])))
        for behind in ((files[0], "--records", *files[1:]), ("--", *files), (files[0], "--", *files[1:])):
            self.assertEqual(self.done("root", self.log, "--records", *behind), wanted)
        self.is_logs(RECORDS[:2], *files[:2], "--size=3", at=" at that size")
        self.assertEqual(self.done("root", "--size", 4, self.log, "--records", *files), wanted.replace(b"log,", b"log at that size,"))
        self.file("--stream", RECORDS[0])
        self.assertEqual(self.done("root", "--records", "--", "--stream", cwd=self.folder), self.rooted(RECORDS[:1]))
        self.file("-", RECORDS[1])
        self.assertEqual(self.done("root", "--records", "-", given=b"other", cwd=self.folder), self.rooted(RECORDS[1:2]))
        self.failed("keeps no records", "root", self.log, "--records")


if __name__ == "__main__":
    unittest.main()
