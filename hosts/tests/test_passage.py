"""keeper passage, and keeper find on what it writes: letters of several records, from files and from kept records; refusals, and which record they
are about; damaged logs, keys, streams. What is wanted is the second program's.
"""
import functools
import json
import subprocess
import threading
import unittest

from harness import (KEEPER, KEY, LONGEST_RECORD, NODE, NODES, RECORDS, HostTest, digest_by, flipped, keeper, letter_of, nodes_of, passage_of,
                     passages, said_of, stream_of)
from test_progress import Run

PLAY = tuple(b"frame %d: ball %d mm over the line\n" % (number, 7 * number % 90) for number in range(300))
FEW = RECORDS[:7]
RISING = "the list of indexes is empty, has more than 256, or does not rise strictly"
SAME = b"same: the letter is the log's own\n"


def restated(letter, place, width, number):
    """The letter with another number in one of its fields."""
    return letter[:place] + number.to_bytes(width, "big") + letter[place + width:]


class PassageTest(HostTest):
    def setUp(self):
        super().setUp()
        self.out = self.folder / "out"
        self.out.mkdir()

    def files_of(self, records, indexes):
        """A file for each of these records, by its index."""
        (self.folder / "given").mkdir(exist_ok=True)
        return [self.file(f"given/{index}", records[index]) for index in indexes]

    def pairs(self, records, indexes):
        """Each index, and the file of its record behind it."""
        return [word for pair in zip(indexes, self.files_of(records, indexes)) for word in pair]

    def noted(self, records):
        """How a letter of this log is checked."""
        size, top, _ = said_of(records)
        return "check", size, top.hex()

    def accepted(self, records, indexes):
        """What is said of a passage that is accepted."""
        return [f"accepted: a passage of {len(indexes)} record{'s' * (len(indexes) != 1)}",
                *(f"  index {index}, a record of {len(records[index])} bytes" for index in indexes)]

    def handed_out(self):
        """What was written by index."""
        self.assertEqual([path.name for path in self.out.iterdir() if path.suffix != ".record"], [])
        return {int(path.stem): path.read_bytes() for path in self.out.iterdir()}

    def names(self, folder=None):
        return sorted(path.name for path in (folder or self.folder).iterdir())

    def about(self, number, index, name, *words):
        """The library refuses, nothing goes out, and the host says for which index and file; in words and in the object."""
        ran = keeper(*words)
        self.assertEqual((ran.returncode, ran.stdout), (1, b""), ran.stderr)
        self.assertIn(f" refused, number {number}: ".encode(), ran.stderr)
        self.assertTrue(ran.stderr.endswith(f"\nkeeper: it is about index {index}, with the record in {name}\n".encode()), ran.stderr)
        answer = self.object(1, *words)
        self.assertEqual((answer["number"], answer["index"], answer["file"]), (number, index, str(name)))
        self.assertFalse({"letter", "entries", "found"} & set(answer))


class Written(PassageTest):
    def test_round_trips(self):
        """1, 2, 40 and 256 records, neighbours and far apart, of logs of one peak and of many: the bytes, the check, the records, the log."""
        for records, requests in ((FEW, ((0,), (6,), (0, 6), (1, 2, 4), tuple(range(7)))), (PLAY[:64], ((63,), tuple(range(20, 60)))),
                                  (RECORDS[1:2], ((0,),)), (PLAY, ((299,), (0, 299), tuple(range(100, 140)), tuple(range(0, 280, 7)),
                                                                   tuple(range(256)), tuple(range(44, 300))))):
            path = self.folder / f"log{len(records)}"
            self.make(records, path=path)
            for indexes in requests:
                letter = self.done("passage", path, *self.pairs(records, indexes))
                self.assertEqual(letter, passage_of(records, indexes))
                to = ("--to", self.out) if indexes[-1] - indexes[0] < 40 else ()
                said = self.done(*self.noted(records), *to, given=letter).decode().splitlines()
                self.assertEqual(said, self.accepted(records, indexes))
                self.assertEqual(self.handed_out(), {index: records[index] for index in indexes} if to else {})
                self.assertEqual(self.done("find", path, *self.files_of(records, indexes), self.file("letter", letter)), SAME)
                for each in self.out.iterdir():
                    each.unlink()

    def test_longest_records(self):
        """256 records of 16,384 bytes, and digests behind them."""
        record, path, once = bytes(LONGEST_RECORD), self.file("record", bytes(LONGEST_RECORD)), functools.lru_cache(maxsize=None)(digest_by(KEY))
        self.make([record] * 260)
        letter = self.done("passage", self.log, *(word for index in range(256) for word in (index, path)))
        last = functools.reduce(lambda left, right: once(left + right), [once(record)] * 2)
        self.assertEqual(letter, passages.passage_bytes(nodes_of(260), range(256), [record] * 256, [once(last + last)]))
        top = passages.by_letter(260, letter, once)[0].hex()
        self.assertEqual(self.done("root", self.log), f"{nodes_of(260)} {top}\n".encode())
        self.assertTrue(self.done("check", nodes_of(260), top, given=letter).startswith(b"accepted: a passage of 256 records\n  index 0, "))
        for other in (letter[:-1], letter + b"\0", letter + bytes(400000)):
            self.refused(7, "check", nodes_of(260), top, given=other)

    def test_list(self):
        """19, and which index is not above the one before it; before what is wrong with a record."""
        self.make(FEW)
        for indexes, index, before in (((2, 2), 2, 2), ((2, 1), 1, 2), ((3, 0), 0, 3), ((0, 3, 3, 4), 3, 3), ((0, 1, 2, 3, 5, 4), 4, 5),
                                       ((5, 6, 5, 6), 5, 6)):
            words = ("passage", self.log, *self.pairs(FEW, indexes))
            ran = keeper(*words)
            self.assertEqual((ran.returncode, ran.stdout), (1, b""))
            said = ran.stderr.decode().splitlines()
            self.assertEqual((said[0], said[2]), (f"keeper: passage letter refused, number 19: {RISING}.",
                                                  f"keeper: index {index} stands behind {before}, and is not above it"))
            answer = self.object(1, *words)
            self.assertEqual((answer["number"], answer["index"], "letter" in answer), (19, index, False))
        other = self.file("other", bytes(LONGEST_RECORD + 1))
        self.refused(19, "passage", self.log, 99, other, 99, other)
        self.refused(19, "passage", self.log, 2**64 - 1, other, 0, other)

    def test_too_many(self):
        """257 and more get 19, and no record is read for it; before that the size gets 1."""
        self.make(PLAY)
        missing = self.folder / "missing"
        for count in (257, 258, 300):
            words = [word for index in range(count) for word in (index, missing)]
            self.refused(19, "passage", self.log, *words)
            self.assertTrue(keeper("passage", self.log, *words).stderr.endswith(b"\nkeeper: there are more than 256 indexes\n"))
            self.refused(1, "passage", self.log, *words, "--size", 2)
        words = [word for index in (5, 5, *range(6, 262)) for word in (index, missing)]
        self.ran(1, "index 5 stands behind 5", "passage", self.log, *words)
        self.failed("is not a record's index", "passage", self.log, *words, "x", missing)

    def test_records(self):
        """13 and 3 at the first, a middle and the last record, and 5 at the last: which it is."""
        self.make(FEW)
        indexes, others = (1, 2, 4, 6), ((13, FEW[3]), (13, b""), (13, FEW[4] + b"\0"), (3, bytes(LONGEST_RECORD + 1)))
        for place in (0, 1, 3):
            for number, record in others:
                words = self.pairs(FEW, indexes)
                words[2 * place + 1] = self.file("other", record)
                self.about(number, indexes[place], self.folder / "other", "passage", self.log, *words)
        last = self.file("last", FEW[6])
        for index in (7, 8, 2**32, 2**64 - 1):
            self.about(5, index, last, "passage", self.log, *self.pairs(FEW, (0, 6)), index, last)
        self.about(3, 1, "/dev/zero", "passage", self.log, 1, "/dev/zero")

    def test_first_refusal(self):
        """5 and 3 of the first record that has one, before 13 of an earlier one; a longest record before a longer one; two in each other's place."""
        self.make(RECORDS[:10])
        long, other, call, longest = (self.file(name, record) for name, record in (("long", bytes(LONGEST_RECORD + 1)), ("other", b"other"),
                                                                                   ("call", RECORDS[1]), ("longest", RECORDS[8])))
        self.assertEqual(len(RECORDS[8]), LONGEST_RECORD)
        for words, number, index, name in (((1, other, 10, long), 5, 10, long), ((1, other, 2, long, 12, call), 3, 2, long),
                                           ((1, long, 12, call), 3, 1, long), ((10, long, 12, call), 5, 10, long),
                                           ((8, longest, 9, long), 3, 9, long), ((1, call, 2, other, 3, other), 13, 2, other),
                                           ((2, call, 3, other), 13, 2, call)):
            self.about(number, index, name, "passage", self.log, *words)

    def test_sizes(self):
        """The log as it was at every size; sizes that are none, and an index that was not there yet."""
        self.make(FEW)
        for count in range(1, 8):
            indexes, size = sorted({0, count // 2, count - 1}), ("--size", nodes_of(count))
            letter = self.done("passage", self.log, *self.pairs(FEW, indexes), *size)
            self.assertEqual(letter, passage_of(FEW[:count], indexes))
            self.assertEqual(self.done("find", self.log, *self.files_of(FEW, indexes), self.file("letter", letter), *size), SAME)
        for size, number in ((2, 1), (2**64 - 1, 1), (nodes_of(4), 5), (0, 5), (nodes_of(8), 4), (nodes_of(2**32), 4)):
            self.refused(number, "passage", self.log, *self.pairs(FEW, (4,)), "--size", size)

    def test_standard_input(self):
        """A record can come there, one."""
        self.make(FEW)
        one, three = self.files_of(FEW, (1, 3))
        self.assertEqual(self.done("passage", self.log, 1, one, 2, "-", 3, three, given=FEW[2]), passage_of(FEW, (1, 2, 3)))
        self.assertEqual(self.done("passage", self.log, 1, "-", given=FEW[1]), passage_of(FEW, (1,)))
        self.assertEqual(self.done("passage", self.log, 1, "--", "-", given=FEW[1]), passage_of(FEW, (1,)))
        self.failed("- is standard input, which is read once, and it is named 2 times", "passage", self.log, 1, "-", 2, "-", given=FEW[1])
        self.ran(1, "it is about index 1, with the record in standard input\n", "passage", self.log, 1, "-", 3, three, given=b"other")

    def test_files_that_cannot_be_read(self):
        self.make(FEW)
        pairs = self.pairs(FEW, (1, 3))
        for path, why in ((self.folder / "missing", "No such file"), (self.folder, "Is a directory"), ("", "No such file")):
            for place in (1, 3):
                self.failed(f"cannot read {path}: {why}", "passage", self.log, *pairs[:place], path, *pairs[place + 1:])
        self.failed("cannot open", "passage", self.folder / "missing", *pairs)
        self.failed("is not a log", "passage", pairs[1], *pairs)
        self.assertIn("No such file", self.object(2, "passage", self.log, 1, self.folder / "missing")["error"])

    def test_objects(self):
        self.make(FEW)
        size, top, _ = said_of(FEW)
        answer = self.object(0, "passage", self.log, *self.pairs(FEW, (1, 3)))
        self.assertEqual((answer["size"], answer["root"], answer["record_count"]), (size, top.hex(), 2))
        self.assertEqual(bytes.fromhex(answer["letter"]), passage_of(FEW, (1, 3)))
        self.assertEqual([(entry["index"], entry["record_length"], entry["record"]) for entry in answer["entries"]],
                         [(index, len(FEW[index]), FEW[index].hex()) for index in (1, 3)])


class Kept(PassageTest):
    def test_no_file_is_needed(self):
        """From the records beside the log: written, and compared."""
        self.done("append", self.log, "--keep-records", "--stream", given=stream_of(PLAY))
        for indexes in ((0,), (3, 299), tuple(range(100, 140)), tuple(range(256))):
            letter = self.done("passage", self.log, "--records", *indexes)
            self.assertEqual(letter, passage_of(PLAY, indexes))
            self.assertEqual(self.done("passage", self.log, *indexes, "--records"), letter)
            self.assertEqual(self.done("find", self.log, "--records", self.file("letter", letter)), SAME)
        self.assertEqual(self.done("passage", self.log, "--records", 1, 4, "--size", nodes_of(5)), passage_of(PLAY[:5], (1, 4)))
        self.assertEqual(self.done("find", self.log, self.file("single", letter_of(PLAY, 7)), "--records"), SAME)
        self.refused(19, "passage", self.log, "--records", *range(257))
        self.refused(19, "passage", self.log, "--records", 2, 1)
        for index in (300, 2**64 - 1):
            self.ran(1, f"\nkeeper: it is about index {index}\n", "passage", self.log, "--records", 3, index)
            self.assertNotIn("file", self.object(1, "passage", self.log, "--records", 3, index))
        self.refused(5, "passage", self.log, "--records", 1, 5, "--size", nodes_of(5))

    def test_not_kept(self):
        """No records, or not those: words, and nothing goes out."""
        self.make(FEW[:3])
        self.failed("keeps no records beside it: give them as files", "passage", self.log, "--records", 1)
        self.done("append", self.log, "--keep-records", given=FEW[3])
        letter = self.file("letter", passage_of(FEW[:4], (2, 3)))
        words = "has records from index 3 on, and not that of index 2: give the records as files"
        self.failed(words, "passage", self.log, "--records", 2, 3)
        self.failed(words, "find", self.log, letter, "--records")
        self.assertEqual(self.done("passage", self.log, "--records", 3), passage_of(FEW[:4], (3,)))
        self.assertEqual(self.done("passage", self.log, *self.pairs(FEW, (2, 3))), letter.read_bytes())

    def test_damaged(self):
        """A kept record that was changed, or cannot be read, is the fault of its file, and no number."""
        self.done("append", self.log, "--keep-records", "--stream", given=stream_of(FEW))
        letter = self.file("letter", passage_of(FEW, (2, 3)))
        for name, place, words in (("log.records", 4096 + sum(map(len, FEW[:3])) + 5, "log.records is damaged: the record of index 3 is not the one"),
                                   ("log.index", 4096 + 8 * 3, "log.index is damaged: the record of index 3 cannot be read")):
            path = self.folder / name
            whole = path.read_bytes()
            path.write_bytes(flipped(whole, place))
            self.failed(words, "passage", self.log, "--records", 2, 3)
            self.failed(words, "find", self.log, letter, "--records")
            self.assertEqual(self.done("passage", self.log, "--records", 1, 2), passage_of(FEW, (1, 2)))
            path.write_bytes(whole)


class NoBadLetter(PassageTest):
    def test_any_node_damaged(self):
        """No passage that goes out from a damaged log is refused by the root that was noted; one that cannot go out says why."""
        self.make(FEW[:6], FEW[6:])
        whole, withheld = self.log.read_bytes(), 0
        for place in range(said_of(FEW)[0]):
            damaged = self.file("damaged", flipped(whole, NODES + NODE * place + place % NODE))
            for indexes in ((1,), (0, 3), (2, 4, 6)):
                ran = keeper("passage", damaged, *self.pairs(FEW, indexes))
                if ran.returncode == 0:
                    self.assertIn(ran.stdout, [passage_of(FEW[:count], indexes) for count in (6, 7) if indexes[-1] < count])
                    continue
                withheld += 1
                self.assertEqual(ran.stdout, b"")
                self.assertIn(b"keeper verify" if ran.returncode == 2 else b"read as it was with the first 6", ran.stderr)
        self.assertGreater(withheld, 8)

    def test_where(self):
        """A leaf, a node beside the ways and a peak of an older size: the log is damaged, and not the record. What no letter needs may be."""
        self.make(RECORDS[:8])
        whole, pairs = self.log.read_bytes(), self.pairs(RECORDS, (2, 5))
        for place, words in ((3, "position 5 is not the digest of those at 3 and 4"), (4, "position 5 is not the digest of those at 3 and 4"),
                             (8, "position 9 is not the digest of those at 7 and 8"), (12, "position 13 is not the digest of those at 9 and 12"),
                             (2, "position 6 is not the digest of those at 2 and 5")):
            self.log.write_bytes(flipped(whole, NODES + NODE * place))
            self.failed(words, "passage", self.log, *pairs)
            self.failed("Nothing was written; keeper verify", "passage", self.log, *pairs)
        self.failed("damaged", "passage", self.log, *pairs[:2], "--size", nodes_of(3))
        for place in (0, 5, 9, 11):
            self.log.write_bytes(flipped(whole, NODES + NODE * place))
            self.assertEqual(self.done("passage", self.log, *pairs), passage_of(RECORDS[:8], (2, 5)))

    def test_beside_a_writer(self):
        """A log that grows meanwhile: each passage is that of the log as it was at some moment, and no reader has anything to say."""
        self.done("append", self.log, "--keep-records", "--stream", given=stream_of(PLAY[:4]))
        with subprocess.Popen([KEEPER, "append", self.log, "--stream"], stdin=subprocess.PIPE, stdout=subprocess.DEVNULL) as writer:
            go_on = threading.Event()
            feeder = threading.Thread(target=self.feed, args=(writer.stdin, go_on), daemon=True)
            feeder.start()
            letters = []
            while len(letters) < 12:
                letters.append(self.done("passage", self.log, "--records", 1, 3))
                go_on.set()
            feeder.join(60)
            writer.stdin.close()
            self.assertEqual(writer.wait(), 0)
        letters.append(self.done("passage", self.log, "--records", 1, 3))
        counts = [next(count for count in range(4, 301) if nodes_of(count) == int.from_bytes(letter[:8], "big")) for letter in letters]
        self.assertEqual(letters, [passage_of(PLAY[:count], (1, 3)) for count in counts])
        self.assertEqual((counts, counts[0], counts[-1]), (sorted(counts), 4, 300))

    @staticmethod
    def feed(pipe, go_on):
        """The other records, one by one, behind the first look at the log."""
        go_on.wait(60)
        for record in PLAY[4:]:
            pipe.write(stream_of([record]))
            pipe.flush()


class Found(PassageTest):
    def setUp(self):
        super().setUp()
        self.make(FEW)
        self.indexes = (1, 4, 6)
        self.letter, self.own = self.file("letter", passage_of(FEW, self.indexes)), self.files_of(FEW, self.indexes)

    def test_same(self):
        self.assertEqual(self.done("find", self.log, *self.own, self.letter), SAME)
        self.assertEqual(self.object(0, "find", self.log, *self.own, self.letter)["found"], "same")
        self.assertEqual(self.done("find", self.log, *self.own[:2], "-", self.letter, given=FEW[6]), SAME)
        self.assertEqual(self.done("find", self.log, *self.own, "-", given=self.letter.read_bytes()), SAME)

    def test_records(self):
        """So many as the letter names, and those that were logged: which one is not."""
        for own in (self.own[:1], self.own[:2], [*self.own, self.own[0]]):
            self.refused(16, "find", self.log, *own, self.letter)
            said = keeper("find", self.log, *own, self.letter).stderr
            self.assertTrue(said.endswith(f"\nkeeper: the letter names 3 records, and {len(own)} are given\n".encode()), said)
        long, other = self.file("long", bytes(LONGEST_RECORD + 1)), self.file("other", b"other")
        for place in range(3):
            for given, number in ((long, 3), (other, 13), (self.own[(place + 1) % 3], 13)):
                self.about(number, self.indexes[place], given, "find", self.log, *self.own[:place], given, *self.own[place + 1:], self.letter)
        self.about(13, 4, other, "find", self.log, self.own[0], other, long, self.letter)
        self.about(3, 4, long, "find", self.log, self.own[0], long, other, self.letter)

    def test_letters(self):
        """The checker's numbers come before those of the records; a letter of one record takes one."""
        letter, long = self.letter.read_bytes(), self.file("long", bytes(LONGEST_RECORD + 1))
        for data, number in ((flipped(letter, len(letter) - 1), 9), (letter[:-1], 7), (flipped(letter, 7), 8), (restated(letter, 8, 2, 300), 19),
                             (restated(letter, 10, 8, 7), 5), (restated(letter, 18, 4, LONGEST_RECORD + 1), 3)):
            ran = keeper("find", self.log, long, self.file("changed", data))
            self.assertEqual((ran.returncode, ran.stdout, b"it is about" in ran.stderr), (1, b"", False))
            self.assertIn(f"find refused, number {number}: ".encode(), ran.stderr)
        single = self.file("single", letter_of(FEW, 1))
        self.failed("wrong use: the letter is of one record, and 2 are given", "find", self.log, *self.own[:2], single)
        self.assertEqual(self.done("find", self.log, self.own[0], single), SAME)
        self.about(13, 1, self.own[1], "find", self.log, self.own[1], single)
        self.done("append", self.folder / "empty", "--stream")
        self.refused(10, "find", self.folder / "empty", *self.own, self.letter)
        self.refused(1, "find", self.log, *self.own, self.letter, "--size", 2)
        self.refused(4, "find", self.log, *self.own, self.letter, "--size", nodes_of(8))
        self.failed("cannot read", "find", self.log, *self.own, self.folder / "missing")

    def test_damaged(self):
        """14 where a node above a record is not the digest of its two children; 13 for its leaf; what lies beside the ways is not looked into."""
        whole = self.log.read_bytes()
        for place, number in ((2, 14), (5, 14), (0, 14), (1, 13), (7, 13), (8, 14), (3, 0), (4, 0)):
            self.log.write_bytes(flipped(whole, NODES + NODE * place))
            ran = keeper("find", self.log, *self.own, self.letter)
            self.assertIn(f"find refused, number {number}: ".encode() if number else SAME, ran.stderr if number else ran.stdout)
            self.assertEqual(b"a node above a record is not the digest" in ran.stderr, number == 14)


@unittest.skipIf(KEY, "tried once, with keys of its own")
class Keys(PassageTest):
    def test_leagues(self):
        """A passage of one league is nothing to the other, nor without a key; and a plain one is nothing to either."""
        ours, theirs, indexes = bytes(range(32)), bytes(range(1, 33)), (1, 4)
        keys = {None: (), ours: ("--key", self.file("ours", ours)), theirs: ("--key", self.file("theirs", theirs))}
        for place, (key, words) in enumerate(keys.items()):
            log, letter, (size, top, _) = self.folder / f"log{place}", passage_of(FEW, indexes, key), said_of(FEW, key)
            self.done("append", log, "--stream", *words, given=stream_of(FEW))
            self.assertEqual(self.done("passage", log, *self.pairs(FEW, indexes), *words), letter)
            self.done("check", size, top.hex(), "--to", self.out, *words, given=letter)
            self.assertEqual(self.done("find", log, *self.files_of(FEW, indexes), self.file("letter", letter), *words), SAME)
            for other, named in keys.items():
                if other != key:
                    self.refused(9, "check", size, top.hex(), "--to", self.folder, *named, given=letter)
                    self.refused(9, "check", size, said_of(FEW, other)[1].hex(), "--to", self.folder, *named, given=letter)
                    self.failed("keyed", "passage", log, *self.pairs(FEW, indexes), *named)
        self.assertEqual(self.handed_out(), {index: FEW[index] for index in indexes})

    def test_key_files(self):
        """24 before any other number; a key on standard input, which is then no record; the key is not written over."""
        key = self.file("key", bytes(range(32)))
        self.done("append", self.log, "--stream", "--key", key, given=stream_of(FEW))
        one, letter, top = self.file("one", FEW[1]), passage_of(FEW, (1,), key.read_bytes()), said_of(FEW, key.read_bytes())[1].hex()
        self.assertEqual(self.done("passage", self.log, 1, one, "--key", "-", given=key.read_bytes()), letter)
        self.failed("standard input cannot be the key and something else too", "passage", self.log, 1, "-", "--key", "-", given=key.read_bytes())
        for words in (("passage", self.log, 1, one), ("passage", self.log, 9, one, 9, one), ("check", 2, "00"), ("find", self.log, one, one)):
            self.refused(24, *words, "--key", one)
        named = self.file("out/1.record", key.read_bytes())
        self.failed("is the key, and is not written over", "check", nodes_of(7), top, "--to", self.out, "--key", named, given=letter)
        self.assertEqual(named.read_bytes(), key.read_bytes())

    def test_no_key_goes_out(self):
        key = self.file("key", bytes(range(40, 72)))
        self.done("append", self.log, "--stream", "--keep-records", "--key", key, given=stream_of(PLAY[:9]))
        letter = self.file("letter", passage_of(PLAY[:9], (2, 5), key.read_bytes()))
        size, top, _ = said_of(PLAY[:9], key.read_bytes())
        for words in (("passage", self.log, "--records", 2, 5), ("passage", self.log, "--records", 5, 2), ("find", self.log, "--records", letter),
                      ("check", size, top.hex(), letter, "--show", "--to", self.out)):
            for form in ((), ("--json",)):
                ran = keeper(*words, *form, "--key", key)
                for part in (ran.stdout, ran.stderr, *(path.read_bytes() for path in self.out.iterdir())):
                    self.assertNotIn(key.read_bytes()[:8], part)
                    self.assertNotIn(key.read_bytes()[:8].hex().encode(), part)


class Use(PassageTest):
    def test_wrong(self):
        self.make(FEW)
        one, letter = self.file("one", FEW[1]), self.file("letter", passage_of(FEW, (1,)))
        for words, why in ((("passage",), "passage needs 3 words"), (("passage", self.log), "passage needs 3 words"),
                           (("passage", self.log, 1), "passage needs 3 words"), (("passage", self.log, "--records"), "passage needs 2 words"),
                           (("passage", self.log, 1, one, 2), "behind each index stands the file of its record"),
                           (("passage", self.log, 1, one, "--to", self.out), "passage takes no --to"),
                           (("passage", self.log, 1, one, "--record", one), "passage takes no --record"),
                           (("find", self.log, letter), "find needs 3 words"), (("find", self.log, "-", "-"), "- is standard input"),
                           (("find", self.log, one, letter, "--records"), "find takes at most 2 words"),
                           (("find", self.log, *[one] * 257, letter), "find takes at most 258 words"),
                           (("check", 1, "00", "--to"), "a word is missing behind --to"),
                           (("check", 1, "00", "--to", "a", "--to", "b"), "--to is given twice"),
                           (("letter", self.log, 1, "--to", self.out), "letter takes no --to")):
            self.failed(f"wrong use: {why}", *words)
        for index in ("x", "", "1 ", "0x1", str(2**64), "+1"):
            self.failed("is not a record's index", "passage", self.log, index, one)
        self.assertEqual(self.names(self.out), [])
        self.assertIn(b"keeper passage LOG INDEX FILE", self.done("passage", "--help"))

    def test_not_to_a_terminal(self):
        self.make(FEW)
        one = self.file("one", FEW[1])
        said, status = Run(self, "passage", self.log, 1, one, output=True).end()
        self.assertEqual((status, b"bytes and no text" in said), (2, True))
        said, status = Run(self, "passage", self.log, 1, one, "--json", output=True).end()
        self.assertEqual((json.loads(said)["letter"], status), (passage_of(FEW, (1,)).hex(), 0))

    def test_closed_streams(self):
        """A letter or an answer that cannot be written; standard input that is closed."""
        self.make(FEW)
        one, letter = self.file("one", FEW[1]), self.file("letter", passage_of(FEW, (1,)))
        for words in (("passage", self.log, 1, one), ("passage", self.log, 1, one, "--json"), ("find", self.log, one, letter)):
            for closed, why in ((">&-", b"Bad file descriptor"), (">/dev/full", b"No space left on device")):
                ran = subprocess.run(["sh", "-c", f'"$0" "$@" {closed}', KEEPER, *map(str, words)], capture_output=True, check=False)
                self.assertEqual((ran.returncode, ran.stderr), (2, b"keeper: cannot write to standard output: " + why + b"\n"), words)
        for words in (("passage", self.log, 1, "-"), ("find", self.log, "-", letter)):
            ran = subprocess.run(["sh", "-c", '"$0" "$@" <&-', KEEPER, *map(str, words)], capture_output=True, check=False)
            self.assertEqual((ran.returncode, ran.stdout, b"it is closed" in ran.stderr), (2, b"", True))
        ran = subprocess.run(["sh", "-c", '"$0" "$@" <&- 2>&-', KEEPER, "passage", self.log, "1", one], capture_output=True, check=False)
        self.assertEqual((ran.returncode, ran.stdout), (0, letter.read_bytes()))


if __name__ == "__main__":
    unittest.main()
