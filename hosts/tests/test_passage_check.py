"""keeper check on passage letters: both kinds told apart, damage at every byte, what is said and shown; records handed out by index, whole or not at
all. What is wanted is the second program's.
"""
import functools
import json
import os
import random
import resource
import signal
import subprocess
import unittest

from harness import (CHECKED, FEWER, KEEPER, KEY, LONGEST_RECORD, NODE, TOP, digest_by, flipped, is_passage, keeper, letter_of, nodes_of, number_of,
                     passage_of, said_of)
from rules.passages import by_letter, indexes_in, passage_bytes, records_in  # behind harness, which says where the second program lies
from test_node import joined
from test_passage import FEW, PLAY, RISING, PassageTest, restated

MEANING = {None: None, 1: "no log has this size", 3: "the record is longer than 16,384 bytes", 5: "the log has no record with this index",
           7: "the letter does not have the length that it must have", 8: "the letter is for a log of another size",
           9: "the root worked out from the letter is another one", 19: RISING}


class Checked(PassageTest):
    def look(self, size, top, datas):
        """What the host says of each letter, all in one run: the objects of the answer."""
        folder = self.folder / "looked at"
        folder.mkdir(exist_ok=True)
        paths = [folder / f"{place:04}" for place in range(len(datas))]
        for path, data in zip(paths, datas):
            path.write_bytes(data)
        ran = keeper("check", size, top.hex(), *paths, "--json")
        self.assertNotIn(b"Sanitizer", ran.stderr)
        answer = json.loads(ran.stdout)["letters"]
        self.assertEqual([letter["file"] for letter in answer], [str(path) for path in paths])
        for letter, data in zip(answer, datas):
            self.assertEqual(letter.get("kind"), None if len(data) < 10 else "passage" if is_passage(data) else "single")
            self.assertEqual((letter["accepted"], letter.get("meaning")), ("number" not in letter, MEANING[letter.get("number")]))
        return answer

    def test_every_byte(self):
        """Each byte of a passage changed, by its lowest and its highest bit; cut at each place; longer: the second program's number on each."""
        records, indexes = (b"a", b"call", b"", b"goal", b"b", b"c", b"x" * 40), (1, 3, 6)
        letter, (size, top, _) = passage_of(records, indexes), said_of(records)
        datas = [letter, *(flipped(letter, place) for place in range(len(letter))),
                 *(letter[:place] + bytes([letter[place] ^ 128]) + letter[place + 1:] for place in range(len(letter))),
                 *(letter[:length] for length in range(len(letter))), letter + b"\0", letter + bytes(32), letter + bytes(100000)]
        wanted = [number_of(size, top, data) for data in datas]
        self.assertEqual((wanted.count(0), set(wanted)), (1, {0, 3, 5, 7, 8, 9, 19}))
        answer = self.look(size, top, datas)
        self.assertEqual([letter.get("number", 0) for letter in answer], wanted)
        entries = {entry["index"]: bytes.fromhex(entry["record"]) for entry in answer[0]["entries"]}
        self.assertEqual(entries, {index: records[index] for index in indexes})
        for letter in answer[1:]:
            self.assertEqual([name for entry in letter.get("entries", []) for name in entry if name not in ("index", "record_length")], [])

    def test_refusals(self):
        """Each number alone, in words, from standard input, and nothing goes out; with the size and root that were noted."""
        letter, noted, (size, top, _) = passage_of(FEW, (0, 2, 5)), self.noted(FEW), said_of(FEW)
        second = 10 + 12 + len(FEW[0])
        for number, words, given in ((1, ("check", 2, top.hex()), letter), (12, ("check", size, top.hex()[:-2]), letter),
                                     (8, ("check", nodes_of(6), top.hex()), letter), (7, noted, letter[:10]), (7, noted, letter[:second + 11]),
                                     (7, noted, letter[:-1]), (7, noted, letter + b"\0"), (19, noted, restated(letter, 8, 2, 257)),
                                     (19, noted, restated(letter, 8, 2, 65535)), (19, noted, restated(letter, second, 8, 0)),
                                     (5, noted, restated(letter, second, 8, 7)), (5, noted, restated(letter, 10, 8, 2**64 - 1)),
                                     (3, noted, restated(letter, second + 8, 4, LONGEST_RECORD + 1)),
                                     (7, noted, restated(letter, second + 8, 4, LONGEST_RECORD)), (9, noted, flipped(letter, len(letter) - 1)),
                                     (9, noted, flipped(letter, second + 12)), (9, noted, restated(letter, second, 8, 3)),
                                     (7, noted, restated(letter, 8, 2, 2)), (5, noted, restated(letter, 8, 2, 4))):
            self.assertEqual(number_of(words[1], bytes.fromhex(words[2]), given), number)
            asked = (*words, "--to", self.out, "--record", self.folder / "record")
            self.assertEqual(self.ran(1, f"keeper: passage letter refused, number {number}: ", *asked, given=given), b"")
            answer = self.object(1, *asked, given=given)
            self.assertEqual((answer["accepted"], answer["number"]), (False, number))
            self.assertEqual((answer["letter"]["accepted"], answer["letter"]["number"], answer["letter"]["kind"]), (False, number, "passage"))
        self.assertEqual((self.names(self.out), self.names()), ([], ["out"]))
        many = passage_bytes(size, range(300), [b""] * 300, [])
        self.assertEqual([entry["index"] for entry in self.object(1, *noted, given=many)["letter"]["entries"]], list(range(256)))
        zero = restated(letter, 8, 2, 0)  # by these two bytes a letter of one record
        self.assertEqual(self.ran(1, "keeper: letter refused, number 7: ", *noted, given=zero), b"")

    def test_kinds(self):
        """Which kind it is: by its words, and in the object; a passage of one record is no letter of that record."""
        self.make(FEW)
        noted, single, one = self.noted(FEW), letter_of(FEW, 3), passage_of(FEW, (3,))
        self.assertEqual(self.done(*noted, given=single), f"accepted: index 3, a record of {len(FEW[3])} bytes\n".encode())
        self.assertEqual(self.done(*noted, given=one).decode().splitlines(), self.accepted(FEW, (3,)))
        record = {"index": 3, "record_length": len(FEW[3]), "record": FEW[3].hex()}
        same = {"accepted": True, "letter_size": said_of(FEW)[0], "items": 3}
        self.assertEqual(self.object(0, *noted, given=single)["letter"], {**same, "kind": "single", **record})
        self.assertEqual(self.object(0, *noted, given=one)["letter"], {**same, "kind": "passage", "record_count": 1, "entries": [record]})
        self.assertNotIn("kind", self.object(1, *noted, given=one[:9])["letter"])
        letters = (single, passage_of(FEW, (0, 6)), flipped(single, 25), flipped(one, 25))
        paths = [self.file(f"letter{place}", letter) for place, letter in enumerate(letters)]
        first, *rest = self.accepted(FEW, (0, 6))
        self.assertEqual(self.ran(1, "", *noted, *paths).decode().splitlines(), [
            f"{paths[0]}: accepted: index 3, a record of {len(FEW[3])} bytes", f"{paths[1]}: {first}", *rest,
            f"{paths[2]}: refused, number 9: {MEANING[9]}", f"{paths[3]}: passage letter refused, number 9: {MEANING[9]}",
            "4 letters: 2 accepted, 2 refused, 0 not read"])

    def test_shown(self):
        records = (b"12:04 ball over the line by 31 mm: goal\nsure\n", b"\x00\xff" * 40, b"", b"no goal\x1b[2K\rgoal", b"")
        letter, noted = passage_of(records, (0, 1, 2, 3)), self.noted(records)
        self.assertEqual(self.done(*noted, "--show", given=letter).decode().splitlines(), [
            "accepted: a passage of 4 records", "  size 8, 4 records, 1 items", "  index 0, a record of 45 bytes, as text:",
            "    12:04 ball over the line by 31 mm: goal", "    sure", "  index 1, a record of 80 bytes, as hexadecimal digits:",
            *("    " + "00ff" * count for count in (16, 16, 8)), "  index 2, a record of 0 bytes, as text:",
            "  index 3, a record of 16 bytes, as hexadecimal digits:", "    " + records[3].hex()])
        says = "  it says, and was refused: size 8, "
        listed = [f"  index {index}, a record of {len(record)} bytes" for index, record in enumerate(records[:4])]
        for given, number, wanted in ((flipped(letter, 30), 9, [says + "4 records", *listed]), (letter[:25], 7, [says + "4 records", *listed[:1]]),
                                      (restated(letter, 8, 2, 65535), 19, None), (letter[:10], 7, [says + "4 records"])):
            said = self.ran(1, f"number {number}", *noted, "--show", given=given).decode().splitlines()
            self.assertEqual(said if wanted else said[:5], wanted or [says + "65535 records", *listed])
            self.assertEqual(self.ran(1, f"number {number}", *noted, given=given), b"")

    @unittest.skipIf(KEY, "tried once, without keys")
    def test_vectors(self):
        """The passages of vectors/: each number, and every record of those that are accepted."""
        groups = {}
        for case in json.loads((TOP / "vectors" / "passages-checked.json").read_text())["cases"]:
            given = {name: joined(case["given"][name]) for name in ("root", "letter")}
            if case["call"] == "passage_check" and is_passage(given["letter"]) and len(given["root"]) == NODE:
                groups.setdefault((int(case["given"]["size"]), given["root"]), []).append((case["name"], given["letter"], case["answer"]["number"]))
        self.assertGreater(sum(map(len, groups.values())), 80)
        for (size, top), cases in groups.items():
            for (name, letter, number), answer in zip(cases, self.look(size, top, [letter for _, letter, _ in cases])):
                self.assertEqual(answer.get("number", 0), number, name)
                entries = [(entry["index"], bytes.fromhex(entry["record"])) for entry in answer["entries"]] if number == 0 else None
                self.assertEqual(entries, list(zip(indexes_in(letter), records_in(letter))) if number == 0 else None, name)

    def test_longest(self):
        """The longest letter of all, of a log of 2^32 records that nobody has: 256 longest records, and 24 digests beside the way to each. What is
        longer is none."""
        once = functools.lru_cache(maxsize=None)(digest_by(KEY))
        records, indexes = [bytes(LONGEST_RECORD)] * 256, [index << 24 for index in range(256)]
        digests = [number.to_bytes(NODE, "big") for number in range(256 * 24)]
        letter = passage_bytes(nodes_of(2**32), indexes, records, digests)
        self.assertEqual(len(letter), 4393994)
        noted = ("check", nodes_of(2**32), by_letter(2**32, letter, once)[0].hex())
        said = self.done(*noted, given=letter).decode().splitlines()
        self.assertEqual(said, self.accepted(dict(zip(indexes, records)), indexes))
        for other in (letter[:-1], letter + b"\0", letter + bytes(100)):
            self.refused(7, *noted, given=other)

    def test_by_chance(self):
        """Letters of both kinds with some bytes changed, or cut: the second program's number for each."""
        chance, (size, top, _), datas = random.Random(11), said_of(FEW), []
        for _ in range((400 if CHECKED else 100) // FEWER):
            indexes = sorted(chance.sample(range(7), chance.randrange(1, 8)))
            data = bytearray(chance.choice((passage_of(FEW, indexes), letter_of(FEW, indexes[0]))))
            for _ in range(chance.randrange(3)):
                data[chance.choice((chance.randrange(len(data)), chance.randrange(20)))] = chance.choice((0, 1, chance.randrange(256)))
            datas.append(bytes(data[:chance.randrange(len(data))] if chance.random() < 0.2 else data))
        self.assertEqual([letter.get("number", 0) for letter in self.look(size, top, datas)], [number_of(size, top, data) for data in datas])


class HandedOut(PassageTest):
    def setUp(self):
        super().setUp()
        self.indexes, self.check = (0, 3, 5), self.noted(FEW)
        self.letter = passage_of(FEW, self.indexes)
        self.wanted = {index: FEW[index] for index in self.indexes}

    def test_by_index(self):
        """Of both kinds, of one letter and of many; through a link to the folder; a file that is there is replaced, and keeps its mode."""
        self.done(*self.check, "--to", self.out, given=self.letter, preexec_fn=lambda: os.umask(0o022))
        self.assertEqual(self.handed_out(), self.wanted)
        self.assertEqual((self.out / "3.record").stat().st_mode & 0o7777, 0o644)
        (self.out / "3.record").write_bytes(b"before, and longer" * 100)
        (self.out / "3.record").chmod(0o640)
        (self.folder / "link").symlink_to("out")
        self.done(*self.check, "--to", self.folder / "link", given=self.letter)
        self.assertEqual((self.handed_out(), (self.out / "3.record").stat().st_mode & 0o7777), (self.wanted, 0o640))
        self.done(*self.check, f"--to={self.out}", given=letter_of(FEW, 4))
        self.assertEqual(self.handed_out(), {**self.wanted, 4: FEW[4]})
        letters = (self.letter, letter_of(FEW, 6), passage_of(FEW, (1, 2, 3)))
        self.done(*self.check, *(self.file(f"letter{place}", letter) for place, letter in enumerate(letters)), "--to", self.out)
        self.assertEqual(self.handed_out(), dict(enumerate(FEW)))

    def test_folders_that_cannot_be(self):
        """None, a file, a link to nowhere: words, before anything is checked, and nothing is made."""
        kept = self.file("kept", b"kept")
        (self.folder / "nowhere").symlink_to("missing")
        names = self.names()
        for place, why in ((self.folder / "missing", "No such file"), (kept, "it is no folder"), (self.folder / "nowhere", "No such file"),
                           ("", "No such file"), (kept / "x", "Not a directory"), ("-", "No such file")):
            for option in ("--to", "--records-to"):
                for given in (self.letter, b"no letter"):
                    self.failed(f"cannot write into {place}: {why}", *self.check, option, place, given=given, cwd=self.folder)
        self.assertIn("cannot write into", self.object(2, *self.check, "--to", kept, given=self.letter)["error"])
        self.assertEqual((self.names(), kept.read_bytes()), (names, b"kept"))

    def test_files_that_cannot_be(self):
        """A folder, or a link to nowhere, in a record's place: it stays. Through a link to a file, and into a pipe, it is written."""
        third, last = self.out / "3.record", self.out / "5.record"
        third.mkdir()
        self.failed(f"cannot write {third}: Is a directory", *self.check, "--to", self.out, given=self.letter)
        self.assertEqual(self.names(self.out), ["0.record", "3.record"])
        third.rmdir()
        third.symlink_to("missing")
        self.failed(f"cannot write {third}: File exists", *self.check, "--to", self.out, given=self.letter)
        self.assertEqual(self.names(self.out), ["0.record", "3.record"])
        third.unlink()
        third.symlink_to(self.file("kept", b"kept"))
        self.done(*self.check, "--to", self.out, given=self.letter)
        self.assertEqual((third.is_symlink(), (self.folder / "kept").read_bytes(), self.handed_out()), (True, FEW[3], self.wanted))
        last.unlink()
        os.mkfifo(last)
        with os.fdopen(os.open(last, os.O_RDONLY | os.O_NONBLOCK), "rb") as reader:
            self.done(*self.check, "--to", self.out, given=self.letter)
            self.assertEqual(reader.read(), FEW[5])

    def test_whole(self):
        """Where a record cannot be written whole there is no file, or the one that was there; those before it are whole."""
        records = (b"short", bytes(LONGEST_RECORD), b"behind")
        check, letter = self.noted(records), passage_of(records, (0, 1, 2))
        for before in ({}, {1: b"kept"}):
            for index, record in before.items():
                self.file(f"out/{index}.record", record)
            self.failed(f"cannot write {self.out}/1.record", *check, "--to", self.out, given=letter,
                        preexec_fn=lambda: resource.setrlimit(resource.RLIMIT_FSIZE, (5000, 5000)))
            self.assertEqual(self.handed_out(), {**before, 0: b"short"})
        self.done(*check, "--to", self.out, given=letter)
        self.assertEqual(self.handed_out(), dict(enumerate(records)))

    @unittest.skipIf(os.geteuid() == 0, "root may write anywhere")
    def test_not_allowed(self):
        self.out.chmod(0o500)
        self.failed(f"cannot write {self.out}/0.record: Permission denied", *self.check, "--to", self.out, given=self.letter)
        self.assertEqual(self.names(self.out), [])
        self.out.chmod(0o700)
        kept = self.file("out/3.record", b"kept")
        kept.chmod(0o400)
        self.failed(f"cannot write {kept}: Permission denied", *self.check, "--to", self.out, given=self.letter)
        self.assertEqual((kept.read_bytes(), self.names(self.out)), (b"kept", ["0.record", "3.record"]))

    def test_not_written_over(self):
        """A log, and the letter itself, that have the name of a record."""
        log, letter = self.out / "0.record", self.out / "3.record"
        self.make(FEW, path=log)
        before = self.unchanged(log)
        self.failed("is not written over", *self.check, "--to", self.out, given=self.letter)
        self.assertEqual((self.unchanged(log), self.names(self.out)), (before, ["0.record"]))
        log.unlink()
        letter.write_bytes(self.letter)
        self.failed(f"{letter} is the letter itself, and is not written over", *self.check, letter, "--to", self.out)
        for words in (("--to", self.out), ("--record", letter), ("--page", letter)):
            with open(letter, "rb") as given:
                ran = subprocess.run([KEEPER, *map(str, self.check), *words], stdin=given, capture_output=True, check=False)
            self.assertEqual((ran.returncode, letter.read_bytes()), (2, self.letter))
            self.assertIn(b"is the letter itself, and is not written over", ran.stderr)

    def test_one_record(self):
        """--record is for a passage of one record, as for a letter of one; of more nothing is handed out, and the words point to --to."""
        one, record, kept = passage_of(FEW, (3,)), self.folder / "record", self.file("kept", b"kept")
        self.assertEqual(self.done(*self.check, "--record", record, given=one).decode().splitlines(), self.accepted(FEW, (3,)))
        self.assertEqual((record.read_bytes(), self.done(*self.check, "--record", "-", given=one)), (FEW[3], FEW[3]))
        names = self.names()
        for place in (self.folder / "new", kept, "-"):
            self.failed("has 3 records: nothing was handed out. --to FOLDER", *self.check, "--record", place, "--to", self.out, given=self.letter)
        answer = self.object(2, *self.check, "--record", kept, given=self.letter)
        self.assertEqual((answer["accepted"], "--to FOLDER" in answer["error"], len(answer["letter"]["entries"])), (True, True, 3))
        self.refused(9, *self.check, "--record", kept, given=flipped(self.letter, len(self.letter) - 1))
        self.assertEqual((self.names(), self.names(self.out), kept.read_bytes()), (names, [], b"kept"))

    def test_no_page(self):
        """A page is of one record: none is made for a passage, whatever its verdict."""
        page = self.folder / "page.html"
        for letter in (self.letter, passage_of(FEW, (3,)), flipped(self.letter, len(self.letter) - 1)):
            self.failed("this letter is of a passage: nothing was checked", *self.check, "--page", page, "--to", self.out, given=letter)
        self.assertEqual((page.exists(), self.names(self.out)), (False, []))

    def test_by_name(self):
        """--records-to has the letter's name, and of a passage each index behind it; none may be there."""
        paths = self.file("a", self.letter), self.file("b", letter_of(FEW, 6))
        self.done(*self.check, *paths, "--records-to", self.out)
        self.assertEqual({path.name: path.read_bytes() for path in self.out.iterdir()},
                         {"b.record": FEW[6], **{f"a.{index}.record": FEW[index] for index in self.indexes}})
        self.failed("File exists", *self.check, paths[0], "--records-to", self.out)
        self.done(*self.check, "--records-to", self.out, given=passage_of(FEW, (2,)))
        self.assertEqual((self.out / "letter.2.record").read_bytes(), FEW[2])


class Streams(PassageTest):
    def test_closed(self):
        """An answer or a record that cannot be written; standard input that is closed. What was handed out before the answer is there."""
        letter = self.file("letter", passage_of(FEW, (1,)))
        for words in ((), ("--json",), ("--record", "-"), ("--show",), (letter,), ("--to", self.out)):
            for closed, why in ((">&-", b"Bad file descriptor"), (">/dev/full", b"No space left on device")):
                ran = self.run_by(f'"$0" "$@" {closed}', *self.noted(FEW), *words, given=letter.read_bytes())
                self.assertEqual((ran.returncode, ran.stderr), (2, b"keeper: cannot write to standard output: " + why + b"\n"), words)
        self.assertEqual(self.handed_out(), {1: FEW[1]})
        ran = self.run_by('"$0" "$@" <&-', *self.noted(FEW))
        self.assertEqual((ran.returncode, ran.stdout, b"it is closed" in ran.stderr), (2, b"", True))

    @staticmethod
    def run_by(script, *words, given=b""):
        """The host, started by a shell."""
        return subprocess.run(["sh", "-c", script, KEEPER, *map(str, words)], input=given, capture_output=True, check=False, timeout=60)

    def test_asked_to_stop(self):
        """A signal before the letter is whole ends it, and nothing is made."""
        letter, words = passage_of(PLAY, range(200)), [KEEPER, *map(str, self.noted(PLAY)), "--to", self.out]
        with subprocess.Popen(words, stdin=subprocess.PIPE, stdout=subprocess.PIPE, stderr=subprocess.PIPE) as reader:
            self.addCleanup(reader.kill)
            reader.stdin.write(letter[:3000])
            reader.stdin.flush()
            reader.send_signal(signal.SIGTERM)
            out, _ = reader.communicate()
        self.assertEqual((out, self.names(self.out), reader.returncode == 0), (b"", [], False))

    def test_senders_that_never_end(self):
        """A pipe that always has more gets the number of its first bytes."""
        letter = passage_of(FEW, (1, 3))
        for start, number in ((letter, 7), (restated(letter, 8, 2, 257), 19), (restated(letter, 0, 8, 0), 8)):
            ran = self.run_by('(cat "$1"; exec cat /dev/zero) | "$0" check "$2" "$3"', self.file("start", start), *self.noted(FEW)[1:])
            self.assertEqual((ran.returncode, ran.stdout), (1, b""))
            self.assertIn(f"number {number}:".encode(), ran.stderr)


if __name__ == "__main__":
    unittest.main()
