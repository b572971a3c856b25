"""keeper node: stored nodes written, and read back; leaves that lie about their digest, by every region that can be edited, and under other keys;
many at once; records handed out, whole or not at all.

Digests that are wanted are BLAKE3's published figures or the second program's, and so are the numbers.
"""
import itertools
import json
import os
import pty
import random
import resource
import signal
import subprocess
import threading
import unittest

from harness import CHECKED, KEEPER, LONGEST_RECORD, RECORDS, TOP, HostTest, by, digest_by, flipped, keeper
from expected.given import KEYS, counting_bytes, run_record  # behind harness, which says where the second program lies
from rules.stored import read_stored, stored_inner, stored_leaf
from test_digest import PUBLISHED
from test_progress import Run

OURS, THEIRS = KEYS
LENGTHS = (0, 1, 1024, LONGEST_RECORD)
FIGURES = {int(length): {None: bytes.fromhex(plain), OURS: bytes.fromhex(keyed)} for length, plain, keyed in PUBLISHED}
CALL = b"44:58 ball short of the line by 4 mm: no goal\n"
# the places of a leaf's fields
FLAG, DIGEST, LENGTH, RECORD = 0, 1, 33, 37
# a device that is full, to be written to by name: not by root, who would replace it where the program is wrong
FULL = () if os.geteuid() == 0 else (("/dev/full", "No space left"),)
MEANING = {3: "the record is longer than 16,384 bytes", 11: "the stored node has an unknown flag or a wrong length",
           18: "the digest in the stored leaf is not that of its record"}


def leaf_of(record, key=None):
    """The second program's leaf of a record."""
    return stored_leaf(record, **by(key))


def of(record, key=None):
    """The second program's digest, in digits."""
    return digest_by(key)(record).hex()


def joined(parts):
    """The bytes of a vector: digits, or bytes that count from a start, or a list of these."""
    if isinstance(parts, list):
        return b"".join(map(joined, parts))
    if isinstance(parts, dict):
        return bytes((parts["start"] + place) % 251 for place in range(parts["length"]))
    return bytes.fromhex(parts)


class NodeTest(HostTest):
    def setUp(self):
        super().setUp()
        self.keys = {None: (), OURS: ("--key", self.file("ours.key", OURS)), THEIRS: ("--key", self.file("theirs.key", THEIRS))}
        self.out = self.folder / "out"

    def files_of(self, datas):
        """A file for each node."""
        return [self.file(f"node{place}", data) for place, data in enumerate(datas)]

    def look(self, datas, *words):
        """What the host says of each node, all in one run: the objects of the answer."""
        ran = keeper("node", *self.files_of(datas), *words, "--json")
        self.assertNotIn(b"Sanitizer", ran.stderr)
        answer = json.loads(ran.stdout)
        self.assertEqual(len(answer["nodes"]), len(datas))
        counts = [sum(node["accepted"] is accepted for node in answer["nodes"]) for accepted in (True, False)]
        self.assertEqual([answer["accepted_count"], answer["refused_count"], answer["unread_count"]], [*counts, 0])
        self.assertEqual((ran.returncode, answer["status"]), (1 if counts[1] else 0,) * 2)
        return answer["nodes"]

    def numbers(self, datas, *words):
        """The numbers of these nodes; each refusal has its words, and no record."""
        nodes = self.look(datas, *words)
        for node in nodes:
            self.assertEqual(node["accepted"], "kind" in node)
            if not node["accepted"]:
                self.assertEqual(node["meaning"], MEANING[node["number"]])
                self.assertEqual([name for name in node if name.startswith("record") and name != "record_digest"], [])
                self.assertEqual("record_digest" in node, node["number"] == 18)
        return [node.get("number", 0) for node in nodes]

    def lies(self, record, node, *words, key=None):
        """The one node is refused with 18: its two digests are said, and nothing goes out; also as an object."""
        for named in (False, True):
            ran = keeper("node", *([self.file("lies", node)] if named else []), *words, given=b"" if named else node)
            self.assertEqual((ran.returncode, ran.stdout), (1, b""), ran.stderr)
            said = ran.stderr.decode().splitlines()
            self.assertEqual(said[0], f"keeper: stored node refused, number 18: {MEANING[18]}.")
            for word in ("Do not use its record", "was changed", "another key or none", "from a copy"):
                self.assertIn(word, said[1])
            mode = "under the key that was given" if key else "without a key"
            self.assertEqual(said[2:], [f"keeper: the two digests, that of the record worked out {mode}:",
                                        f"  in the leaf    {node[DIGEST:LENGTH].hex()}", f"  of its record  {of(record, key)}"])
        answer = self.object(1, "node", *words, given=node)
        self.assertEqual((answer["number"], answer["meaning"], answer["nodes"][0]["number"]), (18, MEANING[18], 18))
        self.assertEqual((answer["nodes"][0]["leaf_digest"], answer["nodes"][0]["record_digest"]), (node[DIGEST:LENGTH].hex(), of(record, key)))


class Written(NodeTest):
    def test_leaves(self):
        """From a file and from standard input, plain and keyed, with the published digests; and read back."""
        for length, key in itertools.product(LENGTHS, (None, OURS)):
            record = counting_bytes(length)
            wanted = b"\1" + FIGURES[length][key] + length.to_bytes(4, "big") + record
            self.assertEqual(wanted, leaf_of(record, key))
            named = (self.file("record", record),) if length % 2 == 0 else ("-",)
            for words, given in ((named, record if named[0] == "-" else b""), ((), record)):
                self.assertEqual(self.done("node", "--leaf", *words, *self.keys[key], given=given), wanted)
            said = f"leaf: digest {FIGURES[length][key].hex()}, a record of {length} bytes\n".encode()
            self.assertEqual(self.done("node", *self.keys[key], given=wanted), said)
            self.assertEqual(self.done("node", self.file("node", wanted), *self.keys[key], "--record", self.out), said)
            self.assertEqual(self.out.read_bytes(), record)
            self.assertEqual(self.done("node", *self.keys[key], "--record", "-", given=wanted), record)

    def test_too_long(self):
        """3 in words, from a file and from standard input, and nothing goes out; what has no end is not waited for."""
        long = self.file("long", bytes(LONGEST_RECORD + 1))
        for words, given in (((long,), b""), ((), long.read_bytes()), ((long, *self.keys[OURS]), b""), (("/dev/zero",), b"")):
            out = self.ran(1, f"stored leaf refused, number 3: {MEANING[3]}", "node", "--leaf", *words, given=given, timeout=60)
            self.assertEqual(out, b"")
        self.assertEqual(self.object(1, "node", "--leaf", long)["number"], 3)

    def test_inner(self):
        """Any 32 bytes, under any key, in small and capital digits; and read back."""
        for digest, key in itertools.product((bytes(32), b"\xff" * 32, digest_by(None)(CALL), bytes(range(32))), self.keys):
            node = self.done("node", "--inner", digest.hex(), *self.keys[key])
            self.assertEqual(node, stored_inner(digest))
            self.assertEqual(self.done("node", f"--inner={digest.hex().upper()}"), node)
            self.assertEqual(self.done("node", *self.keys[key], given=node), f"inner: digest {digest.hex()}, taken as it stands\n".encode())

    def test_digests_that_are_none(self):
        """As check has it of a root: digits that are none are a failure, and so many that are not 64 get 12."""
        for digits in ("0", "0g" * 32, "ab" * 31 + "a", " " + "ab" * 32, "0x" + "ab" * 31, "-", "ä" * 32):
            self.failed("is not a digest: hexadecimal digits are wanted", "node", "--inner", digits)
        for digits in ("", "ab", "ab" * 31, "ab" * 33, "ab" * 5000):
            self.refused(12, "node", "--inner", digits)
        answer = self.object(1, "node", "--inner", "ab")
        self.assertEqual((answer["number"], "node" in answer), (12, False))
        self.assertIn("the digest of an inner node", answer["meaning"])

    def test_not_to_a_terminal(self):
        for words in (("--leaf", self.file("record", CALL)), ("--inner", "ab" * 32)):
            said, status = Run(self, "node", *words, output=True).end()
            self.assertEqual(status, 2)
            self.assertIn(b"bytes and no text", said)
            self.assertNotIn(CALL.strip(), said)
        said, status = Run(self, "node", "--json", "--leaf", self.file("record", CALL), output=True).end()
        self.assertEqual((json.loads(said)["node"], status), (leaf_of(CALL).hex(), 0))

    def test_records_that_cannot_be_read(self):
        for path, why in ((self.folder, "Is a directory"), (self.folder / "missing", "No such file")):
            self.failed(f"cannot read {path}: {why}", "node", "--leaf", path)
            self.assertIn(why, self.object(2, "node", "--leaf", path)["error"])


class Lies(NodeTest):
    """Leaves whose record or digest is not what was written."""

    def test_every_byte(self):
        """Each byte of a leaf changed, by each of two bits: which number the region gives, plain and keyed."""
        record = CALL[:5]
        for key in (None, OURS):
            leaf = leaf_of(record, key)
            for bit, lengths in ((1, (3, 3, 11, 11)), (64, (3, 3, 3, 11))):
                changed = [leaf[:place] + bytes([leaf[place] ^ bit]) + leaf[place + 1:] for place in range(len(leaf))]
                wanted = [11] + [18] * 32 + list(lengths) + [18] * len(record)
                self.assertEqual(self.numbers(changed, *self.keys[key]), wanted)
                self.assertEqual([read_stored(data, **by(key)).number for data in changed], wanted)

    def test_edited(self):
        """What the technician did: the record, or the digest, or both to a true pair, which nobody can tell."""
        other, longer = CALL.replace(b"no goal", b"a  goal"), CALL + b"goal"
        for key in (None, OURS):
            leaf, words = leaf_of(CALL, key), self.keys[key]
            self.lies(other, leaf[:RECORD] + other, *words, key=key)
            self.lies(CALL, leaf[:DIGEST] + bytes.fromhex(of(other, key)) + leaf[LENGTH:], *words, key=key)
            self.lies(longer, leaf[:LENGTH] + len(longer).to_bytes(4, "big") + longer, *words, key=key)
            self.lies(b"", leaf[:LENGTH] + bytes(4), *words, key=key)
            self.lies(CALL, b"\1" + bytes(32) + leaf[LENGTH:], *words, key=key)
            for record in (other, longer, b""):
                said = f"leaf: digest {of(record, key)}, a record of {len(record)} bytes\n".encode()
                self.assertEqual(self.done("node", *words, given=leaf_of(record, key)), said)

    def test_lengths(self):
        """One bit of the record, at its ends and on both sides of a chunk's; and one of the digest."""
        for length in (1, 1024, 1025, LONGEST_RECORD):
            record = counting_bytes(length)
            leaf = leaf_of(record)
            for place in {0, 63, 1023, 1024, length - 1} & set(range(length)):
                self.lies(flipped(record, place), flipped(leaf, RECORD + place))
        for length in LENGTHS:
            self.lies(counting_bytes(length), flipped(leaf_of(counting_bytes(length), OURS), DIGEST + 31), *self.keys[OURS], key=OURS)

    def test_keys(self):
        """A leaf is one under its own key: under another, and under none, it gets 18; and so does a plain one under a key."""
        for record, written, read in itertools.product((b"", CALL), self.keys, self.keys):
            leaf = leaf_of(record, written)
            if written == read:
                self.assertEqual(self.numbers([leaf], *self.keys[read]), [0])
            else:
                self.lies(record, leaf, *self.keys[read], key=read)
        inner = stored_inner(digest_by(OURS)(CALL))
        for words in self.keys.values():
            self.assertEqual(self.numbers([inner, stored_inner(bytes(32))], *words), [0, 0])

    def test_forms(self):
        """11 and 3 come before 18: too short, too long, an unknown flag, a stated length that is not there; the digest is a lie in all of them."""
        leaf, inner = b"\1" + bytes(32) + len(CALL).to_bytes(4, "big") + CALL, stored_inner(bytes(32))
        longest = b"\1" + bytes(32) + LONGEST_RECORD.to_bytes(4, "big") + bytes(LONGEST_RECORD)
        datas = {b"": 11, b"\0": 11, b"\1": 11, bytes(32): 11, inner: 0, inner + b"\0": 11, inner[:-1]: 11, b"\2" + inner[1:]: 11,
                 b"\xff" + leaf[1:]: 11, leaf[:33]: 11, leaf[:36]: 11, leaf[:-1]: 11, leaf + b"\0": 11, leaf: 18, leaf[:37]: 11, longest: 18,
                 longest[:-1]: 11, longest + b"\0": 11, longest + bytes(100000): 11,
                 leaf[:33] + b"\0\0\x40\1": 3, leaf[:33] + b"\0\0\x40\1" + bytes(LONGEST_RECORD + 1): 3,
                 leaf[:33] + b"\xff" * 4: 3, leaf[:33] + b"\xff" * 100000: 3, leaf[:33] + b"\0\0\x40\0": 11, b"\0" * 200000: 11, leaf * 2: 11,
                 leaf[:33] + b"\0\0\x40\1"[:3]: 11, leaf[:33] + bytes(4): 18, inner + leaf: 11}
        self.assertEqual(self.numbers(list(datas)), list(datas.values()))
        self.assertEqual(self.numbers(list(datas), *self.keys[OURS]), list(datas.values()))
        self.assertEqual([read_stored(data).number for data in datas], list(datas.values()))
        for data, number in list(datas.items())[:22]:
            if number not in (0, 18):
                self.refused(number, "node", given=data)

    def test_vectors(self):
        """The nodes of vectors/: number, kind, digest and record."""
        cases = [case for case in json.loads((TOP / "vectors" / "stored.json").read_text())["cases"] if case["call"] == "read_node"]
        self.assertGreater(len(cases), 20)
        for case, node in zip(cases, self.look([joined(case["given"]["node"]) for case in cases])):
            answer = case["answer"]
            wanted = {"number": answer["number"]} if answer["number"] else {name: answer[name] for name in ("kind", "digest")}
            self.assertEqual({name: node.get(name) for name in wanted}, wanted, case["name"])
            if answer.get("kind") == "leaf":
                self.assertEqual(bytes.fromhex(node["record"]), joined(answer["record"]), case["name"])

    def test_by_chance(self):
        """Leaves with some bytes changed, cut, or put together: the second program's number for each, and its record."""
        chance, datas = random.Random(7), []
        for _ in range(400 if CHECKED else 100):
            data = bytearray(leaf_of(run_record(chance.randrange(99), chance.choice((0, 1, 5, 64, 300))), chance.choice((None, OURS))))
            for _ in range(chance.randrange(3)):
                data[chance.choice((chance.randrange(len(data)), chance.randrange(min(len(data), 38)))) % len(data)] = chance.randrange(256)
            if chance.random() < 0.2:
                data = data[:chance.randrange(len(data))]
            datas.append(bytes(data) + (b"x" if chance.random() < 0.1 else b""))
        for key in (None, OURS):
            wanted = [read_stored(data, **by(key)) for data in datas]
            nodes = self.look(datas, *self.keys[key])
            self.assertEqual([node.get("number", 0) for node in nodes], [each.number for each in wanted])
            self.assertEqual([node.get("record") for node in nodes], [each.record.hex() if each.kind == "leaf" else None for each in wanted])
            self.assertEqual({each.number for each in wanted}, {0, 3, 11, 18})


class Many(NodeTest):
    def setUp(self):
        super().setUp()
        self.lie = flipped(leaf_of(CALL), RECORD + 3)
        self.paths = self.files_of([leaf_of(CALL), stored_inner(bytes(range(32))), self.lie, leaf_of(b""), CALL])
        self.said = [f"{self.paths[0]}: leaf: digest {of(CALL)}, a record of {len(CALL)} bytes",
                     f"{self.paths[1]}: inner: digest {bytes(range(32)).hex()}, taken as it stands",
                     f"{self.paths[2]}: refused, number 18: {MEANING[18]}",
                     f"  in the leaf    {of(CALL)}", f"  of its record  {of(self.lie[RECORD:])}",
                     f"{self.paths[3]}: leaf: digest {of(b'')}, a record of 0 bytes", f"{self.paths[4]}: refused, number 11: {MEANING[11]}"]

    def test_lines(self):
        """One lies among them: its line says so, the others have theirs, and the status is 1."""
        said = self.done("node", *self.paths[:2]).decode().splitlines()
        self.assertEqual(said, self.said[:2] + ["2 stored nodes: 2 accepted, 0 refused, 0 not read"])
        ran = keeper("node", *self.paths)
        self.assertEqual((ran.returncode, ran.stderr), (1, b""))
        self.assertEqual(ran.stdout.decode().splitlines(), self.said + ["5 stored nodes: 3 accepted, 2 refused, 0 not read"])

    def test_what_cannot_be_read(self):
        """A folder, a missing file, a link to nowhere: said, those beside them are looked at, and the status is 2."""
        nowhere = self.folder / "nowhere"
        nowhere.symlink_to("missing")
        others = {self.folder: "Is a directory", self.folder / "missing": "No such file or directory", nowhere: "No such file or directory",
                  self.paths[0] / "x": "Not a directory"}
        ran = keeper("node", self.paths[0], *others, self.paths[2], "")
        self.assertEqual((ran.returncode, ran.stderr), (2, b""))
        not_read = [f"{path}: not read: {why}" for path, why in others.items()]
        self.assertEqual(ran.stdout.decode().splitlines(), self.said[:1] + not_read + self.said[2:5] + [
            ": not read: No such file or directory", "7 stored nodes: 1 accepted, 1 refused, 5 not read"])
        for path, why in others.items():
            self.failed(f"cannot read {path}: {why}", "node", path, "--record", self.out)
            answer = self.object(2, "node", path)
            self.assertEqual((answer["nodes"], answer["unread_count"]), ([{"file": str(path), "error": why}], 1))
            self.assertIn(why, answer["error"])
        self.assertFalse(self.out.exists())
        answer = self.object(2, "node", self.paths[1], self.folder, self.paths[2])
        self.assertEqual([answer[name] for name in ("accepted_count", "refused_count", "unread_count")], [1, 1, 1])
        self.assertEqual(answer["nodes"][1], {"file": str(self.folder), "error": "Is a directory"})

    def test_pipes_links_and_devices(self):
        """What can be read is read, and no further than a node can be long: an input that has no end is refused."""
        pipe, link = self.folder / "pipe", self.folder / "link"
        os.mkfifo(pipe)
        link.symlink_to(self.paths[0])
        writer = threading.Thread(target=pipe.write_bytes, args=(leaf_of(CALL),), daemon=True)
        writer.start()
        said = self.done("node", pipe, link, timeout=60).decode().splitlines()
        writer.join(10)
        self.assertEqual(said[:2], [self.said[0].replace(str(self.paths[0]), str(path)) for path in (pipe, link)])
        said = self.ran(1, "", "node", "/dev/zero", "/dev/null", self.paths[1], timeout=60).decode().splitlines()
        self.assertEqual(said, [f"{path}: refused, number 11: {MEANING[11]}" for path in ("/dev/zero", "/dev/null")] + self.said[1:2]
                         + ["3 stored nodes: 1 accepted, 2 refused, 0 not read"])
        with open("/dev/zero", "rb") as zeros:
            ran = subprocess.run([KEEPER, "node"], stdin=zeros, capture_output=True, check=False, timeout=60)
        self.assertEqual((ran.returncode, ran.stdout), (1, b""))

    def test_senders_that_never_end(self):
        """A pipe that always has more: the number of its first bytes, without waiting for the end of the others."""
        for start, number in ((leaf_of(bytes(LONGEST_RECORD)), 11), (b"\1" * 37, 3), (b"\2", 11)):
            words = ["sh", "-c", '(cat "$1"; exec cat /dev/zero) | "$0" node', KEEPER, self.file("start", start)]
            ran = subprocess.run(words, capture_output=True, check=False, timeout=60)
            self.assertEqual((ran.returncode, ran.stdout), (1, b""))
            self.assertIn(f"number {number}:".encode(), ran.stderr)

    def test_standard_input(self):
        leaf, dash = leaf_of(CALL), self.file("-", stored_inner(bytes(32)))
        words = self.said[0].replace(f"{self.paths[0]}: ", "")
        for named in ((), ("-",), ("--", "-")):
            self.assertEqual(self.done("node", *named, given=leaf, cwd=self.folder).decode(), words + "\n")
        self.assertEqual(self.done("node", "./-", "-", given=leaf, cwd=self.folder).decode().splitlines()[1], f"-: {words}")
        self.assertEqual(self.done("node", dash).decode(), f"inner: digest {'00' * 32}, taken as it stands\n")
        self.failed("wrong use: - is standard input, which is read once, and it is named 2 times", "node", "-", "./-", "-", cwd=self.folder)
        for named in ((), ("-",), (self.paths[0], "-"), ("--leaf",), ("--leaf", "-")):
            self.failed("standard input cannot be the key and something else too", "node", *named, "--key", "-", given=OURS)
        keyed = self.file("keyed", leaf_of(CALL, OURS))
        self.assertEqual(self.done("node", keyed, "--key", "-", given=OURS).decode(), words.replace(of(CALL), of(CALL, OURS)) + "\n")
        self.assertEqual(self.done("node", "--leaf", self.file("call", CALL), "--key", "-", given=OURS), keyed.read_bytes())
        self.assertEqual(self.done("node", "--inner", "ab" * 32, "--key", "-", given=OURS), stored_inner(b"\xab" * 32))

    def test_names(self):
        """Any bytes in a name, as digest has them; what is no text is shown as question marks on a terminal."""
        odd = [self.folder / name for name in ("new\nline", "back\\slash", "a\x1b[2Kb", "\udcff.", "ärger")]
        for path in odd:
            path.write_bytes(leaf_of(CALL))
        wanted = [os.fsencode(f"\\{self.folder}/new\\nline"), os.fsencode(f"\\{self.folder}/back\\\\slash"), *map(os.fsencode, odd[2:])]
        said = self.done("node", *odd).splitlines()
        self.assertEqual([line.split(b": leaf: ")[0] for line in said[:-1]], wanted)
        said, status = Run(self, "node", *odd, output=True).end()
        self.assertEqual(status, 0)
        for shown in (b"/new\\nline: leaf", b"/a?[2Kb: leaf", b"/?.: leaf", "/ärger: leaf".encode()):
            self.assertIn(shown, said)
        self.assertNotIn(b"\x1b", said)
        said, status = Run(self, "node", self.folder / "no\x1b[2Kne", output=True).end()
        self.assertEqual((status, b"\x1b" in said), (2, False))
        self.assertIn(b"no?[2Kne: No such file", said)


class HandedOut(NodeTest):
    def setUp(self):
        super().setUp()
        self.leaf, self.record = self.file("leaf", leaf_of(CALL)), CALL

    def hands_out(self, path, given=b""):
        """The record goes there, where a new file is to have the mode 644."""
        said = f"leaf: digest {of(CALL)}, a record of {len(CALL)} bytes\n".encode()
        words = () if given else (self.leaf,)
        self.assertEqual(self.done("node", *words, "--record", path, given=given, preexec_fn=lambda: os.umask(0o022)), said)

    def names(self):
        return sorted(path.name for path in self.folder.iterdir())

    def test_places(self):
        """A new file, one that is there, through a link, a pipe, a device; standard output."""
        names = self.names()
        for given in (b"", leaf_of(CALL)):
            self.hands_out(self.out, given)
            self.assertEqual((self.out.read_bytes(), self.out.stat().st_mode & 0o7777), (CALL, 0o644))
            self.out.unlink()
        for mode in (0o600, 0o640, 0o666):
            self.out.write_bytes(bytes(100000))
            self.out.chmod(mode)
            self.hands_out(self.out)
            self.assertEqual((self.out.read_bytes(), self.out.stat().st_mode & 0o7777), (CALL, mode))
        link = self.folder / "link"
        link.symlink_to("out")
        self.out.write_bytes(b"before")
        self.hands_out(link)
        self.assertEqual((self.out.read_bytes(), os.readlink(link)), (CALL, "out"))
        self.hands_out(f"{self.folder}/../{self.folder.name}/new")
        self.assertEqual((self.folder / "new").read_bytes(), CALL)
        self.assertEqual(self.done("node", self.leaf, "--record", "-"), CALL)
        self.assertEqual(self.done("node", "--record=-", given=leaf_of(b"")), b"")
        pipe = self.folder / "pipe"
        os.mkfifo(pipe)
        with os.fdopen(os.open(pipe, os.O_RDONLY | os.O_NONBLOCK), "rb") as reader:
            self.hands_out(pipe)
            self.assertEqual(reader.read(), CALL)
        side, end = pty.openpty()
        self.hands_out(os.ttyname(end))
        self.assertEqual(os.read(side, 1000), CALL.replace(b"\n", b"\r\n"))
        os.close(side)
        os.close(end)
        self.assertEqual(self.names(), sorted(names + ["link", "new", "out", "pipe"]))

    def test_no_record(self):
        """An inner node has none; a refused one hands none out: nothing is made, what is there stays, and nothing goes to standard output."""
        inner, lie = self.file("inner", stored_inner(bytes(32))), self.file("lie", flipped(leaf_of(CALL), RECORD))
        kept, names = self.file("kept", b"kept"), self.names()
        before = self.unchanged(kept)
        for place in (self.out, kept, "-"):
            self.failed("an inner node has no record: nothing was handed out", "node", inner, "--record", place)
            for words, number in (((lie,), 18), ((self.leaf, *self.keys[OURS]), 18), ((self.file("lie2", CALL),), 11)):
                self.refused(number, "node", *words, "--record", place)
            (self.folder / "lie2").unlink()
        answer = self.object(2, "node", inner, "--record", self.out)
        self.assertEqual((answer["nodes"][0]["kind"], "has no record" in answer["error"]), ("inner", True))
        self.assertNotIn(CALL.hex(), json.dumps(self.object(1, "node", lie, "--record", self.out)))
        self.assertEqual((self.unchanged(kept), self.names()), (before, names))

    def test_not_written_over(self):
        """A log, what is kept beside it, the key, and the node itself, by another name too."""
        self.done("append", self.log, "--keep-records", given=b"call")
        again, key = self.folder / "again", self.folder / "ours.key"
        os.link(self.leaf, again)
        keyed = self.file("keyed", leaf_of(CALL, OURS))
        for path, words, given in ((self.log, (self.leaf,), b""), (self.folder / "log.records", (self.leaf,), b""),
                                   (self.folder / "log.index", (), leaf_of(CALL)), (self.leaf, (self.leaf,), b""),
                                   (again, (self.leaf,), b""), (key, (keyed, "--key", key), b"")):
            before = self.unchanged(path)
            self.failed("is not written over", "node", *words, "--record", path, given=given)
            self.assertEqual(self.unchanged(path), before)
        with open(self.leaf, "rb") as given:
            ran = subprocess.run([KEEPER, "node", "--record", self.leaf], stdin=given, capture_output=True, check=False)
        self.assertEqual((ran.returncode, self.leaf.read_bytes()), (2, leaf_of(CALL)))
        self.assertIn(b"the stored node itself", ran.stderr)

    def test_places_that_cannot_be(self):
        for place, why in ((self.folder, "Is a directory"), (self.folder / "no" / "file", "No such file"), (self.leaf / "file", "Not a directory"),
                           ("", "No such file"), *FULL):
            self.failed(f"cannot write {place}: {why}", "node", self.leaf, "--record", place)
        nowhere = self.folder / "nowhere"
        nowhere.symlink_to("missing")
        self.failed("File exists", "node", self.leaf, "--record", nowhere)
        self.assertFalse((self.folder / "missing").exists())

    def test_full_disk(self):
        """No part of a record is left where not all of it can be written: no file, or the one that was there."""
        leaf, kept = self.file("long", leaf_of(bytes(LONGEST_RECORD))), self.file("kept", b"kept")
        before, names = self.unchanged(kept), self.names()
        for place in (self.out, kept):
            self.failed(f"cannot write {place}", "node", leaf, "--record", place,
                        preexec_fn=lambda: resource.setrlimit(resource.RLIMIT_FSIZE, (5000, 5000)))
            self.assertEqual((self.unchanged(kept), self.names()), (before, names))

    @unittest.skipIf(os.geteuid() == 0, "root may write any file")
    def test_not_allowed(self):
        kept = self.file("kept", b"kept")
        kept.chmod(0o400)
        self.failed("Permission denied", "node", self.leaf, "--record", kept)
        self.assertEqual(kept.read_bytes(), b"kept")

    def test_on_a_terminal(self):
        """Text goes there, and what is none does not."""
        self.assertEqual(Run(self, "node", self.leaf, "--record", "-", output=True).end(), (CALL.replace(b"\n", b"\r\n"), 0))
        said, status = Run(self, "node", self.file("bytes", leaf_of(b"goal\x1b[2K")), "--record", "-", output=True).end()
        self.assertEqual((status, b"\x1b" in said, b"goal" in said), (2, False, False))
        self.assertIn(b"the record is no text", said)


class Objects(NodeTest):
    def test_written(self):
        record = {"record_length": len(CALL), "record": CALL.hex(), "record_text": CALL.decode()}
        for key in (None, OURS):
            self.assertEqual(self.object(0, "node", "--leaf", *self.keys[key], given=CALL), {
                "command": "node", "keyed": key is not None, "kind": "leaf", "digest": of(CALL, key), "node": leaf_of(CALL, key).hex(), **record,
                "status": 0})
        self.assertEqual(self.object(0, "node", "--inner", "AB" * 32), {
            "command": "node", "keyed": False, "kind": "inner", "digest": "ab" * 32, "node": "00" + "ab" * 32, "status": 0})

    def test_read(self):
        leaf = {"file": "-", "accepted": True, "kind": "leaf", "digest": of(b"\xff"), "record_length": 1, "record": "ff"}
        counts = {"accepted_count": 1, "refused_count": 0, "unread_count": 0}
        self.assertEqual(self.object(0, "node", given=leaf_of(b"\xff")), {"command": "node", "keyed": False, "nodes": [leaf], **counts, "status": 0})
        self.assertEqual(self.object(0, "node", "-", *self.keys[OURS], given=stored_inner(bytes(32)))["nodes"],
                         [{"file": "-", "accepted": True, "kind": "inner", "digest": "00" * 32}])
        answer = self.object(1, "node", given=flipped(leaf_of(CALL), RECORD))
        refusal = {name: answer[name] for name in ("number", "meaning", "advice")}
        self.assertEqual(answer, {"command": "node", "keyed": False, "nodes": [{
            "file": "-", "accepted": False, **refusal, "leaf_digest": of(CALL), "record_digest": of(flipped(CALL, 0))}],
            "accepted_count": 0, "refused_count": 1, "unread_count": 0, **refusal, "status": 1})
        paths = self.files_of([leaf_of(b"\xff"), b"", stored_inner(bytes(32))])
        answer = self.object(1, "node", *paths)
        self.assertEqual([(node["file"], node["accepted"], node.get("kind", node.get("number"))) for node in answer["nodes"]],
                         [(str(paths[0]), True, "leaf"), (str(paths[1]), False, 11), (str(paths[2]), True, "inner")])
        self.assertNotIn("number", answer)
        self.object(0, "node", paths[0], "--record", self.out)
        self.assertEqual(self.out.read_bytes(), b"\xff")


class Use(NodeTest):
    def test_wrong(self):
        leaf = self.file("leaf", leaf_of(CALL))
        for words, why in ((("--leaf", "--inner", "ab" * 32), "--leaf and --inner do not go together"),
                           (("--leaf", leaf, leaf), "--leaf takes one record"), (("--inner",), "a word is missing behind --inner"),
                           (("--inner", "ab" * 32, leaf), "--inner takes a digest and nothing else"),
                           (("--inner", "ab", "--inner", "ab"), "--inner is given twice"),
                           (("--leaf", "--record", self.out), "hands out the record of a node"),
                           (("--inner", "ab" * 32, "--record", self.out), "hands out the record of a node"), (("--leaf=1",), "--leaf takes no value"),
                           ((leaf, leaf, "--record", self.out), "--record goes with one stored node, and there are 2"),
                           ((leaf, "--size", "1"), "node takes no --size"),
                           ((leaf, "--quiet"), "node takes no --quiet"), ((leaf, "--records-to", self.folder), "node takes no --records-to")):
            self.failed(why, "node", *words)
        self.assertIn("wrong use", self.object(2, "node", "--leaf", "--inner", "00")["error"])
        self.assertIn("cannot both go to standard output", self.object(2, "node", leaf, "--record", "-")["error"])
        for words in (("digest", "--leaf"), ("check", 1, "00", "--inner", "00"), ("letter", self.log, 0, "--leaf")):
            self.failed("wrong use", *words)
        self.assertFalse(self.out.exists())
        self.assertIn(b"keeper node --leaf", self.done("node", "--help"))

    def test_keys_that_are_none(self):
        """24, before any other number, and nothing goes out."""
        leaf, short = self.file("leaf", leaf_of(CALL)), self.file("short", OURS[:31])
        for words in ((leaf,), (leaf, leaf), (leaf, "--record", self.out), ("--leaf", leaf), ("--inner", "ab"), ("--leaf", "--inner", "ab"),
                      (self.folder,)):
            self.refused(24, "node", *words, "--key", short)
        self.assertFalse(self.out.exists())

    def test_streams(self):
        """Standard input that is closed; an answer, a node or a record that cannot be written."""
        leaf, call = self.file("leaf", leaf_of(CALL)), self.file("call", CALL)
        for words in ((), (leaf, "-"), ("--leaf",)):
            ran = subprocess.run(["sh", "-c", '"$0" node "$@" <&-', KEEPER, *words], capture_output=True, check=False)
            self.assertEqual(ran.returncode, 2)
            self.assertIn(b"it is closed", ran.stderr + ran.stdout)
        for words in ((leaf,), (leaf, leaf), (leaf, "--json"), (leaf, "--record", "-"), ("--leaf", call), ("--leaf", call, "--json"),
                      ("--inner", "ab" * 32)):
            for closed, why in ((">&-", b"Bad file descriptor"), (">/dev/full", b"No space left on device")):
                ran = subprocess.run(["sh", "-c", f'"$0" node "$@" {closed}', KEEPER, *words], capture_output=True, check=False)
                self.assertEqual((ran.returncode, ran.stderr), (2, b"keeper: cannot write to standard output: " + why + b"\n"), words)
        ran = subprocess.run(["sh", "-c", '"$0" node "$@" <&- 2>&-', KEEPER, leaf], capture_output=True, check=False)
        self.assertEqual((ran.returncode, ran.stdout[:13]), (0, b"leaf: digest "))

    def test_asked_to_stop(self):
        """A signal before the node is whole ends it, and nothing is made."""
        words = [KEEPER, "node", "--record", self.out]
        with subprocess.Popen(words, stdin=subprocess.PIPE, stdout=subprocess.PIPE, stderr=subprocess.PIPE) as reader:
            self.addCleanup(reader.kill)
            reader.stdin.write(leaf_of(CALL)[:20])
            reader.stdin.flush()
            reader.send_signal(signal.SIGTERM)
            out, _ = reader.communicate()
        self.assertEqual((out, self.out.exists()), (b"", False))
        self.assertNotEqual(reader.returncode, 0)

    def test_of_a_log(self):
        """A stored leaf has the digest that the log has for its record, and a stored inner node is any of the log's others."""
        self.done("append", self.log, "--stream", given=b"".join(len(record).to_bytes(4, "big") + record for record in RECORDS[3:5]))
        nodes = self.log.read_bytes()[8192:]
        for place, record in ((0, RECORDS[3]), (1, RECORDS[4])):
            self.assertEqual(self.done("node", "--leaf", given=record)[DIGEST:LENGTH], nodes[32 * place:32 * place + 32])
        self.assertEqual(self.done("node", "--inner", nodes[64:96].hex()), stored_inner(digest_by(None)(nodes[:64])))


if __name__ == "__main__":
    unittest.main()
