"""Digests of files of any length, in b3sum's format; lists of them taken back: what is as listed, what is not, and lines that are none.

What is wanted is BLAKE3's published figures, what the second program works out, what b3sum has worked out (LONG), and where it is installed what it
says now.
"""
import json
import os
import select
import shutil
import signal
import subprocess
import threading
import unittest
from pathlib import Path

from harness import KEEPER, TOP, HostTest, digest_by, flipped, keeper
from expected.given import KEYS  # behind harness, which says where the second program lies
from test_progress import Run

KEY = KEYS[0]
PUBLISHED = [line.split() for line in (TOP / "vectors" / "blake3-published.txt").read_text().splitlines() if not line.startswith("#")]
# by b3sum 1.2.0, of counting bytes: length, plain, keyed by KEY
LONG = (
    (1048577, "2f053cd7472cf0cd2f9adaf45c1180255b91b9a865404a63671a0ee5f792ed33", "a0c8e093827da3e07e22fa684eb60fc1600cf44c5036c80fb0b587d0f39ef421"),
    (3158073, "ce1148523b8586723c3fd8b1fe92fe16394888a360c96965bf3b1900421f3e19", "98a38f377bf594f39fee5b1605620ead59b2d8aadc3e98cbb1baed11c17feb33"))
MOST = 2**40
# names with bytes that a line, a shell or a terminal would trip over, and how a line has them
ODD = {"plain": "plain", " two  spaces ": " two  spaces ", "back\\slash": "\\\\", "new\nline": "\\n", "return\r": "\\r", "\\n": "\\\\n",
       "\r\n\\": "\\r\\n\\\\", "a\tb\x1b[2K\x7f": "\x1b", "\udcff\udc80.": "\udcff\udc80.", "ärger": "ä", "-x": "-x", "#": "#", "'\"$(x)": "'"}


def counting_bytes(length):
    """The input of the published figures: byte i is i mod 251."""
    return (bytes(range(251)) * (length // 251 + 1))[:length]


def of(data, key=None):
    """The second program's digest, in digits."""
    return digest_by(key)(data).hex()


def marked(name):
    """A name as a line has it, and the backslash before the line where one is needed."""
    text = name.replace("\\", "\\\\").replace("\n", "\\n").replace("\r", "\\r")
    return "\\" if text != name else "", text


def line_of(name, data, key=None):
    """The line of a file."""
    mark, text = marked(name)
    return os.fsencode(f"{mark}{of(data, key)}  {text}\n")


def said_of(name, word="OK"):
    """What is said of a file that is listed."""
    mark, text = marked(name)
    return os.fsencode(f"{mark}{text}: {word}\n")


class DigestTest(HostTest):
    def setUp(self):
        super().setUp()
        self.key = self.file("key", KEY)
        self.files = self.folder / "files"
        self.files.mkdir()

    def given(self, name, data):
        """A file to be read, in a folder of its own."""
        (self.files / name).write_bytes(data)
        return name

    def digests(self, *words, given=b"", **options):
        """What the host writes of files in that folder, without a word beside it."""
        return self.done("digest", *words, given=given, cwd=self.files, **options)

    def check(self, status, lines, *words, said=b""):
        """A list of these lines, on standard input and as a file: the status, and what is said of the files."""
        for where in ((), (self.file("list", lines),)):
            ran = keeper("digest", "--check", *words, *where, given=lines, cwd=self.files)
            self.assertEqual((ran.returncode, ran.stdout), (status, said), ran.stderr)
            self.assertEqual(ran.stderr == b"", status == 0, ran.stderr)
        return ran.stderr


class Digests(DigestTest):
    def test_published(self):
        for place, words in ((1, ()), (2, ("--key", self.key))):
            names = [self.given(length, counting_bytes(int(length))) for length, *_ in PUBLISHED]
            self.assertEqual(self.digests(*words, *names), "".join(f"{figures[place]}  {figures[0]}\n" for figures in PUBLISHED).encode())
        self.assertGreater(len(PUBLISHED), 20)

    def test_lengths(self):
        """Around a chunk, four of them, and what is read at once; as files and on standard input."""
        datas = {str(length): counting_bytes(length) for length in (62, 66, 1022, 4095, 65535, 65536, 65537)}
        for name, data in datas.items():
            self.given(name, data)
        for key, words in ((None, ()), (KEY, ("--key", self.key))):
            self.assertEqual(self.digests(*words, *datas), b"".join(line_of(name, data, key) for name, data in datas.items()))
            for length in ("4095", "65536", "65537"):
                self.assertEqual(self.digests(*words, given=datas[length]), line_of("-", datas[length], key), length)

    def test_long(self):
        """Longer than what is held of a file: as files, and by pipes in odd pieces."""
        for length, plain, keyed in LONG:
            data = counting_bytes(length)
            self.assertEqual(self.digests(self.given("file", data), "-", given=data), f"{plain}  file\n{plain}  -\n".encode())
            self.assertEqual(self.digests("--key", self.key, "file"), f"{keyed}  file\n".encode())
            with subprocess.Popen([KEEPER, "digest"], stdin=subprocess.PIPE, stdout=subprocess.PIPE) as reader:
                at, pieces = 0, (1, 63, 1500, 65535, 2, 70001, 1024, 300000)
                for turn in range(length):
                    reader.stdin.write(data[at:at + pieces[turn % len(pieces)]])
                    reader.stdin.flush()
                    at += pieces[turn % len(pieces)]
                    if at >= length:
                        break
                self.assertEqual((reader.communicate()[0], reader.returncode), (f"{plain}  -\n".encode(), 0))

    def test_what_can_be_read(self):
        """A pipe that has a name, a link, a device; standard input from where it stands on."""
        pipe, data = self.files / "pipe", counting_bytes(100000)
        os.mkfifo(pipe)
        writer = threading.Thread(target=pipe.write_bytes, args=(data,))
        writer.start()
        self.assertEqual(self.digests("pipe"), line_of("pipe", data))
        writer.join()
        (self.files / "link").symlink_to(self.given("file", data))
        self.assertEqual(self.digests("link", "/dev/null"), line_of("link", data) + line_of("/dev/null", b""))
        with open(self.files / "file", "rb") as file:
            os.lseek(file.fileno(), 99990, os.SEEK_SET)
            ran = subprocess.run([KEEPER, "digest"], stdin=file, capture_output=True, check=False)
        self.assertEqual((ran.returncode, ran.stdout, ran.stderr), (0, line_of("-", data[99990:]), b""))

    def test_standard_input(self):
        self.given("-", b"a file of that name")
        for words in ((), ("-",), ("--", "-")):
            self.assertEqual(self.digests(*words, given=b"input"), line_of("-", b"input"))
        self.assertEqual(self.digests("./-", "-", given=b"input"), line_of("./-", b"a file of that name") + line_of("-", b"input"))
        self.failed("wrong use: - is standard input, which is read once, and it is named 2 times", "digest", "-", "./-", "-", cwd=self.files)
        for words in ((), ("-",), ("./-", "-"), ("--check",), ("--check", "-")):
            self.failed("standard input cannot be the key and something else too", "digest", *words, "--key", "-", given=KEY, cwd=self.files)
        self.assertEqual(self.digests("./-", "--key", "-", given=KEY), line_of("./-", b"a file of that name", KEY))

    def test_names(self):
        """Any bytes in a name, as they are but for those that end a line; and the list is taken back."""
        lines = b"".join(line_of(self.given(name, os.fsencode(name)), os.fsencode(name)) for name in ODD)
        self.assertEqual(self.digests("--", *ODD), lines)
        for name, part in ODD.items():
            self.assertIn(os.fsencode(part), line_of(name, b""))
        self.assertEqual(lines.count(b"\n"), len(ODD))
        self.check(0, lines, said=b"".join(map(said_of, ODD)))
        answer = self.object(0, "digest", *(self.files / name for name in ODD))
        self.assertEqual([each["digest"] for each in answer["files"]], [of(os.fsencode(name)) for name in ODD])

    def test_on_a_terminal(self):
        """What is no text is shown as question marks there."""
        name = "a\x1b[2Kä\nb"
        run = Run(self, "digest", self.files / self.given(name, b"x"), output=True)
        self.assertEqual(run.end(), (os.fsencode(f"\\{of(b'x')}  {self.files}/a?[2K??\\nb\r\n"), 0))
        run = Run(self, "digest", self.files / self.given("ärger", b"x"), output=True)
        self.assertEqual(run.end(), (os.fsencode(f"{of(b'x')}  {self.files}/ärger\r\n"), 0))


class Unread(DigestTest):
    def test_others_are_done(self):
        """What cannot be read is named, what stands beside it is done, and the status says so."""
        first, last = self.given("first", b"1"), self.given("last", b"2")
        (self.files / "nowhere").symlink_to("missing")
        ran = keeper("digest", first, ".", "missing", "nowhere", "first/x", "", last, cwd=self.files)
        self.assertEqual((ran.returncode, ran.stdout), (2, line_of("first", b"1") + line_of("last", b"2")))
        self.assertEqual(ran.stderr.splitlines(), [b"keeper: cannot read " + why for why in (
            b".: Is a directory", b"missing: No such file or directory", b"nowhere: No such file or directory", b"first/x: Not a directory",
            b": No such file or directory")])
        answer = self.object(2, "digest", self.files / "first", self.files)
        self.assertEqual(answer["files"], [{"file": f"{self.files}/first", "length": 1, "digest": of(b"1")},
                                           {"file": str(self.files), "error": "Is a directory"}])
        self.assertEqual([answer[name] for name in ("digest_count", "refused_count", "unread_count", "keyed")], [1, 0, 1, False])

    @unittest.skipIf(os.geteuid() == 0, "root may read any file")
    def test_not_allowed(self):
        (self.files / self.given("file", b"x")).chmod(0)
        self.failed("cannot read file: Permission denied", "digest", "file", cwd=self.files)

    def test_too_long(self):
        """17 in words, by a file's length, without its being read; what stands beside it is done."""
        with open(self.files / "long", "wb") as file:
            try:
                os.truncate(file.fileno(), MOST + 1)
            except OSError:
                self.skipTest("no file can be so long here")
        self.given("short", b"x")
        longer = "long refused, number 17: the input is longer than 1,099,511,627,776 bytes"
        self.assertEqual(self.ran(1, longer, "digest", "long", "short", cwd=self.files, timeout=60), line_of("short", b"x"))
        self.ran(2, "long refused, number 17", "digest", "long", "missing", cwd=self.files)
        with open(self.files / "long", "rb") as file:
            ran = subprocess.run([KEEPER, "digest"], stdin=file, capture_output=True, check=False)
        self.assertEqual((ran.returncode, ran.stdout), (1, b""))
        self.assertIn(b"standard input refused, number 17", ran.stderr)
        answer = self.object(1, "digest", self.files / "long", self.files / "short")
        self.assertEqual((answer["files"][0]["number"], answer["refused_count"], answer["digest_count"]), (17, 1, 1))
        why = "FAILED (number 17: the input is longer than 1,099,511,627,776 bytes)"
        said = self.check(1, line_of("long", b"x") + line_of("short", b"x"), said=said_of("long", why) + said_of("short"))
        self.assertIn(b"digest refused, number 17", said)
        self.check(2, line_of("long", b"x") + line_of("short", b""), said=said_of("long", why) + said_of("short", "FAILED"))

    def test_streams(self):
        """Standard input that is closed; an answer that cannot be written, whole or line by line."""
        self.given("file", b"x")
        for closed, word in (("<&-", b"cannot read standard input: it is closed"), (">&-", b"cannot write to standard output: Bad file descriptor"),
                             (">/dev/full", b"cannot write to standard output: No space left on device")):
            for words in ("digest", "digest --check", "digest --json") + (("digest file file", "digest --check list") if "<" not in closed else ()):
                self.given("list", line_of("file", b"x"))
                given = line_of("file", b"x")
                ran = subprocess.run(["sh", "-c", f'"$0" {words} {closed}', KEEPER], input=given, capture_output=True, check=False, cwd=self.files)
                self.assertEqual(ran.returncode, 2, (words, closed))
                self.assertIn(word, ran.stderr, words)
        ran = subprocess.run(["sh", "-c", '"$0" digest file <&- 2>&-', KEEPER], capture_output=True, check=False, cwd=self.files)
        self.assertEqual((ran.returncode, ran.stdout), (0, line_of("file", b"x")))

    def test_reader_that_is_gone(self):
        """A pipe that nobody waits at is not read when there is nobody to tell it to."""
        into, out = os.pipe()
        os.close(into)
        os.mkfifo(self.files / "pipe")
        with os.fdopen(out, "wb") as gone:
            words = [KEEPER, "digest", self.given("file", b"x"), "pipe"]
            ran = subprocess.run(words, stdout=gone, stderr=subprocess.PIPE, check=False, cwd=self.files, timeout=60)
        self.assertEqual(ran.returncode, 2)
        self.assertIn(b"cannot write to standard output: Broken pipe", ran.stderr)

    def test_signal(self):
        """Asked to stop before the input's end: words, the lines that were there, and no digest of what came."""
        words = [KEEPER, "digest", self.given("file", b"x"), "-"]
        with subprocess.Popen(words, stdin=subprocess.PIPE, stdout=subprocess.PIPE, stderr=subprocess.PIPE, cwd=self.files) as reader:
            self.addCleanup(reader.kill)
            self.assertTrue(select.select([reader.stdout], [], [], 20)[0], "the first line waits for the second")
            self.assertEqual(reader.stdout.readline(), line_of("file", b"x"))
            reader.stdin.write(bytes(70000))
            reader.stdin.flush()
            reader.send_signal(signal.SIGTERM)
            out, err = reader.communicate()
        self.assertEqual((reader.returncode, out), (2, b""))
        self.assertIn(b"SIGTERM came before all was read", err)


class Lists(DigestTest):
    def setUp(self):
        super().setUp()
        self.datas = {"one": b"1", "two": b"2" * 1025, "none": b""}
        for name, data in self.datas.items():
            self.given(name, data)
        self.lines = [line_of(name, data) for name, data in self.datas.items()]
        self.list, self.all_ok = b"".join(self.lines), b"".join(map(said_of, self.datas))

    def test_as_listed(self):
        self.assertEqual(self.digests(*self.datas), self.list)
        self.check(0, self.list, said=self.all_ok)
        self.check(0, self.list, "--quiet")
        self.check(0, b"".join(line[:64].upper() + line[64:] for line in self.lines), said=self.all_ok)
        self.check(0, self.list[:-1], said=self.all_ok)
        self.check(0, self.list.replace(b"\n", b"\r\n"), said=self.all_ok)
        self.check(0, self.list * 2, said=self.all_ok * 2)
        self.check(0, self.list.replace(b"  one", b"  ./one"), said=self.all_ok.replace(b"one:", b"./one:", 1))

    def test_not_as_listed(self):
        """Another digest, a file that is gone or none: FAILED, also where it is to be quiet; and the others are looked at."""
        self.given("two", b"2" * 1024)
        (self.files / "none").unlink()
        lines = self.list + line_of(".", b"") + line_of("one", b"1")
        failed = said_of("two", "FAILED") + said_of("none", "FAILED (No such file or directory)") + said_of(".", "FAILED (Is a directory)")
        said = self.check(2, lines, said=said_of("one") + failed + said_of("one"))
        self.assertEqual(said, b"keeper: not all is as listed. Files: 2 as listed, 1 with another digest, 0 refused, 2 not read; "
                               b"lines without a digest and a name: 0\n")
        self.check(2, lines, "--quiet", said=failed)
        for place in (0, 31, 63):
            wrong = self.lines[0][:place] + (b"0" if self.lines[0][place:place + 1] != b"0" else b"1") + self.lines[0][place + 1:]
            self.check(2, wrong, said=said_of("one", "FAILED"))

    def test_lines_that_are_none(self):
        """Each is counted, the first is named, and the lines around it are looked at all the same."""
        digits = self.lines[0][:64]
        bad = (b"", b" ", b"one", b"# a comment", digits, digits + b"  ", digits + b" one", digits + b" *one", digits + b"\tone",
               digits[:63] + b"  one", digits[:62] + b"  one", digits + b"0  one", b" " + digits + b"  one", b"g" + digits[1:] + b"  one",
               digits[:-1] + b"\0  one", digits + b"  o\0e", b"\\" + digits + b"  one\\", b"\\" + digits + b"  o\\ne\\x",
               b"\\" + digits + b"  \\0", b"\\" + digits, b"\\", b"\\\\" + digits + b"  one", b"\xff" * 64 + b"  one",
               b"\xef\xbb\xbf" + digits + b"  one", digits + b"  " + b"x" * 4096, digits + b"  " + b"x" * 200000, b"\0" * 70000,
               b"\\" + digits + b"  " + b"\\n" * 4096, digits + b"  " + b"x" * 9000 + b"\r")
        said = self.check(2, b"".join(each + b"\n" + self.lines[0] for each in bad), said=said_of("one") * len(bad))
        self.assertIn(b"%d of %d lines are no digest, two spaces and a name; the first of them is line 1\n" % (len(bad), 2 * len(bad)), said)
        self.assertIn(b"Files: %d as listed, 0 with another digest, 0 refused, 0 not read; lines without a digest and a name: %d\n"
                      % (len(bad), len(bad)), said)
        self.assertIn(b"no file is listed there", self.check(2, b"\n".join(bad), said=b""))
        said = self.check(2, self.list + b"bad\n\n", said=self.all_ok)
        self.assertIn(b"2 of 5 lines are no digest, two spaces and a name; the first of them is line 4\n", said)

    def test_names_of_all_lengths(self):
        """The longest name that can be opened, and names that need two spaces and a third."""
        longest = "./" * 2047 + "a"
        self.given("a", b"x")
        self.given(" a", b"y")
        self.assertEqual(self.digests(longest, " a"), line_of(longest, b"x") + line_of(" a", b"y"))
        self.check(0, line_of(longest, b"x") + line_of(" a", b"y"), said=said_of(longest) + said_of(" a"))
        self.check(0, line_of(longest, b"x").replace(b"\n", b"\r\n"), said=said_of(longest))
        deep = Path("\\" * 255)
        for _ in range(14):
            deep = deep / ("\n" * 255)
        os.makedirs(self.files / deep)
        self.check(2, line_of(str(deep), b"x"), said=said_of(str(deep), "FAILED (Is a directory)"))

    def test_carriage_returns(self):
        """One at a line's end is the line's, one in a name is in it; so lists of both kinds come back, and b3sum's with one in a name."""
        for name in ("a\rb", "a\r", "\r", "a\r\n"):
            self.given(name, name.encode())
            self.check(0, line_of(name, name.encode()), said=said_of(name))
            self.check(0, line_of(name, name.encode()).replace(b"\n", b"\r\n"), said=said_of(name))
        self.check(0, of(b"a\rb").encode() + b"  a\rb\n" + of(b"a\r").encode() + b"  a\r\r\n", said=said_of("a\rb") + said_of("a\r"))

    def test_lists_that_are_none(self):
        self.assertIn(b"keeper: standard input is empty\n", keeper("digest", "--check").stderr)
        said = self.check(2, b"", said=b"")
        self.assertTrue(said.endswith(b"list is empty\nkeeper: no file is listed there, and so none was looked at\n"), said)
        for path, why in ((self.folder / "missing", "No such file"), (self.folder, "Is a directory")):
            self.failed(f"cannot read {path}: {why}", "digest", "--check", path)
            self.assertIn("no file is listed there", self.object(2, "digest", "--check", path)["error"])
        good = self.file("good", self.list)
        for other in (self.file("empty", b""), self.folder / "missing"):
            for words in ((good, other), (other, good)):
                self.assertEqual(self.ran(2, "not all is as listed. Files: 3 as listed", "digest", "--check", *words, cwd=self.files), self.all_ok)

    def test_many_lists(self):
        first, last = self.file("first", self.lines[0]), self.file("last", self.lines[2])
        self.assertEqual(self.done("digest", "--check", first, "-", last, given=self.lines[1], cwd=self.files), self.all_ok)
        self.failed("wrong use: - is standard input", "digest", "--check", "-", "-", cwd=self.files)

    def test_standard_input_in_a_list(self):
        """It can be a file of a list, where it is not the list, the key, or read already."""
        listed = self.file("list", line_of("-", b"input") * 2)
        again = b"-: FAILED (it was read already)\n"
        self.assertEqual(self.ran(2, "not all is", "digest", "--check", listed, given=b"input"), b"-: OK\n" + again)
        self.assertEqual(self.ran(2, "not all is", "digest", "--check", given=line_of("-", b"input")), again)
        self.assertEqual(self.ran(2, "not all is", "digest", "--check", listed, "--key", "-", given=KEY), again * 2)

    def test_long_list(self):
        """Longer than what is read of it at once."""
        self.assertEqual(self.done("digest", "--check", self.file("list", self.list * 400), cwd=self.files), self.all_ok * 400)

    def test_changing_lists(self):
        """A list whose every byte is changed in turn never says OK of what it did not list."""
        line = self.lines[1]
        ran = keeper("digest", "--check", given=b"".join(flipped(line, place) for place in range(len(line) - 1)) + line, cwd=self.files)
        self.assertEqual((ran.returncode, ran.stdout.count(b": OK\n"), ran.stdout.count(b"two: OK\n")), (2, 1, 1), ran.stdout)
        self.assertGreater(ran.stdout.count(b": FAILED\n"), 40)

    def test_keys(self):
        """A keyed list is taken back under its key, and under no other and none."""
        lines, other = b"".join(line_of(name, data, KEY) for name, data in self.datas.items()), self.file("other", KEYS[1])
        self.assertEqual(self.digests("--key", self.key, *self.datas), lines)
        self.check(0, lines, "--key", self.key, said=self.all_ok)
        all_failed = b"".join(said_of(name, "FAILED") for name in self.datas)
        for words in ((), ("--key", other)):
            self.check(2, lines, *words, said=all_failed)
        self.check(2, self.list, "--key", self.key, said=all_failed)
        self.refused(24, "digest", self.files / "one", "--key", self.file("short", KEY[:31]))
        self.assertIs(self.object(0, "digest", self.files / "one", "--key", self.key)["keyed"], True)

    def test_objects(self):
        self.given("two", b"other")
        (self.files / "none").unlink()
        ran = keeper("digest", "--check", "--json", self.file("list", self.list + b"bad\n"), cwd=self.files)
        listed = {name: of(data) for name, data in self.datas.items()}
        self.assertEqual(json.loads(ran.stdout), {
            "command": "digest", "keyed": False, "files": [
                {"file": "one", "as_listed": True, "listed": listed["one"], "length": 1, "digest": listed["one"]},
                {"file": "two", "as_listed": False, "listed": listed["two"], "length": 5, "digest": of(b"other")},
                {"file": "none", "as_listed": False, "listed": listed["none"], "error": "No such file or directory"}],
            "as_listed_count": 1, "other_count": 1, "refused_count": 0, "unread_count": 1, "bad_line_count": 1,
            "error": "not all is as listed. Files: 1 as listed, 1 with another digest, 0 refused, 1 not read; lines without a digest and a name: 1",
            "status": 2})
        self.assertEqual(ran.returncode, 2)


@unittest.skipUnless(shutil.which("b3sum"), "no b3sum here")
class Beside(DigestTest):
    """The same files by b3sum: the same lines, and each takes the other's lists."""

    def b3sum(self, *words, given=b""):
        return subprocess.run(["b3sum", *words], input=given, capture_output=True, check=False, cwd=self.files)

    def test_lines_and_lists(self):
        names = [name for name in ODD if "\r" not in name and "\udcff" not in name]
        names += [str(length) for length in (0, 1, 63, 64, 65, 1023, 1024, 1025, 4095, 4096, 4097, 65535, 65536, 65537, 2**20 + 1, 2**21 - 5)]
        for name in names:
            self.given(name, counting_bytes(int(name)) if name.isdigit() else name.encode())
        for words, given in (((), b""), (("--key", self.key), KEY)):
            keyed = ("--keyed",) if words else ()
            lines = self.digests(*words, "--", *names)
            self.assertEqual(lines, self.b3sum(*keyed, "--", *names, given=given).stdout)
            ours = self.done("digest", "--check", *words, self.file("list", lines), cwd=self.files)
            self.assertEqual(lines.count(b"\n"), ours.count(b": OK\n"))
            if not keyed:  # it checks no keyed list
                theirs = self.b3sum("--check", self.folder / "list")
                self.assertEqual((theirs.returncode, theirs.stdout), (0, ours))

    def test_what_is_said_of_files(self):
        names = ["same", "other", "back\\slash"]
        listed = self.file("list", b"".join(line_of(self.given(name, b"x"), b"x") for name in names))
        for name in names[1:]:
            self.given(name, b"y")
        for words in (("--check",), ("--check", "--quiet")):
            self.assertEqual(keeper("digest", *words, listed, cwd=self.files).stdout, self.b3sum(*words, listed).stdout)


if __name__ == "__main__":
    unittest.main()
