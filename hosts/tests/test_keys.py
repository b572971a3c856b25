"""Keys: files that are none, logs that are keyed by another key or by none, letters of another league; what a log's file has; that no key is anywhere."""
import os
import shutil
import subprocess
import threading
import unittest

from harness import COPY, NODE, NODES, PAGE, RECORDS, TOP, HostTest, digest_by, flipped, keeper, letter_of, plain_root, said_of, sealed, stream_of
from rules.stored import stored_leaf  # behind harness, which says where the second program lies

# bytes that a shell or a line would trip over, and none that stands in a log by chance
OURS = b"\0\n\\%\xff '\"" + bytes((73 * place + 19) % 256 for place in range(24))
THEIRS = OURS[::-1]
LENGTHS = (0, 31, 33, 64)


def pages(states, key):
    """The two pages of a log with these sizes and roots, as sizes.c describes them."""
    return b"".join((sealed(*state, key).ljust(COPY, b"\0") * 2) for state in states)


class KeyTest(HostTest):
    def setUp(self):
        super().setUp()
        self.key, self.other = self.file("ours.key", OURS), self.file("theirs.key", THEIRS)
        self.records = RECORDS[:5]
        self.size, self.top, _ = said_of(self.records, OURS)
        self.letter = self.file("letter", letter_of(self.records, 1, OURS))
        self.record = self.file("record", self.records[1])

    def make_keyed(self):
        """A log of the records, keyed by our key."""
        self.done("append", self.log, "--stream", "--key", self.key, given=stream_of(self.records))

    def every(self):
        """Every command that takes a key, and what it reads on standard input."""
        for words in (("append", self.log), ("append", self.log, "--stream"), ("append", self.log, self.record), ("root", self.log), ("root", self.log, "--bytes"),
                      ("root", self.log, "--size", 1), ("root", self.log, "--records", self.record), ("info", self.log), ("letter", self.log, 1),
                      ("find", self.log, self.record, self.letter),
                      ("verify", self.log), ("verify", self.log, "--records"), ("repair", self.log, self.folder / "copy")):
            yield words, b"\0\0\0\1x" if "--stream" in words else self.records[1]

    def looked_at(self):
        """What is in the folder, to be compared with another look later."""
        return {path.name: self.unchanged(path) for path in self.folder.iterdir() if path.is_file()}


class KeyFiles(KeyTest):
    def test_lengths(self):
        """24, before any other number, and nothing is made or changed; whatever is asked for."""
        for there in (False, True):
            if there:
                self.make_keyed()
            for length in LENGTHS:
                key = self.file("key", (OURS * 2)[:length])
                before = self.looked_at()
                for words, given in self.every():
                    self.refused(24, *words, "--key", key, given=given)
                for words in (("check", self.size, self.top.hex()), ("check", 2, self.top.hex()), ("check", self.size, "00"), ("letter", self.log, 99),
                              ("root", self.log, "--size", 2), ("root", self.folder / "missing"), ("check", self.size, self.top.hex(), self.letter),
                              ("digest", self.record), ("digest",), ("digest", "--check"), ("digest", self.folder / "missing"),
                              ("node",), ("node", "--leaf"), ("node", "--inner", "00"),
                              ("node", self.folder / "missing", "--record", self.folder / "out")):
                    self.refused(24, *words, "--key", key, given=self.letter.read_bytes())
                self.refused(24, "append", self.log, "--key", key, given=bytes(20000))
                self.assertEqual(self.looked_at(), before)
        answer = self.object(1, "root", self.log, "--key", key)
        self.assertEqual((answer["number"], answer["meaning"]), (24, "the key is not of 32 bytes"))

    def test_what_cannot_be_read(self):
        self.make_keyed()
        for key, word in ((self.folder, "Is a directory"), (self.folder / "missing", "No such file"), (self.log / "key", "Not a directory")):
            self.failed(f"cannot read the key, {key}: {word}", "root", self.log, "--key", key)
            self.failed("cannot read the key", "append", self.folder / "new", "--key", key, given=b"x")
            self.failed("cannot read the key", "digest", self.record, "--key", key)
            self.failed("cannot read the key", "node", "--leaf", self.record, "--key", key)
        self.assertFalse((self.folder / "new").exists())

    def test_fifo_and_link(self):
        """A key may come by a pipe that has a name, as from <(..) in a shell, and through a link; it is read once."""
        self.make_keyed()
        wanted = f"{self.size} {self.top.hex()}\n".encode()
        link, pipe = self.folder / "link", self.folder / "pipe"
        link.symlink_to(self.key)
        self.assertEqual(self.done("root", self.log, "--key", link), wanted)
        os.mkfifo(pipe)
        for key, number in ((OURS, 0), (OURS[:31], 24), (OURS * 2, 24)):
            writer = threading.Thread(target=pipe.write_bytes, args=(key,))
            writer.start()
            if number:
                self.refused(number, "root", self.log, "--key", pipe)
            else:
                self.assertEqual(self.done("root", self.log, f"--key={pipe}"), wanted)
            writer.join()

    def test_standard_input(self):
        """It is the key or something else, and never both: no record is what was left behind a key."""
        self.make_keyed()
        self.assertEqual(self.done("root", self.log, "--key", "-", given=OURS), f"{self.size} {self.top.hex()}\n".encode())
        self.refused(24, "root", self.log, "--key", "-", given=OURS + b"\n")
        self.assertEqual(self.done("letter", self.log, 1, "--record", self.record, "--key", "-", given=OURS), self.letter.read_bytes())
        before = self.looked_at()
        for words in (("append", self.log), ("append", self.folder / "new"), ("append", self.log, "--stream"), ("append", self.folder / "new", "--stream"),
                      ("root", self.log, "--records", "--stream"), ("root", "--records", "--stream"), ("letter", self.log, 1),
                      ("check", self.size, self.top.hex()), ("node",), ("node", "--leaf")):
            self.failed("standard input cannot be the key and something else too", *words, "--key", "-", given=OURS)
        self.assertEqual(self.looked_at(), before)

    def test_wrong_use(self):
        self.make_keyed()
        for words, word in ((("root", self.log, "--key", self.key, "--key", self.key), "--key is given twice"), (("root", self.log, "--key"), "a word is missing"),
                            (("help", "--key", self.key), "help takes no --key"), (("version", "--key", self.key), "version takes no --key")):
            self.failed(f"wrong use: {word}", *words)

    def test_key_is_not_written_over(self):
        for option in ("--record", "--page"):
            self.failed("is the key, and is not written over", "check", self.size, self.top.hex(), "--key", self.key, option, self.key,
                        given=self.letter.read_bytes())
        self.assertEqual(self.key.read_bytes(), OURS)


class Modes(KeyTest):
    def stays(self, word, *key):
        """Every command fails with that word, and no byte is changed."""
        before = self.looked_at()
        for words, given in self.every():
            if words[0] != "info" or key:
                self.failed(word, *words, *key, given=given)
        self.assertEqual(self.looked_at(), before)

    def test_another_key_or_none(self):
        self.make_keyed()
        self.stays("log is keyed by another key", "--key", self.other)
        self.stays("log is keyed by another key", "--key", self.file("nearly", flipped(OURS, 31)))
        self.stays("log is keyed: name its key by --key FILE")

    def test_key_for_a_plain_log(self):
        self.make(self.records)
        self.stays("log is not keyed: leave --key out", "--key", self.key)

    def test_empty(self):
        """A log is keyed before it has a record."""
        self.done("append", self.log, "--stream", "--key", self.key)
        self.stays("log is keyed by another key", "--key", self.other)
        self.stays("log is keyed: name its key by --key FILE")
        self.refused(10, "root", self.log, "--key", self.key)
        self.assertEqual(self.object(0, "info", self.log)["root"], "")

    def test_info(self):
        self.make_keyed()
        with_key, without = self.object(0, "info", self.log, "--key", self.key), self.object(0, "info", self.log)
        for answer in (with_key, without):
            self.assertEqual((answer["keyed"], answer["records"], answer["size"], answer["root"]), (True, 5, self.size, self.top.hex()))
        self.assertEqual((with_key["whole"], with_key["state"], "whole" in without), (True, "whole", False))
        said = self.done("info", self.log).decode().splitlines()
        self.assertEqual(said[:3] + said[4:5], ["records 5", f"size    {self.size}", f"root    {self.top.hex()}", "keyed   yes"])
        self.assertIn("not looked at", said[5])
        self.assertIn("state   whole", self.done("info", self.log, "--key", self.key).decode().splitlines())

    def test_info_of_a_damaged_log(self):
        """What can be seen without the key is said without it, and nothing is called whole that was not looked at."""
        self.make_keyed()
        whole = self.log.read_bytes()
        self.log.write_bytes(flipped(whole, NODES + NODE * 7))
        self.assertNotIn("whole", self.object(0, "info", self.log))
        self.ran(0, "were changed", "info", self.log, "--key", self.key)
        self.log.write_bytes(whole[:NODES + NODE * 7])
        self.assertIn(b"records 0", self.ran(0, "the file was cut", "info", self.log))
        self.log.write_bytes(flipped(whole, 20))
        answer = self.object(0, "info", self.log)
        self.assertEqual((answer["records"], "whole" in answer), (5, False))
        self.log.write_bytes(flipped(flipped(whole, PAGE + 20), PAGE + COPY + 20))
        answer = self.object(0, "info", self.log)
        self.assertEqual((answer["records"], answer["whole"]), (0, False))

    def test_pages_of_two_logs(self):
        """Copies of another log's mode count as damaged: the log is the one that was asked for."""
        self.make_keyed()
        mixed = self.file("mixed", pages([(self.size, self.top)], None) + self.log.read_bytes()[PAGE:])
        self.assertEqual(self.ran(0, "has no whole copy", "root", mixed, "--key", self.key), f"{self.size} {self.top.hex()}\n".encode())
        self.failed("has no whole copy", "append", mixed, "--key", self.key, given=b"x")
        self.failed("was cut or changed", "append", mixed, given=b"x")
        self.failed("is keyed by another key", "append", self.file("mixed", mixed.read_bytes()), "--key", self.other, given=b"x")


class Leagues(KeyTest):
    def test_letters(self):
        """A letter of one league is nothing to the other, nor without a key; and a plain letter is nothing to either."""
        letter, plain = self.letter.read_bytes(), letter_of(self.records, 1, None)
        ours, theirs, none = said_of(self.records, OURS)[1].hex(), said_of(self.records, THEIRS)[1].hex(), said_of(self.records, None)[1].hex()
        self.assertEqual(len({ours, theirs, none}), 3)
        self.done("check", self.size, ours, "--key", self.key, given=letter)
        self.done("check", self.size, none, given=plain)
        for top, key, given in ((ours, self.other, letter), (ours, None, letter), (theirs, self.key, letter), (theirs, self.other, letter), (none, None, letter),
                                (none, self.key, plain), (ours, self.key, plain), (none, self.key, letter)):
            self.refused(9, "check", self.size, top, *(("--key", key) if key else ()), given=given)
        said = self.ran(1, "", "check", self.size, ours, self.letter, self.file("plain", plain), "--key", self.key).decode().splitlines()
        self.assertEqual(said[2], "2 letters: 1 accepted, 1 refused, 0 not read")

    def test_plain_rule(self):
        """The root of records is worked out in the mode of the key that is given, and is the log's in the log's own."""
        self.make_keyed()
        given = stream_of(self.records)
        for key, words in ((OURS, ("--key", self.key)), (THEIRS, ("--key", self.other)), (None, ())):
            wanted = f"{self.size} {plain_root(list(self.records), digest_by(key)).hex()}\n".encode()
            self.assertEqual(self.done("root", "--records", "--stream", *words, given=given), wanted)
        answer = self.object(0, "root", self.log, "--records", "--stream", "--key", self.key, given=given)
        self.assertEqual((answer["is_the_logs"], answer["root"]), (True, self.top.hex()))
        self.failed("log has another root", "root", self.log, "--records", "--stream", "--key", self.key, given=stream_of(self.records[::-1]))

    def test_finder(self):
        """The log of a league does not take the other's letter for its own."""
        self.done("append", self.log, "--stream", "--key", self.other, given=stream_of(self.records))
        self.refused(9, "find", self.log, self.record, self.letter, "--key", self.other)

    def test_two_logs_of_one_match(self):
        """The same records, each league's own log: no node is shared."""
        logs = {}
        for key in (self.key, self.other, None):
            path = self.folder / f"log {key}".replace("/", "_")
            self.done("append", path, "--stream", *(("--key", key) if key else ()), given=stream_of(self.records))
            data = path.read_bytes()[NODES:NODES + NODE * self.size]
            logs[key] = {data[at:at + NODE] for at in range(0, len(data), NODE)}
        self.assertEqual(len(set.union(*logs.values())), 3 * self.size)

    def test_page(self):
        """The page says that a key was given, and does not have it."""
        page = self.folder / "page.html"
        self.done("check", self.size, self.top.hex(), "--key", self.key, "--page", page, given=self.letter.read_bytes())
        self.assertIn('<td id="key">given, and not shown</td>', page.read_text())
        self.assertIn("one BLAKE3 digest under the key", page.read_text())
        self.done("check", 8, said_of(self.records, None)[1].hex(), "--page", page, given=letter_of(self.records, 1, None))
        self.assertNotIn("key", page.read_text())


class Layout(KeyTest):
    def test_file(self):
        """Every byte of a log's file, plain and keyed, after no append, one, two and three."""
        for key in (None, OURS):
            words, states = ("append", self.log, "--stream", *(("--key", self.key) if key else ())), [(0, bytes(NODE)), (0, bytes(NODE))]
            self.done(*words)
            self.assertEqual(self.log.read_bytes(), pages(states, key))
            for turn, count in enumerate((1, 4, 5)):
                before = said_of(RECORDS[:count], key)
                self.done(*words, given=stream_of(RECORDS[(0, 1, 4)[turn]:count]))
                states[1 - turn % 2] = before[:2]
                self.assertEqual(self.log.read_bytes(), (pages(states, key) + before[2]).ljust(NODES + 65536, b"\0"))
            self.log.unlink()

    def test_records_beside_it(self):
        """What is kept beside a log is the same for a plain log and for a keyed one."""
        for name, key in (("plain", ()), ("keyed", ("--key", self.key))):
            self.done("append", self.folder / name, "--keep-records", "--stream", *key, given=stream_of(self.records))
        for ending in (".records", ".index"):
            self.assertEqual((self.folder / f"plain{ending}").read_bytes(), (self.folder / f"keyed{ending}").read_bytes())


class Secret(KeyTest):
    def test_nowhere(self):
        """The key is in nothing that is written, raw or in digits, whole or a part: not by any command, nor in any file but its own."""
        said = []
        self.leaf = self.file("leaf", stored_leaf(self.records[1], digest_by(OURS)))
        for key in (self.key, self.other, self.file("long", OURS + b"\n"), "-"):
            for form in ((), ("--json",)):
                words = [("append", self.log, "--keep-records"), *(words for words, _ in self.every()),
                         ("check", self.size, self.top.hex(), "--show", "--page", self.folder / "page"), ("check", self.size, self.top.hex(), self.letter),
                         ("digest", self.record, self.letter, self.folder / "missing"), ("digest", "--check", self.record),
                         ("node", "--leaf", self.record), ("node", self.leaf, self.letter), ("node", self.leaf, "--record", self.folder / "out")]
                for each in words:
                    ran = keeper(*each, "--key", key, *form, given=OURS if key == "-" else self.letter.read_bytes())
                    said += [ran.stdout, ran.stderr]
        self.log.write_bytes(flipped(self.log.read_bytes(), NODES + 1))
        for each in (("verify", self.log), ("root", self.log), ("repair", self.log, self.folder / "copy")):
            ran = keeper(*each, "--key", self.key)
            said += [ran.stdout, ran.stderr]
        self.assertGreater(sum(map(len, said)), 3000)
        mine = ("ours.key", "long", "theirs.key")
        said += [path.read_bytes() for path in self.folder.iterdir() if path.name not in mine]
        self.assertIn("page", [path.name for path in self.folder.iterdir()])
        for part in (OURS[:12], OURS[10:22], OURS[20:]):
            for sought in (part, part[::-1], part.hex().encode(), part.hex().upper().encode()):
                self.assertEqual([data for data in said if sought in data], [])


class PanelCommand(KeyTest):
    """What the panel's command itself does with a key: a stand-in for the program writes down what it reads."""

    def panel(self, *words, given=b"noted and letter", answer="printf '0\\n'", shell=("sh",)):
        """The command, where no program can be found but those that it may call: how it ended, what was built, what the program read."""
        tools = self.folder / "tools"
        if not tools.exists():
            tools.mkdir()
            for command in ("head", "od", "cat"):
                (tools / command).symlink_to(shutil.which(command))
        script = (f'set -eu\nversion=1\nbuild() {{ echo "$1" >"{self.folder}/built"; }}\nwith_program() {{ cat >"{self.folder}/got"; {answer}; }}\n'
                  f'. "{TOP}/shell/panel.sh"\npanel "$@"\n')
        for name in ("built", "got"):
            (self.folder / name).unlink(missing_ok=True)
        where = [shutil.which(shell[0]), *shell[1:]]
        ran = subprocess.run([*where, self.file("script", script.encode()), *map(str, words)], input=given, capture_output=True, check=False, env={"PATH": str(tools)})
        return ran, *((self.folder / name).read_bytes() if (self.folder / name).exists() else None for name in ("built", "got"))

    def test_key_goes_first(self):
        for shell in (("sh",), ("dash",), ("bash", "--posix"), ("busybox", "sh")):
            if not shutil.which(shell[0]):
                continue
            for words, program in ((("--key", self.key), b"keyed_panel\n"), ((f"--key={self.key}",), b"keyed_panel\n"),
                                   (("--passage", "--key", self.key), b"keyed_passage_panel\n"), ((f"--key={self.key}", "--passage"), b"keyed_passage_panel\n")):
                for key in (OURS, THEIRS, bytes(32), bytes(range(32)), bytes(range(224, 256)), b"\\0\\c%s%b\n\n" * 3 + b"\n\n"):
                    self.key.write_bytes(key)
                    ran, built, got = self.panel(*words, shell=shell)
                    self.assertEqual((ran.returncode, ran.stdout, ran.stderr), (0, b"0\n", b""), shell)
                    self.assertEqual((built, got), (program, key + b"noted and letter"), shell)

    def test_without_a_key(self):
        ran, built, got = self.panel(answer="printf '9\\n'")
        self.assertEqual((ran.returncode, ran.stdout, ran.stderr, built, got), (0, b"9\n", b"", b"panel\n", b"noted and letter"))

    def test_passage(self):
        """Another program reads the same; with a key that cannot be read nothing is built."""
        for shell in (("sh",), ("dash",), ("bash", "--posix"), ("busybox", "sh")):
            if shutil.which(shell[0]):
                ran, built, got = self.panel("--passage", answer="printf '19\n'", shell=shell)
                self.assertEqual((ran.returncode, ran.stdout, ran.stderr), (0, b"19\n", b""), shell)
                self.assertEqual((built, got), (b"passage_panel\n", b"noted and letter"), shell)
        key = self.folder / "missing"
        for words in (("--passage", "--key", key), ("--key", key, "--passage"), ("--passage", f"--key={key}"), (f"--key={key}", "--passage")):
            ran, built, got = self.panel(*words)
            self.assertEqual((ran.returncode, ran.stdout, built, got), (2, b"", None, None), words)
            self.assertIn(b"panel: cannot read the key", ran.stderr)
        for words in (("--passage", "--passage"), ("--passage", "more"), ("more", "--passage"), ("--passage=",), ("--passage", "--key"),
                      ("--passage", "--key", self.key, "more")):
            ran, built, _ = self.panel(*words)
            self.assertEqual((ran.returncode, ran.stdout, built), (2, b"", None), words)
            self.assertIn(b"panel [--key FILE] --passage", ran.stderr)
        for answer in ("true", "echo no number", "return 1"):
            ran, _, _ = self.panel("--passage", answer=answer)
            self.assertEqual((ran.returncode, ran.stdout), (2, b""), answer)

    def test_lengths(self):
        """24 in words and as the number, whatever the program would say; and it gets no byte of the key."""
        for length in LENGTHS:
            for words in ((), ("--passage",)):
                ran, _, got = self.panel("--key", self.file("key", (OURS * 2)[:length]), *words)
                self.assertEqual((ran.returncode, ran.stdout, got), (0, b"24\n", b""), length)
                self.assertIn(b"key refused, number 24: the key is not of 32 bytes", ran.stderr)

    def test_fifo(self):
        pipe = self.folder / "pipe"
        os.mkfifo(pipe)
        for key, number in ((OURS, b"0\n"), (OURS + b"\n", b"24\n")):
            writer = threading.Thread(target=pipe.write_bytes, args=(key,))
            writer.start()
            ran, _, got = self.panel("--key", pipe)
            writer.join()
            self.assertEqual((ran.returncode, ran.stdout, got), (0, number, key + b"noted and letter" if number == b"0\n" else b""))

    def test_no_verdict(self):
        for key in (self.folder, self.folder / "missing", "-"):
            ran, built, _ = self.panel("--key", key)
            self.assertEqual((ran.returncode, ran.stdout, built), (2, b"", None))
            self.assertIn(b"panel: cannot read the key", ran.stderr)
        for answer in ("true", "printf ''", "echo no number", "return 1"):
            ran, _, _ = self.panel("--key", self.key, answer=answer)
            self.assertEqual((ran.returncode, ran.stdout), (2, b""), answer)
        for words in (("--key",), ("--key", ""), ("--key=",), ("--key", self.key, "--key", self.key), ("--key", self.key, "more"), ("more", "--key", self.key)):
            ran, built, _ = self.panel(*words)
            self.assertEqual((ran.returncode, ran.stdout, built), (2, b"", None), words)
            self.assertIn(b"panel --key FILE", ran.stderr)


if __name__ == "__main__":
    unittest.main()
