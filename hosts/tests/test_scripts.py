"""The commands of bin/: what is built is run, from anywhere, by many at once, without the kit; nothing but the README's two commands installs."""
import os
import shutil
import subprocess
import tempfile
import time
import unittest
from pathlib import Path

from harness import CHECKED, RECORDS, TOP, HostTest, letter_of, passage_of, said_of
from test_digest import LONG, PUBLISHED, counting_bytes

PLAIN = {name: os.environ[name] for name in ("PATH", "HOME", "LANG") if name in os.environ}


def noted_and(letter, records, key=None):
    """What the panel's program reads, behind the key for a keyed log."""
    size, top, _ = said_of(records, key)
    return size.to_bytes(8, "big") + top + letter


@unittest.skipIf(CHECKED, "tried once, without sanitizers")
class Scripts(HostTest):
    @classmethod
    def setUpClass(cls):
        """A copy of what is built, in a path with spaces, which nobody may write to, and without the kit on the way."""
        for command in ("hosts/build.sh", "hosts/build-panel.sh"):
            subprocess.run([TOP / command], check=True, stdin=subprocess.DEVNULL, capture_output=True)
        cls.place = Path(tempfile.mkdtemp())
        cls.copy = cls.place / "a copy of it"
        keep = ("bin", "shell", "hosts", "include", "crates", "crates.txt", "outside", "VERSION", "man", "completion", "Makefile")
        cls.copy.mkdir()
        for name in keep:
            if (TOP / name).is_dir():
                shutil.copytree(TOP / name, cls.copy / name, ignore=shutil.ignore_patterns("out"))
            else:
                shutil.copy2(TOP / name, cls.copy / name)
        (cls.copy / "target").mkdir()
        for name in ("hosts", "bin", "run", "staticlib"):
            shutil.copytree(TOP / "target" / name, cls.copy / "target" / name)
        subprocess.run(["chmod", "-R", "a-w", cls.copy], check=True)
        cls.tools = cls.place / "tools"
        cls.tools.mkdir()
        for command in ("sh", "readlink", "find", "sha256sum", "xargs", "sort", "cat", "touch", "uname", "mktemp", "rm", "grep", "sed", "head", "tail",
                        "cut", "od", "date"):
            (cls.tools / command).symlink_to(shutil.which(command))

    @classmethod
    def tearDownClass(cls):
        subprocess.run(["chmod", "-R", "u+w", cls.copy], check=True)
        shutil.rmtree(cls.place)

    def run_script(self, script, *words, given=b"", **settings):
        settings = {"PATH": str(self.tools), "CDPATH": "/usr:/tmp:.", **settings}
        return subprocess.run([script, *map(str, words)], input=given, capture_output=True, check=False, env=settings, cwd=self.folder)

    def test_anywhere_without_the_kit(self):
        """Through a link, with CDPATH set, in a path with spaces, in a folder that cannot be written, without rt or a compiler."""
        before = sorted((str(path), path.lstat().st_mtime_ns) for path in self.copy.rglob("*"))
        for name in ("keeper", "panel", "digest"):
            (self.folder / name).symlink_to(self.copy / "bin" / name)
        ran = self.run_script(self.folder / "keeper", "append", "log", given=RECORDS[3])
        self.assertEqual((ran.returncode, ran.stdout, ran.stderr), (0, b"appended 1 record, index 0; size 1, hashes 1\n", b""))
        ran = self.run_script(self.folder / "panel", given=noted_and(letter_of(RECORDS[3:4], 0), RECORDS[3:4]))
        self.assertEqual((ran.returncode, ran.stdout, ran.stderr), (0, b"0\n", b""))
        key, given = self.file("key", bytes(range(32))), noted_and(letter_of(RECORDS[3:4], 0, bytes(range(32))), RECORDS[3:4], bytes(range(32)))
        for words, number in ((("--key", key), b"0\n"), (("--key", self.file("other", bytes(32))), b"9\n"), ((), b"9\n")):
            ran = self.run_script(self.folder / "panel", *words, given=given)
            self.assertEqual((ran.returncode, ran.stdout, ran.stderr), (0, number, b""))
        passage, single = passage_of(RECORDS[:5], (0, 3)), letter_of(RECORDS[:5], 3)
        for words, letter, number in ((("--passage",), passage, b"0\n"), (("--passage",), passage + b"\0", b"7\n"), (("--passage",), single, b"19\n"),
                                      ((), passage, b"5\n")):
            ran = self.run_script(self.folder / "panel", *words, given=noted_and(letter, RECORDS[:5]))
            self.assertEqual((ran.returncode, ran.stdout, ran.stderr), (0, number, b""))
        given = noted_and(passage_of(RECORDS[:5], (0, 3), bytes(range(32))), RECORDS[:5], bytes(range(32)))
        for words, number in ((("--passage", "--key", key), b"0\n"), (("--key", self.file("other", bytes(32)), "--passage"), b"9\n"),
                              (("--passage",), b"9\n"), (("--key", key), b"5\n")):
            ran = self.run_script(self.folder / "panel", *words, given=given)
            self.assertEqual((ran.returncode, ran.stdout, ran.stderr), (0, number, b""))
        self.holds(RECORDS[3:4], self.folder / "log")
        self.assertEqual(sorted((str(path), path.lstat().st_mtime_ns) for path in self.copy.rglob("*")), before)

    def test_copied_anew(self):
        """A copy whose files have new times is known by its bytes: nothing is built, and no kit is asked for."""
        copy = self.folder / "new times"
        shutil.copytree(self.copy, copy, copy_function=shutil.copyfile)
        subprocess.run(["chmod", "-R", "u+w", copy], check=True)
        for path in list((copy / "bin").iterdir()) + list((copy / "target").rglob("*")):
            if path.is_file():
                path.chmod(0o755)
        later = time.time() + 5
        os.utime(copy / "crates" / "panel" / "src" / "main.rt", (later, later))
        os.utime(copy / "hosts" / "keeper.c", (later, later))
        for _ in range(2):
            self.assertEqual(self.run_script(copy / "bin" / "keeper", "--version").returncode, 0)
            self.assertEqual(self.run_script(copy / "bin" / "panel").stdout, b"12\n")
        with open(copy / "hosts" / "keeper.c", "a", encoding="utf-8") as file:
            file.write("/* changed */\n")
        ran = self.run_script(copy / "bin" / "keeper", "--version")
        self.assertEqual((ran.returncode, ran.stdout), (2, b""), ran.stderr)

    def test_two_hundred_at_once(self):
        """Two hundred verdicts and appends at once, by the scripts: each has its answer."""
        letter = self.file("letter", noted_and(letter_of(RECORDS[:5], 3), RECORDS[:5]))
        runs = []
        for number in range(200):
            with open(letter, "rb") as given:
                words = [TOP / "bin" / "panel"] if number % 4 else [TOP / "bin" / "keeper", "append", self.log, "--wait", "100"]
                runs.append((number, subprocess.Popen(words, stdin=given, stdout=subprocess.PIPE, stderr=subprocess.PIPE)))
        for number, ran in runs:
            out, err = ran.communicate()
            self.assertEqual((ran.returncode, err), (0, b""), number)
            self.assertTrue(out == b"0\n" if number % 4 else out.startswith(b"appended 1 record"), out)
        self.assertEqual(self.records_in(), 50)

    def test_one_builds_and_the_others_wait(self):
        """Of many that find a source newer one builds, and the others wait for it: a stand-in for rt and the compiler counts."""
        copy = self.folder / "copy"
        shutil.copytree(self.copy, copy, symlinks=True)
        subprocess.run(["chmod", "-R", "u+w", copy], check=True)
        with open(copy / "crates.txt", "a", encoding="utf-8") as file:
            file.write("# a change\n")
        tools = self.folder / "stand-ins"
        tools.mkdir()
        (tools / "rt").write_text(f'#!/bin/sh\n[ "$1" != doc ] || {{ echo "{self.folder}/kit/guide"; exit; }}\n'
                                  f'mkdir "{self.folder}/busy" || echo twice >>"{self.folder}/ran"\necho "${{PWD##*/}}: $@" >>"{self.folder}/ran"\nsleep 0.5\n'
                                  f'mkdir -p out\ncp ../../target/bin/panel out/panel\nrmdir "{self.folder}/busy"\n')
        (tools / "rt").chmod(0o755)
        settings = {**PLAIN, "PATH": f"{tools}:{PLAIN['PATH']}"}
        runs = [subprocess.Popen([copy / "bin" / "panel"], stdin=subprocess.DEVNULL, stdout=subprocess.PIPE, stderr=subprocess.PIPE, env=settings) for _ in range(12)]
        for ran in runs:
            out, err = ran.communicate()
            self.assertEqual((ran.returncode, out), (0, b"12\n"), err)
        self.assertEqual((self.folder / "ran").read_text(), "panel: run --cpu x86-64\n")

    def test_closed_streams(self):
        """Closed standard streams of the scripts: the log has the record or nothing, and a verdict that could not be written is status 2."""
        given = self.file("given", noted_and(letter_of(RECORDS[:5], 3), RECORDS[:5]))
        self.assertEqual(subprocess.run(["sh", "-c", '"$0" <"$1" >&-', TOP / "bin" / "panel", given], stderr=subprocess.DEVNULL, check=False).returncode, 2)
        with open("/dev/full", "wb") as full, open(given, "rb") as letter:
            ran = subprocess.run([TOP / "bin" / "panel"], stdin=letter, stdout=full, stderr=subprocess.PIPE, check=False)
        self.assertEqual((ran.returncode, ran.stderr), (2, b"panel: the verdict could not be written\n"))
        for closed, status in (("<&-", 2), (">&-", 2), ("2>&-", 0), ("<&- >&- 2>&-", 2)):
            log = self.folder / f"log{closed[0]}{closed[1]}{len(closed)}"
            given = self.file("given", RECORDS[3])
            ran = subprocess.run(["sh", "-c", f'"$0" append "$1" <"$2" {closed}', TOP / "bin" / "keeper", log, given], stdout=subprocess.PIPE,
                                 stderr=subprocess.PIPE, check=False)
            self.assertEqual(ran.returncode, status, closed)
            if "<&-" in closed:
                self.assertFalse(log.exists())
            else:
                self.holds(RECORDS[3:4], log)

    def test_digest(self):
        """The digest of standard input by its own program: any length, and no digest where it cannot be read or written."""
        digest = TOP / "bin" / "digest"
        subprocess.run([digest], check=True, stdin=subprocess.DEVNULL, capture_output=True)  # builds it
        for length, wanted, *_ in (*((int(length), wanted) for length, wanted, _ in PUBLISHED[::5]), *LONG):
            ran = subprocess.run([digest], input=counting_bytes(length), capture_output=True, check=False)
            self.assertEqual((ran.returncode, ran.stdout, ran.stderr), (0, f"{wanted}\n".encode(), b""), length)
        with open(os.devnull, "wb") as unreadable:
            ran = subprocess.run([digest], stdin=unreadable, capture_output=True, check=False)
        self.assertEqual((ran.returncode, ran.stdout), (1, b""))
        self.assertIn(b"cannot be read", ran.stderr)
        with open("/dev/full", "wb") as full:
            ran = subprocess.run([digest], stdin=subprocess.DEVNULL, stdout=full, stderr=subprocess.PIPE, check=False)
        self.assertEqual((ran.returncode, ran.stderr), (2, b"digest: the digest could not be written\n"))

    def test_words(self):
        for name, word in (("panel", b"verdict"), ("keeper", b"keeper append"), ("digest", b"BLAKE3"), ("match", b"match")):
            ran = self.run_script(self.copy / "bin" / name, "-h")
            self.assertEqual(ran.returncode, 0, ran.stderr)
            self.assertIn(word, ran.stdout)
        self.assertRegex(self.run_script(self.copy / "bin" / "panel", "--version").stdout, rb"^panel \(Cinchcleat\) \d")
        self.assertEqual(self.run_script(self.copy / "bin" / "panel", "more").returncode, 2)

    def test_edited_while_it_is_built(self):
        """A source that is edited while a build runs is built again by the next command, and then no more: a stand-in for rt edits it and counts."""
        copy = self.folder / "copy"
        shutil.copytree(self.copy, copy, symlinks=True)
        subprocess.run(["chmod", "-R", "u+w", copy], check=True)
        (copy / "target" / "bin" / "panel.sources").unlink()
        tools = self.folder / "stand-ins"
        tools.mkdir()
        (tools / "rt").write_text(f'#!/bin/sh\n[ "$1" != doc ] || {{ echo "{self.folder}/kit/guide"; exit; }}\necho "${{PWD##*/}}: $@" >>"{self.folder}/ran"\n'
                                  f'mkdir -p out\ncp ../../target/bin/panel out/panel\n'
                                  f'[ -e "{self.folder}/edited" ] || echo "# an edit" >>"{copy}/crates.txt"\n: >"{self.folder}/edited"\nsleep 0.2\n')
        (tools / "rt").chmod(0o755)
        for builds in (1, 2, 2):
            ran = subprocess.run([copy / "bin" / "panel"], stdin=subprocess.DEVNULL, capture_output=True, check=False,
                                 env={**PLAIN, "PATH": f"{tools}:{PLAIN['PATH']}"})
            self.assertEqual((ran.returncode, ran.stdout), (0, b"12\n"), ran.stderr)
            self.assertEqual((self.folder / "ran").read_text(), builds * "panel: run --cpu x86-64\n")


@unittest.skipIf(CHECKED, "tried once, without sanitizers")
class Installs(HostTest):
    """A stand-in for apt-get says that it was called: nobody calls it who should not."""

    def setUp(self):
        super().setUp()
        self.copy = self.folder / "copy"
        self.copy.mkdir()
        for name in ("bin", "shell", "hosts", "include", "outside", "bench", ".ci", "second", "vectors"):
            shutil.copytree(TOP / name, self.copy / name)
        shutil.copy(TOP / "VERSION", self.copy)
        shutil.copy(TOP / "Makefile", self.copy)
        shutil.copy(TOP / "crates.txt", self.copy)
        (self.copy / "crates").mkdir()
        self.tools = self.folder / "tools"
        self.tools.mkdir()
        for command in ("sh", "bash", "readlink", "find", "sha256sum", "xargs", "sort", "cat", "touch", "uname", "mktemp", "rm", "grep", "sed", "dirname", "flock",
                        "id", "basename", "make", "mkdir", "ls", "env"):
            if shutil.which(command):
                (self.tools / command).symlink_to(shutil.which(command))
        self.stand_in("apt-get", f'echo "$@" >>"{self.folder}/asked"; exit 1')
        self.stand_in("sudo", 'exec "$@"')
        self.stand_in("rt", f'[ "$1" = doc ] && echo "{self.folder}/kit/docs/guide" || exit 1')

    def stand_in(self, name, does):
        path = self.tools / name
        path.write_text(f"#!/bin/sh\n{does}\n")
        path.chmod(0o755)

    def asked(self):
        path = self.folder / "asked"
        return path.read_text() if path.exists() else ""

    def run_script(self, script, *words, **settings):
        return subprocess.run([self.copy / script, *words], capture_output=True, check=False, stdin=subprocess.DEVNULL, cwd=self.folder,
                              env={"PATH": str(self.tools), **settings})

    def test_others_name_what_is_missing(self):
        for script in ("bin/keeper", "hosts/build.sh", "hosts/test.sh", "bench/digest.sh", "bench/append.sh", "bench/lanes.sh", "bench/host.sh"):
            ran = self.run_script(script)
            self.assertEqual(ran.returncode, 2, (script, ran.stderr))
            self.assertIn(b"apt-get install", ran.stderr, script)
        self.assertEqual(self.asked(), "")

    def test_two_commands_install_and_say_so(self):
        ran = self.run_script("bin/match")
        self.assertEqual(ran.returncode, 2)
        self.assertTrue(ran.stderr.startswith(b"match: installing gcc"), ran.stderr)
        self.assertIn("install -y --no-install-recommends gcc", self.asked())
        (self.folder / "asked").unlink()
        ran = self.run_script(".ci/run")
        self.assertEqual(ran.returncode, 2)
        self.assertTrue(ran.stderr.startswith(b"run: installing python3"), ran.stderr)
        self.assertIn("install -y --no-install-recommends python3", self.asked())

    def test_mistyped_compiler(self):
        for script in ("bin/match", "bin/keeper", "hosts/build.sh", ".ci/run"):
            self.stand_in("python3", "exit 0")
            ran = self.run_script(script, CC="gccc")
            self.assertEqual(ran.returncode, 2, script)
            self.assertIn(b"CC is gccc, and there is no such command", ran.stderr)
        self.assertEqual(self.asked(), "")


if __name__ == "__main__":
    unittest.main()
