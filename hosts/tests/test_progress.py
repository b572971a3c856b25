"""How far a long work is: shown on a terminal, and there only; not where --quiet is asked for."""
import os
import pty
import re
import subprocess
import time
import unittest

from harness import KEEPER, LONGEST_RECORD, RECORDS, HostTest, digest, read_by_now, run_record, stream_of

LONG = 1.2  # seconds after which something is to be shown


class Run:
    """The host at work, with standard error on a terminal or on a pipe, and standard output on the same terminal where that is asked for."""

    def __init__(self, test, *words, terminal=True, output=False):
        self.side, end = pty.openpty() if terminal else os.pipe()
        self.ran = subprocess.Popen([KEEPER, *map(str, words)], stdin=subprocess.PIPE, stdout=end if output else subprocess.DEVNULL, stderr=end)
        os.close(end)
        test.addCleanup(self.ran.kill)

    def give(self, data):
        """More on standard input."""
        self.ran.stdin.write(data)
        self.ran.stdin.flush()

    def end(self):
        """What it wrote there up to its end, and the status."""
        self.ran.stdin.close()
        said = b""
        try:
            while part := os.read(self.side, 4096):
                said += part
        except OSError:  # a terminal that nobody writes to any more
            pass
        os.close(self.side)
        return said, self.ran.wait()


class Shown(HostTest):
    def test_stream(self):
        """Records and bytes, after a second; the line of progress is ended before another line begins."""
        record = run_record(1, LONGEST_RECORD)
        logs = [self.folder / str(number) for number in range(4)]
        runs = [Run(self, "append", logs[0], "--stream"), Run(self, "append", logs[1], "--stream", "--acknowledge", output=True),
                Run(self, "append", logs[2], "--stream", "--quiet"), Run(self, "append", logs[3], "--stream", terminal=False)]
        for run in runs:
            run.give(stream_of([record] * 64))
        time.sleep(LONG)
        for run in runs:
            run.give(stream_of([record]))
        said = [run.end() for run in runs]
        self.assertRegex(said[0][0], rb"^(keeper: \d+ records, \d\.\d MB, \d+ records a second   \r)+\r\n$")
        for records, megabytes in re.findall(rb"keeper: (\d+) records, (.{3}) MB", said[0][0]):
            self.assertEqual(megabytes, b"%.1f" % (int(records) * LONGEST_RECORD / 1e6))
        self.assertRegex(said[1][0], rb" records a second   \r\r\n(kept: size \d+, 65 records\r\n)?appended 65 records, [^\r]*\r\n$")
        self.assertEqual(said[2:], [(b"", 0)] * 2)
        for path in logs:
            self.holds([record] * 65, path)

    def test_files(self):
        """Of how many, where that is known: append and root --records, on a terminal, there with --quiet, and on a pipe."""
        first, last, runs = self.file("first", RECORDS[3]), self.file("last", RECORDS[4]), []
        for options, terminal in (((), True), (("--quiet",), True), ((), False)):
            for words in (("append", self.folder / f"log{len(runs)}"), ("root", "--records")):
                late = self.folder / f"late{len(runs)}"
                os.mkfifo(late)
                runs.append((Run(self, *words, *options, first, late, last, terminal=terminal), late))
        files = [read_by_now(late) for _, late in runs]
        time.sleep(LONG)
        for file in files:
            file.write(b"late")
            file.close()
        said = [run.end() for run, _ in runs]
        for shown, status in said[:2]:
            self.assertRegex(shown, rb"^(keeper: [1-3] of 3 records, 0\.0 MB, \d+ records a second   \r)+\r\n$")
            self.assertEqual(status, 0)
        self.assertEqual(said[2:], [(b"", 0)] * 4)

    def test_digests(self):
        """Bytes, and which file of how many, where there are some; how many a list names, nobody knows."""
        line = f"{digest(bytes(300000)).hex()}  -\n"
        first, listed = self.file("first", RECORDS[3]), self.file("list", line.encode())
        runs = [Run(self, "digest"), Run(self, "digest", first, "-", output=True), Run(self, "digest", "--check", listed),
                Run(self, "digest", "--quiet"), Run(self, "digest", "--check", "--quiet", listed), Run(self, "digest", terminal=False)]
        for run in runs:
            run.give(bytes(200000))
        time.sleep(LONG)
        for run in runs:
            run.give(bytes(100000))
        said = [run.end() for run in runs]
        self.assertRegex(said[0][0], rb"^(keeper: 0\.[23] MB, 0\.[0-3] MB a second   \r)+\r\n$")
        second = rb"(keeper: file 2 of 2, 0\.[23] MB, 0\.[0-3] MB a second   \r)+\r\n"
        self.assertRegex(said[1][0], rb"^[^\r]*first\r\n" + second + line.encode()[:-1] + rb"\r\n$")
        self.assertRegex(said[2][0], rb"^(keeper: file 1, 0\.[23] MB, 0\.[0-3] MB a second   \r)+\r\n$")
        self.assertEqual(said[3:], [(b"", 0)] * 3)
        self.assertEqual([status for _, status in said[:3]], [0] * 3)

    def test_length_of_a_file(self):
        """A file that has a length is shown with it: one that comes up late, behind a pipe that has nothing."""
        late, long = self.folder / "late", self.file("long", bytes(10**6))
        os.mkfifo(late)
        run = Run(self, "digest", late, long)
        with read_by_now(late):
            time.sleep(LONG)
        said, status = run.end()
        self.assertRegex(said, rb"^keeper: file 2 of 2, 0\.1 of 1\.0 MB, 0\.[01] MB a second   \r\r\n$")
        self.assertEqual(status, 0)

    def test_who_takes_it(self):
        self.done("append", self.log, "--quiet", given=RECORDS[0])
        self.done("verify", self.log, "--quiet")
        self.done("root", self.log, "--quiet")
        self.done("digest", self.log, "--quiet")
        self.failed("cannot read", "append", self.log, "--quiet", self.folder / "missing")


if __name__ == "__main__":
    unittest.main()
