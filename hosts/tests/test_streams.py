"""Standard streams that are closed or full, signals, a full disk; and that what is on disk is said."""
import os
import resource
import select
import signal
import subprocess
import tempfile
import time
import unittest

from harness import KEEPER, RECORDS, HostTest, keeper, letter_of, nodes_of, said_of, stream_of, taken_by_now


def closing(*streams):
    """Before the program starts: these standard streams are closed."""
    def close():
        for stream in streams:
            os.close(stream)
    return close


def run(words, streams, given=b""):
    """The host with these standard streams closed, the others to files: the status, and what it wrote to each."""
    with tempfile.TemporaryFile() as out, tempfile.TemporaryFile() as err, tempfile.TemporaryFile() as into:
        into.write(given)
        into.seek(0)
        ran = subprocess.run([KEEPER, *map(str, words)], stdin=into, stdout=out, stderr=err, preexec_fn=closing(*streams), check=False)
        out.seek(0)
        err.seek(0)
        return ran.returncode, out.read(), err.read()


class Closed(HostTest):
    def test_never_the_log(self):
        """Whatever is closed, the log has what was appended and nothing else."""
        self.make(RECORDS[:3])
        whole = self.log.read_bytes()
        for streams in ((0,), (1,), (2,), (0, 1), (1, 2), (0, 2), (0, 1, 2)):
            self.log.write_bytes(whole)
            status, _, _ = run(("append", self.log), streams, RECORDS[3])
            self.assertEqual(status, 2 if 0 in streams or 1 in streams else 0, streams)
            self.holds(RECORDS[:3] if 0 in streams else RECORDS[:4])
            status, _, _ = run(("append", self.log, "--stream"), streams, stream_of(RECORDS[4:5]))
            self.assertEqual(status, 2 if 0 in streams or 1 in streams else 0, streams)
            self.assertEqual(self.records_in(), 3 if 0 in streams else 5)
            self.done("verify", self.log)

    def test_first_append(self):
        for streams in ((0,), (0, 1, 2)):
            self.assertEqual(run(("append", self.log), streams)[0], 2)
            self.assertEqual(list(self.folder.iterdir()), [])

    def test_words(self):
        self.assertIn(b"standard input: it is closed", run(("append", self.log), (0,))[2])
        self.make(RECORDS[:1])
        self.assertIn(b"cannot write to standard output", run(("root", self.log), (1,))[2])
        closed = b"standard input: it is closed"
        for streams, word in (((0,), closed), ((1,), b"cannot write to standard output"), ((0, 1), closed)):
            for log in ((), (self.log,)):
                status, out, err = run(("root", *log, "--records", "--stream"), streams, stream_of(RECORDS[:1]))
                self.assertEqual((status, out), (2, b""))
                self.assertIn(word, err)
        self.assertEqual(run(("root", self.log, "--records", self.file("first", RECORDS[0])), (0, 2))[0], 0)


class Unwritten(HostTest):
    """What could not be written is no success; an append that is on disk says so on the other stream."""

    def full(self, *words, given=b""):
        with open("/dev/full", "wb") as full:
            ran = subprocess.run([KEEPER, *map(str, words)], input=given, stdout=full, stderr=subprocess.PIPE, check=False)
        self.assertEqual(ran.returncode, 2)
        self.assertIn(b"cannot write to standard output", ran.stderr)
        return ran.stderr

    def test_every_command(self):
        self.assertIn(b"it is on disk: appended 1 record, index 0; size 1", self.full("append", self.log, given=RECORDS[0]))
        self.assertIn(b"it is on disk: appended 2 records, index 1 to 2; size 4", self.full("append", self.log, "--stream", given=stream_of(RECORDS[1:3])))
        self.holds(RECORDS[:3])
        size, top, _ = said_of(RECORDS[:3])
        for words in (("root", self.log), ("root", self.log, "--bytes"), ("info", self.log), ("verify", self.log), ("help",), ("--version",)):
            self.full(*words)
        for words in (("root", self.log), ("root",), ("root", "--bytes"), ("root", self.log, "--json")):
            self.full(*words, "--records", "--stream", given=stream_of(RECORDS[:3]))
        for words in (("digest", self.log, self.log), ("digest",), ("digest", "--json")):
            self.full(*words, given=RECORDS[1])
        for words in (("node", "--leaf"), ("node", "--leaf", "--json"), ("node", "--inner", "00" * 32), ("node", self.log, self.log)):
            self.full(*words, given=RECORDS[1])
        self.full("letter", self.log, 1, given=RECORDS[1])
        self.full("check", size, top.hex(), given=letter_of(RECORDS[:3], 1))
        self.full("check", size, top.hex(), "--json", given=letter_of(RECORDS[:3], 1))

    def test_reader_that_is_gone(self):
        into, out = os.pipe()
        os.close(into)
        with os.fdopen(out, "wb") as gone:
            ran = subprocess.run([KEEPER, "append", self.log, "--stream", "--acknowledge"], input=stream_of(RECORDS[:4]), stdout=gone,
                                 stderr=subprocess.PIPE, check=False)
        self.assertEqual(ran.returncode, 2)
        self.assertIn(b"it is on disk: appended 4 records", ran.stderr)
        self.holds(RECORDS[:4])


class Signals(HostTest):
    def test_stream_keeps_what_came_in(self):
        for number, name in ((signal.SIGINT, b"SIGINT"), (signal.SIGTERM, b"SIGTERM"), (signal.SIGHUP, b"SIGHUP")):
            log = self.folder / name.decode()
            # a shell without job control starts what goes beside it with SIGINT ignored, and so would be what the tests start
            with subprocess.Popen([KEEPER, "append", log, "--stream"], stdin=subprocess.PIPE, stdout=subprocess.PIPE, stderr=subprocess.PIPE,
                                  preexec_fn=lambda number=number: signal.signal(number, signal.SIG_DFL)) as writer:
                writer.stdin.write(stream_of(RECORDS[:4]) + b"\0\0\0\7abc")
                writer.stdin.flush()
                self.wait_for(4, log)
                writer.stdin.write(b"d")
                writer.stdin.flush()
                writer.send_signal(number)
                out, err = writer.communicate()
            self.assertEqual(writer.returncode, 2)
            self.assertEqual(out, b"appended 4 records, index 0 to 3; size 7, hashes 7\n")
            self.assertIn(name + b" came; what came in whole before it is kept", err)
            self.holds(RECORDS[:4], log)

    def test_waiting_for_a_record(self):
        """Asked to stop before the first record is whole: nothing is left behind."""
        for words in ((), ("--stream",)):
            with subprocess.Popen([KEEPER, "append", self.log, *words], stdin=subprocess.PIPE, stdout=subprocess.PIPE, stderr=subprocess.PIPE) as writer:
                writer.stdin.write(b"\0\0")
                writer.stdin.flush()
                self.assertTrue(taken_by_now(writer.stdin))
                writer.send_signal(signal.SIGTERM)
                _, err = writer.communicate()
            self.assertEqual(writer.returncode, 2)
            self.assertIn(b"SIGTERM came", err)
            self.assertEqual(list(self.folder.iterdir()), [])


class Acknowledge(HostTest):
    def test_each_group(self):
        with subprocess.Popen([KEEPER, "append", self.log, "--stream", "--acknowledge"], stdin=subprocess.PIPE, stdout=subprocess.PIPE) as writer:
            for count in (1, 2, 5):
                writer.stdin.write(stream_of(RECORDS[self.records_in():count]))
                writer.stdin.flush()
                self.assertEqual(writer.stdout.readline(), f"kept: size {nodes_of(count)}, {count} records\n".encode())
                self.holds(RECORDS[:count])
            out, _ = writer.communicate()
        self.assertEqual(out, b"appended 5 records, index 0 to 4; size 8, hashes 8\n")
        self.assertEqual(writer.returncode, 0)

    def test_without_a_pause(self):
        """A sender that never stops for long, and has not sent a batch: what came in is on disk after a second, and is acknowledged."""
        sent, until = 0, time.monotonic() + 20
        with subprocess.Popen([KEEPER, "append", self.log, "--stream", "--acknowledge"], stdin=subprocess.PIPE, stdout=subprocess.PIPE) as writer:
            while not select.select([writer.stdout], [], [], 0.002)[0] and time.monotonic() < until:
                writer.stdin.write(stream_of([b"call"]))
                writer.stdin.flush()
                sent += 1
            self.assertLess(time.monotonic(), until)
            out, _ = writer.communicate(stream_of([b"call"]))
        kept = [int(line.split()[3]) for line in out.splitlines() if line.startswith(b"kept: ")]
        self.assertTrue(0 < kept[0] <= sent < kept[-1], kept)
        self.holds([b"call"] * (sent + 1))


class FullDisk(HostTest):
    def at_most(self, length):
        return lambda: resource.setrlimit(resource.RLIMIT_FSIZE, (length, length))

    def test_stream_keeps_what_fits(self):
        """A limit on the file's length is met as a full disk is: words, and what came in before is kept."""
        self.make(RECORDS[:4])
        length = self.log.stat().st_size
        out = self.ran(2, "cannot make", "append", self.log, "--stream", given=stream_of([b"record"] * 3000), preexec_fn=self.at_most(length))
        kept = self.records_in()
        self.assertGreater(kept, 500)
        self.assertIn(f"appended {kept - 4} records, index 4 to {kept - 1}; size {nodes_of(kept)},".encode(), out)
        self.done("verify", self.log)

    def test_files_are_all_or_nothing(self):
        self.make(RECORDS[:4])
        folder = self.folder / "many"
        folder.mkdir()
        for i in range(1500):
            (folder / f"{i:04}").write_bytes(b"record")
        self.failed("Nothing was appended", "append", self.log, "--folder", folder, preexec_fn=self.at_most(self.log.stat().st_size))
        self.holds(RECORDS[:4])

    def test_no_room_for_a_log(self):
        self.failed("cannot make", "append", self.log, given=b"x", preexec_fn=self.at_most(4096))
        self.assertEqual(list(self.folder.iterdir()), [])
        self.failed("cannot make", "append", self.log, given=b"x", preexec_fn=self.at_most(8192))
        self.assertEqual(list(self.folder.iterdir()), [])

    def test_no_room_for_records(self):
        self.done("append", self.log, "--keep-records", given=b"first")
        out = self.ran(2, "cannot make", "append", self.log, "--stream", given=stream_of([bytes(1000)] * 500), preexec_fn=self.at_most(200000))
        kept = self.records_in()
        self.assertTrue(100 < kept < 300, kept)
        self.assertIn(f"size {nodes_of(kept)},".encode(), out)
        self.done("verify", self.log, "--records")

    @unittest.skipUnless(os.geteuid() == 0 and os.path.exists("/proc/self/mountinfo"), "a small disk can be mounted by root alone")
    def test_small_disk(self):
        disk = self.folder / "disk"
        disk.mkdir()
        if subprocess.run(["mount", "-t", "tmpfs", "-o", "size=300k", "none", disk], capture_output=True, check=False).returncode != 0:
            self.skipTest("no small disk can be mounted here")
        self.addCleanup(subprocess.run, ["umount", disk], check=True)
        log = disk / "log"
        out = self.ran(2, "No space left", "append", log, "--stream", given=stream_of([b"record"] * 6000))
        kept = self.records_in(log)
        self.assertGreater(kept, 3000)
        self.assertIn(f"appended {kept} records".encode(), out)
        self.done("verify", log)


if __name__ == "__main__":
    unittest.main()
