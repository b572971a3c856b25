"""Many programs at one log: a reader beside a writer, a busy log, two hundred runs at once."""
import subprocess
import time
import unittest

from harness import CHECKED, KEEPER, RECORDS, HostTest, keeper, run_record, said_of, stream_of


class Together(HostTest):
    def test_reader_beside_writer(self):
        with subprocess.Popen([KEEPER, "append", self.log, "--stream"], stdin=subprocess.PIPE, stdout=subprocess.PIPE) as writer:
            for count, record in enumerate(RECORDS[:5]):
                writer.stdin.write(stream_of([record]))
                writer.stdin.flush()
                self.wait_for(count + 1)
                self.holds(RECORDS[:count + 1])
            out, _ = writer.communicate()
        self.assertEqual(out, b"appended 5 records, index 0 to 4; size 8, hashes 8\n")

    def test_no_false_alarm(self):
        """A writer that keeps and grows its file all the time, and readers that look all the time: none has anything to say."""
        record = run_record(1, 3000)
        self.make([record])
        with subprocess.Popen([KEEPER, "append", self.log, "--stream", "--keep-records"], stdin=subprocess.PIPE, stdout=subprocess.DEVNULL) as writer:
            writer.stdin.write(stream_of([record] * 3))
            writer.stdin.flush()
            self.wait_for(4)
            until, looks = time.monotonic() + (3 if CHECKED else 6), 0
            while time.monotonic() < until or looks < 24:
                readers = [subprocess.Popen([KEEPER, *words], stdout=subprocess.PIPE, stderr=subprocess.PIPE)
                           for words in (("root", self.log), ("info", self.log), ("letter", self.log, "1", "--json"), ("verify", self.log))]
                for _ in range(6):
                    writer.stdin.write(stream_of([record] * 40))
                    writer.stdin.flush()
                    time.sleep(0.007)
                for reader in readers:
                    out, err = reader.communicate()
                    looks += 1
                    self.assertEqual((reader.returncode, err), (0, b""), out)
            writer.stdin.close()
            self.assertEqual(writer.wait(), 0)
        self.assertGreater(self.log.stat().st_size, 70000)

    def test_a_state_that_is_being_written(self):
        """A page of sizes that is torn, and whole a moment later, is no damage: it is read again before anything is said."""
        self.make(RECORDS[:3], RECORDS[3:5])
        whole = self.log.read_bytes()
        torn = whole[:20] + b"\xff" * 4 + whole[24:2068] + b"\xff" * 4 + whole[2072:4116] + b"\xff" * 4 + whole[4120:6164] + b"\xff" * 4 + whole[6168:]
        with open(self.log, "r+b") as file:
            file.write(torn)
            file.flush()
            reader = subprocess.Popen([KEEPER, "root", self.log], stdout=subprocess.PIPE, stderr=subprocess.PIPE)
            for turn in range(60):  # the bytes change until the reader can be at work
                file.seek(20)
                file.write(bytes([turn]) * 4)
                file.flush()
                time.sleep(0.005)
            file.seek(0)
            file.write(whole)
            file.flush()
        out, err = reader.communicate()
        size, top, _ = said_of(RECORDS[:5])
        self.assertEqual((reader.returncode, out, err), (0, f"{size} {top.hex()}\n".encode(), b""))

    def test_busy(self):
        with subprocess.Popen([KEEPER, "append", self.log, "--stream"], stdin=subprocess.PIPE, stdout=subprocess.PIPE) as writer:
            writer.stdin.write(stream_of(RECORDS[:1]))
            writer.stdin.flush()
            self.wait_for(1)
            self.assertEqual(self.ran(3, "another program appends", "append", self.log, given=b"late"), b"")
            self.ran(3, "another program appends", "repair", self.log, self.folder / "copy")
            self.assertEqual(self.object(3, "append", self.log, given=b"late")["status"], 3)
            begun = time.monotonic()
            self.ran(3, "another program appends", "append", self.log, "--wait", "0.5", given=b"late")
            self.assertGreater(time.monotonic() - begun, 0.5)
            with subprocess.Popen([KEEPER, "append", self.log, "--wait=30"], stdin=subprocess.PIPE, stdout=subprocess.PIPE) as waits:
                waits.stdin.write(RECORDS[1])
                waits.stdin.close()
                time.sleep(0.3)
                self.assertIsNone(waits.poll())
                writer.communicate()
                self.assertEqual((waits.wait(), waits.stdout.read()), (0, b"appended 1 record, index 1; size 3, hashes 2\n"))
        self.holds(RECORDS[:2])

    def test_two_hundred(self):
        """A hundred appends and a hundred readers at once: each append ends done or busy, and what was acknowledged is there."""
        self.make(RECORDS[:1])
        files = [self.file(f"record{number}", b"%d" % number) for number in range(200)]
        words = [("append", self.log, files[number], "--wait", "100") if number % 2 else ("root", self.log) for number in range(200)]
        runs = [subprocess.Popen([KEEPER, *map(str, each)], stdin=subprocess.DEVNULL, stdout=subprocess.PIPE, stderr=subprocess.PIPE) for each in words]
        done = {}
        for number, ran in enumerate(runs):
            out, err = ran.communicate()
            self.assertEqual((ran.returncode, err), (0, b""))
            if number % 2:
                done[int(out.split()[4].rstrip(b";"))] = b"%d" % number
        self.assertEqual(sorted(done), list(range(1, 101)))
        self.holds([RECORDS[0]] + [done[index] for index in range(1, 101)])


if __name__ == "__main__":
    unittest.main()
