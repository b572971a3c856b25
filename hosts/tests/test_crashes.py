"""Crashes: kill -9 at random moments inside writes, and a disk whose power fails at each step."""
import os
import random
import shutil
import signal
import subprocess
import time
import unittest

from harness import FEWER, KEEPER, KEY, LONGEST_RECORD, LOSSY, RECORDS, HostTest, nodes_of, read_by_now, run_record, said_of, stream_of

BATCH = [run_record(i, LONGEST_RECORD) for i in range(4)]  # four longest records make a batch full


class Killed(HostTest):
    def killed(self, chance, records, *options):
        """A stream of these records, ended by kill -9 at a random moment: the greatest size that it acknowledged."""
        words = [KEEPER, "append", self.log, "--stream", "--acknowledge", *options]
        with subprocess.Popen(words, stdin=subprocess.PIPE, stdout=subprocess.PIPE) as writer:
            for record in records:
                if writer.poll() is None:
                    writer.stdin.write(stream_of([record]))
                    writer.stdin.flush()
                time.sleep(chance.random() / 150)
            said = writer.stdout.readline() if chance.random() < 0.6 and writer.poll() is None else b""
            time.sleep(chance.random() / 30)
            writer.kill()
            said = (said + writer.stdout.read()).splitlines()
        sizes = [int(line.split()[2].rstrip(b",")) for line in said if line.startswith(b"kept: size ") and line.endswith(b"records")]
        return max(sizes, default=0)

    def test_in_a_loop(self):
        """What was acknowledged is there after every kill, the log is whole, and the next stream goes on from it."""
        chance, records, kept, acknowledged = random.Random(1), [run_record(i, 40) for i in range(400)], 0, 0
        for turn in range(25):
            size = self.killed(chance, records[kept:kept + 8], *(("--keep-records",) if turn % 2 else ()))
            before, kept = kept, self.records_in()
            self.assertTrue(before <= kept <= before + 8)
            self.assertLessEqual(size, nodes_of(kept))
            acknowledged += size > 0
            if self.log.exists():
                self.done("verify", self.log)
        self.assertGreater(acknowledged, 5)
        self.done("append", self.log, "--stream", given=stream_of(records[kept:kept + 5]))
        self.holds(records[:kept + 5])
        first = self.object(0, "info", self.log)["records_kept_from"]
        self.done("verify", self.log, "--records")
        self.assertIn(records[kept + 1], self.done("letter", self.log, kept + 1))
        self.assertLess(first, kept)

    def test_large_groups(self):
        """Killed while much is being written: whole groups or nothing of one."""
        chance, records, held = random.Random(2), [b"%0200d" % i for i in range(20000)], []
        given = stream_of(records)
        for _ in range(6 // FEWER):
            before = self.records_in()
            with subprocess.Popen([KEEPER, "append", self.log, "--stream"], stdin=subprocess.PIPE, stdout=subprocess.DEVNULL) as writer:
                try:
                    writer.stdin.write(given[:chance.randrange(len(given))])
                    time.sleep(chance.random() / 20)
                except BrokenPipeError:
                    pass
                writer.kill()
                writer.stdin.close()
            self.assertGreaterEqual(self.records_in(), before)
            held += records[:self.records_in() - before]
            if self.log.exists():
                self.done("verify", self.log)
        if held:
            self.done("root", self.log, "--records", "--stream", given=stream_of(held))

    def test_between_batches(self):
        """Ended while it waits for a file, with two batches in the map: nothing of them is in the log, and the next append goes on from there."""
        late, files = self.folder / "late", [self.file(f"record{i}", record) for i, record in enumerate(2 * BATCH)]
        os.mkfifo(late)
        for number, status, before in ((signal.SIGKILL, -signal.SIGKILL, 3), (signal.SIGTERM, 2, 3), (signal.SIGTERM, 2, 0)):
            shutil.rmtree(self.folder / "of", ignore_errors=True)
            (self.folder / "of").mkdir()
            log = self.folder / "of" / "log"
            if before:
                self.make(RECORDS[:before], path=log)
            with subprocess.Popen([KEEPER, "append", log, *files, late, "--keep-records"], stdout=subprocess.PIPE, stderr=subprocess.PIPE) as writer:
                with read_by_now(late):
                    writer.send_signal(number)
                    self.assertEqual(writer.communicate()[0], b"")
            self.assertEqual(writer.returncode, status)
            self.assertEqual(log.exists(), before > 0)
            if before:
                self.holds(RECORDS[:before], log)
            self.done("append", log, *files, "--keep-records")
            self.holds([*RECORDS[:before], *2 * BATCH], log)
            self.done("verify", log, "--records")

    def test_behind_an_acknowledged_batch(self):
        """A stream of which more than a batch is acknowledged, and more than another has come in: what was acknowledged is there."""
        records = [*3 * BATCH, *RECORDS[:2]]
        with subprocess.Popen([KEEPER, "append", self.log, "--stream", "--acknowledge", "--keep-records"], stdin=subprocess.PIPE,
                              stdout=subprocess.PIPE) as writer:
            writer.stdin.write(stream_of(records[:6]) + stream_of(records[6:7])[:99])
            writer.stdin.flush()
            sizes = [writer.stdout.readline()]
            while sizes[-1] != f"kept: size {nodes_of(6)}, 6 records\n".encode():
                self.assertRegex(sizes[-1], rb"^kept: size \d+, [1-5] records\n$")
                sizes.append(writer.stdout.readline())
            writer.stdin.write(stream_of(records[6:])[99:-1])
            writer.stdin.flush()
            writer.kill()
        held = self.records_in()
        self.assertTrue(6 <= held < len(records), held)
        self.holds(records[:held])
        self.done("verify", self.log, "--records")
        self.done("append", self.log, "--stream", given=stream_of(records[held:]))
        self.holds(records)


@unittest.skipUnless(LOSSY, "LOSSY names no program")
class PowerFails(HostTest):
    def setUp(self):
        super().setUp()
        self.disk = self.folder / "disk"
        self.disk.mkdir()

    def fails(self, before, step, luck, records):
        """An append on the disk whose power fails at that step: the exit status, and then the files are what is on the disk."""
        for name, data in before.items():
            (self.folder / name).write_bytes(data)
            (self.disk / name).write_bytes(data)
        files = [self.file(f"record{i}", record) for i, record in enumerate(records)]
        settings = {**os.environ, "LOSSY_DISK": str(self.disk), "LOSSY_STEP": str(step), "LOSSY_LUCK": str(luck)}
        ran = subprocess.run([LOSSY, "append", self.log, *files], env=settings, capture_output=True, check=False)
        for name in before:
            shutil.copy(self.disk / name, self.folder / name)
        return ran.returncode

    def tried(self, names, steps, counts, records=RECORDS, more=2, lucks=range(6)):
        """Every step and every luck: the log has the records of before or all, is whole, and takes the next."""
        ends = set()
        for count in counts:
            before = {name: (self.folder / name).read_bytes() for name in names}
            for step in range(1, steps + 1):
                for luck in lucks:
                    status = self.fails(before, step, luck, records[count:count + more])
                    held = self.records_in()
                    self.assertIn(held, {count, count + more} if status == 99 else {count + more})
                    self.ran(0, "", "verify", self.log, *(("--records",) if len(names) > 1 else ()))
                    self.ran(0, "", "append", self.log, given=records[held])
                    self.assertEqual(self.log.read_bytes()[8192:8192 + 32 * nodes_of(held + 1)], said_of(records)[2][:32 * nodes_of(held + 1)])
                    ends.add((step, held - count))
            for name, data in before.items():
                (self.folder / name).write_bytes(data)
            self.done("append", self.log, given=records[count])
        return ends

    def test_log(self):
        self.make(RECORDS[:3])
        ends = self.tried(("log",), 4, (3, 4))
        self.assertTrue({(1, 0), (2, 0), (3, 0), (3, 2), (4, 2)} <= ends, ends)

    def test_log_and_records(self):
        self.done("append", self.log, "--stream", "--keep-records", given=stream_of(RECORDS[:3]))
        ends = self.tried(("log", "log.records", "log.index"), 6, (3,))
        self.assertTrue({(1, 0), (2, 0), (3, 0), (4, 0), (5, 0), (5, 2), (6, 2)} <= ends, ends)

    @unittest.skipIf(KEY, "tried once, without a key")
    def test_many_batches(self):
        """The file of records grows for the first batch and for the third: power that fails then leaves all of them or none too."""
        self.done("append", self.log, "--stream", "--keep-records", given=stream_of(RECORDS[:3]))
        ends = self.tried(("log", "log.records", "log.index"), 8, (3,), (*RECORDS[:3], *3 * BATCH, *RECORDS[3:5]), 13, (0,))
        self.assertEqual(ends, {*((step, 0) for step in range(1, 8)), (8, 13)})


if __name__ == "__main__":
    unittest.main()
