"""New logs: no link is followed, no file taken or replaced, and a refused first append leaves nothing behind."""
import os
import subprocess
import unittest

from harness import KEEPER, LONGEST_RECORD, RECORDS, HostTest, keeper, stream_of


class New(HostTest):
    def names(self):
        return sorted(path.name for path in self.folder.iterdir())

    def test_neighbours_stay(self):
        """Files and links with names beside the log's are not touched."""
        mine = self.file("mine", b"mine")
        (self.folder / "log.new").symlink_to(mine)
        self.file("log.draft", b"mine too")
        self.done("append", self.log, given=RECORDS[0])
        self.assertEqual((mine.read_bytes(), os.readlink(self.folder / "log.new")), (b"mine", str(mine)))
        self.assertEqual(self.names(), ["log", "log.draft", "log.new", "mine"])
        self.holds(RECORDS[:1])

    def test_link_to_nothing(self):
        self.log.symlink_to(self.folder / "elsewhere")
        self.failed("is a link that leads nowhere", "append", self.log, given=RECORDS[0])
        self.assertEqual(self.names(), ["log"])

    def test_link_to_a_log(self):
        self.make(RECORDS[:2])
        other = self.folder / "other"
        other.symlink_to(self.log)
        self.done("append", other, given=RECORDS[2])
        self.assertTrue(other.is_symlink())
        self.holds(RECORDS[:3])

    def test_what_is_no_log(self):
        for name, data in (("other", b"x" * 10000), ("empty", b""), ("short", b"cinchcleat log 1")):
            path = self.file(name, data)
            self.failed("is not a log", "append", path, given=b"record")
            self.assertEqual(path.read_bytes(), data)
        self.failed("Is a directory", "append", self.folder, given=b"record")

    def test_fifo(self):
        os.mkfifo(self.log)
        for words in (("append", self.log), ("root", self.log), ("info", self.log), ("verify", self.log), ("letter", self.log, 0)):
            self.failed("is not a log: a log is a file", *words, given=b"record", timeout=20)

    def test_refused_first_append(self):
        long = bytes(LONGEST_RECORD + 1)
        self.refused(3, "append", self.log, given=long)
        self.refused(3, "append", self.log, "--keep-records", given=long)
        self.assertEqual(self.names(), [])
        self.assertIn(b"appended nothing", self.ran(1, " refused, number 3: ", "append", self.log, "--stream", given=b"\0\1\0\0" + long))
        self.failed("cannot read", "append", self.log, self.folder / "missing")
        self.failed("cannot read", "append", self.log, self.folder / "missing", self.folder / "missing too")
        self.assertEqual(self.names(), [])
        self.ran(2, "within a record", "append", self.log, "--stream", "--keep-records", given=b"\0\0\0\2x")
        self.assertEqual(self.names(), [])

    def test_records_beside_another_file(self):
        """What stands where the records should go is neither followed nor replaced."""
        (self.folder / "log.records").symlink_to(self.folder / "elsewhere")
        self.failed("it is a link", "append", self.log, "--keep-records", given=b"record")
        self.assertEqual(self.names(), ["log.records"])
        (self.folder / "log.records").unlink()
        self.file("log.index", b"mine" * 2000)
        self.failed("another file is there", "append", self.log, "--keep-records", given=b"record")
        self.assertEqual(self.names(), ["log.index"])

    def test_many_at_once(self):
        """Forty first appends at once: each waits for its turn, one log is made, and every record that was acknowledged is in it."""
        writers = [subprocess.Popen([KEEPER, "append", self.log, "--wait", "60"], stdin=subprocess.PIPE, stdout=subprocess.PIPE) for _ in range(40)]
        for number, writer in enumerate(writers):
            writer.stdin.write(b"record %d" % number)
            writer.stdin.close()
        indexes = {}
        for number, writer in enumerate(writers):
            said = writer.stdout.read()
            writer.stdout.close()
            self.assertEqual(writer.wait(), 0)
            indexes[int(said.split()[4].rstrip(b";"))] = number
        self.assertEqual(self.names(), ["log"])
        self.holds([b"record %d" % indexes[index] for index in range(40)])

    def test_first_append_beside_a_refused_one(self):
        """A log that a refused append takes back is not written to by another that waited for it."""
        with subprocess.Popen([KEEPER, "append", self.log, "--stream"], stdin=subprocess.PIPE, stdout=subprocess.DEVNULL, stderr=subprocess.DEVNULL) as first:
            while not self.log.exists():
                pass
            with subprocess.Popen([KEEPER, "append", self.log, "--wait", "60", "--stream"], stdin=subprocess.PIPE, stdout=subprocess.PIPE) as second:
                second.stdin.write(stream_of(RECORDS[:2]))
                second.stdin.flush()
                self.assertIsNone(second.poll())
                first.communicate(b"\0\0")
                out, _ = second.communicate()
        self.assertEqual((first.returncode, second.returncode), (2, 0))
        self.assertIn(b"appended 2 records, index 0 to 1", out)
        self.holds(RECORDS[:2])


if __name__ == "__main__":
    unittest.main()
