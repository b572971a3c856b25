"""Appends: one by one, files, a folder, a stream; all or nothing; streams that break."""
import unittest

from harness import LONGEST_RECORD, RECORDS, HostTest, keeper, nodes_of, run_record, said_of, stream_of


class Appends(HostTest):
    def test_one_by_one(self):
        for count, record in enumerate(RECORDS):
            size, hashes = nodes_of(count + 1), nodes_of(count + 1) - nodes_of(count)
            line = f"appended 1 record, index {count}; size {size}, hashes {hashes}\n"
            self.assertEqual(self.done("append", self.log, given=record), line.encode())
            self.holds(RECORDS[:count + 1])
            size, top, _ = said_of(RECORDS[:count + 1])
            self.assertEqual(self.done("root", self.log, "--bytes"), size.to_bytes(8, "big") + top)

    def test_files_and_folder(self):
        folder = self.folder / "records"
        (folder / "inner").mkdir(parents=True)
        for name, record in zip(("10", "9", "B", "a"), RECORDS[2:]):
            (folder / name).write_bytes(record)
        (folder / ".hidden").write_bytes(b"no record")
        files = [self.file(f"file{i}", record) for i, record in enumerate(RECORDS[:2])]
        self.assertEqual(self.done("append", self.log, *files), b"appended 2 records, index 0 to 1; size 3, hashes 3\n")
        out = self.ran(0, "inner is not a file", "append", self.log, "--folder", folder)
        self.assertEqual(out, b"appended 4 records, index 2 to 5; size 10, hashes 7\n")
        self.holds(RECORDS[:6])

    def test_stream(self):
        records = [run_record(i, i % 90) for i in range(3000)]
        self.done("append", self.log, "--stream", given=stream_of(records))
        size, top, _ = said_of(records)
        self.assertEqual(self.done("root", self.log), f"{size} {top.hex()}\n".encode())

    def test_all_or_nothing(self):
        self.make(RECORDS[:3])
        files = [self.file("short", b"x"), self.file("long", bytes(LONGEST_RECORD + 1))]
        before = self.log.read_bytes()[:8192]
        self.refused(3, "append", self.log, *files)
        self.failed("cannot read", "append", self.log, files[0], self.folder / "missing")
        self.assertEqual(self.log.read_bytes()[:8192], before)
        self.holds(RECORDS[:3])
        self.done("append", self.log, given=RECORDS[3])
        self.holds(RECORDS[:4])

    def test_streams_that_break(self):
        for given, status, said, kept in (
            (stream_of(RECORDS[:3]) + b"\0\0", 2, b"within a record", 3),
            (stream_of(RECORDS[3:5])[:-1], 2, b"within a record", 4),
            (stream_of(RECORDS[4:6]) + b"\xff" * 20000, 1, b" refused, number 3: ", 6),
        ):
            ran = keeper("append", self.log, "--stream", given=given)
            self.assertEqual(ran.returncode, status)
            self.assertIn(said, ran.stderr)
            self.assertIn(f"size {nodes_of(kept)},".encode(), ran.stdout)
            self.holds(RECORDS[:kept])


if __name__ == "__main__":
    unittest.main()
