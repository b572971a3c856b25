"""Letters: round trips, refusals, the size that was noted; and no letter from damaged nodes."""
import unittest

from harness import LONGEST_RECORD, NODE, NODES, RECORDS, HostTest, flipped, keeper, letter_of, nodes_of, said_of


class Letters(HostTest):
    def test_round_trips(self):
        self.make(RECORDS)
        size, top, _ = said_of(RECORDS)
        for index, record in enumerate(RECORDS):
            letter = self.done("letter", self.log, index, given=record)
            self.assertEqual(letter, letter_of(RECORDS, index))
            line = self.done("check", size, top.hex(), "--record", self.folder / "record", given=letter)
            self.assertEqual(line, f"accepted: index {index}, a record of {len(record)} bytes\n".encode())
            self.assertEqual((self.folder / "record").read_bytes(), record)
            found = self.done("find", self.log, self.file("own", record), self.file("letter", letter))
            self.assertTrue(found.startswith(b"same: "))

    def test_writer_refuses(self):
        self.make(RECORDS)
        self.refused(5, "letter", self.log, len(RECORDS), given=RECORDS[0])
        self.refused(5, "letter", self.log, 2**64 - 1, given=RECORDS[0])
        self.refused(3, "letter", self.log, 1, given=bytes(LONGEST_RECORD + 1))
        self.refused(13, "letter", self.log, 1, given=RECORDS[2])
        self.done("append", self.folder / "empty", "--stream")
        self.refused(10, "root", self.folder / "empty")

    def test_checker_refuses(self):
        size, top, _ = said_of(RECORDS)
        letter = letter_of(RECORDS, 3)
        check = ("check", size, top.hex())
        self.refused(1, "check", 2, top.hex(), given=letter)
        self.refused(12, "check", size, top.hex()[:-2], given=letter)
        self.refused(12, "check", size, top.hex() + "00" * 50, given=letter)
        self.refused(7, *check, given=letter[:19])
        self.refused(8, "check", nodes_of(5), top.hex(), given=letter)
        self.refused(5, *check, given=letter[:15] + b"\xff" + letter[16:])
        self.refused(3, *check, given=letter[:16] + b"\1" + letter[17:])
        self.refused(7, *check, given=letter[:-1])
        self.refused(7, *check, given=letter + bytes(100000))
        self.refused(9, *check, "--record", self.folder / "record", given=flipped(letter, len(letter) - 1))
        self.assertFalse((self.folder / "record").exists())

    def test_finder_refuses(self):
        self.make(RECORDS[:4])
        letter = self.file("letter", letter_of(RECORDS[:4], 1))
        self.refused(13, "find", self.log, self.file("other", b"other"), letter)
        self.refused(9, "find", self.log, self.file("own", RECORDS[1]), self.file("changed", letter.read_bytes()[:-1] + b"\0"))
        self.log.write_bytes(flipped(self.log.read_bytes(), NODES + NODE * 2))
        self.refused(14, "find", self.log, self.file("own", RECORDS[1]), letter)


class NotedSize(HostTest):
    def test_every_size_of_a_grown_log(self):
        self.make(RECORDS[:9])
        for count in range(1, 10):
            size, top, _ = said_of(RECORDS[:count])
            self.assertEqual(self.done("root", self.log, "--size", size), f"{size} {top.hex()}\n".encode())
            for index in (0, count - 1):
                letter = self.done("letter", self.log, index, f"--size={size}", given=RECORDS[index])
                self.assertEqual(letter, letter_of(RECORDS[:count], index))
                found = self.done("find", self.log, self.file("own", RECORDS[index]), self.file("letter", letter), "--size", size)
                self.assertTrue(found.startswith(b"same: "))

    def test_sizes_that_are_none(self):
        self.make(RECORDS[:5])
        for size, number in ((2, 1), (nodes_of(6), 4), (0, 10), (2**64 - 1, 1)):
            self.refused(number, "root", self.log, "--size", size)
        self.refused(5, "letter", self.log, 4, "--size", nodes_of(4), given=RECORDS[4])
        self.failed("decimal number", "root", self.log, "--size", "x")


class NoBadLetter(HostTest):
    def test_any_node_damaged(self):
        """No letter that goes out from a damaged log is refused by the root that was noted; one that cannot go out says why."""
        records, said = RECORDS[:7], said_of(RECORDS[:7])
        self.make(RECORDS[:6], RECORDS[6:7])
        whole, withheld = self.log.read_bytes(), 0
        for place in range(said[0]):
            damaged = self.file("damaged", flipped(whole, NODES + NODE * place + place % NODE))
            for index in (0, 3, 6):
                ran = keeper("letter", damaged, index, given=records[index])
                if ran.returncode == 0:
                    self.assertIn(ran.stdout, [letter_of(records[:count], index) for count in (6, 7) if index < count])
                    continue
                withheld += 1
                self.assertEqual(ran.stdout, b"")
                if ran.returncode == 2:
                    self.assertIn(b"keeper verify", ran.stderr)
                else:
                    self.assertIn(b"read as it was with the first 6", ran.stderr)
        self.assertGreater(withheld, 8)

    def test_inner_node(self):
        self.make(RECORDS[:8])
        self.log.write_bytes(flipped(self.log.read_bytes(), NODES + NODE * 5))
        self.failed("nodes of", "letter", self.log, 0, given=RECORDS[0])
        self.failed("keeper verify", "letter", self.log, 0, given=RECORDS[0])

    def test_leaf(self):
        self.make(RECORDS[:8])
        self.log.write_bytes(flipped(self.log.read_bytes(), NODES + NODE * 3))
        self.failed("position 5 is not the digest of those at 3 and 4", "letter", self.log, 2, given=RECORDS[2])

    def test_older_size(self):
        """A peak of an older size is held to the newest root."""
        self.make(RECORDS[:8])
        self.log.write_bytes(flipped(self.log.read_bytes(), NODES + NODE * 2))
        size = nodes_of(3)
        self.failed("damaged", "root", self.log, "--size", size)
        self.failed("damaged", "letter", self.log, 2, "--size", size, given=RECORDS[2])
        self.assertEqual(self.done("root", self.log), f"{said_of(RECORDS[:8])[0]} {said_of(RECORDS[:8])[1].hex()}\n".encode())


if __name__ == "__main__":
    unittest.main()
