"""Damaged logs: what is found, what reading falls back to, that nothing is appended, verify and repair."""
import unittest

from harness import COPY, FEWER, KEY, NODE, NODES, PAGE, RECORDS, SEALED, HostTest, flipped, keeper, nodes_of, said_of


class DamageTest(HostTest):
    def setUp(self):
        super().setUp()
        self.make(RECORDS[:3], RECORDS[3:5])
        self.whole = self.log.read_bytes()
        self.newer = 0 if int.from_bytes(self.whole[16:24], "big") == nodes_of(5) else PAGE

    def stays(self, data, *words):
        """Such a log is not appended to, in any way: status 2, with those words, and no byte is changed. Its path."""
        path = self.file("damaged", data)
        before = self.unchanged(path)
        for more in ((), ("--stream",), ("--keep-records",)):
            ran = keeper("append", path, *more, given=b"\0\0\0\1x")
            self.assertEqual((ran.returncode, ran.stdout), (2, b"" if "--stream" not in more else ran.stdout), ran.stderr)
            for word in words:
                self.assertIn(word.encode(), ran.stderr)
        self.assertEqual(self.unchanged(path), before)
        self.assertEqual(sorted(p.name for p in self.folder.iterdir()), ["damaged", "log"])
        return path

    def reads(self, path, records, word):
        """It is read with these records, and says why."""
        size, top, _ = said_of(records)
        self.assertEqual(self.ran(0, word, "root", path), f"{size} {top.hex()}\n".encode())

    def repaired(self, path, records, word):
        """Repair keeps a copy, and then the log has these records and takes the next."""
        data, copy = path.read_bytes(), self.folder / "copy"
        copy.write_bytes(b"mine")
        self.failed("File exists", "repair", path, copy)
        self.assertEqual((path.read_bytes(), copy.read_bytes()), (data, b"mine"))
        copy.unlink()
        self.assertIn(word.encode(), keeper("repair", path, copy).stdout)
        self.assertEqual(copy.read_bytes(), data)
        copy.unlink()
        self.holds(records, path)
        self.done("append", path, given=RECORDS[len(records)])
        self.holds(RECORDS[:len(records) + 1], path)


class Damage(DamageTest):
    def test_one_node(self):
        """One flipped byte of any node: nothing is appended, and the words name the place."""
        for place in range(nodes_of(5)):
            path = self.stays(flipped(self.whole, NODES + NODE * place + 7), "keeper repair")
            self.ran(2, "", "verify", path)
        self.stays(flipped(self.whole, NODES + NODE * 6), "position 6, byte 8384 of the file")

    def test_one_record(self):
        """The smallest case: a log of one record, whose node is changed, is not begun anew."""
        log = self.folder / "one"
        self.done("append", log, given=b"goal")
        log.write_bytes(flipped(log.read_bytes(), NODES))
        before = self.unchanged(log)
        self.failed("nothing was appended", "append", log, given=b"no goal")
        self.assertEqual(self.unchanged(log), before)

    def test_older_state_is_read(self):
        path = self.stays(flipped(self.whole, NODES + NODE * (nodes_of(5) - 1)), "5 records")
        self.reads(path, RECORDS[:3], "is read as it was with the first 3")
        self.repaired(path, RECORDS[:3], "first 3 of 5 records; append the others again")

    def test_inner_node_is_mended(self):
        path = self.stays(flipped(self.whole, NODES + NODE * 6), "position 6")
        self.repaired(path, RECORDS[:5], "all 5 records are there; 1 nodes")

    def test_no_state(self):
        data = flipped(flipped(self.whole, NODES + NODE * 0), NODES + NODE * 7)
        path = self.stays(flipped(data, NODES + NODE * 3), "was cut or changed")
        self.failed("were changed", "root", self.file("damaged", flipped(data, NODES + NODE * 2)))
        before = self.unchanged(path)
        self.failed("cannot be repaired", "repair", path, self.folder / "copy")
        self.assertEqual(self.unchanged(path), before)
        self.assertFalse((self.folder / "copy").exists())

    def test_cut(self):
        old, new = NODES + NODE * nodes_of(3), NODES + NODE * nodes_of(5)
        for length in (new, new + 1, len(self.whole) - 1):
            self.holds(RECORDS[:5], self.file("cut", self.whole[:length]))
            self.done("append", self.folder / "cut", given=RECORDS[5])
            self.holds(RECORDS[:6], self.folder / "cut")
        (self.folder / "cut").unlink()
        for length in (old, old + 1, new - 1):
            path = self.stays(self.whole[:length], "the file was cut: it has room for")
            self.reads(path, RECORDS[:3], "was cut")
        self.repaired(path, RECORDS[:3], "first 3 of 5")
        path.unlink()
        for length in (0, 1, PAGE, NODES - 1, NODES, old - 1):
            self.stays(self.whole[:length], "damaged ")
            self.failed("damaged ", "root", self.folder / "damaged")

    def test_sizes(self):
        """One changed byte in a size: another copy is whole, nothing is missing, and the next append goes on."""
        for start in (0, COPY, PAGE, PAGE + COPY):
            for place in range(0, SEALED, 6 * FEWER):
                path = self.file("sizes", flipped(self.whole, start + place))
                self.reads(path, RECORDS[:5], "a copy of its size is damaged")
                if place % 24 == 0 or place + 6 >= SEALED:
                    self.ran(0, "all 5 records are there", "append", path, given=RECORDS[5])
                    self.assertEqual(self.records_in(path), 6)
            self.assertEqual(path.read_bytes()[NODES:NODES + NODE * nodes_of(6)], said_of(RECORDS[:6])[2])

    def test_page_of_sizes(self):
        """Both copies of the newest size gone: it might be any size, so nothing is appended."""
        for start, records in ((self.newer, RECORDS[:3]), (PAGE - self.newer, RECORDS[:5])):
            data = flipped(flipped(self.whole, start + 20), start + COPY + 20)
            path = self.stays(data, "has no whole copy")
            self.reads(path, records, "has no whole copy")
            self.repaired(path, records, "records are there")
            path.unlink()
        self.failed("is not a log", "root", self.file("damaged", bytes(NODES) + self.whole[NODES:]))

    @unittest.skipIf(KEY, "a keyed log has had copies from the first on")
    def test_log_without_copies(self):
        """A log whose sizes stand once in each page, as they did before, is whole."""
        data = bytearray(self.whole)
        data[COPY:COPY + SEALED] = data[PAGE + COPY:PAGE + COPY + SEALED] = bytes(SEALED)
        path = self.file("before", bytes(data))
        self.holds(RECORDS[:5], path)
        self.done("append", path, given=RECORDS[5])
        self.holds(RECORDS[:6], path)
        path.unlink()
        self.stays(flipped(bytes(data), self.newer + 5), "has no whole copy")

    def test_nothing_to_repair(self):
        before = self.unchanged()
        self.assertIn(b"nothing is to be repaired", self.done("repair", self.log, self.folder / "copy"))
        self.assertEqual(self.unchanged(), before)
        self.assertFalse((self.folder / "copy").exists())


class Verify(DamageTest):
    def test_whole(self):
        self.assertIn(b"whole: 5 records; each of 3 inner nodes", self.done("verify", self.log))

    def test_lowest(self):
        """Of the inner nodes that are not the digest of their children, the lowest is named."""
        parents = {2: (0, 1), 5: (3, 4), 6: (2, 5)}
        for place in range(7):
            data = flipped(self.whole, NODES + NODE * place + 31)
            lowest = min(p for p, children in parents.items() if place == p or place in children)
            answer = self.object(2, "verify", self.file("damaged", data))
            self.assertEqual((answer["wrong_position"], answer["wrong_kind"]), (lowest, "inner"))
            self.failed(f"lowest position that is wrong is {lowest}:", "verify", self.folder / "damaged")

    def test_what_no_inner_node_shows(self):
        self.failed("the last leaf was changed", "verify", self.file("damaged", flipped(self.whole, NODES + NODE * 7)))
        self.failed("was cut", "verify", self.file("damaged", self.whole[:NODES + NODE * 7]))


if __name__ == "__main__":
    unittest.main()
