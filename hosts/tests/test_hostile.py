"""Hostile log files and letters: whatever the bytes, the host ends with a status of its own and a letter that goes out is true."""
import random
import unittest

from harness import (CHECKED, COPY, FEWER, NODE, NODES, PAGE, RECORDS, SEALED, HostTest, is_passage, keeper, letter_of, nodes_of, number_of,
                     passage_of, said_of, sealed, stream_of)


class Hostile(HostTest):
    def tried(self, path, records):
        """Every command on such a file: no crash, and nothing that goes out is false."""
        for words in (("root",), ("root", "--records"), ("info",), ("verify",), ("verify", "--records"), ("letter", "1"), ("passage", "1", "-"),
                      ("passage", "--records", "1", "3"), ("append",), ("repair", self.folder / "copy")):
            ran = keeper(words[0], path, *words[1:], given=RECORDS[1])
            self.assertIn(ran.returncode, (0, 1, 2), (words, ran.returncode, ran.stderr))
            self.assertNotIn(b"Sanitizer", ran.stderr)
            if words[0] == "letter" and ran.returncode == 0:
                self.assertIn(ran.stdout, [letter_of(records[:count], 1) for count in range(2, len(records) + 1)])
            if words[0] == "passage" and ran.returncode == 0:
                indexes = (1, 3) if "--records" in words else (1,)
                self.assertIn(ran.stdout, [passage_of(records[:count], indexes) for count in range(indexes[-1] + 1, len(records) + 1)])
            if words == ("root", "--records") and ran.returncode == 0:
                self.assertIn(ran.stdout.split()[1].decode(), [said_of(records[:count])[1].hex() for count in range(1, len(records) + 1)])
        (self.folder / "copy").unlink(missing_ok=True)

    def test_random_changes(self):
        chance, records = random.Random(3), RECORDS[:6]
        self.done("append", self.log, "--keep-records", "--stream", given=stream_of(records[:4]))
        self.done("append", self.log, "--stream", given=stream_of(records[4:]))
        whole = {name: (self.folder / name).read_bytes()[:9000] for name in ("log", "log.records", "log.index")}
        for turn in range((24 if CHECKED else 4) // FEWER):
            data = {name: bytearray(part) for name, part in whole.items()}
            for _ in range(chance.randrange(1, 4)):
                part = data[chance.choice(("log", "log", "log.records", "log.index"))]
                place = chance.choice((chance.randrange(SEALED), PAGE + chance.randrange(SEALED), COPY + chance.randrange(SEALED), chance.randrange(len(part))))
                if place < len(part):
                    part[place] = chance.randrange(256)
            if turn % 4 == 0:
                name = chance.choice(list(data))
                del data[name][chance.randrange(len(data[name])):]
            for name, part in data.items():
                (self.folder / name).write_bytes(part)
            self.tried(self.log, records)

    def test_sizes_that_lie(self):
        """Sizes under a true seal that no log has, or that the file cannot hold."""
        self.make(RECORDS[:5])
        whole = self.log.read_bytes()
        for size in (2, 5, nodes_of(2**32), nodes_of(2**32) + 1, 2**63, 2**64 - 1, 2**59, len(whole) // NODE, nodes_of(2**20)):
            copy = sealed(size, said_of(RECORDS[:5])[1])
            data = bytearray(whole)
            for place in (0, COPY):
                data[place:place + SEALED] = copy
            self.tried(self.file("lies", bytes(data)), RECORDS[:5])
            for place in (PAGE, PAGE + COPY):
                data[place:place + SEALED] = copy
            path = self.file("lies", bytes(data))
            before = self.unchanged(path)
            self.failed("lies", "append", path, given=b"x")
            self.assertEqual(self.unchanged(path), before)

    def test_letters(self):
        """Random letters: no crash in what shows them, and none is accepted that the second program refuses."""
        chance, (size, top, _) = random.Random(5), said_of(RECORDS[:7])
        for turn in range((200 if CHECKED else 20) // FEWER):
            indexes = sorted(chance.sample(range(7), chance.randrange(1, 8)))
            letter = bytearray(passage_of(RECORDS[:7], indexes) if turn % 3 == 0 else letter_of(RECORDS[:7], indexes[0]))
            for _ in range(chance.randrange(3)):
                letter[chance.randrange(min(len(letter), 40))] = chance.randrange(256)
            if chance.random() < 0.2:
                letter = letter[:chance.randrange(len(letter))]
            page = () if is_passage(letter) else ("--page", self.folder / "page.html")
            ran = keeper("check", size, top.hex(), "--show", *page, given=bytes(letter))
            wanted = number_of(size, top, bytes(letter))
            self.assertEqual(ran.returncode, 1 if wanted else 0, ran.stderr)
            self.assertIn(f"number {wanted}:".encode() if wanted else b"", ran.stderr)


if __name__ == "__main__":
    unittest.main()
