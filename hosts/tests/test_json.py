"""info, and --json: one object for every command, with the names that keeper(1) has."""
import json
import re
import unittest

from harness import NODES, RECORDS, TOP, HostTest, digest, flipped, keeper, letter_of, nodes_of, passage_of, said_of, stream_of
from rules.stored import stored_leaf  # behind harness, which says where the second program lies


class Objects(HostTest):
    def setUp(self):
        super().setUp()
        self.make(RECORDS[:5])
        self.size, top, _ = said_of(RECORDS[:5])
        self.top = top.hex()

    def test_info(self):
        said = self.done("info", self.log).decode().splitlines()
        self.assertEqual(said[:3], ["records 5", "size    8", f"root    {self.top}"])
        self.assertIn(str(self.log), said[3])
        self.assertEqual(said[4:], ["keyed   no", "state   whole", "records are not kept beside it"])
        answer = self.object(0, "info", self.log)
        wanted = {"records": 5, "size": 8, "root": self.top, "file": str(self.log), "file_length": self.log.stat().st_size, "keyed": False, "whole": True,
                  "keeps_records": False}
        self.assertEqual({name: answer[name] for name in wanted}, wanted)
        self.done("append", self.folder / "empty", "--stream")
        self.assertEqual(self.object(0, "info", self.folder / "empty")["root"], "")

    def test_info_of_a_damaged_log(self):
        self.make(RECORDS[5:7])
        self.log.write_bytes(flipped(self.log.read_bytes(), NODES + 32 * 10))
        answer = self.object(0, "info", self.log)
        self.assertEqual((answer["whole"], answer["records"]), (False, 5))
        self.assertIn("damaged", answer["state"])

    def test_each_command(self):
        letter = letter_of(RECORDS[:5], 3)
        answer = self.object(0, "root", self.log)
        self.assertEqual((answer["size"], answer["root"], answer["records"]), (8, self.top, 5))
        answer = self.object(0, "root", self.log, "--records", "--stream", given=stream_of(RECORDS[:5]))
        self.assertEqual((answer["size"], answer["root"], answer["records"], answer["is_the_logs"]), (8, self.top, 5, True))
        answer = self.object(2, "root", self.log, "--records", "--stream", given=stream_of(RECORDS[:4]))
        self.assertEqual((answer["records"], answer["is_the_logs"], answer["log_records"], answer["log_root"]), (4, False, 5, self.top))
        answer = self.object(0, "letter", self.log, 3, given=RECORDS[3])
        self.assertEqual((bytes.fromhex(answer["letter"]), bytes.fromhex(answer["record"]), answer["index"]), (letter, RECORDS[3], 3))
        answer = self.object(0, "check", 8, self.top, given=letter)
        self.assertTrue(answer["accepted"])
        self.assertEqual((answer["letter"]["index"], bytes.fromhex(answer["letter"]["record"]), answer["letter"]["items"]), (3, RECORDS[3], 3))
        answer = self.object(1, "check", 8, self.top, given=flipped(letter, 25))
        self.assertEqual((answer["accepted"], answer["number"], answer["letter"]["number"]), (False, 9, 9))
        self.assertEqual(self.object(0, "find", self.log, self.file("own", RECORDS[3]), self.file("letter", letter))["found"], "same")
        own, other = self.file("own", RECORDS[3]), self.file("other", RECORDS[4])
        answer = self.object(0, "passage", self.log, 3, own, 4, other)
        self.assertEqual((bytes.fromhex(answer["letter"]), answer["record_count"]), (passage_of(RECORDS[:5], (3, 4)), 2))
        answer = self.object(0, "check", 8, self.top, given=passage_of(RECORDS[:5], (3, 4)))["letter"]
        self.assertEqual([(entry["index"], bytes.fromhex(entry["record"])) for entry in answer["entries"]], [(3, RECORDS[3]), (4, RECORDS[4])])
        self.assertEqual(self.object(0, "find", self.log, own, other, self.file("letter", passage_of(RECORDS[:5], (3, 4))))["found"], "same")
        self.assertEqual(self.object(0, "verify", self.log)["inner_nodes"], 3)
        self.assertEqual(self.object(0, "repair", self.log, self.folder / "copy")["records"], 5)
        answer = self.object(0, "append", self.log, given=RECORDS[5])
        self.assertEqual((answer["appended"], answer["first_index"], answer["last_index"], answer["size"], answer["hashes"]), (1, 5, 5, 10, 2))
        answer = self.object(0, "digest", given=RECORDS[5])
        self.assertEqual(answer["files"], [{"file": "-", "length": len(RECORDS[5]), "digest": digest(RECORDS[5]).hex()}])
        answer = self.object(0, "node", "--leaf", given=RECORDS[5])
        self.assertEqual((answer["digest"], bytes.fromhex(answer["node"])), (digest(RECORDS[5]).hex(), stored_leaf(RECORDS[5])))
        answer = self.object(0, "node", given=stored_leaf(RECORDS[5]))["nodes"][0]
        self.assertEqual((answer["kind"], answer["digest"], bytes.fromhex(answer["record"])), ("leaf", digest(RECORDS[5]).hex(), RECORDS[5]))
        self.assertIn("usage", self.object(0, "help"))
        self.assertRegex(self.object(0, "--version")["version"], r"^\d+\.\d+")

    def test_refusals_and_failures(self):
        answer = self.object(1, "root", self.log, "--size", 2)
        self.assertEqual(answer["number"], 1)
        self.assertTrue(answer["meaning"] and answer["advice"])
        self.assertIn("cannot open", self.object(2, "root", self.folder / "missing")["error"])
        self.assertIn("wrong use", self.object(2, "root")["error"])
        self.assertIn("wrong use", self.object(2, "root", "--stream")["error"])

    def test_text_of_any_kind(self):
        """Text is text, and bytes that are none break no object."""
        for number, record in enumerate((b'a "b" \\ \n\t<&>', "Tor, 44. Minute: ärgerlich".encode(), b"\xff\x00\x1b[31m", "\u202e".encode(), b"\xc0\x80", b"\xed\xa0\x80")):
            answer = self.object(0, "check", 1, said_of([record])[1].hex(), given=letter_of([record], 0))["letter"]
            self.assertEqual(bytes.fromhex(answer["record"]), record)
            self.assertEqual(answer.get("record_text"), record.decode() if number < 2 else None)
        odd = self.folder / "name\udcff\n\"".encode("utf-8", "surrogateescape").decode("utf-8", "surrogateescape")
        self.done("append", odd, given=b"x")
        self.assertEqual(self.object(0, "info", odd)["records"], 1)

    def test_acknowledged(self):
        ran = keeper("append", self.log, "--stream", "--acknowledge", "--json", given=stream_of(RECORDS[5:7]))
        lines = [json.loads(line) for line in ran.stdout.splitlines()]
        self.assertEqual(lines[0], {"command": "append", "kept_size": nodes_of(7), "kept_records": 7})
        self.assertEqual((len(lines), lines[1]["appended"], lines[1]["status"]), (2, 2, 0))

    def test_names_are_described(self):
        """Every name that an answer has stands in keeper(1)."""
        page = (TOP / "man" / "keeper.1").read_text()
        names = set(re.findall(r'(?:put_\w+|put_name)\("(\w+)"', "".join(path.read_text() for path in (TOP / "hosts").glob("*.c"))))
        self.assertGreater(len(names), 25)
        self.assertEqual([name for name in sorted(names) if not re.search(rf"\b{name}\b", page)], [])


if __name__ == "__main__":
    unittest.main()
