"""The page for the hearing: what it says, that it needs nothing else, that a refused letter's cannot be mistaken; and in a browser, where there is one."""
import html.parser
import os
import re
import shutil
import subprocess
import unittest

from harness import CHECKED, KEY, RECORDS, HostTest, digest_by, flipped, keeper, letter_of, run_record, said_of
from rules.letters import items_in, letter_inputs

digest = digest_by(KEY)
BROWSER = next((path for path in map(shutil.which, ("chromium", "chromium-browser", "google-chrome")) if path), None)


class Outline(html.parser.HTMLParser):
    """The tags, what they ask for from elsewhere, and the text of each part with an id."""

    def __init__(self, page):
        super().__init__()
        self.tags, self.open, self.outside, self.parts, self.text = [], [], [], {}, ""
        self.feed(page)

    def handle_starttag(self, tag, attrs):
        self.tags.append(tag)
        named = dict(attrs)
        self.outside += [value for name, value in attrs if name in ("src", "href", "xlink:href", "action", "data", "poster", "srcset") or name.startswith("on")]
        if tag not in ("meta", "line", "rect", "circle", "polygon"):
            self.open.append((tag, named.get("id")))

    def handle_endtag(self, tag):
        while self.open and self.open.pop()[0] != tag:
            pass

    def handle_data(self, data):
        self.text += data if not any(tag == "style" for tag, _ in self.open) else ""
        for _, name in self.open:
            if name:
                self.parts[name] = self.parts.get(name, "") + data


class PageTest(HostTest):
    def page(self, records, index, letter=None, size=None, top=None):
        """The page of a letter, as text."""
        true_size, true_top, _ = said_of(records)
        path = self.folder / "page.html"
        keeper("check", size or true_size, (top or true_top).hex(), "--page", path, given=letter or letter_of(records, index))
        return path.read_text()


class Page(PageTest):
    def test_accepted(self):
        """Every digest of the way stands there, each as given or worked out, as the second program has them."""
        for count, index in ((1, 0), (2, 1), (5, 2), (7, 4), (7, 6), (8, 3), (11, 9)):
            records = [b"record %d <b>&amp;\"" % number for number in range(count)]
            letter, page = letter_of(records, index), self.page(records, index)
            outline, (size, top, _) = Outline(page), said_of(records)
            self.assertEqual(outline.parts["verdict"].split()[0], "ACCEPTED")
            self.assertEqual((outline.parts["record"], outline.parts["index"]), (records[index].decode(), str(index)))
            self.assertEqual((outline.parts["noted"], outline.parts["worked"]), (top.hex(), top.hex()))
            self.assertIn(f"{size}, which is a log of {count} records", outline.text)
            for item in items_in(letter):
                self.assertRegex(page, rf"given(, position \d+)?</td><td><code>{item.hex()}")
            inputs = letter_inputs(count, letter, digest)
            for worked in [digest(records[index])] + [digest(each) for each in inputs]:
                self.assertRegex(page, rf"worked out(, position \d+)?</td><td><code( id=\"worked\")?>{worked.hex()}")
            self.assertEqual((outline.tags.count("rect"), outline.tags.count("circle") >= len(inputs) + 1), (len(inputs), True))
            self.assertIn("What this proves", outline.text)
            self.assertIn("What it does not prove", outline.text)
            self.assertNotIn("REFUSED", re.sub(r"<style>.*</style>", "", page))

    def test_needs_nothing_else(self):
        outline = Outline(self.page([b"<script>alert(1)</script><img src=x onerror=y>"], 0))
        self.assertFalse({"script", "img", "link", "iframe", "object"} & set(outline.tags))
        self.assertEqual(outline.outside, [])
        self.assertNotIn("url(", self.page(RECORDS[:3], 2))

    def test_bytes_that_are_no_text(self):
        for record in (b"\x00\xff\x1b", b"", bytes(range(256)) * 64):
            outline = Outline(self.page([record], 0))
            self.assertEqual(outline.parts.get("record", ""), record.hex())

    def test_refused(self):
        """Whatever it is refused for: the word, the number, what to do; nowhere that it is accepted."""
        records = RECORDS[:7]
        letter, (size, top, _) = letter_of(records, 4), said_of(records)
        for number, page in ((9, self.page(records, 4, flipped(letter, 22))), (9, self.page(records, 4, flipped(letter, len(letter) - 1))),
                             (7, self.page(records, 4, letter[:-1])), (7, self.page(records, 4, b"x")), (8, self.page(records, 4, size=10)),
                             (5, self.page(records, 4, letter[:15] + b"\x09" + letter[16:])), (1, self.page(records, 4, size=2)),
                             (12, self.page(records, 4, top=top[:-1])), (3, self.page(records, 4, letter[:16] + b"\1" + letter[17:]))):
            outline = Outline(page)
            self.assertEqual(outline.parts["verdict"].split()[0], "REFUSED")
            self.assertIn(f"Number {number}:", outline.parts["verdict"])
            self.assertIn("no evidence of anything", outline.parts["verdict"])
            self.assertNotIn("accepted", re.sub(r"<style>.*</style>", "", page).lower())
            self.assertIn('class="mark"', page)
            self.assertNotIn("What this proves", outline.text)
        self.assertNotEqual(Outline(self.page(records, 4, flipped(letter, 22))).parts["worked"], top.hex())

    def test_cannot_be_written(self):
        size, top, _ = said_of(RECORDS[:3])
        for path in (self.folder / "no" / "page.html", "/dev/full"):
            self.failed("cannot write", "check", size, top.hex(), "--page", path, given=letter_of(RECORDS[:3], 1))

    def test_tallest(self):
        """A log of 2^32 - 1 records, which nobody has: 32 items, and a page all the same."""
        items = [digest(bytes([number])) for number in range(32)]
        letter = (2**33 - 2 - 32).to_bytes(8, "big") + (5).to_bytes(8, "big") + (4).to_bytes(4, "big") + b"goal" + b"".join(items)
        keeper("check", 2**33 - 2 - 32, "00" * 32, "--page", self.folder / "page.html", given=letter)
        outline = Outline((self.folder / "page.html").read_text())
        self.assertEqual((outline.tags.count("rect"), outline.tags.count("polygon")), (32, 32))


@unittest.skipIf(CHECKED, "tried once, without sanitizers")
@unittest.skipUnless(BROWSER, "there is no Chromium here")
class Browser(PageTest):
    def browse(self, *words):
        """Chromium on the page, with no way to anywhere else."""
        path = self.folder / "page.html"
        ran = subprocess.run([BROWSER, "--headless", "--no-sandbox", "--disable-gpu", "--host-resolver-rules=MAP * ~NOTFOUND", f"--user-data-dir={self.folder}/browser",
                              *words, f"file://{path}"], capture_output=True, check=False, timeout=100, env={**os.environ, "HOME": str(self.folder)})
        self.assertEqual(ran.returncode, 0, ran.stderr[-2000:])
        return ran.stdout.decode()

    def test_opens_and_prints(self):
        records = [run_record(number, 20).hex().encode() for number in range(7)]
        letter = letter_of(records, 4)
        for given, word, other in ((letter, "ACCEPTED", "REFUSED"), (flipped(letter, 30), "REFUSED", "ACCEPTED")):
            self.page(records, 4, given)
            seen = re.sub(r"<style>.*</style>", "", self.browse("--dump-dom"), flags=re.S)
            self.assertIn(f"<h1>{word}</h1>", seen)
            self.assertIn(f"<title>{word}", seen)
            self.assertNotIn(other, seen)
            self.assertIn("<svg", seen)
            self.browse(f"--print-to-pdf={self.folder}/page.pdf")
            self.assertEqual((self.folder / "page.pdf").read_bytes()[:5], b"%PDF-")


if __name__ == "__main__":
    unittest.main()
