"""Wrong use: words, and no file is made."""
import unittest

from harness import RECORDS, HostTest, keeper


class WrongUse(HostTest):
    def test_words(self):
        self.make(RECORDS[:1])
        for words in ((), ("root",), ("roots", self.log), ("root", self.log, "--byte"), ("root", self.log, "more"), ("root", self.log, "--bytes=1"),
                      ("append",), ("append", self.log, "--folder"), ("append", self.log, "--other"), ("append", self.log, "--acknowledge"),
                      ("append", self.log, "--stream", "--folder", "x"), ("append", self.log, "file", "--stream"), ("root", self.log, "--bytes", "--json"),
                      ("check", 1), ("check", 1, "00", "--record"), ("check", 1, "00", "letter", "--page", "x"), ("find", self.log), ("letter", self.log),
                      ("check", 1, "00", "--to"), ("find", self.log, "letter"), ("find", self.log, "record", "letter", "--records"), ("passage", self.log),
                      ("passage", self.log, "0"), ("passage", self.log, "--records"), ("passage", self.log, "0", "file", "1"), ("root", self.log, "--to", "x"),
                      ("repair", self.log), ("verify", self.log, "--size", "1"), ("verify", self.log, "--stream"), ("root", "--records"),
                      ("root", self.log, "--stream"), ("root", self.log, "file", "--records"), ("--stream",), ("append", self.log, "--quiet=1"),
                      ("info", self.log, "--quiet"), ("letter", self.log, "0", "--quiet"), ("repair", self.log, "copy", "--quiet"),
                      ("digest", "--records", self.log), ("digest", self.log, "--check=1"), ("digest", "-", "-"), ("digest", self.log, "-c"),
                      ("verify", self.log, "--check"), ("node", "-", "-"), ("node", "--leaf", "--inner", "00"), ("node", "--leaf", "file", "file"),
                      ("node", "--leaf", "--record", "file"), ("node", "--inner", "00", "file"), ("node", "file", "file", "--record", "x"),
                      ("node", self.log, "--check"), ("root", self.log, "--leaf")):
            ran = keeper(*words)
            self.assertEqual(ran.returncode, 2, words)
            self.assertIn(b"wrong use", ran.stderr)
        for size in ("-1", "x", "", "1 ", str(2**64), "0x1"):
            self.ran(2, "", "check", "--", size, "00")
        for top in ("0", "0g", "xyz!"):
            self.failed("is not a root: hexadecimal", "check", 1, top)
            self.failed("is not a digest: hexadecimal", "node", "--inner", top)
        self.failed("no number of seconds", "append", self.log, "--wait", "soon", given=b"x")
        self.holds(RECORDS[:1])

    def test_help_and_version(self):
        for words in (("help",), ("--help",), ("-h",), ("append", "-h"), ("root", "--help")):
            self.assertIn(b"keeper append LOG", self.done(*words))
        self.assertRegex(self.done("--version"), rb"^keeper \(Cinchcleat\) \d+\.\d+\n$")

    def test_files(self):
        for words in (("root", self.log), ("letter", self.log, 0), ("append", self.folder / "no" / "log"), ("root", self.folder), ("info", self.log),
                      ("passage", self.log, 0, self.log), ("passage", self.log, "--records", 0), ("find", self.log, self.log, self.log),
                      ("root", self.log, "--records"), ("root", self.log, "--records", self.log), ("root", "--records", self.log),
                      ("verify", self.log), ("repair", self.log, self.folder / "copy"), ("digest", self.log), ("digest", "--check", self.log),
                      ("node", self.log), ("node", "--leaf", self.log), ("node", self.log, "--record", self.folder / "record")):
            self.failed("keeper: ", *words)
        self.assertEqual(list(self.folder.iterdir()), [])

    def test_names_that_look_like_options(self):
        name = self.file("--stream", b"record")
        self.done("append", self.log, "--", name.name, cwd=self.folder)
        self.holds([b"record"])


if __name__ == "__main__":
    unittest.main()
