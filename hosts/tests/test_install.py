"""make install: what is installed runs alone, and a C program finds the library by pkg-config; the manual pages and completion."""
import os
import re
import shutil
import subprocess
import unittest

from harness import CHECKED, RECORDS, TOP, HostTest, letter_of, passage_of, said_of


@unittest.skipIf(CHECKED, "tried once, without sanitizers")
@unittest.skipUnless(shutil.which("make"), "no make here")
class Installed(HostTest):
    def setUp(self):
        super().setUp()
        self.root, self.prefix = self.folder / "a root", "/opt/of its own"
        subprocess.run([TOP / "hosts" / "build-panel.sh"], check=True, stdin=subprocess.DEVNULL, capture_output=True)
        ran = subprocess.run(["make", "-s", "-C", TOP, "install", f"PREFIX={self.prefix}", f"DESTDIR={self.root}"], capture_output=True, check=False,
                             env={**os.environ, "MAKEFLAGS": ""})
        self.assertEqual(ran.returncode, 0, ran.stderr)
        self.at = self.root / self.prefix.lstrip("/")

    def test_runs_alone(self):
        size, top, _ = said_of(RECORDS[:5])
        path = {"PATH": "/usr/bin:/bin"}
        for record in RECORDS[:5]:
            subprocess.run([self.at / "bin" / "keeper", "append", self.log], input=record, check=True, env=path, stdout=subprocess.DEVNULL)
        self.holds(RECORDS[:5])
        (self.folder / "panel").symlink_to(self.at / "bin" / "panel")
        ran = subprocess.run([self.folder / "panel"], input=size.to_bytes(8, "big") + top + letter_of(RECORDS[:5], 2), capture_output=True, check=False, env=path)
        self.assertEqual((ran.returncode, ran.stdout, ran.stderr), (0, b"0\n", b""))
        key = bytes(range(32))
        given = size.to_bytes(8, "big") + said_of(RECORDS[:5], key)[1] + letter_of(RECORDS[:5], 2, key)
        ran = subprocess.run([self.folder / "panel", "--key", self.file("key", key)], input=given, capture_output=True, check=False, env=path)
        self.assertEqual((ran.returncode, ran.stdout, ran.stderr), (0, b"0\n", b""))
        given = size.to_bytes(8, "big") + said_of(RECORDS[:5], key)[1] + passage_of(RECORDS[:5], (0, 2, 3), key)
        ran = subprocess.run([self.folder / "panel", "--key", self.folder / "key", "--passage"], input=given, capture_output=True, check=False, env=path)
        self.assertEqual((ran.returncode, ran.stdout, ran.stderr), (0, b"0\n", b""))
        given = size.to_bytes(8, "big") + top + passage_of(RECORDS[:5], (0, 2, 3))
        for words, number in ((("--passage",), b"0\n"), ((), b"5\n")):
            ran = subprocess.run([self.folder / "panel", *words], input=given, capture_output=True, check=False, env=path)
            self.assertEqual((ran.returncode, ran.stdout, ran.stderr), (0, number, b""))
        ran = subprocess.run([self.at / "bin" / "panel", "--version"], capture_output=True, check=True, env=path)
        self.assertIn(b"panel (Cinchcleat)", ran.stdout)

    def test_files(self):
        names = {str(path.relative_to(self.at)) for path in self.at.rglob("*") if path.is_file()}
        self.assertLessEqual({"bin/keeper", "bin/panel", "lib/libkeeper.a", "include/keeper.h", "lib/pkgconfig/keeper.pc", "share/man/man1/keeper.1",
                              "share/man/man1/panel.1", "share/man/man3/keeper.3", "share/bash-completion/completions/keeper",
                              *(f"lib/cinchcleat/{name}" for name in ("panel", "keyed_panel", "passage_panel", "keyed_passage_panel"))}, names)
        self.assertNotIn(str(TOP), (self.at / "bin" / "keeper").read_bytes()[:2000].decode("latin-1"))
        self.assertIn(f"prefix={self.prefix}\n", (self.at / "lib/pkgconfig/keeper.pc").read_text())

    @unittest.skipUnless(shutil.which("pkg-config"), "no pkg-config here")
    def test_pkg_config(self):
        settings = {**os.environ, "PKG_CONFIG_PATH": str(self.at / "lib" / "pkgconfig"), "PKG_CONFIG_SYSROOT_DIR": str(self.root)}
        ran = subprocess.run(["pkg-config", "--cflags", "--libs", "--modversion", "keeper"], env=settings, capture_output=True, check=False)
        self.assertEqual(ran.returncode, 0, ran.stderr)
        self.assertIn(b"-lkeeper", subprocess.run(["pkg-config", "--libs", "keeper"], env=settings, capture_output=True, check=True).stdout)

    def test_prefix(self):
        ran = subprocess.run([TOP / "hosts" / "install.sh"], env={**os.environ, "PREFIX": "here"}, capture_output=True, check=False)
        self.assertEqual(ran.returncode, 2)
        self.assertIn(b"a path from the root", ran.stderr)


@unittest.skipIf(CHECKED, "tried once, without sanitizers")
class Manual(HostTest):
    def test_every_option_and_command(self):
        """What the usage names stands in the page, and in the completion."""
        page = (TOP / "man" / "keeper.1").read_text().replace("\\-", "-")
        completion = (TOP / "completion" / "keeper.bash").read_text()
        usage = self.done("help").decode()
        words = {word.strip("[]():;,.") for word in usage.split()}
        for word in sorted(word for word in words if word.startswith("--") and len(word) > 2):
            self.assertIn(word, page)
            self.assertIn(word, completion)
        for command in sorted({line.split()[1] for line in usage.splitlines() if line.startswith("keeper ")}):
            self.assertIn(f"keeper {command}", page)
            self.assertIn(command, completion)

    def test_every_option_of_panel(self):
        """The same of the panel's command."""
        page, completion = ((TOP / name).read_text().replace("\\-", "-") for name in ("man/panel.1", "completion/keeper.bash"))
        usage = subprocess.run(["sh", "-c", '. "$0"; panel -h', TOP / "shell" / "panel.sh"], capture_output=True, check=True).stdout.decode()
        options = {word.strip(",.") for word in usage.split() if word.startswith("--")}
        self.assertEqual(options, {"--bytes", "--key", "--passage", "--version"})
        for word in sorted(options - {"--bytes"}):
            self.assertIn(word, page)
            self.assertIn(word, completion.split("_panel()")[1])

    def test_every_call(self):
        page, header = (TOP / "man" / "keeper.3").read_text(), (TOP / "include" / "keeper.h").read_text()
        calls = set(re.findall(r"^uint32_t (keeper_\w+)\(", header, re.M))
        self.assertGreater(len(calls), 10)
        self.assertEqual([call for call in sorted(calls) if call not in page], [])

    @unittest.skipUnless(shutil.which("groff"), "no groff here")
    def test_pages_are_well_formed(self):
        for page in ("keeper.1", "panel.1", "keeper.3"):
            ran = subprocess.run(["groff", "-man", "-ww", "-Tutf8", "-z", TOP / "man" / page], capture_output=True, check=False)
            self.assertEqual((ran.returncode, ran.stderr), (0, b""))

    @unittest.skipUnless(shutil.which("bash"), "no bash here")
    def test_completion(self):
        script = 'source "$0"; '
        for words in ("keeper ver", "keeper check 1 2 --p", "keeper root log --r", "keeper root --records --st", "keeper dig", "keeper digest --ch",
                      "keeper no", "keeper node --l", "keeper node --in", "keeper node --inner 0", "keeper pas", "keeper passage log --r",
                      "keeper check 1 2 --to", "keeper find log --r"):
            script += f'COMP_WORDS=({words}); COMP_CWORD={len(words.split()) - 1}; _keeper; echo "${{COMPREPLY[@]}}"; '
        for words in ("panel --p", "panel --k"):
            script += f'COMP_WORDS=({words}); COMP_CWORD=1; _panel; echo "${{COMPREPLY[@]}}"; '
        ran = subprocess.run(["bash", "-c", script, TOP / "completion" / "keeper.bash"], capture_output=True, check=True)
        self.assertEqual(ran.stdout, b"verify\n--page\n--records\n--stream\ndigest\n--check\nnode\n--leaf\n--inner\n\n"
                                     b"passage\n--records\n--to\n--records\n--passage\n--key\n")


if __name__ == "__main__":
    unittest.main()
