#!/usr/bin/env python3
"""run.py MODULE..: runs the modules of this folder, as many at a time as the machine has processors; a line for each, and what it wrote where it failed.
Some are run twice, the second time with every log keyed. Where sanitizers (CHECKED) go on beside (BESIDE), those about damaged and hostile files are
left to them, and here are those that hang on the library's digests, and crashes.

Exit status: 0 where every test holds, 1 where one does not.
"""
import os
import re
import subprocess
import sys
import time
from concurrent.futures import ThreadPoolExecutor


DIGESTS = ("test_append", "test_check", "test_letters", "test_page", "test_passage", "test_plain")
FILES = ("test_damage", "test_hostile", "test_passage_check", "test_records")
CRASHES = ("test_crashes",)


def keyed_too():
    """The modules that are run a second time here."""
    if "CHECKED" in os.environ:
        return DIGESTS + FILES
    return DIGESTS + CRASHES if "BESIDE" in os.environ else DIGESTS + FILES + CRASHES


def run(module, keyed):
    """One module by itself: whether it holds, how many tests it has and leaves out, and what it wrote."""
    begun = time.monotonic()
    settings = {**os.environ, **({"KEYED": "yes"} if keyed else {})}
    ran = subprocess.run([sys.executable, "-m", "unittest", "-v", module], stdout=subprocess.PIPE, stderr=subprocess.STDOUT, check=False, env=settings)
    said = ran.stdout.decode(errors="replace")
    count = int((re.findall(r"^Ran (\d+) test", said, re.M) or ["0"])[-1])
    skipped = re.findall(r"^.*skipped '(.*)'$", said, re.M)
    holds = ran.returncode == 0 and count > 0
    line = f"{module}{', keyed' if keyed else ''}: {count} tests in {time.monotonic() - begun:.0f} s, {'all hold' if holds else 'NOT ALL HOLD'}"
    return holds, count, skipped, line + "".join(f"\n  left out: {why}" for why in sorted(set(skipped))) + ("" if holds else "\n" + said)


def main():
    """All modules: the status."""
    begun = time.monotonic()
    with ThreadPoolExecutor(max_workers=min(os.cpu_count() or 1, 4)) as pool:
        results = []
        runs = [(module, keyed) for module in sys.argv[1:] for keyed in (False, True) if not keyed or module in keyed_too()]
        for result in pool.map(lambda each: run(*each), runs):
            results.append(result)
            print(result[3], flush=True)
    wrong = sum(not holds for holds, *_ in results)
    count, skipped = sum(count for _, count, *_ in results), sum(len(skipped) for _, _, skipped, _ in results)
    print(f"{count} tests of the host in {time.monotonic() - begun:.0f} s, {skipped} left out, {wrong} of {len(results)} modules with a test that does not hold")
    return 1 if wrong else 0


if __name__ == "__main__":
    sys.exit(main())
