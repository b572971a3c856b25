#!/usr/bin/env python3
"""What bench/host.sh measures and prints: times, the most memory, and the limits. host.py REPOSITORY FOLDER RECORDS BYTES."""
import os
import platform
import resource
import subprocess
import sys
import time
from pathlib import Path

TOP, WORK, RECORDS, LENGTH = Path(sys.argv[1]), Path(sys.argv[2]), int(sys.argv[3]), int(sys.argv[4])
NATIVE = platform.machine() == "x86_64"
KEEPER, BEFORE = str(TOP / "target" / "hosts" / ("keeper" if NATIVE else "keeper.x86_64")), [] if NATIVE else [str(TOP / "target" / "run" / "qemu-x86_64")]
MISSED = []


def held(what, value, most, unit=""):
    """A line for a limit."""
    print(f"limit: {what:66} {value:.2f}{unit}, at most {most}{unit}: {'met' if value <= most else 'MISSED'}")
    if value > most:
        MISSED.append(what)


def streamed(count, *options):
    """The host on the first so many records of the stream: seconds, and the most memory in kilobytes."""
    log = WORK / "log"
    for path in WORK.glob("log*"):
        path.unlink()
    with open(WORK / "stream", "rb") as given:
        begun = time.monotonic()
        head = subprocess.Popen(["head", "-c", str(count * (LENGTH + 4))], stdin=given, stdout=subprocess.PIPE)
        pid = os.posix_spawn((BEFORE + [KEEPER])[0], BEFORE + [KEEPER, "append", str(log), "--stream", *options], os.environ,
                             file_actions=[(os.POSIX_SPAWN_DUP2, head.stdout.fileno(), 0), (os.POSIX_SPAWN_OPEN, 1, os.devnull, os.O_WRONLY, 0)])
        head.stdout.close()
        _, status, used = os.wait4(pid, 0)
        took = time.monotonic() - begun
        head.wait()
    if status != 0:
        sys.exit("host.sh: the host failed")
    return took, used.ru_maxrss


def one_by_each(times, programs, *words):
    """The seconds of one run by each program, the best of so many, in turns."""
    best = [1e9] * len(programs)
    for _ in range(times):
        for place, program in enumerate(programs):
            begun = time.monotonic()
            subprocess.run([program, *words], input=b"call", stdout=subprocess.DEVNULL, check=True)
            best[place] = min(best[place], time.monotonic() - begun)
    return best


def looped():
    """The library's loop: seconds, size, root."""
    said = subprocess.run(BEFORE + [WORK / "loop", "loop", str(RECORDS), str(LENGTH)], capture_output=True, check=True).stdout.decode().split()
    return float(said[0]), said[1:]


loop, said = min(looped() for _ in range(2))
_, few = streamed(RECORDS // 10)
took, memory = min(streamed(RECORDS) for _ in range(2))
root = subprocess.run(BEFORE + [KEEPER, "root", str(WORK / "log")], capture_output=True, check=True).stdout.decode().split()
with_records, _ = streamed(RECORDS, "--keep-records")
programs = (TOP / "target" / "hosts" / "keeper", TOP / "bin" / "keeper")
alone, script = one_by_each(60, programs, "append", WORK / "one")
nothing, nothing_by_script = one_by_each(60, programs, "--version")
print(f"{RECORDS} records of {LENGTH} bytes on {platform.machine()}" + ("" if NATIVE else ", under the emulator"))
print(f"the library in a loop, nodes in memory    {loop:8.2f} s")
print(f"the host by --stream, all on disk         {took:8.2f} s   {took / loop:.2f} times the loop")
print(f"the same with --keep-records              {with_records:8.2f} s   {with_records / loop:.2f} times the loop")
print(f"the most memory                           {memory:8d} kB  at a tenth of the records {few} kB")
print(f"one append by the host, the best of 60    {alone * 1000:8.1f} ms")
print(f"one append by bin/keeper, the best of 60  {script * 1000:8.1f} ms")
print(f"--version by the host and by bin/keeper   {nothing * 1000:8.1f} ms  {nothing_by_script * 1000:.1f} ms")
if root != said:
    sys.exit("host.sh: the roots differ")
held("the host by --stream to the library's loop", took / loop, 1.5)
held("memory at all records to that at a tenth", memory / few, 1.2)
held("what bin/keeper adds of its own, measured where no disk is", (nothing_by_script - nothing) * 1000, 10, " ms")
sys.exit(1 if MISSED else 0)
