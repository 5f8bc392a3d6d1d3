#!/bin/sh
# What it costs to report a run: instructions, processor time, peak memory and bytes of the report, of `test` on runs of 10,000
# and of 100,000 calls, each a call.
#
#     bench/test.sh [PROGRAM]
#
# PROGRAM is crates/filibuster/out/filibuster, which `rt run` makes in crates/filibuster, unless another one is named. In the
# first table all calls have the same arguments, so the report has one record, and its plan line names it once for each call; in
# the second one each call has arguments of its own, so each has a record. Instructions are those that valgrind counts, where it
# is there; a time is the processor time of the whole program, the best of five runs. What a test without calls takes is taken
# off.
exec python3 - "${1:-$(dirname "$0")/../crates/filibuster/out/filibuster}" <<'END'
import os
import re
import resource
import shutil
import subprocess
import sys
import tempfile

RUNS = 5
WORDS = ["test", "--services", "services.fb", "--test", "test.fb", "--report", "report.jsonl", "--fuel", "1000000"]
SERVICES = "service price { method get(id: int) -> int { return id * 10; } }\n"
TURNS = 100


def spent():
    """The processor time in seconds of all programs that have ended."""
    usage = resource.getrusage(resource.RUSAGE_CHILDREN)
    return usage.ru_utime + usage.ru_stime


def tested(words, folder):
    """Runs the program, whose test must complete."""
    said = subprocess.run(words, cwd=folder, stdout=subprocess.PIPE, stderr=subprocess.DEVNULL).stdout
    if not said.startswith(b"completed plans 1 run 1 pruned 0 failed 0 "):
        sys.exit("not completed: %r" % said[-200:])


def instructions(program, folder):
    """How many the program executes, or none without valgrind."""
    if not shutil.which("valgrind"):
        return None
    tested(["valgrind", "--tool=callgrind", "--callgrind-out-file=counted", program] + WORDS, folder)
    with open(os.path.join(folder, "counted")) as counted:
        return int(re.search(r"^(?:totals|summary): (\d+)", counted.read(), re.MULTILINE).group(1))


def measured(program, test):
    """Instructions, seconds, bytes of memory and bytes of the report."""
    times = []
    with tempfile.TemporaryDirectory() as folder:
        for name, text in [("services.fb", SERVICES), ("test.fb", test)]:
            with open(os.path.join(folder, name), "w") as file:
                file.write(text)
        for _ in range(RUNS):
            begun = spent()
            tested([program] + WORDS, folder)
            times.append(spent() - begun)
        # From a process that is small itself, since a new process counts the memory of the one that it comes from.
        tested(["/usr/bin/time", "-q", "-f", "%M", "-o", "memory", program] + WORDS, folder)
        with open(os.path.join(folder, "memory")) as memory:
            kept = int(memory.read()) << 10
        report = os.path.getsize(os.path.join(folder, "report.jsonl"))
        return instructions(program, folder), min(times), kept, report


def calls(count, argument):
    """A test that makes so many calls."""
    return ("test t { let r = 0; let i = 0; repeat %d { repeat %d { call r = price.get(%s); i = i + 1; } } }\n"
            % (TURNS, count // TURNS, argument))


def bench(title, program, argument):
    print(title)
    start = measured(program, "test t { }\n")
    for count in [10000, 100000]:
        now = measured(program, calls(count, argument))
        each = ["-" if had is None else "%.1f" % ((has - had) / count) for has, had in zip(now, start)]
        print("%8d calls: %8s instructions, %6.2f us, %8s bytes of memory, %7s bytes of report a call"
              % (count, each[0], (now[1] - start[1]) / count * 1e6, each[2], each[3]))


program = os.path.abspath(sys.argv[1])
bench("Calls with the same arguments:", program, "2")
bench("Calls each with arguments of its own:", program, "i")
END
