#!/bin/sh
# What it costs to run a test: the processor time a unit of fuel, and the peak memory a call, of `replay` of the empty plan.
#
#     bench/replay.sh [PROGRAM]
#
# PROGRAM is crates/filibuster/out/filibuster, which `rt run` makes in crates/filibuster, unless another one is named. A time
# is the processor time of the whole program, the best of five runs. What a run of the same sources takes that turns its loops
# a tenth as often, or once, is taken off, and so is the start with it: reading, checking and printing.
exec python3 - "${1:-$(dirname "$0")/../crates/filibuster/out/filibuster}" <<'END'
import os
import resource
import subprocess
import sys
import tempfile

RUNS = 5
WORDS = ["replay", "--services", "services.fb", "--test", "test.fb", "--plan", "none", "--fuel", "1000000"]
TURNS = 1000
VARIABLES = 10000
SKIPPED = 100000
NO_SERVICES = "service none {}\n"


def spent():
    """The processor time in seconds of all programs that have ended."""
    usage = resource.getrusage(resource.RUSAGE_CHILDREN)
    return usage.ru_utime + usage.ru_stime


def replayed(words, folder):
    """Runs the program, whose run must pass."""
    said = subprocess.run(words, cwd=folder, stdout=subprocess.PIPE).stdout
    if not said.endswith(b"outcome passed\n"):
        sys.exit("not passed: %r" % said[-200:])


def measured(program, services, test):
    """The time in seconds and the peak memory in bytes."""
    times = []
    with tempfile.TemporaryDirectory() as folder:
        for name, text in [("services.fb", services), ("test.fb", test)]:
            with open(os.path.join(folder, name), "w") as file:
                file.write(text)
        for _ in range(RUNS):
            begun = spent()
            replayed([program] + WORDS, folder)
            times.append(spent() - begun)
        # From a process that is small itself, since a new process counts the memory of the one that it comes from.
        replayed(["/usr/bin/time", "-q", "-f", "%M", "-o", "memory", program] + WORDS, folder)
        with open(os.path.join(folder, "memory")) as memory:
            return min(times), int(memory.read()) << 10


def loop(turns, body, before=""):
    """A test that turns a loop in another one so often as 1,000 times these turns."""
    return "test t { let x = 0; %srepeat %d { repeat %d { %s } } }\n" % (before, TURNS, turns, body)


def units(turns, statements):
    """The units that the loops of such a test take: one each statement, and one each turn."""
    return 2 + TURNS * (2 + turns * (1 + statements))


def bench_loop(title, program, body, statements, before=""):
    """A loop that takes so many units, against one of a tenth of them."""
    print(title)
    start = measured(program, NO_SERVICES, loop(0, body, before) if before else "test t { }\n")
    for most in [100000, 1000000]:
        turns = (most - VARIABLES - 10 if before else most - 10) // TURNS - 2
        turns //= 1 + statements
        now = measured(program, NO_SERVICES, loop(turns, body, before))
        taken = units(turns, statements) - (units(0, 0) if before else 0)
        each = (now[0] - start[0]) / taken
        print("%10d units %9.1f ms %7.1f ns a unit %12.0f units a second %8.1f MiB"
              % (taken, now[0] * 1000, each * 1e9, 1 / each, now[1] / (1 << 20)))


def skipping(turns, statements):
    """A method that passes a block of so many statements in each turn."""
    block = "x=1;" * statements
    return "service s { method m() -> int { let x = 0; repeat %d { if x == 1 { %s } } return x; } }\n" % (turns, block)


def bench_skipping(program):
    print("a block that isn't executed, in a loop of %d turns" % TURNS)
    test = "test t { let r = 0; call r = s.m(); }\n"
    for statements in [0, SKIPPED]:
        once = measured(program, skipping(1, statements), test)
        now = measured(program, skipping(TURNS, statements), test)
        print("%10d statements %9.1f ms, %.1f ms with one turn, %.2f us a turn"
              % (statements, now[0] * 1000, once[0] * 1000, (now[0] - once[0]) / (TURNS - 1) * 1e6))


def bench_calls(program):
    print("calls")
    services = "service s { method m(n: int) -> int { return n; } }\n"
    start = measured(program, services, "test t { }\n")
    for turns in [3, 30, 300]:
        now = measured(program, services, loop(turns, "call x = s.m(1);"))
        calls = TURNS * turns
        print("%10d calls %9.1f ms %7.2f us a call %10.1f MiB %7.0f bytes a call"
              % (calls, now[0] * 1000, (now[0] - start[0]) / calls * 1e6, now[1] / (1 << 20), (now[1] - start[1]) / calls))


program = os.path.abspath(sys.argv[1])
if not os.access(program, os.X_OK):
    sys.exit("no program: %s" % program)
variables = "".join("let v%d=0;" % number for number in range(VARIABLES))
bench_loop("empty loops", program, "", 0)
bench_loop("loops with an assignment", program, "x = x + 1;", 1)
bench_loop("the same under %d variables" % VARIABLES, program, "x = x + 1;", 1, variables)
bench_skipping(program)
bench_calls(program)
END
