#!/bin/sh
# What it costs to read, check and print services: the time and the peak memory of the built program, for texts from
# 128 KiB to 1 MiB. `test` reads and checks them, and then runs a test that calls none of them; `fmt` reads and prints.
#
#     bench/services.sh [PROGRAM]
#
# PROGRAM is crates/filibuster/out/filibuster, which `rt run` makes in crates/filibuster, unless another one is named. The
# time is the processor time of the whole program, the best of five runs. A factor is what a doubling of the text brings.
exec python3 - "${1:-$(dirname "$0")/../crates/filibuster/out/filibuster}" <<'END'
import os
import resource
import subprocess
import sys
import tempfile

SIZES = [128 << 10, 256 << 10, 512 << 10, 1 << 20]
RUNS = 5
MOST_SERVICES = 256
LONGEST_CHAIN = 1024

# What the program says of a text that wasn't read to its end, or isn't accepted.
REFUSALS = ["NotText", "BadToken", "Unexpected", "TooDeep", "TooMany", "TooLong", "read fault", "usage"] + [
    "DuplicateName", "Unknown", "Wrong", "MissingEnd", "BreakOutside", "Only", "Cycle"]

LEAF = "x = x + 1;"

CALL = """\
call x = s0.m0(a, b) on timeout {
      x = -1;
    } on any {
      fail unavailable;
    }"""

METHOD = """\
  method m%d(a: int, b: list<int>) -> int {
    let x = a * 2 + 1;
    let sum = 0;
    %s
    for y in b {
      if y < x and not y == a {
        sum = sum + y;
      } else {
        break;
      }
    }
    return sum;
  }
"""


def canonical(service, method, room):
    """A method as the canonical text has it, which calls the first method of all; none where it doesn't fit."""
    text = METHOD % (method, CALL if service + method else LEAF)
    return text if len(text) <= room else ""


def chain(service, method, room):
    """A method of tokens of one byte: a sum of as many operands as fit and may be."""
    front, end = "  method m%d()->int{return " % method, ";}\n"
    operands = min(LONGEST_CHAIN, (room - len(front) - len(end) + 1) // 2)
    return front + "+".join("1" * operands) + end if 0 < operands else ""


def calling(sites):
    """Methods of so many calls each and nothing else, at most 31 of them one below another."""

    def made(service, method, room):
        front, end = "method m%d()->int{let x=0;" % method, "return x;}\n"
        level = service * 32 // MOST_SERVICES
        text = front
        for site in range(sites if level else 0):
            callee = (service + 37 * site) % (level * MOST_SERVICES // 32)
            text += "call x=s%d.m%d();" % (callee, (method + site) % 16)
        return text + end if len(text + end) <= room else ""

    return made


def services(size, methods, made):
    """Services of so many methods each, and blanks up to the size."""
    text, room = [], size
    for service in range(MOST_SERVICES):
        front, end = "service s%d {\n" % service, "}\n"
        if room < len(front) + len(end):
            break
        room -= len(front) + len(end)
        text.append(front)
        for method in range(methods):
            text.append(made(service, method, room))
            room -= len(text[-1])
        text.append(end)
    return "".join(text) + "\n" * room


def answer(words, folder):
    """What the program prints, once it has accepted the services or printed them."""
    said = subprocess.run(words, cwd=folder, stdout=subprocess.PIPE, text=True).stdout.strip()
    if not said or any(word in said for word in REFUSALS):
        sys.exit("refused: %r" % said[:200])
    return said


def spent():
    """The processor time in seconds of all programs that have ended."""
    usage = resource.getrusage(resource.RUSAGE_CHILDREN)
    return usage.ru_utime + usage.ru_stime


def measured(words, folder):
    """The time in seconds and the peak memory in KiB."""
    times = []
    for _ in range(RUNS):
        begun = spent()
        answer(words, folder)
        times.append(spent() - begun)
    # From a process that is small itself, since a new process counts the memory of the one that it comes from.
    answer(["/usr/bin/time", "-q", "-f", "%M", "-o", "memory"] + words, folder)
    with open(os.path.join(folder, "memory")) as memory:
        return min(times), int(memory.read())


TEST = ["test", "--services", "services.fb", "--test", "test.fb", "--report", "report.jsonl"]
FMT = ["fmt", "--services", "services.fb"]


def bench(title, program, command, methods, made):
    print("%s\n%10s %12s %7s %12s %7s" % (title, "size", "time", "factor", "memory", "factor"))
    before = None
    for size in SIZES:
        with tempfile.TemporaryDirectory() as folder:
            with open(os.path.join(folder, "services.fb"), "w") as file:
                file.write(services(size, methods, made))
            with open(os.path.join(folder, "test.fb"), "w") as file:
                file.write("test t { }\n")
            now = measured([program] + command, folder)
        factors = ["%.2f" % (n / b) for n, b in zip(now, before)] if before else ["", ""]
        print("%6d KiB %9.1f ms %7s %8.1f MiB %7s" % (size >> 10, now[0] * 1000, factors[0], now[1] / 1024, factors[1]))
        before = now


program = os.path.abspath(sys.argv[1])
if not os.access(program, os.X_OK):
    sys.exit("no program: %s" % program)
for command in [TEST, FMT]:
    bench("%s: canonical text, 16 methods a service" % command[0], program, command, 16, canonical)
    bench("%s: tokens of one byte, 64 methods a service" % command[0], program, command, 64, chain)
    bench("%s: 64 methods a service, a call each" % command[0], program, command, 64, calling(1))
    bench("%s: 16 methods a service, 12 calls each" % command[0], program, command, 16, calling(12))
END
