"""Campaigns that are measured, and what a run of the program takes."""
import os
import resource
import subprocess
import sys

RUNS = 3
INPUTS = ["services.fb", "test.fb", "faults.toml"]
WORDS = ["test", "--services", "services.fb", "--test", "test.fb", "--faults", "faults.toml", "--report", "report.jsonl",
         "--budget", "1000000"]
NO_REDUCTION = ["--no-reduction"]
TEST = "test t { let r = 0; call r = front.go(); }\n"
EMPTY_TEST = "test t { }\n"
FAULT = '[[fault]]\ncallee = "%s"\ncodes = ["timeout"]\n\n'
LEAF = "service leaf%d { method get() -> int { return 1; } }\n"
MIDDLE = "service middle%d { method get() -> int { let v = 0; call v = leaf%d.get() on any { v = 0; } return 1; } }\n"


def front(callee, count, handled):
    """A method that calls the methods of so many services one after another."""
    calls = "".join("call v = %s%d.get()%s " % (callee, number, handled) for number in range(count))
    return "service front { method go() -> int { let v = 0; %sreturn v; } }\n" % calls


def faults(count):
    """The leaves may fail, and nothing else."""
    return "".join(FAULT % ("leaf%d" % number) for number in range(count))


def all_run(count):
    """The front calls the leaves itself, so no two plans give it the same replies."""
    leaves = "".join(LEAF % number for number in range(count))
    return front("leaf", count, " on any { v = 0; }") + leaves, TEST, faults(count)


def pruned(count):
    """The front gets the same replies from the services between, whichever leaves fail."""
    below = "".join(LEAF % number + MIDDLE % (number, number) for number in range(count))
    return front("middle", count, ";") + below, TEST, faults(count)


def shop(folder):
    """The shop of the examples."""
    texts = []
    for name in INPUTS:
        with open(os.path.join(folder, name)) as file:
            texts.append(file.read())
    return tuple(texts)


def spent():
    """The processor time in seconds of all programs that have ended."""
    usage = resource.getrusage(resource.RUSAGE_CHILDREN)
    return usage.ru_utime + usage.ru_stime


def tested(words, folder, expected):
    """Runs the program, whose campaign must have these plans."""
    said = subprocess.run(words, cwd=folder, stdout=subprocess.PIPE).stdout
    if not said.startswith(expected.encode()):
        sys.exit("not %r: %r" % (expected, said[-200:]))


def written(folder, inputs):
    """Puts the services, the test and the fault file into a folder."""
    for name, text in zip(INPUTS, inputs):
        with open(os.path.join(folder, name), "w") as file:
            file.write(text)


def measured(words, folder, expected):
    """The processor time in seconds, the best of some runs, and the bytes of memory."""
    times = []
    for _ in range(RUNS):
        begun = spent()
        tested(words, folder, expected)
        times.append(spent() - begun)
    # From a process that is small itself, since a new process counts the memory of the one that it comes from.
    tested(["/usr/bin/time", "-q", "-f", "%M", "-o", "memory"] + words, folder, expected)
    with open(os.path.join(folder, "memory")) as memory:
        return min(times), int(memory.read()) << 10


def named(path):
    """The program with this path, whatever folder it is run in."""
    program = os.path.abspath(path)
    if not os.access(program, os.X_OK):
        sys.exit("no program: %s" % program)
    return program
