#!/bin/sh
# What a campaign does where memory is wanting: `test` is run once for each time that the program asks for memory, each time
# with that one request refused, on a campaign of two plans and on one of nine.
#
#     bench/memory.sh [PROGRAM]
#
# PROGRAM is crates/filibuster/out/filibuster, which `rt run` makes in crates/filibuster, unless another one is named. It has
# to get its memory from the malloc and the realloc of a shared C library: a library that is loaded before it, made by `cc` in
# a temporary folder, counts the requests. Each run has to end with status 9, print nothing, and leave a front of the whole
# report or none, or else to do without what was refused, as with one request for each item of the fault file. It prints how many requests there were, and each run that ended in another way.
exec python3 - "${1:-$(dirname "$0")/../crates/filibuster/out/filibuster}" <<'END'
import os
import subprocess
import sys
import tempfile

MEMORY = 9
WORDS = ["test", "--services", "services.fb", "--test", "test.fb", "--faults", "faults.toml", "--report", "report.jsonl"]

# Refuses the request with the number in REFUSED, and then makes the file `refused`, by calls that take no memory.
COUNTER = r"""
#include <errno.h>
#include <fcntl.h>
#include <stdlib.h>
#include <unistd.h>

void *__libc_malloc(size_t size);
void *__libc_realloc(void *block, size_t size);

static long left;

__attribute__((constructor)) static void begin(void) {
    const char *number = getenv("REFUSED");
    left = number ? atol(number) : 0;
}

static int refuses(void) {
    if (left == 0 || --left != 0)
        return 0;
    close(creat("refused", 0600));
    errno = ENOMEM;
    return 1;
}

void *malloc(size_t size) { return refuses() ? NULL : __libc_malloc(size); }

void *realloc(void *block, size_t size) { return refuses() ? NULL : __libc_realloc(block, size); }
"""

FAULT = '[[fault]]\ncallee = "%s"\ncodes = ["timeout"]\n\n'

TWO_PLANS = {
    "services.fb": """\
service price { method get(id: int) -> int { return id * 10; } }
service cart { method total(id: int) -> int { let p = 0; call p = price.get(id) on any { p = 5; } return p; } }
""",
    "test.fb": "test cart { let r = 0; call r = cart.total(2); assert r == 20 or injected; }\n",
    "faults.toml": FAULT % "price",
}

NINE_PLANS = {
    "services.fb": """\
service front {
  method go() -> int {
    let x = 0;
    let y = 0;
    call x = b.get() on any { x = 0; }
    call y = c.get() on any { y = 0; }
    return x + y;
  }
}
service b { method get() -> int { let v = 0; call v = d.get(); return v; } }
service c { method get() -> int { let v = 0; call v = e.get(); return v; } }
service d { method get() -> int { return 1; } }
service e { method get() -> int { return 1; } }
""",
    "test.fb": "test both { let r = 0; call r = front.go(); assert r == 2 or injected; }\n",
    "faults.toml": "".join(FAULT % callee for callee in "bcde"),
}


def made_counter(folder):
    """The library that counts."""
    source, counter = os.path.join(folder, "counter.c"), os.path.join(folder, "counter.so")
    with open(source, "w") as file:
        file.write(COUNTER)
    subprocess.run(["cc", "-O1", "-shared", "-fPIC", "-o", counter, source], check=True)
    return counter


def taken(path):
    """The content of a file, which is removed, or none where there is no such file."""
    if not os.path.exists(path):
        return None
    with open(path, "rb") as file:
        content = file.read()
    os.remove(path)
    return content


def tested(program, counter, folder, number):
    """The status, the printed text and the report of a run whose request of this number is refused, and whether it was."""
    told = dict(os.environ, LD_PRELOAD=counter, REFUSED=str(number))
    ended = subprocess.run([program] + WORDS, cwd=folder, env=told, stdout=subprocess.PIPE)
    refused = taken(os.path.join(folder, "refused")) is not None
    return ended.returncode, ended.stdout, taken(os.path.join(folder, "report.jsonl")), refused


def has_given_up(whole, status, said, report):
    return status == MEMORY and said == b"" and (report is None or whole.startswith(report))


def bench(program, counter, sources, expected):
    """Refuses each request once, and gives how many runs neither gave up nor went on as if nothing had been refused."""
    with tempfile.TemporaryDirectory() as folder:
        for name, text in sources.items():
            with open(os.path.join(folder, name), "w") as file:
                file.write(text)
        status, said, whole, _ = tested(program, counter, folder, 0)
        unharmed = (status, said, whole)
        if status != 0 or not said.startswith(expected.encode()):
            sys.exit("not %r: status %d, %r" % (expected, status, said[-200:]))
        wrong, went_on, number = 0, 0, 1
        while True:
            status, said, report, refused = tested(program, counter, folder, number)
            if not refused:
                break
            if (status, said, report) == unharmed:
                went_on += 1
            elif not has_given_up(whole, status, said, report):
                wrong += 1
                print("request %d refused: status %d, %r, report %r" % (number, status, said, report and report[-80:]))
            number += 1
    if number == 1:
        sys.exit("no request was counted: the program has to take its memory from a shared C library")
    print("%s: %d requests, each refused once; %d runs did without, and %d ended otherwise than they should"
          % (expected, number - 1, went_on, wrong), flush=True)
    return wrong


program = os.path.abspath(sys.argv[1])
if not os.access(program, os.X_OK):
    sys.exit("no program: %s" % program)
with tempfile.TemporaryDirectory() as made:
    library = made_counter(made)
    wrong = bench(program, library, TWO_PLANS, "completed plans 2 run 2 pruned 0 failed 0 invs 3")
    wrong += bench(program, library, NINE_PLANS, "completed plans 9 run 6 pruned 3 failed 0 invs 10")
sys.exit(wrong != 0)
END
