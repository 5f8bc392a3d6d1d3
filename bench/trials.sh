#!/bin/sh
# A table of 100 trials: for each number and size the totals, and the processor time. It fails where a trial doesn't end with
# a report that its check calls valid.
#
#     bench/trials.sh [PROGRAM]
#
# PROGRAM is crates/filibuster/out/filibuster, which `rt run` makes in crates/filibuster, unless another one is named. The sizes go
# round from 1 to 12, the numbers by steps of 661 from 0, so that they differ in the generator, which takes them modulo 65537.
set -e
here="$(cd "$(dirname "$0")" && pwd)"
python3 - "${1:-$here/../crates/filibuster/out/filibuster}" <<'END'
import re
import resource
import subprocess
import sys

TOLD = re.compile(r"trial plans (\d+) run (\d+) pruned (\d+) failed (\d+) invs (\d+) check yes\n")


def spent():
    """The processor time of all programs so far, in seconds."""
    used = resource.getrusage(resource.RUSAGE_CHILDREN)
    return used.ru_utime + used.ru_stime


print("%10s %5s %8s %6s %8s %8s %6s %9s" % ("number", "size", "plans", "run", "pruned", "failed", "invs", "ms"))
for place in range(100):
    number, size = place * 661, 1 + place % 12
    before = spent()
    done = subprocess.run([sys.argv[1], "trial", str(number), str(size)], capture_output=True, text=True)
    told = TOLD.fullmatch(done.stdout)
    if told is None or done.returncode != (1 if int(told[4]) else 0):
        sys.exit("trial %d %d: status %d, %s" % (number, size, done.returncode, done.stdout))
    print("%10d %5d %8s %6s %8s %8s %6s %9.1f" % ((number, size) + told.groups() + ((spent() - before) * 1000,)), flush=True)
print("100 trials, each with a valid report")
END
