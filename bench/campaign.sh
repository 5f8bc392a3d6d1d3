#!/bin/sh
# What a campaign costs: plans a second, processor time a plan and a call, and peak memory, of `test` on campaigns in which
# every plan is run, on one in which few are, and on the shop of the examples.
#
#     bench/campaign.sh [PROGRAM]
#
# PROGRAM is crates/filibuster/out/filibuster, which `rt run` makes in crates/filibuster, unless another one is named. The
# calls are those of the runs of all plans, whether they were run or pruned: each number in the uses of a plan's line is one,
# and so is each of the plan's faults. A time is the processor time of the whole program, the best of three runs. What a test
# without calls takes is taken off.
PYTHONDONTWRITEBYTECODE=1 PYTHONPATH="$(dirname "$0")" exec python3 - "${1:-$(dirname "$0")/../crates/filibuster/out/filibuster}" "$(dirname "$0")/../examples/shop" <<'END'
import json
import os
import sys
import tempfile

from campaigns import EMPTY_TEST, NO_REDUCTION, WORDS, all_run, measured, named, pruned, shop, written


def calls_told(report):
    """The calls of the runs of all plans of a report."""
    faults, calls = [], 0
    with open(report) as lines:
        for line in lines:
            if '"kind":"plan"' in line:
                plan = json.loads(line)
                faults.append(0 if plan["parent"] is None else faults[plan["parent"]] + 1)
                calls += len(plan["uses"]) + faults[-1]
    return calls


def campaign(program, inputs, options, expected):
    """Seconds, bytes of memory, calls and bytes of the report."""
    with tempfile.TemporaryDirectory() as folder:
        written(folder, inputs)
        seconds, memory = measured([program] + WORDS + options, folder, expected)
        report = os.path.join(folder, "report.jsonl")
        return seconds, memory, calls_told(report), os.path.getsize(report)


def bench(title, program, inputs, options, plans, run):
    """Prints what a campaign costs, and gives the seconds and the bytes of memory that its plans take."""
    services, _, faults = inputs
    start = campaign(program, (services, EMPTY_TEST, faults), [], "completed plans 1 run 1 pruned 0 failed 0 ")
    expected = "completed plans %d run %d pruned %d failed 0 " % (plans, run, plans - run)
    seconds, memory, calls, report = campaign(program, inputs, options, expected)
    took, grew = max(seconds - start[0], 1e-6), max(memory - start[1], 1)
    print("%s: %d plans, %d of them run" % (title, plans, run))
    print("%10.1f ms %9.0f plans a second, %8.2f us a plan, %6.2f us a call"
          % (seconds * 1000, plans / took, took / plans * 1e6, took / calls * 1e6))
    print("%10.1f MiB %8.0f bytes of memory and %.0f of the report a plan"
          % (memory / (1 << 20), grew / plans, report / plans), flush=True)
    return took, grew


def bench_all_run(program):
    """Campaigns of which one has sixteen times as many plans."""
    few = bench("12 leaves", program, all_run(12), NO_REDUCTION, 1 << 12, 1 << 12)
    many = bench("16 leaves", program, all_run(16), NO_REDUCTION, 1 << 16, 1 << 16)
    print("sixteen times as many plans: %.2f times the time, %.2f times the memory" % (many[0] / few[0], many[1] / few[1]))


def bench_both(program, inputs, plans, run):
    """A campaign with reduction and without."""
    reduced = bench("with reduction", program, inputs, [], plans, run)
    whole = bench("without", program, inputs, NO_REDUCTION, plans, plans)
    print("with reduction over without: %.2f of the time" % (reduced[0] / whole[0]))


program = named(sys.argv[1])
print("A method calls leaves and handles the failure of each, without reduction:", flush=True)
bench_all_run(program)
print("A method calls 16 others, each of which handles the failure of a leaf:", flush=True)
bench_both(program, pruned(16), 1 << 16, 17)
print("The shop:", flush=True)
bench_both(program, shop(sys.argv[2]), 343, 55)
END
