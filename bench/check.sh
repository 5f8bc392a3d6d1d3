#!/bin/sh
# What a check costs: processor time and peak memory of `check` on the reports of campaigns, beside those of the `test` that
# wrote them, and beside the time that serde_json alone takes to read the same lines.
#
#     bench/check.sh [PROGRAM]
#
# PROGRAM is crates/filibuster/out/filibuster, which `rt run` makes in crates/filibuster, unless another one is named. A time
# is the processor time of a whole program, the best of three runs. The reader of lines is made by `rt run` in a folder of
# its own.
set -e
here="$(cd "$(dirname "$0")" && pwd)"
folder="$(mktemp -d)"
trap 'rm -rf "$folder"' EXIT
mkdir -p "$folder/reader/src"
echo "reader: serde_json" > "$folder/crates.txt"
cat > "$folder/reader/src/main.rt" <<'END'
//! Reads lines of JSON, and prints how many there are.
#![tactic(auto)]

use serde_json::Value;
use std::io;

fn main(rt: HostRuntime) -> io::Result<()> {
    let alloc = rt.alloc();
    let mut count = 0u64;
    for line in rt.lines(alloc) {
        if Value::from_slice(alloc, line?.as_bytes()).is_ok() {
            count = count.saturating_add(1);
        }
    }
    println!(rt; "{count}")?;
    Ok(())
}
END
(cd "$folder/reader" && rt run < /dev/null > made 2>&1) || { cat "$folder/reader/made" >&2; exit 1; }
PYTHONDONTWRITEBYTECODE=1 PYTHONPATH="$here" python3 - "${1:-$here/../crates/filibuster/out/filibuster}" "$here/../examples/shop" "$folder/reader/out/reader" <<'END'
import os
import sys
import tempfile

from campaigns import NO_REDUCTION, WORDS, all_run, measured, named, pruned, shop, written

CHECK = ["check", "--services", "services.fb", "--test", "test.fb", "--faults", "faults.toml", "--report", "report.jsonl"]


def bench(title, program, reader, inputs, options, plans, run):
    """Prints what a campaign, the check of its report and the reading of its lines cost."""
    totals = "plans %d run %d pruned %d failed 0 " % (plans, run, plans - run)
    with tempfile.TemporaryDirectory() as folder:
        written(folder, inputs)
        tested, _ = measured([program] + WORDS + options, folder, "completed " + totals)
        checked, memory = measured([program] + CHECK, folder, "yes " + totals)
        report = os.path.join(folder, "report.jsonl")
        read, _ = measured(["sh", "-c", '"$0" < report.jsonl', reader], folder, "")
        size = os.path.getsize(report)
    print("%s: %d plans, %d of them run, %.1f MiB of report" % (title, plans, run, size / (1 << 20)))
    print("%10.1f ms to check it, %.1f ms to test, %.1f ms to read its lines" % (checked * 1000, tested * 1000, read * 1000))
    print("%10.2f of the time of the test, %.2f of that of reading; %.2f bytes of memory a byte of the report"
          % (checked / tested, checked / read, memory / size), flush=True)


program, reader = named(sys.argv[1]), named(sys.argv[3])
print("A method calls leaves and handles the failure of each, without reduction:", flush=True)
bench("12 leaves", program, reader, all_run(12), NO_REDUCTION, 1 << 12, 1 << 12)
bench("16 leaves", program, reader, all_run(16), NO_REDUCTION, 1 << 16, 1 << 16)
print("A method calls 16 others, each of which handles the failure of a leaf:", flush=True)
bench("with reduction", program, reader, pruned(16), [], 1 << 16, 17)
bench("without", program, reader, pruned(16), NO_REDUCTION, 1 << 16, 1 << 16)
print("The shop:", flush=True)
bench("with reduction", program, reader, shop(sys.argv[2]), [], 343, 55)
bench("without", program, reader, shop(sys.argv[2]), NO_REDUCTION, 343, 343)
END
