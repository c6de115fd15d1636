#!/usr/bin/env python3
"""Counts the instructions of whole runs, from a plan to its planes, here and with rav1e's own functions.

    integrations/rav1e/source
    tools/measure_beside_rav1e/plans.py [--time] PROGRAM PLAN..

PROGRAM is the built av1_vectors. It is compared with `integrations/rav1e/answer`, which reads the same plan and calls rav1e 0.8.1's
functions, built for x86-64-v2. PLAN is a plan, or a folder of `integrations/rav1e/record`: then the plans of all its frames. Each line has
the plan, the instructions of a run here, those in rav1e, and the ratio of the two; then those of rav1e in its own modules, and the ratio of
the run here to these. The rest of rav1e's is reading the plan, copying references and allocating frames. A folder has one line more: the two
ratios of its first frame, the least and greatest of the others, and of the sums. If the planes differ, the script stops. It needs
`valgrind`, and `cargo` for the first run.

With `--time`, each line has the milliseconds of a run instead: processor time, the median of 21 runs of each program in turns.
"""
import argparse
import concurrent.futures
import os
import pathlib
import re
import statistics
import subprocess
import sys
import tempfile

REPOSITORY = pathlib.Path(__file__).resolve().parent.parent.parent
AT_ONCE = 3
RUNS = 21
# A line of callgrind_annotate on a function of rav1e outside the wrapper.
OF_RAV1E = re.compile(r"^ *([0-9,]+) .*:<?rav1e::(?!wrapper::)", re.M)


def number(text):
    return int(text.replace(",", ""))


def count(program, plan):
    """How many instructions a run takes, how many of them in functions of rav1e's modules, and the planes."""
    with tempfile.NamedTemporaryFile() as counted, open(plan, "rb") as file:
        run = subprocess.run(["valgrind", "--tool=callgrind", f"--callgrind-out-file={counted.name}", program], stdin=file, capture_output=True)
        if run.returncode:
            sys.exit(f"plans.py: `{program} < {plan}` ended with status {run.returncode}: run it alone to see why")
        told = subprocess.run(["callgrind_annotate", "--threshold=100", counted.name], capture_output=True, text=True, check=True).stdout
    return number(re.search(r"refs: *([0-9,]+)", run.stderr.decode()).group(1)), sum(map(number, OF_RAV1E.findall(told))), run.stdout


def compare(program, wrapper, plan):
    """The instructions of a run here and in rav1e."""
    (here, _, planes), (there, own, others) = count(program, plan), count(wrapper, plan)
    if planes != others:
        sys.exit(f"plans.py: {plan}: the planes of PROGRAM and of rav1e differ, so there is nothing to measure")
    print(f"{plan} {here:,} {there:,} {here / there:.2f}, {own:,} {here / own:.2f}", flush=True)
    return here, there, own


def milliseconds(program, plan):
    """The processor time of a run."""
    with open(plan, "rb") as file:
        process = subprocess.Popen([program], stdin=file, stdout=subprocess.DEVNULL)
    _, status, usage = os.wait4(process.pid, 0)
    if status:
        sys.exit(f"plans.py: `{program} < {plan}` failed: run it alone to see why")
    return 1000 * (usage.ru_utime + usage.ru_stime)


def compare_times(program, wrapper, plan):
    """The milliseconds of a run here and in rav1e."""
    pairs = [(milliseconds(program, plan), milliseconds(wrapper, plan)) for _ in range(RUNS)]
    here, there = map(statistics.median, zip(*pairs))
    print(f"{plan} {here:.1f} {there:.1f} {here / there:.2f}", flush=True)
    return here, there


def summary(name, counts):
    """A folder's line."""
    text = f"{name}: {len(counts)} frames"
    for there in range(1, len(counts[0])):
        first, *others = (it[0] / it[there] for it in counts)
        between = f", others {min(others):.2f} to {max(others):.2f}" if others else ""
        text += f"; first {first:.2f}{between}, all {sum(it[0] for it in counts) / sum(it[there] for it in counts):.2f}"
    return text


def main():
    parser = argparse.ArgumentParser(usage=__doc__, add_help=False)
    parser.add_argument("--time", action="store_true")
    parser.add_argument("program")
    parser.add_argument("plans", type=pathlib.Path, nargs="+")
    given = parser.parse_args()
    answer = REPOSITORY / "integrations/rav1e/answer"
    wrapper = subprocess.run([answer, "--path"], stdout=subprocess.PIPE, text=True, check=True).stdout.strip()
    measure, at_once = (compare_times, 1) if given.time else (compare, AT_ONCE)
    with concurrent.futures.ThreadPoolExecutor(at_once) as pool:
        for path in given.plans:
            plans = sorted(path.glob("*.plan")) if path.is_dir() else [path]
            counts = list(pool.map(lambda plan: measure(given.program, wrapper, plan), plans))
            if path.is_dir():
                print(summary(path.name, counts), flush=True)


if __name__ == "__main__":
    main()
