#!/usr/bin/env python3
"""Makes each allocation of a program fail in turn, and checks that the program then ends as it should.

    tools/refuse_memory/refuse_memory.py [--calls] PROGRAM

PROGRAM is the built program, `crates/av1_vectors/out/av1_vectors`. It runs on the example plan, on a plan with references, and with the
arguments `sum 5` and `make 5`. Each of its allocations fails once on its own, and once together with all that follow, by a small library
that is loaded before the C library's (`refuse.c`, which needs `cc` and glibc). A run passes if its output is complete and right, or if it
ends with status 3, `out of memory` and no output. If the allocation fails before the arguments are read, it must end with status 6 and no
output. With `--calls`, each public call that allocates is also tested, on both plans if it takes a plan. This builds `calls.txt` as a
library that is in the repository only for that time; it needs `rt` and the proofs that `rt all check` leaves.

It prints for each case how many allocations there are and how the runs ended, and ends with 'N passed, M failed'. The status is 1 if M is
not 0.
"""
import collections
import itertools
import os
import pathlib
import shutil
import subprocess
import sys
import tempfile

HERE = pathlib.Path(__file__).resolve().parent
REPOSITORY = HERE.parent.parent
CRATE = REPOSITORY / "crates" / "av1_vectors"
LIBRARY = "refused_calls"
STANDS_ON = "av1_blocks av1_edges av1_frame av1_inter av1_itx av1_plan av1_recon"
CALLS = ("Plane::new Plane::from_slice FrameInvariants::new IntraEdgeBuffer::new InterCompoundBuffers::new TxScratch::new "
         "inverse_transform_add parse_plan make_plan MemSink::new TileState::new read_plan_bytes reconstruct_plan run").split()

WHOLE, MEMORY, WORDS = "the whole answer", "out of memory", "words not taken"


def with_references():
    """A frame of 8x8 with a slot whose luma rises by 10 a column, and a leaf from it a sample to the right; and the planes of that."""
    luma, moved = bytes(range(0, 80, 10)), bytes([10, 20, 30, 40, 50, 60, 70, 70])
    header = b"RPL1" + bytes([8, 0, 8, 0, 8, 2, 0, 0, 0, 0, 0, 0, 0, 0, 0, 1])
    leaf = bytes([0, 19, 1, 0, 0, 8, 0, 4]) + bytes(8)
    return header + 8 * luma + 128 * b"\x80" + leaf, 8 * moved + 128 * b"\x80"


def cases(program):
    """What is run: a name, the words, the plan, and the whole right answer."""
    worked = (CRATE / "stdin").read_bytes(), (CRATE / "stdout").read_bytes()
    lines = b"leaves 370\nY 130878882\nU 31162854\nV 31869318\n"
    made = subprocess.run([program, "make", "5"], capture_output=True, check=True).stdout
    return [
        ("the worked plan", [], *worked),
        ("a plan with references", [], *with_references()),
        ("sum 5", ["sum", "5"], b"", lines),
        ("make 5", ["make", "5"], b"", made),
    ]


def build_calls(folder):
    """A program that makes the calls one by one."""
    crate, listed = REPOSITORY / "crates" / LIBRARY, REPOSITORY / "crates.txt"
    if crate.exists():
        sys.exit(f"{crate} exists, left by a run that was cut off: delete it and its line in crates.txt")
    before = listed.read_text()
    try:
        for part in ("src", "specs", "proofs"):
            (crate / part).mkdir(parents=True)
        shutil.copy(HERE / "calls.txt", crate / "src" / "lib.rt")
        (crate / "specs" / "Lib.antt").touch()
        (crate / "proofs" / "Lib.antt").touch()
        listed.write_text(before + f"{LIBRARY} staticlib: {STANDS_ON}\n")
        subprocess.run(["rt", "lib"], cwd=crate, check=True, stdout=subprocess.DEVNULL)
        shutil.copy(crate / "out" / f"lib{LIBRARY}.a", folder)
    finally:
        listed.write_text(before)
        shutil.rmtree(crate)
    kit = pathlib.Path(subprocess.run(["rt", "doc"], capture_output=True, text=True, check=True).stdout.strip()).parent
    program = f"{folder}/calls"
    subprocess.run(["cc", "-O2", "-o", program, HERE / "calls.c", f"{folder}/lib{LIBRARY}.a", kit / "c" / "libos_c.a",
                    kit / "c" / "liblibc_c.a", "-lm"], check=True)
    return program


def run(program, words, plan, library, refuse):
    """The status, the output and the line of the program, and whether an allocation was refused."""
    told = os.memfd_create("told")
    environment = {"LD_PRELOAD": library, "REFUSE": refuse, "REFUSE_TELL": str(told)}
    it = subprocess.run([program, *words], input=plan, capture_output=True, env=environment, pass_fds=[told], timeout=600)
    refused = os.fstat(told).st_size > 0
    os.close(told)
    return (it.returncode, it.stdout, it.stderr), refused


def judged(answer, whole):
    """What came, where it may come. A call alone, of which nothing is printed, tells by its status that memory ran out."""
    memory = (3, b"", b"out of memory\n" if whole else b"")
    return {(0, whole, b""): WHOLE, memory: MEMORY, (6, b"", b""): WORDS}.get(answer)


def sweep(program, library, case, behind):
    """Refuses each allocation of a case in turn; how many answers passed and failed."""
    name, words, plan, whole = case
    answers, failed, number = collections.Counter(), 0, 0
    while True:
        answer, refused = run(program, words, plan, library, f"{number}{behind}")
        came = judged(answer, whole)
        if not refused:
            break
        if came is None:
            failed += 1
            print(f"{name}, allocation {number}{behind}: status {answer[0]}, {len(answer[1])} bytes, {answer[2]!r}")
        answers[came] += 1
        number += 1
    failed += came != WHOLE
    how = "and all that follow" if behind else "alone"
    told = ", ".join(f"{count} {came}" for came, count in answers.items())
    print(f"{name}: {number} allocations, each refused {how}: {told}", flush=True)
    return number + 1 - failed, failed


def main():
    if len(sys.argv) < 2 or sys.argv[1:-1] not in ([], ["--calls"]):
        sys.exit(__doc__)
    program = os.path.abspath(sys.argv[-1])
    with tempfile.TemporaryDirectory() as folder:
        library = f"{folder}/refuse.so"
        subprocess.run(["cc", "-O2", "-shared", "-fPIC", "-o", library, HERE / "refuse.c"], check=True)
        tried = cases(program)
        counts = [sweep(program, library, case, behind) for case in tried for behind in ("", "-")]
        if len(sys.argv) == 3:
            calls = build_calls(folder)
            for (name, _, plan, _), (number, call) in itertools.product(tried[:2], enumerate(CALLS)):
                counts += [sweep(calls, library, (f"{call}, {name}", [str(number)], plan, b""), behind) for behind in ("", "-")]
    passed, failed = map(sum, zip(*counts))
    print(f"{passed} passed, {failed} failed")
    return failed != 0


if __name__ == "__main__":
    sys.exit(main())
