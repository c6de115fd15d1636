"""The results of many compared clips: counts, and the decoders."""
import datetime
import glob
import os
import subprocess
from collections import Counter

from . import programs
from .comparing import outcome, unlisted
from .recording import read


def lines(folder):
    """Lines on all clips in a folder: the programs, the encoder and the decoders; the counts; and what differs unlisted."""
    clips = sorted(os.path.dirname(path) for path in glob.glob(os.path.join(folder, "*", "compared.txt")))
    counts, sequences, encoders, decoders, differing = Counter(), Counter(), Counter(), set(), 0
    for clip in clips:
        counted, sequence = outcome(clip)
        counts.update(counted)
        differing += unlisted(clip, counted)
        sequences[sequence.split(":")[0]] += 1
        encoders[setting(clip, "rav1e")] += 1
        decoders |= {line.split(": ")[1].split(",")[0] for line in read(clip, "decoders.txt").decode().splitlines()}
    name = os.path.basename(folder)
    yield f"{name}: {datetime.date.today()}, scripts of commit {commit()}"
    yield from (f"{program}: SHA-256 {programs.checksum(programs.find(program))}" for program in ("av1_vectors", "av1_tools"))
    yield "encoders: " + ", ".join(f"rav1e {version}, {count} clips" for version, count in sorted(encoders.items()))
    yield f"decoders: {', '.join(sorted(decoders))}"
    yield f"counts: clips {len(clips)} " + " ".join(f"{what} {count}" for what, count in counts.items())
    yield "sequences: " + ", ".join(f"{what} {count}" for what, count in sorted(sequences.items()))
    yield (f"{name}: {len(clips)} clips, {counts['frames']} frames, {counts['decoded']} decodings: {differing} differ that "
           "docs/DIFFERENCES.md doesn't list")


def setting(clip, name):
    """What settings.txt says of a clip behind a word."""
    return next(line.split(" ", 1)[1] for line in read(clip, "settings.txt").decode().splitlines() if line.startswith(name + " "))


def commit():
    """The commit of this repository, with a mark if files have changed since."""
    words = ["git", "-C", os.path.dirname(__file__), "describe", "--always", "--dirty", "--abbrev=8", "--exclude=*"]
    told = subprocess.run(words, capture_output=True, text=True)
    return told.stdout.strip() or "none"
