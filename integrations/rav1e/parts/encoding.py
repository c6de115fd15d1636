"""How a clip is encoded: the recorder's options, lists of runs, and a run."""
import os
import subprocess

# An option without a word, and the variable that tells the encoder of it.
SWITCHES = {
    "--quarters": ("RECORD_QUARTERS", "try nodes of four leaves in a row or column"),
    "--all-types": ("RECORD_ALL_TYPES", "try transform types on leaves with references"),
    "--no-edge-filter": ("RECORD_NO_EDGE_FILTER", "turn the intra edge filter off"),
    "--loop-filters": ("RECORD_LOOP_FILTERS", "leave deblocking, CDEF and restoration on"),
    "--earlier-versions": ("RECORD_EARLIER_VERSIONS", "write plans of versions 1 and 2, whose sides are multiples of 8"),
    "--short-as-av1": ("RECORD_SHORT_AS_AV1", "with plans of versions 1 and 2 take AV1's short filter for the sharp one"),
    "--short-sharp": ("RECORD_SHORT_SHARP", "with such plans draw the sharp filter along short sides, too"),
    "--wrapping": ("RECORD_WRAPPING", "draw coefficients at depth 12 that pass 32 bits in an identity, too"),
}
VALUES = {
    "--seed": ("RECORD_SEED", "N", "draw all decisions from the number N in place of the search"),
    "--filter": ("RECORD_FILTER", "F", "interpolation filter: 0 to 3, turn (0, 1, 3), or drawn"),
}


class Failed(Exception):
    """The encoder ended with another status than 0."""


def split(words):
    """The words before --, and those behind it."""
    return (words[:words.index("--")], words[words.index("--") + 1:]) if "--" in words else (words, [])


def add_options(parser):
    for option, (variable, text) in SWITCHES.items():
        parser.add_argument(option, dest=variable, action="store_const", const="1", default="", help=text)
    for option, (variable, meta, text) in VALUES.items():
        parser.add_argument(option, dest=variable, metavar=meta, default="", help=text)


def settings(options):
    """The variables of parsed options, without those that aren't set."""
    return {name: value for name, value in vars(options).items() if name.startswith("RECORD_") and value}


def listed(path, names):
    """The lines of a list of runs as (name, clip, options and words): those of these names, or all."""
    with open(path, encoding="utf-8") as file:
        for line in file:
            words = line.split("#")[0].split()
            if words and (not names or words[0] in names):
                yield words[0], words[1], words[2:]


def command(encoder, clip, bits, words):
    """The command that encodes a clip into the file `bits`, in one thread where the words of rav1e don't say in how many."""
    threads = [] if "--threads" in words else ["--threads", "1"]
    return [encoder, clip, "-o", bits, "-y", *threads, "--quiet", *words]


def encode(encoder, clip, bits, variables, words, before=()):
    """Encodes a clip into the file `bits`, by a command behind the words `before`; returns what it says on standard error."""
    run = subprocess.run([*before, *command(encoder, clip, bits, words)], env={**os.environ, **variables},
                         capture_output=True, stdin=subprocess.DEVNULL)
    said = run.stderr.decode(errors="replace")
    if run.returncode:
        raise Failed("the encoder failed: " + said.strip()[-600:])
    return said
