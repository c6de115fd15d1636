"""Builds encoders from a copy of rav1e's source in integrations/rav1e/out/VERSION: the recorder, and the one on the library."""
import hashlib
import os
import shutil
import subprocess
import sys

from . import edits, library, wrapper

HOME = os.path.dirname(edits.HERE)
OUT = os.path.join(HOME, "out")
# Where the crates of each version are: those that `source` unpacks, and those of Debian 12.
REGISTRIES = {"0.8.1": os.path.join(OUT, "source/crates"), "0.5.1": "/usr/share/cargo/registry"}
CONFIG = """[source.crates-io]
replace-with = "debian"
[source.debian]
directory = "{registry}"
[net]
offline = true
"""
HOW = """rav1e 0.8.1, from Debian's suite sid: integrations/rav1e/source
or rav1e 0.5.1, on Debian 12: apt-get install --no-install-recommends librust-rav1e-dev"""


def default_source():
    """The folder of rav1e's source: $RAV1E_SOURCE, else 0.8.1 as `source` unpacks it, else 0.5.1 of Debian 12."""
    if os.environ.get("RAV1E_SOURCE"):
        return os.environ["RAV1E_SOURCE"]
    folders = [os.path.join(registry, "rav1e-" + version) for version, registry in REGISTRIES.items()]
    return next(filter(os.path.isdir, folders), folders[0])


def registry_of(source, version):
    """The folder of the crates that the rav1e in `source` depends on: the one that it stands in, if that has crates."""
    beside = os.path.dirname(os.path.abspath(source))
    if any(name.startswith("arrayvec-") for name in os.listdir(beside)):
        return beside
    return REGISTRIES[version]


def need(source):
    """Ends the program if the source, its crates or cargo is missing, with how to get it."""
    if not os.path.isfile(os.path.join(source, "src/lib.rs")):
        fail(f"{source}, rav1e's source", HOW)
    registry = registry_of(source, edits.version_of(source))
    if not os.path.isdir(registry):
        fail(f"{registry}, the crates that rav1e depends on", HOW)
    if not shutil.which("cargo"):
        fail("cargo, of Rust 1.85 or later", "https://rustup.rs")


def fail(what, how):
    print(f"missing: {what}\n{how}", file=sys.stderr)
    sys.exit(3)


def digest(source, features, made):
    """What a build is made of: where its source is, its features, and the files that change it."""
    total = hashlib.sha256(f"{os.path.abspath(source)} {features}".encode())
    for path in made:
        with open(path, "rb") as file:
            total.update(file.read())
    return total.hexdigest()


def parts_of(names):
    return [os.path.join(edits.HERE, name) for name in names]


def recorder_parts():
    return parts_of(("edits.py", *(module + ".rs" for module in edits.MODULES)))


def encoder(source, assembly=False, as_it_is=False):
    """The path of the recorder; with `assembly` it has rav1e's assembler, with `as_it_is` its decisions and bits are rav1e's."""
    kind, chosen = ("as_it_is", edits.AS_IT_IS) if as_it_is else ("recorder", edits.EDITS)
    return Build(source, kind, features_with(assembly), recorder_parts()).program(lambda copy: edits.apply(copy, chosen))


def encoder_on_library(archive, crate, source, assembly=False):
    """The path of the recorder whose block operations are those of the archive `libtilgwaren.a`, called by the crate."""
    folders = os.path.join(crate, "src"), os.path.join(crate, "sys/src")
    files = [os.path.join(folder, name) for folder in folders for name in sorted(os.listdir(folder))]
    made = [*recorder_parts(), *parts_of(("library.py", library.MODULE)), *files, archive]

    def apply(copy):
        edits.apply(copy, edits.EDITS)
        library.apply(copy, crate)

    build = Build(source, "library", features_with(assembly), made)
    return build.program(apply, TILGWAREN_FOLDER=os.path.dirname(os.path.abspath(archive)))


def features_with(assembly):
    """The features of rav1e that an encoder is built with."""
    return "binaries,asm" if assembly else "binaries"


def answering(source):
    """The path of the program that answers plans by rav1e's functions, of rav1e 0.8.1, for the processors that `rt` builds for."""
    need(source)
    if edits.version_of(source) != "0.8.1":
        fail(f"rav1e 0.8.1, which the wrapper calls; {source} is another version", HOW)
    made = [*parts_of(("edits.py", "wrapper.py")), *(os.path.join(wrapper.FOLDER, name) for name in sorted(os.listdir(wrapper.FOLDER)))]
    build = Build(source, "wrapper", "", made, flags=" -C target-cpu=x86-64-v2")
    return build.program(wrapper.apply)


def stamp_of(program):
    """What a built encoder was made of."""
    with open(os.path.join(os.path.dirname(program), "stamp"), encoding="utf-8") as file:
        return file.read()


def wait(process):
    """The status of a process, with a line for each half minute that it takes."""
    seconds = 0
    while True:
        try:
            return process.wait(30)
        except subprocess.TimeoutExpired:
            seconds += 30
            print(f"building: {seconds} s", file=sys.stderr, flush=True)


class Build:
    """A program that is built in out/VERSION/KIND; those with the same flags share what they depend on."""

    def __init__(self, source, kind, features, made, flags=""):
        need(source)
        self.source, self.features, self.flags = source, features, "--cap-lints allow" + flags
        self.version = edits.version_of(source)
        self.out = os.path.join(OUT, self.version, kind + "_assembly" * ("asm" in features))
        self.target = os.path.join(OUT, self.version, "target" if not flags else f"target_{kind}")
        self.stamp = digest(source, features, made)

    def program(self, apply, **variables):
        """The program's path; it is built if it isn't there, or if what it is made of has changed."""
        path = os.path.join(self.out, "rav1e")
        if not (os.path.isfile(path) and os.path.isfile(os.path.join(self.out, "stamp")) and stamp_of(path) == self.stamp):
            built = self.built(apply, variables)
            shutil.copy(built, path)
            with open(os.path.join(self.out, "stamp"), "w", encoding="utf-8") as file:
                file.write(self.stamp)
        return path

    def built(self, apply, variables):
        """Copies the source, applies the edits and builds the copy; gives the path that cargo leaves."""
        crate = os.path.join(self.out, "source")
        shutil.rmtree(crate, ignore_errors=True)
        shutil.copytree(self.source, crate)
        apply(crate)
        os.makedirs(os.path.join(crate, ".cargo"), exist_ok=True)
        with open(os.path.join(crate, ".cargo/config.toml"), "w", encoding="utf-8") as file:
            file.write(CONFIG.format(registry=registry_of(self.source, self.version)))
        environment = {**os.environ, **variables, "RUSTFLAGS": self.flags, "CARGO_TARGET_DIR": self.target}
        words = ["cargo", "build", "--release", "--offline", "--quiet", "-j", os.environ.get("RECORD_JOBS", "2"),
                 "--no-default-features", "--features", self.features]
        print(f"building {os.path.basename(self.out)} of rav1e {self.version}, once, from {self.source}", file=sys.stderr, flush=True)
        if wait(subprocess.Popen(words, cwd=crate, env=environment)):
            sys.exit(f"{crate} didn't build")
        return os.path.join(self.target, "release/rav1e")
