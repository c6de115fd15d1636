"""Fetches dav1d's source, edits it, and builds the decoder that logs what it decodes.

usage: source [--version 1.5.4|1.0.0] [FOLDER]

FOLDER is out beside the script, unless another is given.  The decoder is FOLDER/dav1d-VERSION/build/tools/dav1d.  Without a
version it is 1.5.4 of Debian's suite sid, or if that can't be fetched 1.0.0 of Debian 12.  It needs apt-get, meson, ninja
and a C compiler; it installs nothing and needs no root.  $DEBIAN_MIRROR is the mirror, http://deb.debian.org/debian by
default.
"""
import argparse
import hashlib
import os
import shutil
import sys
import tarfile

from . import edits, packages

HERE = os.path.dirname(os.path.abspath(__file__))
OUT = os.path.join(os.path.dirname(HERE), "out")
# version: suite, version of the package, SHA-256 of dav1d_VERSION.orig.tar.xz
VERSIONS = {
    "1.5.4": ("sid", "1.5.4-1", "686616b7c69eb88d44459391ab25cac13b6647a3b288835c5784e71c1514a5c5"),
    "1.5.1": ("trixie", "1.5.1-1", "401813f1f89fa8fd4295805aa5284d9aed9bc7fc1fdbe554af4292f64cbabe21"),
    "1.0.0": ("bookworm", "1.0.0-2+deb12u1", "51737db7e4897e599684f873a4725176dd3c779e639411d7c4fce134bb5ebb82"),
}
LOGGED = ("1.5.4", "1.0.0")  # those that `check` decodes with
# What the decoder is built by, and the package of each.
NEEDS = {"meson": "meson", "ninja": "ninja-build", "cc": "gcc"}


def fetch(folder, version):
    """Puts dav1d_VERSION.orig.tar.xz into the folder; returns an error, or None."""
    suite, package, checksum = VERSIONS[version]
    path = os.path.join(folder, f"dav1d_{version}.orig.tar.xz")
    if not os.path.isfile(path):
        print(f"fetching dav1d {version} of {suite} from {packages.MIRROR}", flush=True)
        error = packages.apt(folder, "deb-src", suite, ["source", "--download-only", f"dav1d={package}"])
        if error:
            return error
    with open(path, "rb") as file:
        if hashlib.sha256(file.read()).hexdigest() != checksum:
            return f"{path}: checksum differs from {checksum}; remove the file and try again"
    return None


def build(folder, version):
    """Unpacks, edits and builds the decoder, unless the same was built before; returns its path."""
    source = os.path.join(folder, f"dav1d-{version}")
    program = os.path.join(source, "build/tools/dav1d")
    digest = hashlib.sha256()
    for name in ("edits.py", "plan_log.c", "plan_log.h"):
        with open(os.path.join(HERE, name), "rb") as file:
            digest.update(file.read())
    stamp = os.path.join(source, "edited-by")
    if os.path.isfile(program) and os.path.isfile(stamp) and open(stamp, encoding="utf-8").read() == digest.hexdigest():
        return program
    for name, package in NEEDS.items():
        if not shutil.which(name):
            sys.exit(f"{name} is missing: apt-get install --no-install-recommends {package}")
    print(f"building dav1d {version}: about half a minute", flush=True)
    shutil.rmtree(source, ignore_errors=True)
    with tarfile.open(os.path.join(folder, f"dav1d_{version}.orig.tar.xz")) as archive:
        archive.extractall(folder)
    edits.apply(source)
    words = ["-Denable_asm=false", "-Denable_tests=false", "-Ddefault_library=static", "-Dbuildtype=release"]
    error = (packages.run(["meson", "setup", *words, "build"], "meson", cwd=source) or
             packages.run(["ninja", "-C", "build"], "ninja", cwd=source))
    if error:
        sys.exit(error)
    with open(stamp, "w", encoding="utf-8") as file:
        file.write(digest.hexdigest())
    return program


def decoder(folder, version=None):
    """The path of the decoder, which is fetched and built if it isn't there."""
    os.makedirs(folder, exist_ok=True)
    error = None
    for one in [version] if version else LOGGED:
        error = fetch(folder, one)
        if not error:
            return build(folder, one)
        print(error, file=sys.stderr, flush=True)
    sys.exit(error and f"dav1d's source cannot be fetched from {packages.MIRROR}; set $DEBIAN_MIRROR to another mirror")


def main():
    parser = argparse.ArgumentParser(description=__doc__, formatter_class=argparse.RawDescriptionHelpFormatter)
    parser.add_argument("folder", nargs="?", default=OUT)
    parser.add_argument("--version", choices=LOGGED)
    options = parser.parse_args()
    print(decoder(os.path.abspath(options.folder), options.version))

