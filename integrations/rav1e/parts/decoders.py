"""Finds decoders, and decodes a clip by each."""
import os
import shutil
import subprocess
import sys

from .build import OUT

HOW = """integrations/rav1e/source unpacks four decoders, and installs nothing
on Debian 12: apt-get install --no-install-recommends dav1d aom-tools"""


def found():
    """Each decoder's name and path: those that `source` unpacks, oldest first, or else those of the system; dav1d and aomdec."""
    folder = os.path.join(OUT, "source/bin")
    names = sorted(os.listdir(folder), key=order) if os.path.isdir(folder) else []
    paths = {name: os.path.join(folder, name) for name in names} or {
        name: shutil.which(name) for name in ("dav1d", "aomdec") if shutil.which(name)}
    for kind in ("dav1d", "aomdec"):
        if not any(name.startswith(kind) for name in paths):
            print(f"missing: {kind}\n{HOW}", file=sys.stderr)
            sys.exit(3)
    return paths


def order(name):
    """A decoder's name, and its version as numbers."""
    kind, _, version = name.partition("-")
    return kind, [int(number) for number in version.split(".")]


def run(path, kind, bits, made, mask="0", invisible="0"):
    """Decodes `bits` into the file `made`, without film grain; dav1d with a mask of processor features (0: its plain code)."""
    words = ["--quiet", "-i", bits, "-o", made, "--muxer", "yuv", "--threads", "1", "--filmgrain", "0",
             "--outputinvisible", invisible, "--cpumask", mask]
    if kind == "aomdec":
        words = ["--rawvideo", "--skip-film-grain", "--threads=1", "-o", made, bits]
    subprocess.run([path, *words], check=True, capture_output=True)


def runs():
    """The ways of decoding: what each is, the file that its planes are compared with, and the arguments of `run`."""
    for name, path in found().items():
        if name.startswith("aomdec"):
            yield name, "aomdec.yuv", (path, "aomdec"), {}
            continue
        for what, mask in (("plain code", "0"), ("assembly", "-1")):
            for file, invisible in (("dav1d.yuv", "1"), ("shown.yuv", "0")):
                said = f"{name}, {what}" + (", with frames that aren't shown" if invisible == "1" else "")
                yield said, file, (path, "dav1d"), {"mask": mask, "invisible": invisible}


def decode(folder):
    """Decodes FOLDER/clip.ivf in each way.  The first of its kind leaves dav1d.yuv (with frames that aren't shown), shown.yuv or
    aomdec.yuv; decoders.txt says of each other one whether it makes the same."""
    bits, other, lines = os.path.join(folder, "clip.ivf"), os.path.join(folder, "other.yuv"), []
    for said, file, words, options in runs():
        first = os.path.join(folder, file)
        if not os.path.exists(first):
            run(*words, bits, first, **options)
            lines.append(f"made {file}: {said}\n")
            continue
        run(*words, bits, other, **options)
        lines.append(f"{'same' if same(first, other) else 'other'} {file}: {said}\n")
        os.remove(other)
    with open(os.path.join(folder, "decoders.txt"), "w", encoding="utf-8") as file:
        file.writelines(lines)


def same(path, other):
    with open(path, "rb") as one, open(other, "rb") as two:
        return one.read() == two.read()
