"""Builds dav1d 1.5.1, and its checkasm, with the library's functions (library.c) beside its own.

The mask of processor features chooses between them: the library is a feature of its own.
"""
import glob
import hashlib
import os
import shutil
import sys
import tarfile

HERE = os.path.dirname(os.path.abspath(__file__))
BINDINGS = os.path.normpath(os.path.join(HERE, "../../../bindings"))
sys.path.append(os.path.dirname(HERE))
sys.dont_write_bytecode = True
from parts import decoder, edits, packages

VERSION = "1.5.1"  # the last version in Debian whose source contains checkasm
OUT = os.path.join(decoder.OUT, "on_library")
NEEDS = {**decoder.NEEDS, "nasm": "nasm"}
FILES = [os.path.join(HERE, name) for name in ("library.c", "library.h")]
INCLUDE = '#include "src/library.h"\n'

EDITS = [
    ("src/meson.build", 1, "    'recon_tmpl.c',\n", "-", "    'library.c',\n"),
    # a feature of the processor
    ("src/x86/cpu.h", 1, "    DAV1D_X86_CPU_FLAG_SSE2        = 1 << 0,\n", "-", "    DAV1D_X86_CPU_FLAG_LIBRARY     = 1 << 8,\n"),
    ("src/x86/cpu.c", 1, "    return flags;\n", "+", "    flags |= DAV1D_X86_CPU_FLAG_LIBRARY;\n"),
    # each table is set to the library's functions after dav1d's own
    ("src/mc_tmpl.c", 1, '#include "src/mc.h"\n', "-", INCLUDE),
    ("src/mc_tmpl.c", 1, "    mc_dsp_init_x86(c);\n", "-", "    bitfn(library_mc_init)(c);\n"),
    ("src/ipred_tmpl.c", 1, '#include "src/ipred.h"\n', "-", INCLUDE),
    ("src/ipred_tmpl.c", 1, "    intra_pred_dsp_init_x86(c);\n", "-", "    bitfn(library_ipred_init)(c);\n"),
    ("src/itx_tmpl.c", 1, '#include "src/itx.h"\n', "-", INCLUDE),
    ("src/itx_tmpl.c", 1, "    itx_dsp_init_x86(c, bpc, &all_simd);\n", "-", "    bitfn(library_itx_init)(c);\n"),
    # checkasm compares the library, and nothing else, with dav1d's C
    ("tests/checkasm/checkasm.c", 1, '    { "SSE2",               "sse2",      DAV1D_X86_CPU_FLAG_SSE2 },\n', "=",
     '    { "library", "library", DAV1D_X86_CPU_FLAG_LIBRARY },\n    { 0 },\n'),
]
# checkasm draws only angles of AV1's modes, and edges that repeat their last visible sample, as AV1's do (README.md)
DRAWS = [
    ("tests/checkasm/ipred.c", 1, "z_angles[rnd() % 27])", "=",
     "z_angles[mode == Z1_PRED ? 10 + rnd() % 17 : rnd() % (mode == Z2_PRED ? 27 : 10)])"),
    ("tests/checkasm/ipred.c", 1, "\n" + 32 * " " + "topleft[i] = rnd() & bitdepth_max;\n", "-",
     "    for (int i = maxw + 1; mode == Z2_PRED && i <= w * 2; i++) topleft[i] = topleft[maxw];\n"
     "    for (int i = maxh + 1; mode == Z2_PRED && i <= h * 2; i++) topleft[-i] = topleft[-maxh];\n"),
]


def digest(files, text):
    total = hashlib.sha256(text.encode())
    for path in files:
        with open(path, "rb") as file:
            total.update(file.read())
    return total.hexdigest()


def unpack(source, changes):
    """Unpacks dav1d's source and edits it."""
    error = decoder.fetch(decoder.OUT, VERSION)
    if error:
        sys.exit(error)
    shutil.rmtree(source, ignore_errors=True)
    folder = os.path.dirname(source)
    os.makedirs(folder, exist_ok=True)
    with tarfile.open(os.path.join(decoder.OUT, f"dav1d_{VERSION}.orig.tar.xz")) as archive:
        archive.extractall(folder)
    edits.apply(source, changes, FILES)


def build(archive, as_drawn=False, sanitize="none"):
    """The folder with tools/dav1d and tests/checkasm, which are built unless the same was built before. `sanitize` is what
    meson's option b_sanitize takes: dav1d and library.c then report errors, but not the archive, which `rt` compiled."""
    if not os.path.isfile(archive):
        sys.exit(f"missing: {archive}, which bindings/build.sh builds")
    for name, package in NEEDS.items():
        if not shutil.which(name):
            sys.exit(f"{name} is missing: apt-get install --no-install-recommends {package}")
    archive, changes = os.path.abspath(archive), EDITS + ([] if as_drawn else DRAWS)
    kind = "as_drawn" if as_drawn else "av1"
    source = os.path.join(OUT, kind if sanitize == "none" else f"{kind}_{sanitize.replace(',', '_')}", f"dav1d-{VERSION}")
    folder, stamp = os.path.join(source, "build"), os.path.join(source, "built-of")
    headers = sorted(glob.glob(os.path.join(BINDINGS, "c/tilgwaren*.h")))
    made = digest([*FILES, *headers, archive], repr(changes))
    if os.path.isfile(stamp) and open(stamp, encoding="utf-8").read() == made:
        return folder
    os.makedirs(decoder.OUT, exist_ok=True)
    unpack(source, changes)
    print(f"building dav1d {VERSION} on {archive}: about two minutes", file=sys.stderr, flush=True)
    words = ["-Dbuildtype=release", "-Dtrim_dsp=false", f"-Db_sanitize={sanitize}", f"-Dc_args=-I{BINDINGS}/c", f"-Dc_link_args={archive}"]
    error = (packages.run(["meson", "setup", *words, "build"], "meson", cwd=source) or
             packages.run(["ninja", "-C", "build", "-j", os.environ.get("JOBS", "1"), "tools/dav1d", "tests/checkasm"],
                          "ninja", cwd=source))
    if error:
        sys.exit(error)
    with open(stamp, "w", encoding="utf-8") as file:
        file.write(made)
    return folder


def add_options(parser):
    parser.add_argument("--archive", default=os.path.join(BINDINGS, "out/libtilgwaren.a"), help="libtilgwaren.a; else that of bindings/out")
    parser.add_argument("--sanitize", default="none", choices=("address,undefined", "thread"), help="build dav1d with gcc's sanitizers")
