"""The edits that put plan_log.c and its calls into a copy of dav1d.

An edit names a file, how often its text is there, the text, and what is put before (+), after (-) or in place of it (=).
`apply` ends with one line if a text isn't there that often.
"""
import os
import shutil
import sys

HERE = os.path.dirname(os.path.abspath(__file__))
FILES = [os.path.join(HERE, name) for name in ("plan_log.c", "plan_log.h")]
INCLUDE = '#include "src/plan_log.h"\n'

EDITS = [
    ("src/meson.build", 1, "    'picture.c',\n", "-", "    'plan_log.c',\n"),
    ("src/decode.c", 1, '#include "src/qm.h"\n', "+", INCLUDE),
    ("src/recon_tmpl.c", 1, '#include "src/recon.h"\n', "+", INCLUDE),
    # a block's decisions are read: intra, copied from the frame itself, inter
    ("src/decode.c", 3, "        // reconstruction\n        if (t->frame_thread.pass == 1) {\n", "+",
     "        plan_log_block(t, bl, bs, bp, has_chroma, b);\n"),
    # the coefficients of a transform block are read
    ("src/recon_tmpl.c", 1, "    *res_ctx = umin(cul_level, 63) | dc_sign_level;\n\n", "-",
     "    plan_log_transform(t, plane, tx, *txtp, cf);\n"),
    # a frame begins; a row of superblocks is reconstructed; the frame ends
    ("src/decode.c", 1, "    for (int n = 0; n < f->sb128w * f->frame_hdr->tiling.rows; n++)\n        reset_context(", "+",
     "    plan_log_frame(f);\n"),
    ("src/decode.c", 1, "            // loopfilter + cdef + restoration\n            f->bd_fn.filter_sbrow(f, sby);\n", "+",
     "            plan_log_rows(f, sby);\n"),
    ("src/decode.c", 1, "            f->bd_fn.filter_sbrow(f, sby);\n        }\n    }\n\n    retval = 0;\nerror:\n", "-",
     "    plan_log_end(f, retval);\n"),
    # seeded faults: a smooth prediction is rounded down, an average isn't rounded, the cosine of 8 values is rounded down
    ("src/ipred_tmpl.c", 1, '#include "src/ipred.h"\n', "+", INCLUDE),
    ("src/ipred_tmpl.c", 1, "(pred + 256) >> 9", "=", "(pred + (plan_log_fault == 1 ? 0 : 256)) >> 9"),
    ("src/mc_tmpl.c", 1, '#include "src/mc.h"\n', "+", INCLUDE),
    ("src/mc_tmpl.c", 1, "(tmp1[x] + tmp2[x] + rnd) >> sh", "=",
     "(tmp1[x] + tmp2[x] + rnd - (plan_log_fault == 2 ? 1 << intermediate_bits : 0)) >> sh"),
    ("src/itx_1d.c", 1, '#include "src/itx_1d.h"\n', "+", INCLUDE),
    ("src/itx_1d.c", 1, "in3 *  1703         + 1024) >> 11", "=", "in3 *  1703         + (plan_log_fault == 3 ? 0 : 1024)) >> 11"),
]


def apply(folder, edits=EDITS, files=FILES):
    """Edits the source of dav1d in the folder; the files go into its src/."""
    for file in files:
        shutil.copy(file, os.path.join(folder, "src"))
    for name, count, text, how, new in edits:
        path = os.path.join(folder, name)
        with open(path, encoding="utf-8") as file:
            source = file.read()
        if source.count(text) != count:
            sys.exit(f"{path}: the text of an edit occurs {source.count(text)} times, not {count}: {text.strip()}")
        with open(path, "w", encoding="utf-8") as file:
            file.write(source.replace(text, {"+": new + text, "-": text + new, "=": new}[how]))
