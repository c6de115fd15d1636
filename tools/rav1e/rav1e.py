"""Takes files of rav1e 0.8.1 out of its crate, for tools that run its plain Rust."""
import re


def plain(text):
    """A file of rav1e without what only builds with assembly or with other crates."""
    text = re.sub(r"^cfg_if::cfg_if! \{\n.*?^\}\n", "pub use self::rust::*;\n", text, flags=re.M | re.S)
    text = re.sub(r"^ *use simd_helpers::.*\n|^ *#\[cold_for_target_arch.*\n", "", text, flags=re.M)
    text = re.sub(r"^#\[macro_use\]\npub mod forward_shared;\n|^pub (use self::forward::|mod forward;).*\n", "", text, flags=re.M)
    text = re.sub(r"^fn (av1_i\w+)", r"pub fn \1", text, flags=re.M)
    return text.replace("use num_traits::*;", "use crate::num_traits::*;")
