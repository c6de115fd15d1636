"""The symbol encoder of AV1, and the tables of default frequencies that it needs, read from the source of rav1e."""
import math
import pathlib
import re

# A symbol of two values, each as often as the other.
EVEN = [16384]


class Symbols:
    """Encodes symbols so that the symbol decoder of the AV1 specification reads them back, without adaptation."""

    def __init__(self):
        # The lower end of the interval with all bits so far, its size, and how many bits follow the first 15.
        self.low, self.range, self.bits = 0, 1 << 15, 0

    def start(self, symbol, frequencies):
        """Where the interval of a symbol begins; the intervals of earlier symbols stand above it."""
        left = 32768 - (frequencies[symbol] if symbol < len(frequencies) else 32768)
        return ((self.range >> 8) * (left >> 6) >> 1) + 4 * (len(frequencies) - symbol)

    def put(self, symbol, frequencies):
        """Writes one of `len(frequencies) + 1` symbols, whose cumulative frequencies are these and 32768."""
        end = self.range if symbol == 0 else self.start(symbol - 1, frequencies)
        start = self.start(symbol, frequencies)
        shift = 16 - (end - start).bit_length()
        self.low, self.range, self.bits = self.low + start << shift, end - start << shift, self.bits + shift

    def put_bits(self, value, count):
        """Writes a number in so many bits, the highest first."""
        for at in reversed(range(count)):
            self.put(value >> at & 1, EVEN)

    def data(self):
        """The bytes: the decoder reads inverted bits, and after the last one a set bit and zeros."""
        code = self.low + (0x3FFF - self.low) % 0x8000
        count = self.bits + 1
        padding = -count % 8
        return ((~(code >> 14) & (1 << count) - 1) << padding).to_bytes((count + padding) // 8, "big")


def lists_of(text, name):
    """All lists of cumulative frequencies of a table, in order."""
    body = re.search(rf"\b{name}:[^=]*=(.*?);\n", text, re.S).group(1)
    lists = re.findall(r"[\[(]([\d\s,*]+)[\])]", body)
    return [[math.prod(map(int, it.split("*"))) for it in them.split(",") if it.strip()] for them in lists]


class Tables:
    """The default frequencies for lossless frames, by the names of the specification's symbols."""

    def __init__(self, source):
        text = "".join((pathlib.Path(source) / "src" / name).read_text() for name in ("entropymode.rs", "token_cdfs.rs"))
        self.partition_8 = lists_of(text, "default_partition_w8_cdf")
        self.partition = lists_of(text, "default_partition_cdf")
        self.skip = lists_of(text, "default_skip_cdfs")
        self.y_mode = lists_of(text, "default_kf_y_mode_cdf")
        self.uv_mode = lists_of(text, "default_uv_mode_cfl_cdf")
        self.angle_step = lists_of(text, "default_angle_delta_cdf")
        self.cfl_signs = lists_of(text, "default_cfl_sign_cdf")[0]
        self.cfl_alpha = lists_of(text, "default_cfl_alpha_cdf")
        # Of 4x4 transforms at the lowest quantizers: each table begins with them, luma first.
        self.all_zero = lists_of(text, "av1_default_txb_skip_cdfs")[:13]
        self.end, self.end_bit, self.base_end, self.base, self.more, self.sign = [
            self.by_plane(lists_of(text, f"av1_default_{name}"), count)
            for name, count in (("eob_multi16_cdfs", 2), ("eob_extra_cdfs", 9), ("coeff_base_eob_multi_cdfs", 4),
                                ("coeff_base_multi_cdfs", 42), ("coeff_lps_multi_cdfs", 21), ("dc_sign_cdfs", 3))]

    @staticmethod
    def by_plane(lists, count):
        """The lists of luma and those of chroma, so many each."""
        return lists[:count], lists[count:2 * count]
