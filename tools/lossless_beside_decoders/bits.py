"""Writes a frame as AV1: the headers, and the symbols of its one tile with their contexts."""
from frames import DIRECTIONS, Leaf
from symbols import Symbols
from tilgwaren.fields import INTRA_MODES, PARTITIONS

# The default scan of a 4x4 transform: places are column * 4 + row.
SCAN = (0, 4, 1, 2, 5, 8, 12, 9, 6, 3, 7, 10, 13, 14, 11, 15)
# Coeff_Base_Ctx_Offset of a 4x4 transform, by row and column.
BASE_OFFSET = ((0, 1, 6, 6), (1, 6, 6, 21), (6, 6, 21, 21), (6, 21, 21, 21))
# Intra_Mode_Context
MODE_CONTEXT = (0, 1, 2, 3, 4, 4, 4, 4, 3, 0, 1, 2, 0)
# How many places the classes of ends have before them, and by how many bits a class tells its ends apart.
END_START, END_BITS = (1, 2, 3, 5, 9), (0, 0, 1, 2, 3)
SEQUENCE_HEADER, TEMPORAL_DELIMITER, FRAME = 1, 2, 6


class Bits:
    def __init__(self):
        self.value, self.count = 1, 0

    def put(self, value, count=1):
        self.value, self.count = self.value << count | value, self.count + count

    def data(self, is_trailed):
        """The bytes, ended by a set bit and zeros, or by zeros alone."""
        if is_trailed:
            self.put(1)
        self.put(0, -self.count % 8)
        return self.value.to_bytes(self.count // 8 + 1, "big")[1:]


def sequence_header(frame):
    """The sequence header OBU of one still picture."""
    bits = Bits()
    profile = 2 if frame.depth == 12 or frame.sampling == "4:2:2" else int(frame.sampling == "4:4:4")
    bits.put(profile, 3)
    bits.put(0b11, 2)  # still_picture, reduced_still_picture_header
    bits.put(0, 5)
    for count in (4, 4):  # frame_width_bits_minus_1, frame_height_bits_minus_1
        bits.put(11, count)
    bits.put(frame.width - 1, 12)
    bits.put(frame.height - 1, 12)
    bits.put(0, 2)  # use_128x128_superblock, enable_filter_intra
    bits.put(frame.edge_filter)
    bits.put(0, 3)  # enable_superres, enable_cdef, enable_restoration
    color_config(bits, frame, profile)
    bits.put(0)  # film_grain_params_present
    return bits.data(True)


def color_config(bits, frame, profile):
    bits.put(int(frame.depth > 8))
    if profile == 2 and frame.depth > 8:
        bits.put(int(frame.depth == 12))
    if profile != 1:
        bits.put(int(frame.is_monochrome))
    bits.put(0, 2)  # color_description_present_flag, color_range
    if frame.is_monochrome:
        return
    xdec, ydec = frame.halved
    if profile == 2 and frame.depth == 12:
        bits.put(int(xdec))
        if xdec:
            bits.put(int(ydec))
    if ydec:
        bits.put(0, 2)  # chroma_sample_position
    bits.put(0)  # separate_uv_delta_q


def frame_header(frame):
    """The uncompressed header of a lossless key frame in one tile."""
    bits = Bits()
    bits.put(1)  # disable_cdf_update
    bits.put(0, 2)  # allow_screen_content_tools, render_and_frame_size_different
    bits.put(1)  # uniform_tile_spacing_flag
    bits.put(0, 8)  # base_q_idx
    bits.put(0, 1 if frame.is_monochrome else 3)  # no deltas of quantizers
    bits.put(0, 3)  # using_qmatrix, segmentation_enabled, reduced_tx_set
    return bits.data(False)


def obu(kind, data):
    size, left = b"", len(data)
    while left > 127:
        size, left = size + bytes([left & 127 | 128]), left >> 7
    return bytes([kind << 3 | 2]) + size + bytes([left]) + data


class Tile:
    """The symbols of a tile, and what the contexts of later ones read: the leaf of each cell of 4x4, and of each plane
    the level and the sign of the blocks above and on the left."""

    def __init__(self, tables, frame):
        self.tables, self.frame, self.symbols, self.cells = tables, frame, Symbols(), {}
        self.above, self.left = [{} for _ in range(3)], [{} for _ in range(3)]

    def put(self, symbol, frequencies):
        self.symbols.put(symbol, frequencies)

    def beside(self, x, y):
        """The leaves above and on the left of a place, None outside the frame."""
        return self.cells.get((x // 4, y // 4 - 1)), self.cells.get((x // 4 - 1, y // 4))

    def node(self, node, x, y, side):
        self.partition(PARTITIONS[node.partition], x, y, side)
        half = side // 2
        corners = [(x + dx, y + dy) for dy in (0, half) for dx in (0, half) if self.frame.is_coded(x + dx, y + dy)]
        for at, part in enumerate(node.parts):
            if isinstance(part, Leaf):
                self.leaf(part)
            else:
                self.node(part, *corners[at], half)

    def partition(self, mark, x, y, side):
        above, left = self.beside(x, y)
        context = int(above is not None and above.width < side) + 2 * int(left is not None and left.height < side)
        level = side.bit_length() - 4
        frequencies = self.tables.partition[4 * (level - 1) + context] if level else self.tables.partition_8[context]
        has_columns, has_rows = self.frame.is_coded(x + side // 2, y), self.frame.is_coded(x, y + side // 2)
        if has_columns and has_rows:
            self.put(mark, frequencies)
        elif has_columns or has_rows:
            # Which partitions cut the node that reaches past the last row, or past the last column.
            cuts = (2, 3, 4, 6, 7, 9) if has_columns else (1, 3, 4, 5, 6, 8)
            ends = [0, *frequencies, 32768]
            cutting = sum(ends[it + 1] - ends[it] for it in cuts if it + 1 < len(ends))
            self.put(int(mark == 3), [32768 - cutting])

    def leaf(self, leaf):
        above, left = self.beside(leaf.x, leaf.y)
        self.put(int(leaf.skipped), self.tables.skip[sum(it is not None and it.skipped for it in (above, left))])
        self.modes(leaf, *(0 if it is None else MODE_CONTEXT[INTRA_MODES.index(it.mode)] for it in (above, left)))
        for y in range(leaf.y // 4, (leaf.y + leaf.height) // 4):
            for x in range(leaf.x // 4, (leaf.x + leaf.width) // 4):
                self.cells[x, y] = leaf
        for plane in range(3):
            self.blocks(leaf, plane)

    def modes(self, leaf, above, left):
        number = INTRA_MODES.index(leaf.mode)
        self.put(number, self.tables.y_mode[5 * above + left])
        self.step(leaf, leaf)
        if not leaf.chroma or self.frame.is_monochrome:
            return
        self.put(INTRA_MODES.index(leaf.chroma.mode), self.tables.uv_mode[number])
        if leaf.chroma.weights:
            self.weights(*leaf.chroma.weights)
        self.step(leaf, leaf.chroma)

    def step(self, leaf, plane):
        if leaf.has_steps() and plane.mode in DIRECTIONS:
            self.put(plane.angle_step + 3, self.tables.angle_step[DIRECTIONS.index(plane.mode)])

    def weights(self, *weights):
        signs = [0 if it == 0 else 1 if it < 0 else 2 for it in weights]
        self.put(3 * signs[0] + signs[1] - 1, self.tables.cfl_signs)
        for weight, sign, other in zip(weights, signs, reversed(signs)):
            if sign:
                self.put(abs(weight) - 1, self.tables.cfl_alpha[3 * (sign - 1) + other])

    def blocks(self, leaf, plane):
        """The blocks of a plane in raster order; a skipped leaf only clears their contexts."""
        xdec, ydec = self.frame.halved if plane else (0, 0)
        x, y = leaf.x // 4 >> xdec, leaf.y // 4 >> ydec
        columns = 1 if plane else leaf.width // 4
        for number, levels in enumerate(leaf.levels[plane]):
            at, down = x + number % columns, y + number // columns
            if levels is None:
                continue
            if not leaf.skipped:
                self.block(levels, plane, self.zero_context(leaf, plane, at, down), self.sign_context(plane, at, down))
            sign = 0 if levels[0] == 0 else 1 if levels[0] < 0 else 2
            self.above[plane][at] = self.left[plane][down] = (min(63, sum(map(abs, levels))), sign)

    def zero_context(self, leaf, plane, x, y):
        above, left = self.above[plane].get(x, (0, 0)), self.left[plane].get(y, (0, 0))
        if plane:
            return 7 + (above != (0, 0)) + (left != (0, 0))
        least, most = sorted((above[0], left[0]))
        if (leaf.width, leaf.height) == (4, 4):
            return 0
        if least == 0:
            return 1 if most == 0 else 2 + (most > 3)
        return 4 if most <= 3 else 5 if least <= 3 else 6

    def sign_context(self, plane, x, y):
        signs = [self.above[plane].get(x, (0, 0))[1], self.left[plane].get(y, (0, 0))[1]]
        total = signs.count(2) - signs.count(1)
        return 1 if total < 0 else 2 if total > 0 else 0

    def block(self, levels, plane, zero_context, sign_context):
        """The levels of a 4x4 block."""
        end = max((at + 1 for at, place in enumerate(SCAN) if levels[place]), default=0)
        self.put(int(end == 0), self.tables.all_zero[zero_context])
        if end == 0:
            return
        chroma = min(plane, 1)
        self.end(end, chroma)
        for at in reversed(range(end)):
            self.size(levels, at, at + 1 == end, chroma)
        for at in range(end):
            level = levels[SCAN[at]]
            if level and at == 0:
                self.put(int(level < 0), self.tables.sign[chroma][sign_context])
            elif level:
                self.symbols.put_bits(int(level < 0), 1)
            if abs(level) > 14:
                self.golomb(abs(level) - 14)

    def end(self, end, chroma):
        kind = max(at for at, start in enumerate(END_START) if start <= end)
        left, count = end - END_START[kind], END_BITS[kind]
        self.put(kind, self.tables.end[chroma][0])
        if count:
            self.put(left >> count - 1, self.tables.end_bit[chroma][kind - 2])
            self.symbols.put_bits(left & (1 << count - 1) - 1, count - 1)

    def size(self, levels, at, is_last, chroma):
        """The size of a level up to 14: contexts are of those below and on the right of it."""
        column, row = divmod(SCAN[at], 4)
        size = lambda down, right: abs(levels[4 * (column + right) + row + down]) if row + down < 4 and column + right < 4 else 0
        level = size(0, 0)
        if is_last:
            self.put(min(level, 3) - 1, self.tables.base_end[chroma][(at > 0) + (at > 2) + (at > 4)])
        else:
            near = sum(min(3, size(*it)) for it in ((1, 0), (0, 1), (1, 1), (2, 0), (0, 2)))
            context = min(near + 1 >> 1, 4) + BASE_OFFSET[row][column] if at else 0
            self.put(min(level, 3), self.tables.base[chroma][context])
        if level < 3:
            return
        near = sum(min(15, size(*it)) for it in ((1, 0), (0, 1), (1, 1)))
        context = min(near + 1 >> 1, 6) + (0 if at == 0 else 7 if row < 2 and column < 2 else 14)
        for least in range(3, 15, 3):
            self.put(min(level - least, 3), self.tables.more[chroma][context])
            if level - least < 3:
                return

    def golomb(self, value):
        count = value.bit_length()
        self.symbols.put_bits(value, 2 * count - 1)


def stream_of(frame, tables):
    """The frame as a stream of OBUs."""
    tile = Tile(tables, frame)
    corners = [(x, y) for y in range(0, frame.height, 64) for x in range(0, frame.width, 64)]
    for node, (x, y) in zip(frame.superblocks[0], corners):
        tile.node(node, x, y, 64)
    return (obu(TEMPORAL_DELIMITER, b"") + obu(SEQUENCE_HEADER, sequence_header(frame))
            + obu(FRAME, frame_header(frame) + tile.symbols.data()))
