"""The tree of a plan over the leaves of a frame, and which leaves are given.

A leaf that a plan cannot express is given: the plan has it as an inter leaf with the vector 0, whose reference is a spare
slot.  That slot holds the decoder's own samples of this very frame.  If the plan can express the leaf's residual, the slot
holds what the decoder predicts there, so that the residual is judged.  All other leaves are judged in their true
surroundings.  Nodes that plans lack are cut on, and their leaves are cut into pieces.
"""
from .logged import INTER, INTRA, SIZES
from .tools import NODES, RESIDUALS, is_long, lossless_limit

SMOOTH = (9, 10, 11)


class Piece:
    """A part of a leaf, or all of it, as the plan has it."""

    def __init__(self, frame, leaf, x, y, w, h):
        self.leaf, self.x, self.y, self.w, self.h = leaf, x, y, w, h
        self.is_whole = (x, y, w, h) == (leaf.x, leaf.y, leaf.w, leaf.h)
        self.chroma = (not frame.half_x or w > 1 or x & 1) and (not frame.half_y or h > 1 or y & 1)
        self.blocks = leaf.blocks if self.is_whole else [b for b in leaf.blocks if x <= b.x < x + w and y <= b.y < y + h]
        self.tx = leaf.tx if self.is_whole else SIZES.index((4 * w, 4 * h))

    def coded(self, luma):
        return [block for block in self.blocks if (block.plane == 0) == luma]

    def holds_residual(self, frame):
        """Whether the leaf's transform blocks fit into pieces like this one."""
        if self.is_whole:
            return True
        luma, chroma = (frame.rectangle(self, plane)[2:] for plane in (0, 1))
        for block in self.leaf.blocks:
            size = SIZES[block.size]
            if not block.plane and (size[0] > luma[0] or size[1] > luma[1]):
                return False
            if block.plane and size != (min(32, chroma[0]), min(32, chroma[1])):
                return False
        return True

    def holds_prediction(self, frame):
        """Whether pieces like this one are predicted as the leaf is."""
        leaf = self.leaf
        if self.is_whole:
            return True
        if leaf.kind != INTER or self.w < 2 or self.h < 2:
            return False
        # a dimension of at most 4 takes other filters
        for half, part, side, component in ((frame.half_x, self.w, leaf.w, 2), (frame.half_y, self.h, leaf.h, 1)):
            if 4 * part >> half <= 4 < 4 * side >> half and any(is_long(vector[component], half) for vector in leaf.vectors()):
                return False
        return True


class Cut:
    """Marks (x, y, mark) and pieces, in a plan's coding order."""

    def __init__(self, frame):
        self.frame, self.cells, self.items = frame, {}, []
        for leaf in frame.leaves:
            leaf.limit = lossless_limit(frame, leaf)
            for y in range(leaf.y, min(leaf.y + leaf.h, frame.rows)):
                for x in range(leaf.x, min(leaf.x + leaf.w, frame.columns)):
                    self.cells[x, y] = leaf
        for y in range(0, frame.rows, 16):
            for x in range(0, frame.columns, 16):
                self.node(x, y, 16)
        self.pieces = [item for item in self.items if isinstance(item, Piece)]

    def parts(self, x, y, side, mark):
        """The parts of a node that begin inside the frame."""
        half, quarter = side // 2, side // 4
        w, h = {0: (side, side), 1: (side, half), 2: (half, side), 3: (half, half), 8: (side, quarter), 9: (quarter, side)}[mark]
        return [(u, v, w, h) for v in range(y, y + side, h) for u in range(x, x + side, w)
                if u < self.frame.columns and v < self.frame.rows]

    def fits(self, x, y, w, h):
        """Whether one leaf holds this rectangle and may be cut down to it."""
        leaf = self.cells[x, y]
        return leaf.holds(x, y, w, h) and (not leaf.limit or (w <= leaf.limit[0] and h <= leaf.limit[1]))

    def node(self, x, y, side):
        marks = [0, 1, 2]
        if side > 2 and x + side <= self.frame.columns and y + side <= self.frame.rows:
            marks += [8, 9]
        mark = next((mark for mark in marks if all(self.fits(*part) for part in self.parts(x, y, side, mark))), 3)
        self.items.append((x, y, mark))
        for u, v, w, h in self.parts(x, y, side, mark):
            if mark == 3 and side > 2:
                self.node(u, v, w)
            else:
                self.items.append(Piece(self.frame, self.cells[u, v], u, v, w, h))

    def is_reordered(self, leaf):
        """Whether an intra leaf has other neighbours before it in a plan's order than in AV1's."""
        x, y = (place // leaf.side * leaf.side for place in (leaf.x, leaf.y))
        if leaf.partition == 6 and leaf.x == x and leaf.y > y or leaf.partition == 7 and leaf.x > x and leaf.y == y:
            return True
        if not self.frame.sb128:
            return False
        column, row = leaf.x // 16, leaf.y // 16
        right, low = (leaf.x + leaf.w) % 16 == 0, (leaf.y + leaf.h) % 16 == 0
        return bool(column & 1 and row & 1 and right and leaf.y % 16 == 0 or
                    not column & 1 and not row & 1 and leaf.x % 16 == 0 and low)

    def given(self, found):
        """The numbers of the leaves that are given; found has what plans lack of each leaf."""
        leaves = self.frame.leaves
        out = {leaf.number for leaf in leaves if found[leaf.number] - NODES or leaf.kind == INTRA and self.is_reordered(leaf)}
        out |= {p.leaf.number for p in self.pieces if not (p.holds_prediction(self.frame) and p.holds_residual(self.frame))}
        while out and len(self.used(out)) > 6:  # a reference has to be spare
            used = self.used(out)
            out |= set(min(used.values(), key=len))
        size = -1
        while size != len(out):
            size = len(out)
            for leaf in leaves:
                if leaf.number in out:
                    out |= self.sharing(leaf)
                elif leaf.kind == INTRA and self.has_given_smooth_neighbour(leaf, out):
                    out.add(leaf.number)
        return out

    def used(self, given):
        """The slots that leaves which aren't given are predicted from, with these leaves."""
        used = {}
        for leaf in self.frame.leaves:
            if leaf.number not in given:
                for slot in {self.frame.slots[vector[0]] for vector in leaf.vectors()}:
                    used.setdefault(slot, []).append(leaf.number)
        return used

    def sharing(self, leaf):
        """The leaves that share chroma with this one."""
        thin, flat = self.frame.half_x and leaf.w == 1, self.frame.half_y and leaf.h == 1
        if not (thin or flat):
            return set()
        xs = (leaf.x & ~1, leaf.x | 1) if thin else range(leaf.x, leaf.x + leaf.w)
        ys = (leaf.y & ~1, leaf.y | 1) if flat else range(leaf.y, leaf.y + leaf.h)
        return {self.cells[x, y].number for x in xs for y in ys if (x, y) in self.cells}

    def has_given_smooth_neighbour(self, leaf, given):
        """Whether the leaf's edge filter asks if a neighbour is smooth, and that neighbour is given."""
        modes = [(leaf.mode, leaf.angle)] + ([(leaf.uv_mode, leaf.uv_angle)] if leaf.chroma else [])
        if not any(3 <= mode <= 8 or mode in (1, 2) and step for mode, step in modes):
            return False
        x, y = leaf.x & ~1, leaf.y & ~1
        beside = [(u, v) for u in (leaf.x, x, x + 1) for v in (leaf.y - 1, y - 1)]
        beside += [(u, v) for v in (leaf.y, y, y + 1) for u in (leaf.x - 1, x - 1)]
        others = [self.cells[place] for place in beside if place in self.cells]
        return any(other.number in given and other.kind == INTRA and (other.mode in SMOOTH or other.uv_mode in SMOOTH)
                   for other in others)

    def residuals(self, found, given):
        """The numbers of the given leaves whose residual can be expressed."""
        cannot = {piece.leaf.number for piece in self.pieces if not piece.holds_residual(self.frame)}
        return {number for number in given if number not in cannot and not found[number] & RESIDUALS}
