"""Which tools of AV1 a leaf uses that plans of version 3 cannot express."""
from .logged import COPY, INTER, INTRA

FILTER_INTRA = 13
GLOBAL, GLOBAL_GLOBAL = 2, 6
COMPOUND = {1: "distance weights", 3: "difference mask", 4: "wedge mask"}
# Nodes that the plan's tree cuts on: the leaf itself can still be expressed.
NODES = {"AB partition", "quarters past the frame", "block over 64"}
# Residuals that a plan cannot express.
RESIDUALS = {"transform sizes", "transform types", "chroma types"}


def is_long(value, half):
    """Whether a vector's component has a fraction in a plane of half or of full resolution."""
    return value % (16 if half else 8) != 0


def filters(frame, leaf):
    """The filters of a frame by which an inter leaf's samples would be the same."""
    good = {0, 1, 2, 3}
    for plane in range(1 if frame.mono else 2):
        for half, own, side, component in ((frame.half_x, leaf.filter_x, leaf.w, 2), (frame.half_y, leaf.filter_y, leaf.h, 1)):
            half = half if plane else 0
            if not any(is_long(vector[component], half) for vector in leaf.vectors()):
                continue
            # of the regular and the sharp filter a short dimension takes the same four taps
            good &= {0, 2} if 4 * side >> half <= 4 and own in (0, 2) else {own}
    return good


def lossless_limit(frame, leaf):
    """The largest piece, in units of 4 luma samples, whose chroma is 4x4; None if no chroma has to be cut."""
    chroma = [block for block in leaf.blocks if block.plane]
    if not leaf.lossless or frame.mono or not leaf.chroma or frame.rectangle(leaf, 1)[2:] == (4, 4):
        return None
    return (1 << frame.half_x, 1 << frame.half_y) if chroma or leaf.kind == INTRA else None


def of_node(frame, leaf):
    found = set()
    x, y = (place // leaf.side * leaf.side for place in (leaf.x, leaf.y))
    if max(leaf.w, leaf.h) > 16:
        found.add("block over 64")
    if 4 <= leaf.partition <= 7:
        found.add("AB partition")
    if leaf.partition >= 8 and (x + leaf.side > frame.columns or y + leaf.side > frame.rows):
        found.add("quarters past the frame")
    return found


def of_prediction(frame, leaf):
    if leaf.kind == COPY:
        return {"intra block copy"}
    found = set()
    if leaf.kind == INTRA:
        if leaf.palette:
            found.add("palette")
        if leaf.mode == FILTER_INTRA:
            found.add("filter intra")
        if lossless_limit(frame, leaf):
            found.add("lossless chroma")
        return found
    if leaf.compound in COMPOUND:
        found.add(COMPOUND[leaf.compound])
    if leaf.interintra:
        found.add("interintra")
    if leaf.motion == 1:
        found.add("overlapped motion")
    if leaf.motion == 2 and leaf.warp > 1:
        found.add("local warp")
    names = [vector[0] for vector in leaf.vectors()]
    is_global = leaf.mode == (GLOBAL_GLOBAL if len(names) == 2 else GLOBAL) and min(leaf.w, leaf.h) > 1
    if is_global and any(frame.warped[name] for name in names):
        found.add("global warp")
    if any(frame.scaled[name] for name in names):
        found.add("scaled reference")
    return found


def of_leaf(frame, leaf):
    """All of them, except an interpolation filter that isn't the frame's."""
    found = of_node(frame, leaf) | of_prediction(frame, leaf)
    luma, chroma = leaf.coded(True), leaf.coded(False)
    if len({block.size for block in luma}) > 1:
        found.add("transform sizes")
    if len({block.type for block in luma}) > 1:
        found.add("transform types")
    if len({block.type for block in chroma}) > 1:
        found.add("chroma types")
    return found


def with_filter(leaf, found, filter_):
    """The same in a plan whose filter is `filter_`; leaf.filters is what `filters` returned."""
    if leaf.kind != INTER or filter_ in leaf.filters:
        return found
    return found | {"filter by block" if leaf.filter_x == leaf.filter_y else "filter by direction"}
