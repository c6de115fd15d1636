"""The differences from AV1 that rav1e has in plans of versions 1 and 2 (docs/DIFFERENCES.md)."""


def departure(plan, leaf):
    """The difference that docs/DIFFERENCES.md lists for this leaf, or None."""
    chroma = [side >> is_half for side, is_half in zip((leaf.width, leaf.height), plan.halved)]
    if plan.version == 3:
        return None
    if plan.filter == "sharp" and leaf.vectors and min(chroma) <= 4:
        return "the sharp filter along a short side"
    if plan.depth == 12 and any(wraps(*block) for block in transforms(leaf, chroma)):
        return "an identity that wraps at 32 bits"
    return None


def transforms(leaf, chroma):
    """The size, type and coefficients of the leaf's transforms in each plane; `chroma` is its width and height there."""
    luma, *others = leaf.coefficient_lists()
    yield leaf.tx_size, leaf.tx_type, luma
    for coefficients in others:
        yield [min(max(side, 4), 32) for side in chroma], leaf.chroma.tx_type, coefficients


def wraps(size, kind, coefficients):
    """Whether an identity along rows of 4 or 16 passes 32 bits: its factor, in 1/4096, is that of one or two roots of 2."""
    factor = {4: 5793, 16: 11586}.get(size[0])
    if not factor or kind not in ("IDTX", "V_DCT", "V_ADST", "V_FLIPADST"):
        return False
    halved = size[0] in (size[1] * 2, size[1] // 2)
    greatest = max((abs(value) for _, _, value in coefficients), default=0)
    return (greatest * 2896 + 2048 >> 12 if halved else greatest) * factor + 2048 >= 1 << 31
