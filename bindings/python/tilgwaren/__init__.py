"""Plans of AV1 frames: read, written, shown as JSON, reconstructed, and compared with an encoder's planes.

    import tilgwaren
    plan = tilgwaren.Plan.read(open("a.plan", "rb").read())
    print(plan.width, plan.height, sum(1 for leaf in plan.leaves()))
    planes = tilgwaren.reconstruct(bytes(plan))
    print(planes.y[0][:8])

The functions that reconstruct call the proved library, libtilgwaren.so: as installed, or the file that
$TILGWAREN_LIBRARY names. Everything else is Python and needs no library.
"""
from .fields import Chroma, Coefficient, FormatError, Leaf, Node, Vector
from .library import Difference, RefusedError, differences, library, planes_length, reconstruct, reconstruct_sequence
from .plan import Plan, trace
from .planes import Planes

__all__ = ["Chroma", "Coefficient", "Difference", "FormatError", "Leaf", "Node", "Plan", "Planes", "RefusedError", "Vector",
           "differences", "library", "planes_length", "reconstruct", "reconstruct_sequence",
           "trace"]
