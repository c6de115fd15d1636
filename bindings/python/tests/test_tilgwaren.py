"""python3 -m unittest discover -s tests    what needs the library is skipped where it isn't found"""
import os
import pathlib
import random
import subprocess
import sys
import unittest

HERE = pathlib.Path(__file__).resolve().parent
ROOT = HERE.parents[2]
sys.path.insert(0, str(HERE.parent))

import tilgwaren  # noqa: E402

WORKED = (ROOT / "crates/av1_vectors/stdin").read_bytes()
PHOTO = (ROOT / "demo/photo.plan").read_bytes()
# A frame of 128x8 in two tiles, each of one leaf.
GRID = (b"RTL1" + bytes([128, 0, 8, 0, 8, 2, 0, 0]) + bytes(8) + bytes([2, 64, 0, 1])
        + 2 * (bytes([14, 0, 0, 0]) + bytes([0, 0, 0, 0, 0, 4, 0, 0]) + bytes(6)))


def has_library():
    try:
        tilgwaren.library()
        return True
    except OSError:
        return False


class Plans(unittest.TestCase):
    def test_the_fields_of_the_worked_plan(self):
        plan = tilgwaren.Plan.read(WORKED)
        first, *others = plan.leaves()
        self.assertEqual((plan.width, plan.height, plan.depth, plan.sampling, plan.version), (8, 8, 8, "4:4:4", 1))
        self.assertEqual((first.x, first.y, first.width, first.height, first.mode), (0, 0, 4, 4, "DC"))
        self.assertEqual(first.coefficients, [(0, 0, 100)])
        self.assertEqual([(leaf.x, leaf.y, leaf.coefficients) for leaf in others], [(4, 0, []), (0, 4, []), (4, 4, [])])

    def test_bytes_and_json_come_back(self):
        for data in (WORKED, PHOTO, GRID):
            plan = tilgwaren.Plan.read(data)
            self.assertEqual(bytes(plan), data)
            self.assertEqual(bytes(tilgwaren.Plan.from_json(plan.to_json())), data)

    def test_a_header_in_each_version(self):
        for version, magic in ((1, b"RPL1"), (2, b"RPL2"), (3, b"RPL3")):
            plan = tilgwaren.Plan(16, 8, 10, "4:2:2", "sharp", True, (0, 1, 2, 3, 4, 5, 6), version, {1: b"", 7: b""})
            self.assertEqual(plan.header(), magic + bytes([16, 0, 8, 0, 10, 1, 2, 1, 0, 1, 2, 3, 4, 5, 6, 0b10000010]))
        self.assertEqual(tilgwaren.Plan.read(GRID).header(), GRID[:20])

    def test_parts_nodes_and_chroma_groups(self):
        plan = tilgwaren.Plan.read(WORKED)
        self.assertEqual(plan.parts(), [WORKED[20:]])
        self.assertEqual([len(part) for part in tilgwaren.Plan.read(GRID).parts()], [14, 14])
        self.assertEqual([(node.partition, len(node.parts)) for node in plan.nodes()], [("SPLIT", 1)] * 3 + [("SPLIT", 4)])
        self.assertEqual(list(plan.chroma_groups()), [[leaf] for leaf in plan.leaves()])
        self.assertEqual([len(leaf.coefficient_lists()) for leaf in plan.leaves()], [3] * 4)
        # In 4:2:0 the last of the four leaves has the chroma of all.
        shared = tilgwaren.Plan.read(WORKED[:9] + bytes([0]) + WORKED[10:24] + 3 * bytes([0, 0, 0, 0, 0, 0]) + WORKED[70:])
        self.assertEqual([[(leaf.x, leaf.y) for leaf in group] for group in shared.chroma_groups()], [[(0, 0), (4, 0), (0, 4), (4, 4)]])
        self.assertEqual([len(leaf.coefficient_lists()) for leaf in shared.leaves()], [1, 1, 1, 3])

    def test_positions_of_samples(self):
        plan = tilgwaren.Plan(5, 3)
        self.assertEqual([plan.position(sample) for sample in (0, 14, 15, 20, 21, 26)],
                         [(0, 0, 0), (0, 2, 4), (1, 0, 0), (1, 1, 2), (2, 0, 0), (2, 1, 2)])
        self.assertRaises(ValueError, plan.position, 27)

    def test_planes_are_cut_and_padded(self):
        planes = tilgwaren.Planes.read(bytes([1, 2, 3, 4, 5, 6]), [(2, 1), (1, 2), (2, 1)], 8)
        self.assertEqual(bytes(planes.resized([(3, 2), (1, 1), (1, 2)])), bytes([1, 2, 2, 1, 2, 2, 3, 5, 5]))
        self.assertEqual(planes.resized([(2, 1), (1, 2), (2, 1)]), planes)

    def test_a_cut_plan_is_malformed_at_the_cut_field(self):
        for length, at in ((0, 0), (5, 4), (19, 19), (23, 23), (33, 33), (35, 34), (82, 81)):
            with self.assertRaises(tilgwaren.FormatError) as caught:
                tilgwaren.Plan.read(WORKED[:length])
            self.assertEqual(caught.exception.at, at, f"of {length} bytes")

    def test_the_module_prints_a_plan(self):
        done = subprocess.run([sys.executable, "-m", "tilgwaren", ROOT / "crates/av1_vectors/stdin"], cwd=HERE.parent,
                              capture_output=True, check=True)
        self.assertEqual(bytes(tilgwaren.Plan.from_json(done.stdout)), WORKED)


@unittest.skipUnless(has_library(), "the library isn't found")
class Library(unittest.TestCase):
    def test_planes_of_the_worked_plan(self):
        planes = tilgwaren.reconstruct(WORKED)
        self.assertEqual([list(row) for row in planes.y[:1]], [[131] * 4 + [131] * 4])
        self.assertEqual(bytes(planes), (ROOT / "crates/av1_vectors/stdout").read_bytes())
        self.assertEqual(tilgwaren.planes_length(WORKED), 192)

    def test_planes_of_a_grid(self):
        self.assertEqual(bytes(tilgwaren.reconstruct(GRID)), bytes([128]) * 3 * 128 * 8)

    def test_frames_of_a_sequence(self):
        leaves = WORKED[20:]
        entry = bytes([1]) + bytes(11) + len(leaves).to_bytes(4, "little") + leaves
        sequence = b"RSQ1" + WORKED[4:10] + entry
        self.assertEqual(tilgwaren.reconstruct_sequence(sequence), (ROOT / "crates/av1_vectors/stdout").read_bytes())

    def test_a_difference_is_found_where_it_is(self):
        planes = tilgwaren.reconstruct(WORKED)
        self.assertEqual(tilgwaren.differences(WORKED, planes), [])
        planes.y[5][6] = 7
        self.assertEqual(tilgwaren.differences(WORKED, planes), [(3, 0, 5, 6, 7, planes.y[0][0])])

    def test_a_rejected_leaf_is_named(self):
        plan = tilgwaren.Plan.read(WORKED)
        list(plan.leaves())[2].angle_step = 1
        with self.assertRaises(tilgwaren.RefusedError) as caught:
            tilgwaren.reconstruct(plan)
        self.assertEqual((caught.exception.leaf, caught.exception.kind), (2, "mode"))

    def test_reader_and_library_agree_on_changed_plans(self):
        numbers = random.Random(1)
        for _ in range(2000):
            data = bytearray(WORKED)
            for _ in range(numbers.choice((1, 1, 2))):
                data[numbers.randrange(len(data))] = numbers.choice((0, 1, 2, 3, 4, 7, 8, 9, 13, 14, 20, 34, 255))
            self.assertEqual(offset_by_reader(bytes(data)), offset_by_library(bytes(data)), data.hex())


def offset_by_reader(data):
    try:
        tilgwaren.Plan.read(data)
    except tilgwaren.FormatError as error:
        return error.at
    return None


def offset_by_library(data):
    try:
        tilgwaren.planes_length(data)
        tilgwaren.reconstruct(data)
    except tilgwaren.RefusedError as error:
        return error.at if error.status == 4 else None
    except tilgwaren.FormatError as error:
        return error.at
    return None


if __name__ == "__main__":
    unittest.main()
