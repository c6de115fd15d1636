/* bindings/declared.py writes this file from crates/av1_c and crates/av1_calls. It compiles only where what it says is so. */
#include "tilgwaren.h"

#ifdef __cplusplus
#include <type_traits>
#define HOLDS(e) static_assert(e, #e)
#define FIELD(s, f, p, at) HOLDS(offsetof(s, f) == at); HOLDS((std::is_same<decltype(&((s *)0)->f), p>::value))
extern "C" {
#else
#define HOLDS(e) _Static_assert(e, #e)
#define FIELD(s, f, p, at) HOLDS(offsetof(s, f) == at); HOLDS(_Generic(&((s *)0)->f, p: 1, default: 0))
#endif

HOLDS(TILG_EDGE_SAMPLES == 257);
HOLDS(TILG_ANY_MODE == 255);
HOLDS(TILG_UV_CFL_PRED == 13);
HOLDS(TILG_FILTER_SHARP == 2);
HOLDS(TILG_FILTER_RAV1E_SHARP == 5);
HOLDS(TILG_DONE == 0);
HOLDS(TILG_ROOM_TOO_SMALL == 2);
HOLDS(TILG_BAD_SIZE == 6);
HOLDS(TILG_BAD_TYPE == 7);
HOLDS(TILG_BAD_DEPTH == 8);
HOLDS(TILG_BAD_AREA == 9);
HOLDS(TILG_TOO_SHORT == 10);
HOLDS(TILG_BAD_COEFFICIENT == 11);
HOLDS(TILG_BAD_SAMPLE == 12);
HOLDS(TILG_BAD_MODE == 13);
HOLDS(TILG_BAD_ANGLE == 14);
HOLDS(TILG_BAD_FRACTION == 15);
HOLDS(TILG_BAD_SAMPLING == 16);
HOLDS(TILG_BAD_PAD == 17);
HOLDS(TILG_OUT_OF_MEMORY == 1);
HOLDS(TILG_TOO_LONG == 3);
HOLDS(TILG_MALFORMED == 4);
HOLDS(TILG_INVALID == 5);
HOLDS(TILG_TOO_LONG_PART == 30);
HOLDS(TILG_MALFORMED_PART == 31);
HOLDS(TILG_INVALID_PART == 32);
HOLDS(TILG_EMPTY_SLOT == 33);
HOLDS(TILG_NOT_NOW == 40);
HOLDS(TILG_NOT_ADMITTED == 41);
HOLDS(TILG_BAD_STATE == 42);
HOLDS(TILG_INVALID_BLOCK_SIZE == 1);
HOLDS(TILG_INVALID_TRANSFORM == 2);
HOLDS(TILG_INVALID_MODE == 3);
HOLDS(TILG_INVALID_VECTOR == 4);
HOLDS(TILG_MISSING_REFERENCE == 5);
HOLDS(TILG_INVALID_COEFFICIENT == 6);
HOLDS(TILG_NEXT_NOTHING == 0);
HOLDS(TILG_NEXT_REFERENCE == 1);
HOLDS(TILG_NEXT_MARK == 2);
HOLDS(TILG_NEXT_LEAF == 3);
HOLDS(TILG_FIELD_TX_SIZE == 1);
HOLDS(TILG_FIELD_TX_TYPE == 2);
HOLDS(TILG_FIELD_CHROMA_TX_TYPE == 3);
HOLDS(TILG_FIELD_HAS_CHROMA == 4);
HOLDS(TILG_FIELD_MODE == 5);
HOLDS(TILG_FIELD_CHROMA_MODE == 6);
HOLDS(TILG_FIELD_FIRST == 7);
HOLDS(TILG_FIELD_SECOND == 8);
HOLDS(TILG_FIELD_COEFFICIENTS == 9);
HOLDS(TILG_VERSION == 1024);

HOLDS(sizeof(tilg_context) == 79252);

HOLDS(sizeof(tilg_luma_block) == 24);
FIELD(tilg_luma_block, block_size, uint8_t *, 0);
FIELD(tilg_luma_block, tx_size, uint8_t *, 1);
FIELD(tilg_luma_block, halved_columns, uint8_t *, 2);
FIELD(tilg_luma_block, halved_rows, uint8_t *, 3);
FIELD(tilg_luma_block, visible_columns, size_t *, 8);
FIELD(tilg_luma_block, visible_rows, size_t *, 16);

HOLDS(sizeof(tilg_intra_block) == 24);
FIELD(tilg_intra_block, mode, uint8_t *, 0);
FIELD(tilg_intra_block, tx_size, uint8_t *, 1);
FIELD(tilg_intra_block, angle_step, int8_t *, 2);
FIELD(tilg_intra_block, bit_depth, uint8_t *, 3);
FIELD(tilg_intra_block, has_left, uint8_t *, 4);
FIELD(tilg_intra_block, has_above, uint8_t *, 5);
FIELD(tilg_intra_block, edge_filter, uint8_t *, 6);
FIELD(tilg_intra_block, smooth_neighbour, uint8_t *, 7);
FIELD(tilg_intra_block, visible_columns, size_t *, 8);
FIELD(tilg_intra_block, visible_rows, size_t *, 16);

HOLDS(sizeof(tilg_edge_plane) == 80);
FIELD(tilg_edge_plane, stride, size_t *, 0);
FIELD(tilg_edge_plane, x, size_t *, 8);
FIELD(tilg_edge_plane, y, size_t *, 16);
FIELD(tilg_edge_plane, width, size_t *, 24);
FIELD(tilg_edge_plane, height, size_t *, 32);
FIELD(tilg_edge_plane, tile_x, size_t *, 40);
FIELD(tilg_edge_plane, tile_y, size_t *, 48);
FIELD(tilg_edge_plane, tile_width, size_t *, 56);
FIELD(tilg_edge_plane, tile_height, size_t *, 64);
FIELD(tilg_edge_plane, halved_columns, uint8_t *, 72);
FIELD(tilg_edge_plane, halved_rows, uint8_t *, 73);

HOLDS(sizeof(tilg_edge_block) == 56);
FIELD(tilg_edge_block, x, size_t *, 0);
FIELD(tilg_edge_block, y, size_t *, 8);
FIELD(tilg_edge_block, cell_x, size_t *, 16);
FIELD(tilg_edge_block, cell_y, size_t *, 24);
FIELD(tilg_edge_block, unit_x, size_t *, 32);
FIELD(tilg_edge_block, unit_y, size_t *, 40);
FIELD(tilg_edge_block, block_size, uint8_t *, 48);
FIELD(tilg_edge_block, tx_size, uint8_t *, 49);
FIELD(tilg_edge_block, mode, uint8_t *, 50);
FIELD(tilg_edge_block, angle_step, int8_t *, 51);
FIELD(tilg_edge_block, bit_depth, uint8_t *, 52);
FIELD(tilg_edge_block, edge_filter, uint8_t *, 53);

HOLDS(sizeof(tilg_cfl_block) == 24);
FIELD(tilg_cfl_block, block_size, uint8_t *, 0);
FIELD(tilg_cfl_block, halved_columns, uint8_t *, 1);
FIELD(tilg_cfl_block, halved_rows, uint8_t *, 2);
FIELD(tilg_cfl_block, w_pad, size_t *, 8);
FIELD(tilg_cfl_block, h_pad, size_t *, 16);

HOLDS(sizeof(tilg_motion_block) == 24);
FIELD(tilg_motion_block, width, size_t *, 0);
FIELD(tilg_motion_block, height, size_t *, 8);
FIELD(tilg_motion_block, fraction_x, uint8_t *, 16);
FIELD(tilg_motion_block, fraction_y, uint8_t *, 17);
FIELD(tilg_motion_block, filter_x, uint8_t *, 18);
FIELD(tilg_motion_block, filter_y, uint8_t *, 19);

HOLDS(sizeof(tilg_motion_plane) == 48);
FIELD(tilg_motion_plane, stride, size_t *, 0);
FIELD(tilg_motion_plane, x, size_t *, 8);
FIELD(tilg_motion_plane, y, size_t *, 16);
FIELD(tilg_motion_plane, width, size_t *, 24);
FIELD(tilg_motion_plane, height, size_t *, 32);
FIELD(tilg_motion_plane, halved_columns, uint8_t *, 40);
FIELD(tilg_motion_plane, halved_rows, uint8_t *, 41);

HOLDS(sizeof(tilg_moved_block) == 40);
FIELD(tilg_moved_block, x, size_t *, 0);
FIELD(tilg_moved_block, y, size_t *, 8);
FIELD(tilg_moved_block, width, size_t *, 16);
FIELD(tilg_moved_block, height, size_t *, 24);
FIELD(tilg_moved_block, mv_y, int16_t *, 32);
FIELD(tilg_moved_block, mv_x, int16_t *, 34);
FIELD(tilg_moved_block, filter_x, uint8_t *, 36);
FIELD(tilg_moved_block, filter_y, uint8_t *, 37);

HOLDS(sizeof(tilg_next_field) == 16);
FIELD(tilg_next_field, slot, size_t *, 0);
FIELD(tilg_next_field, kind, uint8_t *, 8);
FIELD(tilg_next_field, size, uint8_t *, 9);
FIELD(tilg_next_field, x, uint16_t *, 10);
FIELD(tilg_next_field, y, uint16_t *, 12);

HOLDS(sizeof(tilg_builder_part) == 6);
FIELD(tilg_builder_part, kind, uint8_t *, 0);
FIELD(tilg_builder_part, number, uint8_t *, 1);
FIELD(tilg_builder_part, x, uint16_t *, 2);
FIELD(tilg_builder_part, y, uint16_t *, 4);

HOLDS(sizeof(tilg_builder) == 128);
FIELD(tilg_builder, written, size_t *, 0);
FIELD(tilg_builder, slot, size_t *, 8);
FIELD(tilg_builder, count, size_t *, 16);
FIELD(tilg_builder, superblock_y, uint16_t *, 24);
FIELD(tilg_builder, superblock_x, uint16_t *, 26);
FIELD(tilg_builder, header, tilg_plan_header *, 28);
FIELD(tilg_builder, parts, tilg_builder_part (*)[13], 46);

HOLDS(sizeof(tilg_difference) == 16);
FIELD(tilg_difference, leaf, uint32_t *, 0);
FIELD(tilg_difference, y, uint16_t *, 4);
FIELD(tilg_difference, x, uint16_t *, 6);
FIELD(tilg_difference, given, uint16_t *, 8);
FIELD(tilg_difference, defined, uint16_t *, 10);
FIELD(tilg_difference, plane, uint8_t *, 12);

HOLDS(sizeof(tilg_refusal) == 12);
FIELD(tilg_refusal, at, uint32_t *, 0);
FIELD(tilg_refusal, leaf, uint32_t *, 4);
FIELD(tilg_refusal, kind, uint32_t *, 8);

HOLDS(sizeof(tilg_coefficient) == 8);
FIELD(tilg_coefficient, value, int32_t *, 0);
FIELD(tilg_coefficient, place, uint16_t *, 4);
FIELD(tilg_coefficient, block, uint8_t *, 6);

HOLDS(sizeof(tilg_motion) == 6);
FIELD(tilg_motion, mv_y, int16_t *, 0);
FIELD(tilg_motion, mv_x, int16_t *, 2);
FIELD(tilg_motion, reference, uint8_t *, 4);

HOLDS(sizeof(tilg_leaf) == 22);
FIELD(tilg_leaf, first, tilg_motion *, 0);
FIELD(tilg_leaf, second, tilg_motion *, 6);
FIELD(tilg_leaf, mode, uint8_t *, 12);
FIELD(tilg_leaf, angle_step, int8_t *, 13);
FIELD(tilg_leaf, has_chroma, uint8_t *, 14);
FIELD(tilg_leaf, chroma_mode, uint8_t *, 15);
FIELD(tilg_leaf, chroma_angle_step, int8_t *, 16);
FIELD(tilg_leaf, alpha_u, int8_t *, 17);
FIELD(tilg_leaf, alpha_v, int8_t *, 18);
FIELD(tilg_leaf, tx_size, uint8_t *, 19);
FIELD(tilg_leaf, tx_type, uint8_t *, 20);
FIELD(tilg_leaf, chroma_tx_type, uint8_t *, 21);

HOLDS(sizeof(tilg_part_refusal) == 16);
FIELD(tilg_part_refusal, part, uint32_t *, 0);
FIELD(tilg_part_refusal, at, uint32_t *, 4);
FIELD(tilg_part_refusal, leaf, uint32_t *, 8);
FIELD(tilg_part_refusal, kind, uint32_t *, 12);

HOLDS(sizeof(tilg_plan_header) == 18);
FIELD(tilg_plan_header, width, uint16_t *, 0);
FIELD(tilg_plan_header, height, uint16_t *, 2);
FIELD(tilg_plan_header, version, uint8_t *, 4);
FIELD(tilg_plan_header, bit_depth, uint8_t *, 5);
FIELD(tilg_plan_header, sampling, uint8_t *, 6);
FIELD(tilg_plan_header, filter, uint8_t *, 7);
FIELD(tilg_plan_header, edge_filter, uint8_t *, 8);
FIELD(tilg_plan_header, mask, uint8_t *, 9);
FIELD(tilg_plan_header, slots, uint8_t (*)[7], 10);

HOLDS(TILG_LAST_FRAME == 1);
HOLDS(TILG_LAST2_FRAME == 2);
HOLDS(TILG_LAST3_FRAME == 3);
HOLDS(TILG_GOLDEN_FRAME == 4);
HOLDS(TILG_BWDREF_FRAME == 5);
HOLDS(TILG_ALTREF2_FRAME == 6);
HOLDS(TILG_ALTREF_FRAME == 7);

HOLDS(TILG_PARTITION_NONE == 0);
HOLDS(TILG_PARTITION_HORZ == 1);
HOLDS(TILG_PARTITION_VERT == 2);
HOLDS(TILG_PARTITION_SPLIT == 3);
HOLDS(TILG_PARTITION_HORZ_4 == 8);
HOLDS(TILG_PARTITION_VERT_4 == 9);

HOLDS(TILG_BLOCK_4X4 == 0);
HOLDS(TILG_BLOCK_4X8 == 1);
HOLDS(TILG_BLOCK_8X4 == 2);
HOLDS(TILG_BLOCK_8X8 == 3);
HOLDS(TILG_BLOCK_8X16 == 4);
HOLDS(TILG_BLOCK_16X8 == 5);
HOLDS(TILG_BLOCK_16X16 == 6);
HOLDS(TILG_BLOCK_16X32 == 7);
HOLDS(TILG_BLOCK_32X16 == 8);
HOLDS(TILG_BLOCK_32X32 == 9);
HOLDS(TILG_BLOCK_32X64 == 10);
HOLDS(TILG_BLOCK_64X32 == 11);
HOLDS(TILG_BLOCK_64X64 == 12);
HOLDS(TILG_BLOCK_64X128 == 13);
HOLDS(TILG_BLOCK_128X64 == 14);
HOLDS(TILG_BLOCK_128X128 == 15);
HOLDS(TILG_BLOCK_4X16 == 16);
HOLDS(TILG_BLOCK_16X4 == 17);
HOLDS(TILG_BLOCK_8X32 == 18);
HOLDS(TILG_BLOCK_32X8 == 19);
HOLDS(TILG_BLOCK_16X64 == 20);
HOLDS(TILG_BLOCK_64X16 == 21);

HOLDS(TILG_DC_PRED == 0);
HOLDS(TILG_V_PRED == 1);
HOLDS(TILG_H_PRED == 2);
HOLDS(TILG_D45_PRED == 3);
HOLDS(TILG_D135_PRED == 4);
HOLDS(TILG_D113_PRED == 5);
HOLDS(TILG_D157_PRED == 6);
HOLDS(TILG_D203_PRED == 7);
HOLDS(TILG_D67_PRED == 8);
HOLDS(TILG_SMOOTH_PRED == 9);
HOLDS(TILG_SMOOTH_V_PRED == 10);
HOLDS(TILG_SMOOTH_H_PRED == 11);
HOLDS(TILG_PAETH_PRED == 12);
HOLDS(TILG_UV_CFL_PRED == 13);
HOLDS(TILG_NEARESTMV == 14);
HOLDS(TILG_NEAR0MV == 15);
HOLDS(TILG_NEAR1MV == 16);
HOLDS(TILG_NEAR2MV == 17);
HOLDS(TILG_GLOBALMV == 18);
HOLDS(TILG_NEWMV == 19);
HOLDS(TILG_NEAREST_NEARESTMV == 20);
HOLDS(TILG_NEAR_NEAR0MV == 21);
HOLDS(TILG_NEAR_NEAR1MV == 22);
HOLDS(TILG_NEAR_NEAR2MV == 23);
HOLDS(TILG_NEAREST_NEWMV == 24);
HOLDS(TILG_NEW_NEARESTMV == 25);
HOLDS(TILG_NEAR_NEW0MV == 26);
HOLDS(TILG_NEAR_NEW1MV == 27);
HOLDS(TILG_NEAR_NEW2MV == 28);
HOLDS(TILG_NEW_NEAR0MV == 29);
HOLDS(TILG_NEW_NEAR1MV == 30);
HOLDS(TILG_NEW_NEAR2MV == 31);
HOLDS(TILG_GLOBAL_GLOBALMV == 32);
HOLDS(TILG_NEW_NEWMV == 33);

HOLDS(TILG_DCT_DCT == 0);
HOLDS(TILG_ADST_DCT == 1);
HOLDS(TILG_DCT_ADST == 2);
HOLDS(TILG_ADST_ADST == 3);
HOLDS(TILG_FLIPADST_DCT == 4);
HOLDS(TILG_DCT_FLIPADST == 5);
HOLDS(TILG_FLIPADST_FLIPADST == 6);
HOLDS(TILG_ADST_FLIPADST == 7);
HOLDS(TILG_FLIPADST_ADST == 8);
HOLDS(TILG_IDTX == 9);
HOLDS(TILG_V_DCT == 10);
HOLDS(TILG_H_DCT == 11);
HOLDS(TILG_V_ADST == 12);
HOLDS(TILG_H_ADST == 13);
HOLDS(TILG_V_FLIPADST == 14);
HOLDS(TILG_H_FLIPADST == 15);
HOLDS(TILG_WHT_WHT == 16);

HOLDS(TILG_TX_4X4 == 0);
HOLDS(TILG_TX_8X8 == 1);
HOLDS(TILG_TX_16X16 == 2);
HOLDS(TILG_TX_32X32 == 3);
HOLDS(TILG_TX_64X64 == 4);
HOLDS(TILG_TX_4X8 == 5);
HOLDS(TILG_TX_8X4 == 6);
HOLDS(TILG_TX_8X16 == 7);
HOLDS(TILG_TX_16X8 == 8);
HOLDS(TILG_TX_16X32 == 9);
HOLDS(TILG_TX_32X16 == 10);
HOLDS(TILG_TX_32X64 == 11);
HOLDS(TILG_TX_64X32 == 12);
HOLDS(TILG_TX_4X16 == 13);
HOLDS(TILG_TX_16X4 == 14);
HOLDS(TILG_TX_8X32 == 15);
HOLDS(TILG_TX_32X8 == 16);
HOLDS(TILG_TX_16X64 == 17);
HOLDS(TILG_TX_64X16 == 18);

tilg_status tilg_builder_begin(tilg_builder *, uint8_t *, size_t, const tilg_plan_header *);
tilg_status tilg_builder_reference(tilg_builder *, uint8_t *, size_t, const uint16_t *, size_t, const uint16_t *,
    size_t, const uint16_t *, size_t);
tilg_status tilg_builder_mark(tilg_builder *, uint8_t *, size_t, uint8_t);
tilg_status tilg_builder_leaf(tilg_builder *, uint8_t *, size_t, uint32_t *, const tilg_leaf *, const tilg_coefficient
    *, size_t, const tilg_coefficient *, size_t, const tilg_coefficient *, size_t);
tilg_status tilg_builder_next(tilg_next_field *, const tilg_builder *);
tilg_status tilg_trace_differences(tilg_difference *, size_t, size_t *, tilg_refusal *, const uint8_t *, size_t, const
    uint8_t *, size_t, size_t, const uint8_t *, size_t, size_t, const uint8_t *, size_t, size_t);
tilg_status tilg_predict_intra_8(uint8_t *, size_t, size_t, size_t, size_t, const tilg_intra_block *, const uint8_t *,
    size_t, uint8_t, const uint8_t *, size_t);
tilg_status tilg_predict_intra_16(uint16_t *, size_t, size_t, size_t, size_t, const tilg_intra_block *, const uint16_t
    *, size_t, uint16_t, const uint16_t *, size_t);
tilg_status tilg_predict_cfl_8(uint8_t *, size_t, size_t, size_t, size_t, const tilg_intra_block *, const uint8_t *,
    size_t, const uint8_t *, size_t, const int16_t *, size_t, int16_t);
tilg_status tilg_predict_cfl_16(uint16_t *, size_t, size_t, size_t, size_t, const tilg_intra_block *, const uint16_t *,
    size_t, const uint16_t *, size_t, const int16_t *, size_t, int16_t);
tilg_status tilg_intra_edge_8(uint8_t *, size_t, const uint8_t *, size_t, const tilg_edge_plane *, const tilg_edge_block
    *);
tilg_status tilg_intra_edge_16(uint16_t *, size_t, const uint16_t *, size_t, const tilg_edge_plane *, const
    tilg_edge_block *);
tilg_status tilg_predict_in_plane_8(uint8_t *, size_t, const tilg_edge_plane *, const tilg_edge_block *, uint8_t, const
    int16_t *, size_t, int16_t);
tilg_status tilg_predict_in_plane_16(uint16_t *, size_t, const tilg_edge_plane *, const tilg_edge_block *, uint8_t,
    const int16_t *, size_t, int16_t);
tilg_status tilg_cfl_ac_8(int16_t *, size_t, const uint8_t *, size_t, size_t, size_t, size_t, const tilg_cfl_block *);
tilg_status tilg_cfl_ac_tested_16(int16_t *, size_t, const uint16_t *, size_t, size_t, size_t, size_t, const
    tilg_cfl_block *);
tilg_status tilg_cfl_block_of(tilg_cfl_block *, const tilg_luma_block *);
tilg_status tilg_put_8tap_8(uint8_t *, size_t, size_t, size_t, size_t, const uint8_t *, size_t, size_t, size_t, size_t,
    const tilg_motion_block *);
tilg_status tilg_prep_8tap_8(int16_t *, size_t, const uint8_t *, size_t, size_t, size_t, size_t, const tilg_motion_block
    *);
tilg_status tilg_mc_avg_8(uint8_t *, size_t, size_t, size_t, size_t, size_t, size_t, const int16_t *, size_t, const
    int16_t *, size_t);
tilg_status tilg_mc_avg_16(uint16_t *, size_t, size_t, size_t, size_t, size_t, size_t, const int16_t *, size_t, const
    int16_t *, size_t, uint8_t);
tilg_status tilg_put_moved_8(uint8_t *, size_t, size_t, size_t, size_t, tilg_context *, const uint8_t *, size_t, const
    tilg_motion_plane *, const tilg_moved_block *);
tilg_status tilg_put_moved_16(uint16_t *, size_t, size_t, size_t, size_t, tilg_context *, const uint16_t *, size_t,
    const tilg_motion_plane *, const tilg_moved_block *, uint8_t);
tilg_status tilg_prep_moved_8(int16_t *, size_t, tilg_context *, const uint8_t *, size_t, const tilg_motion_plane *,
    const tilg_moved_block *);
tilg_status tilg_prep_moved_16(int16_t *, size_t, tilg_context *, const uint16_t *, size_t, const tilg_motion_plane *,
    const tilg_moved_block *, uint8_t);
tilg_status tilg_test_samples_16(const uint16_t *, size_t, size_t, size_t, size_t, size_t, size_t, uint8_t);
tilg_status tilg_put_tested_16(uint16_t *, size_t, size_t, size_t, size_t, const uint16_t *, size_t, size_t, size_t,
    size_t, const tilg_motion_block *, uint8_t);
tilg_status tilg_prep_tested_16(int16_t *, size_t, const uint16_t *, size_t, size_t, size_t, size_t, const
    tilg_motion_block *, uint8_t);
tilg_status tilg_planes_len(size_t *, tilg_refusal *, const uint8_t *, size_t);
tilg_status tilg_reconstruct_plan(uint8_t *, size_t, size_t *, tilg_refusal *, const uint8_t *, size_t);
tilg_status tilg_reconstruct_sequence(uint8_t *, size_t, size_t *, tilg_part_refusal *, const uint8_t *, size_t);
tilg_status tilg_reconstruct_tiles(uint8_t *, size_t, size_t *, tilg_part_refusal *, const uint8_t *, size_t);
tilg_status tilg_inverse_transform_add_8(uint8_t *, size_t, size_t, size_t, size_t, tilg_context *, const int16_t *,
    size_t, uint8_t, uint8_t);
tilg_status tilg_inverse_transform_add_16(uint16_t *, size_t, size_t, size_t, size_t, tilg_context *, const int32_t *,
    size_t, uint8_t, uint8_t, uint8_t);
tilg_status tilg_inverse_transform_add_rav1e_16(uint16_t *, size_t, size_t, size_t, size_t, tilg_context *, const
    int32_t *, size_t, uint8_t, uint8_t, uint8_t);
uint32_t tilg_version_0_4(void);

#ifdef __cplusplus
}
#endif
