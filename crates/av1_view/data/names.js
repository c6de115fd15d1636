'use strict';

// ---- Names, by their numbers in a plan.

const INTRA_MODES = ['DC', 'V', 'H', 'D45', 'D135', 'D113', 'D157', 'D203', 'D67', 'SMOOTH', 'SMOOTH_V', 'SMOOTH_H', 'PAETH', 'CFL'];
const MODES = INTRA_MODES.concat(['NEARESTMV', 'NEAR0MV', 'NEAR1MV', 'NEAR2MV', 'GLOBALMV', 'NEWMV',
  'NEAREST_NEARESTMV', 'NEAR_NEAR0MV', 'NEAR_NEAR1MV', 'NEAR_NEAR2MV', 'NEAREST_NEWMV', 'NEW_NEARESTMV', 'NEAR_NEW0MV', 'NEAR_NEW1MV',
  'NEAR_NEW2MV', 'NEW_NEAR0MV', 'NEW_NEAR1MV', 'NEW_NEAR2MV', 'GLOBAL_GLOBALMV', 'NEW_NEWMV']);
const FIRST_SINGLE = 14;
const FIRST_COMPOUND = 20;
const PAETH = 12;
const CHROMA_FROM_LUMA = 13;
const ANGLES = [0, 90, 180, 45, 135, 113, 157, 203, 67];
const REFERENCES = ['', 'LAST', 'LAST2', 'LAST3', 'GOLDEN', 'BWDREF', 'ALTREF2', 'ALTREF'];
const TRANSFORM_SIZES = [[4, 4], [8, 8], [16, 16], [32, 32], [64, 64], [4, 8], [8, 4], [8, 16], [16, 8], [16, 32], [32, 16], [32, 64],
  [64, 32], [4, 16], [16, 4], [8, 32], [32, 8], [16, 64], [64, 16]];
const TRANSFORM_TYPES = ['DCT_DCT', 'ADST_DCT', 'DCT_ADST', 'ADST_ADST', 'FLIPADST_DCT', 'DCT_FLIPADST', 'FLIPADST_FLIPADST',
  'ADST_FLIPADST', 'FLIPADST_ADST', 'IDTX', 'V_DCT', 'H_DCT', 'V_ADST', 'H_ADST', 'V_FLIPADST', 'H_FLIPADST', 'WHT_WHT'];
const SAMPLINGS = ['4:2:0', '4:2:2', '4:4:4'];
const FILTERS = ['regular', 'smooth', 'sharp', 'bilinear'];
const SHARP = 2;
const PLANES = ['Y', 'U', 'V'];
