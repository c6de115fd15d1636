/* The functions of library.c that set dav1d's tables. */
#include "src/ipred.h"
#include "src/itx.h"
#include "src/mc.h"

bitfn_decls(void library_mc_init, Dav1dMCDSPContext *c);
bitfn_decls(void library_ipred_init, Dav1dIntraPredDSPContext *c);
bitfn_decls(void library_itx_init, Dav1dInvTxfmDSPContext *c);
