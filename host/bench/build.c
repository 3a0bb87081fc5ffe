/* Compiled once for each build, with the names that its functions have there, and with BUILD and NAME set. */
#include "build.h"

extern const struct build BUILD;
const struct build BUILD = {NAME, {balzenoh_seal, balzenoh_seal_sha1}, {balzenoh_open, balzenoh_open_sha1}, balzenoh_check_run};
