/* For the module of a test: which growth of the C library fails, and how many blocks it holds. */
#include "postgres.h"

#include "fmgr.h"

#include "tests/failing.h"

/* The growth of this number from now on; none at 0. */
PG_FUNCTION_INFO_V1(fail_growth);
PGDLLEXPORT Datum fail_growth(PG_FUNCTION_ARGS);
Datum fail_growth(PG_FUNCTION_ARGS) {
    failing = PG_GETARG_INT64(0);
    growths = 0;
    PG_RETURN_VOID();
}

PG_FUNCTION_INFO_V1(growth_count);
PGDLLEXPORT Datum growth_count(PG_FUNCTION_ARGS);
Datum growth_count(PG_FUNCTION_ARGS) {
    PG_RETURN_INT64(growths);
}

PG_FUNCTION_INFO_V1(block_count);
PGDLLEXPORT Datum block_count(PG_FUNCTION_ARGS);
Datum block_count(PG_FUNCTION_ARGS) {
    PG_RETURN_INT64(blocks);
}
