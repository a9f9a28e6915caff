#include "../../../c_interface/mazzulpe_procedure.h"

/* moved AMOUNT: from lines far apart, of several files. */
ACCESSES(moved, TAKES(1), WRITES(0, 0, KEY(1)))
PROCEDURE(moved) {
    u64 *account = record_read(0);
#line 70000 "generated/far.c"
    if (!account)
        return args[0];
#line 3 "./near.h"
    account[0] += args[0];
    account[1] ^= account[0];
#line 200 "generated/far.c"
    account[2] = account[1] * 7;
#line 1 "name with blanks.c"
    return record_update(0);
}
