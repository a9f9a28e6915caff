#include "../../../c_interface/mazzulpe_procedure.h"

/* grade POINTS BONUS: 1 to 4 by its sum. */
ACCESSES(grade, TAKES(2))
PROCEDURE(grade) {
    u64 sum = args[0] + args[1];
    if (sum > 90)
        return 1;
    if (sum > 70)
        return 2;
    if (sum % 2)
        return 3;
    return 4;
}

/* larger A B: aborts with the larger one. */
ACCESSES(larger, TAKES(2))
PROCEDURE(larger) {
    return args[0] > args[1] ? args[0]
                             : args[1];
}
