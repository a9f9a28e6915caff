/* Orders against stock. Table 0, an item: how many are there, how many were sold, its price.
 * Table 1, a customer: credit left, orders so far. Table 2, an order: item, customer, count, price paid. */
#include "../../c_interface/mazzulpe_procedure.h"

enum { ITEM, CUSTOMER, ORDER };
enum { UNKNOWN = 1, SOLD_OUT = 2, NO_CREDIT = 3, ORDER_TAKEN = 4 };

/* supply ITEM COUNT PRICE */
ACCESSES(supply, TAKES(3), WRITES(0, 0, ARGUMENT(0)))
PROCEDURE(supply) {
    u64 *item = record_read(0);
    if (item) {
        item[0] += args[1];
        item[2] = args[2];
        return record_update(0);
    }
    item = record_buffer(0);
    item[0] = args[1];
    item[1] = 0;
    item[2] = args[2];
    return record_insert(0);
}

/* welcome CUSTOMER CREDIT */
ACCESSES(welcome, TAKES(2), WRITES(1, 1, ARGUMENT(0)))
PROCEDURE(welcome) {
    u64 *customer = record_buffer(0);
    customer[0] = args[1];
    customer[1] = 0;
    return record_insert(0);
}

/* order ITEM CUSTOMER ORDER COUNT: takes the items first and looks at the credit then, so that a customer
 * without credit makes it abort with writes that are undone. */
ACCESSES(order, TAKES(4), WRITES(0, 0, ARGUMENT(0)), WRITES(1, 1, ARGUMENT(1)), WRITES(1, 2, ARGUMENT(2)))
PROCEDURE(order) {
    u64 count = args[3];
    u64 *item = record_read(ITEM);
    if (!item)
        return UNKNOWN;
    if (item[0] < count)
        return SOLD_OUT;
    u64 price = item[2] * count;
    item[0] -= count;
    item[1] += count;
    record_update(ITEM);

    u64 *order = record_buffer(ORDER);
    order[0] = args[0];
    order[1] = args[1];
    order[2] = count;
    order[3] = price;
    if (record_insert(ORDER))
        return ORDER_TAKEN;

    u64 *customer = record_read(CUSTOMER);
    if (!customer)
        return UNKNOWN;
    if (customer[0] < price)
        return NO_CREDIT;
    customer[0] -= price;
    customer[1] += 1;
    return record_update(CUSTOMER);
}
