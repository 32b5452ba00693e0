/*
 * The small shop: the base that the examples ask about.
 */
#ifndef SMALL_SHOP_H
#define SMALL_SHOP_H

#include <stdint.h>

/* Three roles (0 manager, 1 buyer, 2 clerk), four users, one permission. */
static const uint8_t small_shop[130] = {
    /* H: the manager is over the buyer, the buyer over the clerk */
    0, 1,  1, 2,
    /* U: a manager, a buyer and two clerks, by their roles' codes, on all days:
       the first is 0 and the last 65535 */
    3, 0, 0, 0,  0, 0,  255, 255,
    5, 0, 0, 0,  0, 0,  255, 255,
    7, 0, 0, 0,  0, 0,  255, 255,
    7, 0, 0, 0,  0, 0,  255, 255,
    /* P */
    1, 1,
    /* K: two entries or more, whose weights sum up to 5 or more */
    0, 2,  0, 2, 2,  1, 2, 5,  0, 0, 0,  0, 0, 0,  0, 0,
    /* C: context 0 is from minute 540 to minute 1020 */
    0, 2,  0, 2, 0x1c, 0x02,  0, 3, 0xfc, 0x03,  0, 0, 0, 0,  0, 0,
    /* A: manager 3; buyer 1, inherited; clerk 1, inherited, in context 0 */
    0, 0, 3, 0, 255, 0, 0, 0,
    1, 0, 1, 1, 255, 0, 0, 0,
    2, 0, 1, 1, 0, 0, 0, 0,
    /* no X; the trailer: offset and number of records of each table */
    0, 0, 2, 0,  4, 0, 4, 0,  36, 0, 1, 0,  38, 0, 1, 0,
    54, 0, 1, 0,  70, 0, 3, 0,  94, 0, 0, 0,
    /* the number of roles, and the letters */
    3, 0, 0, 0,  'L', 'C', 'A', 'Q',
};

#endif
