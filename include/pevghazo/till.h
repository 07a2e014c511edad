/* Pevghazo: charging for rings, by a price list and a till. What all functions share is said in pevghazo.h, and what an issue line is in pool.h.
 *
 * A price list has for each size the price of a hundred rings, 1 to 1,000,000 pence, or 0 where the size is not sold. The charge of a line is its
 * rings times that price, divided by 100, in whole pence, halves upwards. A till adds up: how many lines were priced, the total charged in pence,
 * and the exact total, rings times price, in hundredths of a penny. Zeroed memory is the till at first.
 *
 *     static const pevghazo_prices prices = {{0, 0, 250, 0, 0, 0, 0, 0}};
 *     static const char line[] = "7,C,12101,12103,20250304\n";
 *     static pevghazo_till till;
 *     pevghazo_priced priced;
 *
 *     priced = pevghazo_price(till, prices, (const uint8_t *)line, sizeof line - 1);
 *     till = priced.till;
 *
 * A hundred rings of size C cost 250 pence here, and no other size is sold; the line has three rings, which are 7.5 pence. After it priced.number is 0,
 * priced.charge is 8, and the till has 1 line, 8 pence charged and an exact total of 750 hundredths. From the till at first, after every list of
 * lines, the total charged is the sum of the charges, and it lies within half a penny for each priced line of the exact total; a line is
 * refused by 22 only where 65,536 were priced before it.
 *
 * The function takes any till, prices and line, and returns; nothing wraps. Till and prices are handed over by value and the new till comes back, so
 * no call alters what the caller holds. They are no secret: the call's time depends on them and on the line. */
#ifndef PEVGHAZO_TILL_H
#define PEVGHAZO_TILL_H

#include "numbers.h"
#include "pool.h"
#include "season.h"

#ifdef __cplusplus
extern "C" {
#endif

/* Limits: the highest price of a hundred rings, in pence, and the most lines of a till. */
enum {
    PEVGHAZO_PRICE_MAX = 1000000,
    PEVGHAZO_TILL_LINES = 65536
};

/* The prices of a hundred rings of the sizes A to H, in this order, in pence. */
typedef struct pevghazo_prices {
    uint32_t sizes[PEVGHAZO_SIZES];
} pevghazo_prices;

PEVGHAZO_LAYOUT(prices, sizeof(pevghazo_prices) == 32);

/* A till: how many lines were priced, the total charged in pence, and the exact total in hundredths of a penny. */
typedef struct pevghazo_till {
    uint64_t lines;
    uint64_t charged;
    uint64_t exact;
} pevghazo_till;

PEVGHAZO_LAYOUT(till, sizeof(pevghazo_till) == 24);
PEVGHAZO_LAYOUT(till_lines, offsetof(pevghazo_till, lines) == 0);
PEVGHAZO_LAYOUT(till_charged, offsetof(pevghazo_till, charged) == 8);
PEVGHAZO_LAYOUT(till_exact, offsetof(pevghazo_till, exact) == 16);

/* What pricing a line gives: its number, its charge in pence, and the till afterwards. With a refusal the charge is 0 and the till the one that was
 * handed in. */
typedef struct pevghazo_priced {
    uint32_t number;
    uint64_t charge;
    pevghazo_till till;
} pevghazo_priced;

PEVGHAZO_LAYOUT(priced, sizeof(pevghazo_priced) == 40);
PEVGHAZO_LAYOUT(priced_number, offsetof(pevghazo_priced, number) == 0);
PEVGHAZO_LAYOUT(priced_charge, offsetof(pevghazo_priced, charge) == 8);
PEVGHAZO_LAYOUT(priced_till, offsetof(pevghazo_priced, till) == 16);

/* Checks 13, 16, 19, 22, in this order: 13 where the bytes are not exactly one line, its line feed included; 16 where the line's day does not exist in
 * the years 1900 to 2199; 19 where the price of the line's size is 0 or above 1,000,000; 22 where the till has 65,536 lines or more, or one of its
 * totals would pass 64 bits. Otherwise the number is 0, and lines, total charged and exact total have grown by 1, the charge, and rings times
 * price. No window is asked: whether the day is in a season does not matter here. */
PEVGHAZO_MUST_USE pevghazo_priced pevghazo_price(pevghazo_till till, pevghazo_prices prices, const uint8_t *line, size_t line_len);

#ifdef __cplusplus
}
#endif

#endif
