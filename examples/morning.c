/*
 * A morning on the approval tablet: a sheet for the small shop's permission 0
 * collects signatures, and one is taken back. For each step it prints the minute,
 * the entry as user/role or the user who withdraws, whether it was taken, and
 * what the sheet answers when it is asked; last, the entries that the sheet
 * holds.
 *
 *     tools/build
 *     cc -std=c11 -Iinclude examples/morning.c target/staticlib/libexports.a -o target/morning
 *     target/morning
 */
#include <inttypes.h>
#include <stdio.h>

#include "release.h"
#include "small_shop.h"

/* The morning's date. */
#define DATE 900

/* An answer in words: done, or the refusal. */
static void print_answer(const char *done, uint32_t answer) {
    if (answer == RELEASE_DONE) {
        printf("%s", done);
    } else {
        printf("refused %" PRIu32, answer);
    }
}

static void ask(uint32_t minute, const uint8_t *sheet) {
    printf(", release ");
    print_answer("granted", release_sheet_ask(small_shop, sizeof small_shop,
                                              minute, 0, 0, DATE, sheet));
    printf("\n");
}

static void sign(uint32_t minute, uint32_t user, uint32_t role, uint8_t *sheet) {
    printf("minute %" PRIu32 ": %" PRIu32 "/%" PRIu32 " ", minute, user, role);
    print_answer("signed", release_sheet_sign(small_shop, sizeof small_shop,
                                              user, role, sheet));
    ask(minute, sheet);
}

static void withdraw(uint32_t minute, uint32_t user, uint8_t *sheet) {
    printf("minute %" PRIu32 ": %" PRIu32 " ", minute, user);
    print_answer("withdrawn", release_sheet_withdraw(user, sheet));
    ask(minute, sheet);
}

static void print_sheet(const uint8_t *sheet) {
    printf("permission %u:", (unsigned)sheet[RELEASE_SHEET_PERMISSION]);
    for (unsigned i = 0; i < sheet[RELEASE_SHEET_COUNT] && i < RELEASE_MOST_ENTRIES; i++) {
        const uint8_t *entry = sheet + RELEASE_SHEET_ENTRIES + RELEASE_ENTRY_BYTES * i;
        printf(" %u/%u", (unsigned)entry[0], (unsigned)entry[1]);
    }
    printf("\n");
}

int main(void) {
    uint8_t sheet[RELEASE_SHEET_BYTES];

    uint32_t refusal = release_sheet_open(small_shop, sizeof small_shop, 0, sheet);
    if (refusal != RELEASE_DONE) {
        printf("refused %" PRIu32 "\n", refusal);
        return 1;
    }
    sign(500, 0, 0, sheet);  /* the manager, who can't release it alone */
    sign(530, 0, 1, sheet);  /* the manager again: already on the sheet */
    sign(560, 2, 1, sheet);  /* a clerk as a buyer: a role that no clerk may act in */
    sign(590, 1, 2, sheet);  /* the buyer as a clerk, a junior role: the two suffice */
    withdraw(620, 0, sheet); /* the manager has doubts: the buyer is left alone */
    withdraw(650, 0, sheet); /* the manager again: not on the sheet any more */
    sign(680, 0, 0, sheet);  /* the manager after all, now behind the buyer */
    print_sheet(sheet);
    return 0;
}
