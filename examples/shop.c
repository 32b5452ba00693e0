/*
 * Prints the small shop's release report for minute 480, day 0, zone 0 and date
 * 900: for each permission its number, the number of approvers and a smallest
 * group as user/role; last, how many permissions can be released.
 *
 *     tools/build
 *     cc -std=c11 -Iinclude examples/shop.c target/staticlib/libexports.a -o target/shop
 *     target/shop
 */
#include <inttypes.h>
#include <stdio.h>
#include <string.h>

#include "release.h"
#include "small_shop.h"

/* A permission's line. Its part is k and the group's entries. */
static void print_part(unsigned permission, const uint8_t *part) {
    unsigned k = part[0];
    printf("permission %u: %u", permission, k);
    for (unsigned i = 0; i < k; i++) {
        const uint8_t *entry = part + 1 + RELEASE_ENTRY_BYTES * i;
        printf(" %u/%u", (unsigned)entry[0], (unsigned)entry[1]);
    }
    printf("\n");
}

int main(void) {
    uint8_t report[RELEASE_LONGEST_REPORT];
    memset(report, 255, sizeof report);

    uint64_t answer = release_report(small_shop, sizeof small_shop, 480, 0, 0, 900,
                                     report, sizeof report);
    uint32_t refusal = release_answer_refusal(answer);
    if (refusal != RELEASE_DONE) {
        printf("refused %" PRIu32 "\n", refusal);
        return 1;
    }
    for (unsigned p = 0; p < RELEASE_MOST_PERMISSIONS; p++) {
        const uint8_t *part = report + RELEASE_PERMISSION_BYTES * p;
        if (part[0] <= RELEASE_MOST_ENTRIES) {
            print_part(p, part);
        }
    }
    printf("releasable %" PRIu32 "\n", release_answer_count(answer));
    return 0;
}
