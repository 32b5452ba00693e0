/*
 * Which policy overrides which: an editor has left two policies of the manager in
 * the small shop. Prints the conflict, and then who can release permission 0 at
 * minute 480 of date 900 without a resolution list and by some lists.
 *
 *     tools/build
 *     cc -std=c11 -Iinclude examples/overrides.c target/staticlib/libexports.a -o target/overrides
 *     target/overrides
 */
#include <inttypes.h>
#include <stdio.h>
#include <string.h>

#include "release.h"
#include "small_shop.h"

/* Where the shop's policies and its trailer start. */
#define POLICIES 70
#define TRAILER 94

/* The manager's second policy: weight 1, type 0, no context, rank 0, day 1. */
static const uint8_t second[] = {0, 0, 1, 0, 255, 0, 1, 0};

/* The small shop with that policy behind its three. */
static uint8_t base[sizeof small_shop + sizeof second];

static void edit_shop(void) {
    uint8_t *trailer = base + TRAILER + sizeof second;
    memcpy(base, small_shop, TRAILER);
    memcpy(base + TRAILER, second, sizeof second);
    memcpy(trailer, small_shop + TRAILER, sizeof small_shop - TRAILER);
    trailer[22] = 4;                       /* that many policies */
    trailer[24] = TRAILER + sizeof second; /* where the exclusions start */
    base[POLICIES + 5] = 1;                /* the first one's rank */
}

static void print_conflicts(void) {
    uint8_t list[8 * RELEASE_CONFLICT_BYTES];
    uint64_t answer = release_conflicts(base, sizeof base, list, sizeof list);
    for (uint32_t i = 0; i < release_answer_count(answer); i++) {
        const uint8_t *conflict = list + RELEASE_CONFLICT_BYTES * i;
        printf("policies %u and %u conflict\n", (unsigned)conflict[1], (unsigned)conflict[2]);
    }
}

/* The answer of a report, and the group in its 13 bytes. */
static void print_group(const char *by, uint64_t answer, const uint8_t *part) {
    printf("%s:", by);
    if (release_answer_refusal(answer) != RELEASE_DONE) {
        printf(" refused %" PRIu32, release_answer_refusal(answer));
    } else if (part[0] == 0) {
        printf(" nobody");
    } else {
        for (unsigned i = 0; i < part[0]; i++) {
            const uint8_t *entry = part + 1 + RELEASE_ENTRY_BYTES * i;
            printf(" %u/%u", (unsigned)entry[0], (unsigned)entry[1]);
        }
    }
    printf("\n");
}

static void print_group_by(const char *by, const uint8_t *list, size_t list_len) {
    uint8_t part[RELEASE_PERMISSION_BYTES];
    uint64_t answer =
        release_report_by(base, sizeof base, 480, 0, 0, 900, list, list_len, part, sizeof part);
    print_group(by, answer, part);
}

int main(void) {
    const uint8_t newest[] = {RELEASE_RULE_LATER_DAY};
    const uint8_t highest[] = {RELEASE_RULE_LARGER_RANK};
    const uint8_t lightest[] = {RELEASE_RULE_SMALLER_WEIGHT};
    const uint8_t highest_newest[] = {RELEASE_RULE_LARGER_RANK, RELEASE_RULE_LATER_DAY};
    uint8_t part[RELEASE_PERMISSION_BYTES];

    edit_shop();
    print_conflicts();
    print_group("table order",
                release_report(base, sizeof base, 480, 0, 0, 900, part, sizeof part), part);
    print_group_by("later day", newest, sizeof newest);
    print_group_by("larger rank", highest, sizeof highest);
    print_group_by("smaller weight", lightest, sizeof lightest);
    print_group_by("larger rank, later day", highest_newest, sizeof highest_newest);
    print_group_by("no rule", NULL, 0);
    return 0;
}
