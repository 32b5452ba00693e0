/*
 * Who vouches for whom: the gateway keeps a register of statements by which the
 * small shop's users trust each other for permission 0. Prints what is decided on
 * groups whose first entry requests, and then, for each user and for a number that
 * is no user's, a smallest group with which that user can have permission 0 released
 * at minute 600 of date 900.
 *
 *     tools/build
 *     cc -std=c11 -Iinclude examples/vouching.c target/staticlib/libexports.a -o target/vouching
 *     target/vouching
 */
#include <inttypes.h>
#include <stdio.h>

#include "release.h"
#include "small_shop.h"

/* At least "good" by the gateway's scale. */
#define THRESHOLD 3

#define USERS 4

/* Issuer, requester, permission, trust, and the days: 0 to 65535, but for the last
   one, which ends with day 899 (0x0383). */
static const uint8_t statements[] = {
    2, 0, 0, 4,  0, 0, 255, 255,  /* a clerk trusts the manager */
    0, 1, 0, 2,  0, 0, 255, 255,  /* the manager trusts the buyer, but not much */
    0, 3, 0, 5,  0, 0, 255, 255,  /* and the other clerk wholly */
    1, 0, 0, 5,  0, 0, 0x83, 3,   /* the buyer trusted the manager up to yesterday */
};

static void decide(const char *who, const uint8_t *group, size_t group_len) {
    uint32_t answer =
        release_vouch_decide(small_shop, sizeof small_shop, 0, 600, 0, 0, 900,
                             statements, sizeof statements, THRESHOLD, group, group_len);
    if (answer == RELEASE_DONE) {
        printf("%s: granted\n", who);
    } else {
        printf("%s: refused %" PRIu32 "\n", who, answer);
    }
}

static void print_group_for(uint32_t requester) {
    uint8_t part[RELEASE_PERMISSION_BYTES];
    uint64_t answer =
        release_vouch_report(small_shop, sizeof small_shop, 600, 0, 0, 900,
                             statements, sizeof statements, THRESHOLD, requester,
                             part, sizeof part);
    printf("requester %" PRIu32 ":", requester);
    if (release_answer_refusal(answer) != RELEASE_DONE) {
        printf(" refused %" PRIu32, release_answer_refusal(answer));
    } else if (part[0] == 0) {
        printf(" no group");
    } else {
        for (unsigned i = 0; i < part[0]; i++) {
            const uint8_t *entry = part + 1 + RELEASE_ENTRY_BYTES * i;
            printf(" %u/%u", (unsigned)entry[0], (unsigned)entry[1]);
        }
    }
    printf("\n");
}

int main(void) {
    const uint8_t manager_clerk[] = {0, 0, 2, 2};
    const uint8_t clerk_manager[] = {2, 2, 0, 0};
    const uint8_t manager_buyer[] = {0, 0, 1, 1};

    decide("manager with a clerk", manager_clerk, sizeof manager_clerk);
    decide("clerk with the manager", clerk_manager, sizeof clerk_manager);
    decide("manager with the buyer", manager_buyer, sizeof manager_buyer);
    for (uint32_t requester = 0; requester <= USERS; requester++) {
        print_group_for(requester);
    }
    return 0;
}
