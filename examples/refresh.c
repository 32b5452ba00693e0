/*
 * A refresh of the shelf: a font rasteriser asks about every field of the small
 * shop's labels in one call, each with those who signed for it. Prints which fields
 * it may draw, at minute 480 and at minute 600 of date 900.
 *
 *     tools/build
 *     cc -std=c11 -Iinclude examples/refresh.c target/staticlib/libexports.a -o target/refresh
 *     target/refresh
 */
#include <inttypes.h>
#include <stdio.h>
#include <string.h>

#include "release.h"
#include "small_shop.h"

/* A field: its permission, how many signed for it, and these as user and role. */
struct field {
    const char *name;
    uint8_t query[RELEASE_QUERY_BYTES];
};

static const struct field fields[] = {
    {"milk, price", {0, 2, 0, 0, 1, 1}},            /* the manager and the buyer */
    {"milk, offer", {0, 1, 0, 0}},                  /* the manager alone */
    {"bread, price", {0, 2, 0, 0, 2, 2}},           /* the manager and a clerk */
    {"bread, allergens", {0, 0}},                   /* nobody yet */
    {"eggs, price", {0, 2, 0, 0, 3, 1}},            /* the other clerk signed as a buyer */
    {"eggs, offer", {0, 3, 0, 1, 1, 1, 2, 2}},      /* the manager signed as a buyer */
    {"eggs, origin", {1, 2, 0, 0, 1, 1}},           /* no permission of this shop */
};

#define FIELDS (sizeof fields / sizeof fields[0])

static int refresh(uint32_t minute) {
    uint8_t queries[FIELDS][RELEASE_QUERY_BYTES];
    uint8_t answers[FIELDS];
    for (size_t i = 0; i < FIELDS; i++) {
        memcpy(queries[i], fields[i].query, RELEASE_QUERY_BYTES);
    }

    uint32_t refusal = release_batch(small_shop, sizeof small_shop, minute, 0, 0, 900,
                                     queries[0], sizeof queries, answers, sizeof answers);
    if (refusal != RELEASE_DONE) {
        printf("refused %" PRIu32 "\n", refusal);
        return 1;
    }
    printf("minute %" PRIu32 "\n", minute);
    for (size_t i = 0; i < FIELDS; i++) {
        if (answers[i] == RELEASE_DONE) {
            printf("%s: drawn\n", fields[i].name);
        } else {
            printf("%s: refused %u\n", fields[i].name, (unsigned)answers[i]);
        }
    }
    return 0;
}

int main(void) {
    return refresh(480) != 0 || refresh(600) != 0;
}
