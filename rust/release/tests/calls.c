/*
 * Calls each function through the header, in C and in C++: every refusal and
 * every rule by its name, dates, registers, batches, NULL with length 0, the
 * buffers, the sheets and the two parts of an answer. The small shop comes in on
 * standard input. Prints what differs, or `ok`.
 */
#include <stdio.h>
#include <string.h>

#include "release.h"

#define SHOP 130
#define TRAILER 36

/* Any date: the shop's users have all days. */
#define DATE 900

static uint8_t shop[SHOP];
static int differences = 0;

static void expect(const char *what, uint64_t expected, uint64_t found) {
    if (found != expected) {
        printf("%s: expected %lu, found %lu\n", what, (unsigned long)expected,
               (unsigned long)found);
        differences++;
    }
}

/* The check of the shop with one byte changed. */
static uint32_t check_with(size_t place, uint8_t value) {
    uint8_t base[SHOP];
    memcpy(base, shop, SHOP);
    base[place] = value;
    return release_check(base, SHOP);
}

/* The shop with an exclusion put before its trailer. */
static void with_exclusion(uint8_t *base, uint8_t kind, uint8_t a, uint8_t b) {
    memcpy(base, shop, SHOP - TRAILER);
    base[SHOP - TRAILER] = kind;
    base[SHOP - TRAILER + 1] = a;
    base[SHOP - TRAILER + 2] = b;
    memcpy(base + SHOP - TRAILER + 3, shop + SHOP - TRAILER, TRAILER);
    base[SHOP - TRAILER + 3 + 26] = 1;
}

static uint32_t check_with_exclusion(uint8_t kind, uint8_t a, uint8_t b) {
    uint8_t base[SHOP + 3];
    with_exclusion(base, kind, a, b);
    return release_check(base, sizeof base);
}

static void checks(void) {
    expect("check", RELEASE_DONE, release_check(shop, SHOP));
    expect("1", RELEASE_REFUSAL_LENGTH, release_check(shop, RELEASE_SHORTEST_BASE - 1));
    expect("2", RELEASE_REFUSAL_LETTERS, check_with(SHOP - 1, 'P'));
    expect("3", RELEASE_REFUSAL_TRAILER, check_with(SHOP - 5, 1));
    expect("4", RELEASE_REFUSAL_HIERARCHY, check_with(0, 1));
    expect("5", RELEASE_REFUSAL_USERS, check_with(4, 9));
    expect("6", RELEASE_REFUSAL_GROUP_CLAUSES, check_with(38, 1));
    expect("7", RELEASE_REFUSAL_CONTEXT_CLAUSES, check_with(54, 16));
    expect("8", RELEASE_REFUSAL_POLICIES, check_with(72, 6));
    expect("9", RELEASE_REFUSAL_EXCLUSIONS, check_with_exclusion(0, 2, 2));
    expect("an exclusion", RELEASE_DONE, check_with_exclusion(0, 1, 2));
}

/* The shop with other days for one of its users. */
static void with_days(uint8_t *base, size_t user, uint16_t first, uint16_t last) {
    uint8_t *record = base + 4 + RELEASE_USER_BYTES * user;
    memcpy(base, shop, SHOP);
    record[4] = (uint8_t)(first % 256);
    record[5] = (uint8_t)(first / 256);
    record[6] = (uint8_t)(last % 256);
    record[7] = (uint8_t)(last / 256);
}

static uint32_t check_with_days(size_t user, uint16_t first, uint16_t last) {
    uint8_t base[SHOP];
    with_days(base, user, first, last);
    return release_check(base, SHOP);
}

static void days(void) {
    expect("days", RELEASE_DONE, check_with_days(3, 899, 901));
    expect("one day", RELEASE_DONE, check_with_days(3, 900, 900));
    expect("the first day", RELEASE_DONE, check_with_days(3, 0, 0));
    expect("the last day", RELEASE_DONE, check_with_days(3, 65535, 65535));
    expect("5", RELEASE_REFUSAL_USERS, check_with_days(3, 900, 899));
    expect("5", RELEASE_REFUSAL_USERS, check_with_days(0, 1, 0));
    expect("5", RELEASE_REFUSAL_USERS, check_with_days(0, 65535, 65534));
    expect("5", RELEASE_REFUSAL_USERS, check_with_days(0, 256, 255));
}

/* A base of as many bytes as can be, and one more. */
static void lengths(void) {
    uint8_t base[RELEASE_LONGEST_BASE + 1];
    memset(base, 0, sizeof base);
    memcpy(base + RELEASE_LONGEST_BASE - 4, "LCAQ", 4);
    expect("longest", RELEASE_REFUSAL_TRAILER, release_check(base, RELEASE_LONGEST_BASE));
    expect("longer", RELEASE_REFUSAL_LENGTH, release_check(base, sizeof base));
}

static uint32_t decide(uint32_t minute, const uint8_t *group, size_t length) {
    return release_decide(shop, SHOP, 0, minute, 0, 0, DATE, group, length);
}

static void decisions(void) {
    const uint8_t two[] = {0, 0, 2, 2};
    const uint8_t unknown[] = {0, 0, 4, 2};
    const uint8_t twice[] = {0, 0, 0, 0};
    const uint8_t as_senior[] = {0, 0, 2, 1};
    const uint8_t as_junior[] = {0, 1, 1, 1, 2, 2};
    expect("granted", RELEASE_DONE, decide(600, two, 4));
    expect("10", RELEASE_REFUSAL_NO_PERMISSION,
           release_decide(shop, SHOP, 256, 600, 0, 0, DATE, two, 4));
    expect("11", RELEASE_REFUSAL_CONTEXT, decide(1440, two, 4));
    expect("11", RELEASE_REFUSAL_CONTEXT, release_decide(shop, SHOP, 0, 0, 7, 0, DATE, two, 4));
    expect("11", RELEASE_REFUSAL_CONTEXT, release_decide(shop, SHOP, 0, 0, 0, 256, DATE, two, 4));
    expect("12", RELEASE_REFUSAL_GROUP_LENGTH, decide(600, two, 3));
    expect("13", RELEASE_REFUSAL_NO_USER_OR_ROLE, decide(600, unknown, 4));
    expect("14", RELEASE_REFUSAL_USER_TWICE, decide(600, twice, 4));
    expect("15", RELEASE_REFUSAL_MEMBERSHIP, decide(600, as_senior, 4));
    expect("the manager as a buyer", RELEASE_DONE, decide(600, as_junior, 6));
    expect("16", RELEASE_REFUSAL_NO_WEIGHT, decide(480, two, 4));
    expect("17", RELEASE_REFUSAL_CONDITION, decide(600, two, RELEASE_ENTRY_BYTES));
    expect("the base's letters as a group", 13, decide(600, shop + SHOP - 4, 4));
}

/* The shop with the clerk's policy made a second one of the manager, by day: of
   the later day, the smaller rank and the smaller weight. */
static void two_of_the_manager(uint8_t *base) {
    memcpy(base, shop, SHOP);
    base[75] = 1;
    base[86] = 0;
    base[92] = 1;
}

/* By the list, the answer for manager and buyer. */
static uint32_t decide_by(uint32_t minute, const uint8_t *list, size_t length) {
    const uint8_t two[] = {0, 0, 1, 1};
    uint8_t base[SHOP];
    two_of_the_manager(base);
    return release_decide_by(base, SHOP, 0, minute, 0, 0, DATE, list, length, two, 4);
}

/* By the first policy manager and buyer have 5, by the second 3. */
static void decisions_by(void) {
    const uint8_t day[] = {RELEASE_RULE_LATER_DAY};
    const uint8_t rank[] = {RELEASE_RULE_LARGER_RANK};
    const uint8_t weight[] = {RELEASE_RULE_SMALLER_WEIGHT};
    const uint8_t rank_first[] = {1, 0, 2};
    const uint8_t repeated[] = {1, 0, 1};
    const uint8_t four[] = {1, 0, 2, 1};
    const uint8_t other[] = {1, 0, 3};
    const uint8_t twice[] = {0, 0, 0, 0};
    expect("the later day", RELEASE_REFUSAL_CONDITION, decide_by(600, day, 1));
    expect("the larger rank", RELEASE_DONE, decide_by(600, rank, 1));
    expect("the smaller weight", RELEASE_REFUSAL_CONDITION, decide_by(600, weight, 1));
    expect("the rank first", RELEASE_DONE, decide_by(600, rank_first, 3));
    expect("early the first alone", RELEASE_DONE, decide_by(480, day, 1));
    expect("22", RELEASE_REFUSAL_RESOLUTION, decide_by(600, day, 0));
    expect("22", RELEASE_REFUSAL_RESOLUTION, decide_by(600, repeated, 3));
    expect("22", RELEASE_REFUSAL_RESOLUTION, decide_by(600, other, 3));
    expect("22", RELEASE_REFUSAL_RESOLUTION,
           decide_by(600, four, RELEASE_LONGEST_RESOLUTION + 1));
    expect("its first three", RELEASE_DONE, decide_by(600, four, RELEASE_LONGEST_RESOLUTION));
    expect("2 before 22", RELEASE_REFUSAL_LETTERS,
           release_decide_by(shop, SHOP - 1, 256, 1440, 0, 0, DATE, other, 3, twice, 3));
    expect("22 before 10", RELEASE_REFUSAL_RESOLUTION,
           release_decide_by(shop, SHOP, 256, 1440, 0, 0, DATE, other, 3, twice, 3));
    expect("10", RELEASE_REFUSAL_NO_PERMISSION,
           release_decide_by(shop, SHOP, 256, 1440, 0, 0, DATE, day, 1, twice, 3));
    expect("11", RELEASE_REFUSAL_CONTEXT,
           release_decide_by(shop, SHOP, 0, 1440, 0, 0, DATE, day, 1, twice, 3));
    expect("12", RELEASE_REFUSAL_GROUP_LENGTH,
           release_decide_by(shop, SHOP, 0, 600, 0, 0, DATE, day, 1, twice, 3));
    expect("14", RELEASE_REFUSAL_USER_TWICE,
           release_decide_by(shop, SHOP, 0, 600, 0, 0, DATE, day, 1, twice, 4));
    expect("the base's first bytes as list and group", RELEASE_REFUSAL_CONDITION,
           release_decide_by(shop, SHOP, 0, 600, 0, 0, DATE, shop, 2, shop + 2, 2));
}

static void reports(void) {
    const uint8_t record[] = {2, 0, 0, 1, 1, 255, 255, 255, 255, 255, 255, 255, 255};
    uint8_t out[RELEASE_LONGEST_REPORT];
    uint64_t answer;
    size_t i;
    memset(out, 7, sizeof out);
    answer = release_report(shop, SHOP, 480, 0, 0, DATE, out, RELEASE_PERMISSION_BYTES - 1);
    expect("19", RELEASE_REFUSAL_REPORT_BUFFER, release_answer_refusal(answer));
    expect("19's count", 0, release_answer_count(answer));
    expect("a refused report writes nothing", 7, out[0]);
    answer = release_report(shop, SHOP, 480, 0, 0, DATE, out, sizeof out);
    expect("report", RELEASE_DONE, release_answer_refusal(answer));
    expect("releasable", 1, release_answer_count(answer));
    for (i = 0; i < sizeof out; i++) {
        expect("byte of the report", i < sizeof record ? record[i] : 7, out[i]);
    }
}

/* By the later day manager and buyer have 3, and nobody else has weight. */
static void reports_by(void) {
    const uint8_t day[] = {RELEASE_RULE_LATER_DAY};
    const uint8_t rank[] = {RELEASE_RULE_LARGER_RANK, RELEASE_RULE_LATER_DAY};
    const uint8_t twice[] = {1, 1};
    uint8_t base[SHOP];
    uint8_t out[RELEASE_PERMISSION_BYTES + 1];
    two_of_the_manager(base);
    memset(out, 7, sizeof out);
    expect("2 before 22", RELEASE_REFUSAL_LETTERS,
           release_report_by(base, SHOP - 1, 1440, 0, 0, DATE, twice, 2, out, 0));
    expect("22 before 11", RELEASE_REFUSAL_RESOLUTION,
           release_report_by(base, SHOP, 1440, 0, 0, DATE, twice, 2, out, 0));
    expect("22", RELEASE_REFUSAL_RESOLUTION,
           release_report_by(base, SHOP, 600, 0, 0, DATE, twice, 2, out, sizeof out));
    expect("22", RELEASE_REFUSAL_RESOLUTION,
           release_report_by(base, SHOP, 600, 0, 0, DATE, day, 0, out, sizeof out));
    expect("11", RELEASE_REFUSAL_CONTEXT,
           release_report_by(base, SHOP, 1440, 0, 0, DATE, day, 1, out, 0));
    expect("19", RELEASE_REFUSAL_REPORT_BUFFER,
           release_report_by(base, SHOP, 600, 0, 0, DATE, day, 1, out,
                             RELEASE_PERMISSION_BYTES - 1));
    expect("a refused report writes nothing", 7, out[0]);
    expect("by the later day", 0,
           release_report_by(base, SHOP, 600, 0, 0, DATE, day, 1, out, sizeof out));
    expect("no approvers", 0, out[0]);
    expect("no entry", 255, out[1]);
    expect("by the larger rank", 256,
           release_report_by(base, SHOP, 600, 0, 0, DATE, rank, 2, out, sizeof out));
    expect("approvers", 2, out[0]);
    expect("the byte behind", 7, out[RELEASE_PERMISSION_BYTES]);
}

/* A clerk, user 2, trusts the manager at 3 on days 899 to 901, and the manager the
   other clerk at 5 on all days. */
static const uint8_t trusted[] = {2, 0, 0, 3, 0x83, 3, 0x85, 3, 0, 3, 0, 5, 0, 0, 255, 255};

static uint32_t vouch(uint32_t date, uint32_t threshold, const uint8_t *group, size_t length) {
    return release_vouch_decide(shop, SHOP, 0, 600, 0, 0, date, trusted, sizeof trusted,
                                threshold, group, length);
}

static void vouched_decisions(void) {
    const uint8_t two[] = {0, 0, 2, 2};
    const uint8_t turned[] = {2, 2, 0, 0};
    const uint8_t other[] = {3, 2, 0, 0};
    const uint8_t three[] = {0, 0, 2, 2, 3, 2};
    uint32_t date;
    uint32_t threshold;
    for (date = 897; date <= 903; date++) {
        uint32_t answer = date < 899 || 901 < date ? RELEASE_REFUSAL_NOT_VOUCHED : RELEASE_DONE;
        expect("vouched on a date", answer, vouch(date, 3, two, 4));
        expect("vouched on all days", RELEASE_DONE, vouch(date, 5, other, 4));
    }
    for (threshold = 1; threshold <= 5; threshold++) {
        uint32_t answer = threshold > 3 ? RELEASE_REFUSAL_NOT_VOUCHED : RELEASE_DONE;
        expect("vouched at a threshold", answer, vouch(DATE, threshold, two, 4));
    }
    expect("26", RELEASE_REFUSAL_NOT_VOUCHED, vouch(DATE, 1, turned, 4));
    expect("26", RELEASE_REFUSAL_NOT_VOUCHED, vouch(DATE, 1, three, 6));
    expect("the requester alone", RELEASE_REFUSAL_CONDITION, vouch(DATE, 1, two, 2));
    expect("27", RELEASE_REFUSAL_THRESHOLD, vouch(DATE, 0, two, 4));
    expect("27", RELEASE_REFUSAL_THRESHOLD, vouch(DATE, 6, two, 4));
    expect("27", RELEASE_REFUSAL_THRESHOLD, vouch(DATE, 257, two, 4));
    expect("27", RELEASE_REFUSAL_THRESHOLD, vouch(DATE, UINT32_MAX, two, 4));
}

/* With every later fault too. */
static void vouched_refusals(void) {
    const uint8_t odd[] = {2, 2, 0};
    expect("2", RELEASE_REFUSAL_LETTERS,
           release_vouch_decide(shop, SHOP - 1, 1, 1440, 0, 0, DATE, trusted, 7, 0, odd, 3));
    expect("25", RELEASE_REFUSAL_REGISTER,
           release_vouch_decide(shop, SHOP, 1, 1440, 0, 0, DATE, trusted, 7, 0, odd, 3));
    expect("27", RELEASE_REFUSAL_THRESHOLD,
           release_vouch_decide(shop, SHOP, 1, 1440, 0, 0, DATE, trusted, 8, 0, odd, 3));
    expect("10", RELEASE_REFUSAL_NO_PERMISSION,
           release_vouch_decide(shop, SHOP, 1, 1440, 0, 0, DATE, trusted, 8, 1, odd, 3));
    expect("11", RELEASE_REFUSAL_CONTEXT,
           release_vouch_decide(shop, SHOP, 0, 1440, 0, 0, DATE, trusted, 8, 1, odd, 3));
    expect("12", RELEASE_REFUSAL_GROUP_LENGTH,
           release_vouch_decide(shop, SHOP, 0, 600, 0, 0, DATE, trusted, 8, 1, odd, 3));
    expect("the base's bytes as register and group", RELEASE_REFUSAL_REGISTER,
           release_vouch_decide(shop, SHOP, 0, 600, 0, 0, DATE, shop, 8, 1, shop + 2, 2));
    expect("no statement", RELEASE_REFUSAL_CONDITION,
           release_vouch_decide(shop, SHOP, 0, 600, 0, 0, DATE, shop, 0, 1, shop + 2, 2));
}

/* The shop's answer to one statement with a byte changed. */
static uint32_t register_with(size_t place, uint8_t value) {
    const uint8_t two[] = {0, 0, 2, 2};
    uint8_t statement[RELEASE_STATEMENT_BYTES];
    memcpy(statement, trusted, sizeof statement);
    statement[place] = value;
    return release_vouch_decide(shop, SHOP, 0, 600, 0, 0, DATE, statement, sizeof statement, 1,
                                two, 4);
}

static void registers(void) {
    const uint8_t two[] = {0, 0, 2, 2};
    uint8_t longest[RELEASE_LONGEST_REGISTER + RELEASE_STATEMENT_BYTES];
    size_t at;
    expect("as it is", RELEASE_DONE, register_with(0, 2));
    expect("an issuer who isn't there", RELEASE_REFUSAL_REGISTER, register_with(0, 4));
    expect("a requester who isn't there", RELEASE_REFUSAL_REGISTER, register_with(1, 4));
    expect("a permission that isn't there", RELEASE_REFUSAL_REGISTER, register_with(2, 1));
    expect("trust 0", RELEASE_REFUSAL_REGISTER, register_with(3, 0));
    expect("trust 1", RELEASE_DONE, register_with(3, 1));
    expect("trust 6", RELEASE_REFUSAL_REGISTER, register_with(3, 6));
    expect("the first day above the last", RELEASE_REFUSAL_REGISTER, register_with(5, 4));
    for (at = 0; at < sizeof longest; at += RELEASE_STATEMENT_BYTES) {
        memcpy(longest + at, trusted, RELEASE_STATEMENT_BYTES);
    }
    expect("the longest", RELEASE_DONE,
           release_vouch_decide(shop, SHOP, 0, 600, 0, 0, DATE, longest,
                                RELEASE_LONGEST_REGISTER, 3, two, 4));
    expect("a longer one", RELEASE_REFUSAL_REGISTER,
           release_vouch_decide(shop, SHOP, 0, 600, 0, 0, DATE, longest, sizeof longest, 3,
                                two, 4));
    longest[RELEASE_LONGEST_REGISTER - RELEASE_STATEMENT_BYTES + 3] = 6;
    expect("a bad last statement", RELEASE_REFUSAL_REGISTER,
           release_vouch_decide(shop, SHOP, 0, 600, 0, 0, DATE, longest,
                                RELEASE_LONGEST_REGISTER, 3, two, 4));
}

static uint64_t vouch_report(uint32_t requester, uint8_t *out, size_t length) {
    return release_vouch_report(shop, SHOP, 600, 0, 0, DATE, trusted, sizeof trusted, 3,
                                requester, out, length);
}

static void vouched_reports(void) {
    const uint8_t record[] = {2, 3, 2, 0, 0, 255, 255, 255, 255, 255, 255, 255, 255, 7};
    uint8_t out[RELEASE_PERMISSION_BYTES + 1];
    uint64_t answer;
    memset(out, 7, sizeof out);
    expect("2", RELEASE_REFUSAL_LETTERS,
           release_vouch_report(shop, SHOP - 1, 1440, 0, 0, DATE, trusted, 7, 0, 4, out, 0));
    expect("25", RELEASE_REFUSAL_REGISTER,
           release_vouch_report(shop, SHOP, 1440, 0, 0, DATE, trusted, 7, 0, 4, out, 0));
    expect("27", RELEASE_REFUSAL_THRESHOLD,
           release_vouch_report(shop, SHOP, 1440, 0, 0, DATE, trusted, 8, 0, 4, out, 0));
    expect("11", RELEASE_REFUSAL_CONTEXT,
           release_vouch_report(shop, SHOP, 1440, 0, 0, DATE, trusted, 8, 1, 4, out, 0));
    expect("13", RELEASE_REFUSAL_NO_USER_OR_ROLE, vouch_report(4, out, 0));
    expect("13", RELEASE_REFUSAL_NO_USER_OR_ROLE, vouch_report(259, out, sizeof out));
    expect("19", RELEASE_REFUSAL_REPORT_BUFFER,
           vouch_report(3, out, RELEASE_PERMISSION_BYTES - 1));
    expect("a refused report writes nothing", 7, out[0]);
    answer = vouch_report(3, out, sizeof out);
    expect("report for a requester", RELEASE_DONE, release_answer_refusal(answer));
    expect("releasable", 1, release_answer_count(answer));
    expect("the requester first", 0, memcmp(out, record, sizeof record) != 0);
    expect("nobody vouches", 0, vouch_report(1, out, sizeof out));
    expect("no approvers", 0, out[0]);
    expect("no entry", 255, out[1]);
}

#define ASKED 9

/* Queries of every kind, with noise behind the entries that count. */
static const uint8_t asked[ASKED * RELEASE_QUERY_BYTES] = {
    0, 2, 0, 0, 2, 2, 9, 9, 0, 9, 9, 9, 9, 9, /* manager and clerk */
    0, 1, 0, 0, 2, 2, 0, 0, 0, 0, 0, 0, 0, 0, /* the manager alone */
    1, 0, 0, 0, 2, 2, 0, 0, 0, 0, 0, 0, 0, 0, /* a permission that isn't there */
    0, 0, 0, 0, 2, 2, 0, 0, 0, 0, 0, 0, 0, 0, /* no entry */
    0, 7, 0, 0, 2, 2, 0, 0, 0, 0, 0, 0, 0, 0, /* more than six */
    0, 2, 0, 0, 4, 2, 0, 0, 0, 0, 0, 0, 0, 0, /* a user who isn't there */
    0, 2, 0, 0, 0, 1, 0, 0, 0, 0, 0, 0, 0, 0, /* the manager twice */
    0, 2, 0, 0, 2, 1, 0, 0, 0, 0, 0, 0, 0, 0, /* a clerk as a buyer */
    0, 3, 0, 1, 1, 1, 2, 2, 0, 0, 0, 0, 0, 0, /* the manager as a buyer */
};

static void expect_answers(uint32_t minute, const uint8_t *expected, size_t room) {
    uint8_t out[ASKED + 8];
    size_t i;
    memset(out, 77, sizeof out);
    expect("batch", RELEASE_DONE,
           release_batch(shop, SHOP, minute, 0, 0, DATE, asked, sizeof asked, out, room));
    for (i = 0; i < sizeof out; i++) {
        expect("answer to a query", i < ASKED ? expected[i] : 77, out[i]);
    }
}

static void batches(void) {
    const uint8_t by_day[ASKED] = {0, 17, 10, 12, 12, 13, 14, 15, 0};
    const uint8_t early[ASKED] = {16, 17, 10, 12, 12, 13, 14, 15, 16};
    size_t room;
    size_t i;
    for (room = ASKED; room <= ASKED + 8; room++) {
        expect_answers(600, by_day, room);
        expect_answers(480, early, room);
    }
    for (i = 0; i < ASKED; i++) {
        const uint8_t *query = asked + RELEASE_QUERY_BYTES * i;
        size_t length = RELEASE_ENTRY_BYTES * query[RELEASE_QUERY_COUNT];
        if (length <= RELEASE_QUERY_BYTES - RELEASE_QUERY_ENTRIES) {
            expect("the decision alone", by_day[i],
                   release_decide(shop, SHOP, query[RELEASE_QUERY_PERMISSION], 600, 0, 0, DATE,
                                  query + RELEASE_QUERY_ENTRIES, length));
        }
    }
}

/* The answer to the first queries, which writes nothing. */
static uint32_t refused_batch(size_t base_len, uint32_t minute, size_t length, size_t room) {
    uint8_t out[ASKED];
    uint32_t refusal;
    size_t i;
    memset(out, 77, sizeof out);
    refusal = release_batch(shop, base_len, minute, 0, 0, DATE, asked, length, out, room);
    for (i = 0; i < sizeof out; i++) {
        expect("a refused batch writes nothing", 77, out[i]);
    }
    return refusal;
}

static void batch_refusals(void) {
    size_t length;
    expect("1", RELEASE_REFUSAL_LENGTH, refused_batch(RELEASE_SHORTEST_BASE - 1, 1440, 13, 0));
    expect("2", RELEASE_REFUSAL_LETTERS, refused_batch(SHOP - 1, 1440, 13, 0));
    expect("11", RELEASE_REFUSAL_CONTEXT, refused_batch(SHOP, 1440, 13, 0));
    expect("11", RELEASE_REFUSAL_CONTEXT, refused_batch(SHOP, 65536 + 600, sizeof asked, ASKED));
    expect("11", RELEASE_REFUSAL_CONTEXT, refused_batch(SHOP, 1440, 0, 0));
    expect("no query", RELEASE_DONE, refused_batch(SHOP, 600, 0, ASKED));
    for (length = 1; length < sizeof asked; length++) {
        if (length % RELEASE_QUERY_BYTES != 0) {
            expect("28", RELEASE_REFUSAL_QUERIES, refused_batch(SHOP, 600, length, ASKED));
        }
    }
    for (length = 0; length < ASKED; length++) {
        expect("28", RELEASE_REFUSAL_QUERIES, refused_batch(SHOP, 600, sizeof asked, length));
    }
}

/* As many queries as can be, and one more, all but the last about a permission that
   isn't there. */
static void longest_batch(void) {
    static uint8_t queries[(RELEASE_MOST_QUERIES + 1) * RELEASE_QUERY_BYTES];
    static uint8_t out[RELEASE_MOST_QUERIES + 1];
    size_t longest = RELEASE_MOST_QUERIES * RELEASE_QUERY_BYTES;
    size_t i;
    memset(queries, 1, sizeof queries);
    memcpy(queries + longest - RELEASE_QUERY_BYTES, asked, RELEASE_QUERY_BYTES);
    memset(out, 77, sizeof out);
    expect("28", RELEASE_REFUSAL_QUERIES,
           release_batch(shop, SHOP, 600, 0, 0, DATE, queries, sizeof queries, out, sizeof out));
    expect("a refused batch writes nothing", 77, out[0]);
    expect("the most queries", RELEASE_DONE,
           release_batch(shop, SHOP, 600, 0, 0, DATE, queries, longest, out, sizeof out));
    for (i = 0; i < RELEASE_MOST_QUERIES - 1; i++) {
        expect("10", RELEASE_REFUSAL_NO_PERMISSION, out[i]);
    }
    expect("the last query", RELEASE_DONE, out[i]);
    expect("the byte behind", 77, out[i + 1]);
}

/* The shop with its three policies made the buyer's, of weights 1, 2 and 3. */
static void conflicts(void) {
    const uint8_t list[] = {1, 0, 1, 1, 0, 2, 1, 1, 2, 7};
    uint8_t base[SHOP];
    uint8_t out[3 * RELEASE_CONFLICT_BYTES + 1];
    uint64_t answer;
    memcpy(base, shop, SHOP);
    base[70] = base[78] = base[86] = 1;
    base[72] = 1;
    base[80] = 2;
    base[88] = 3;
    memset(out, 7, sizeof out);
    answer = release_conflicts(base, SHOP, out, 3 * RELEASE_CONFLICT_BYTES - 1);
    expect("18", RELEASE_REFUSAL_CONFLICT_BUFFER, release_answer_refusal(answer));
    expect("18's count", 3, release_answer_count(answer));
    expect("a refused list writes nothing", 7, out[0]);
    answer = release_conflicts(base, SHOP, out, sizeof out);
    expect("conflicts", RELEASE_DONE, release_answer_refusal(answer));
    expect("number of conflicts", 3, release_answer_count(answer));
    expect("the list", 0, memcmp(out, list, sizeof list) != 0);
    answer = release_conflicts(base, SHOP, NULL, 0);
    expect("18", RELEASE_REFUSAL_CONFLICT_BUFFER, release_answer_refusal(answer));
    expect("18's count", 3, release_answer_count(answer));
}

/* Buyer and clerk exclude each other: the manager, whose last day is 0 here, may act
   as both, and so may the buyer. */
static void acting_conflicts(void) {
    const uint8_t list[] = {3, 0, 0, 3, 1, 0, 7};
    uint8_t base[SHOP + 3];
    uint8_t out[2 * RELEASE_CONFLICT_BYTES + 1];
    with_exclusion(base, 0, 1, 2);
    base[4 + 6] = base[4 + 7] = 0;
    memset(out, 7, sizeof out);
    uint64_t answer = release_conflicts(base, sizeof base, out, sizeof out);
    expect("conflicts", RELEASE_DONE, release_answer_refusal(answer));
    expect("number of conflicts", 2, release_answer_count(answer));
    expect("the list", 0, memcmp(out, list, sizeof list) != 0);
}

static uint64_t bound(uint32_t policy, uint32_t weight, const uint8_t *group, size_t length) {
    return release_bound(shop, SHOP, policy, weight, group, length);
}

/* The answer is refusal + 256 * bound, and a refusal carries 0. */
static void bounds(void) {
    const uint8_t all[] = {0, 0, 1, 1, 2, 2, 3, 2};
    const uint8_t unknown[] = {0, 0, 4, 2};
    const uint8_t twice[] = {0, 0, 0, 1};
    const uint8_t as_senior[] = {0, 0, 2, 1};
    const uint8_t as_junior[] = {0, 1, 1, 2};
    uint64_t answer = bound(2, 5, all, sizeof all);
    expect("bound", RELEASE_DONE, release_answer_refusal(answer));
    expect("4 more for each of four", 16, release_answer_count(answer));
    expect("2 more for the manager", 256 * 2, bound(0, 5, all, sizeof all));
    expect("2 less for the manager", 256 * 2, bound(0, 1, all, sizeof all));
    expect("3 more for manager and buyer", 256 * 6, bound(1, 4, all, sizeof all));
    expect("the weight as it is", 0, bound(0, 3, all, sizeof all));
    expect("the manager as a buyer", 256 * 4, bound(1, 5, as_junior, 4));
    expect("1", RELEASE_REFUSAL_LENGTH,
           release_bound(shop, RELEASE_SHORTEST_BASE - 1, 0, 5, all, sizeof all));
    expect("2", RELEASE_REFUSAL_LETTERS, release_bound(shop, SHOP - 1, 0, 5, all, sizeof all));
    expect("12", RELEASE_REFUSAL_GROUP_LENGTH, bound(0, 5, all, 3));
    expect("13", RELEASE_REFUSAL_NO_USER_OR_ROLE, bound(0, 5, unknown, 4));
    expect("14", RELEASE_REFUSAL_USER_TWICE, bound(0, 5, twice, 4));
    expect("15", RELEASE_REFUSAL_MEMBERSHIP, bound(0, 5, as_senior, 4));
    expect("15 before 21", RELEASE_REFUSAL_MEMBERSHIP, bound(3, 6, as_senior, 4));
    expect("21", RELEASE_REFUSAL_NO_POLICY_OR_WEIGHT, bound(3, 5, all, sizeof all));
    expect("21", RELEASE_REFUSAL_NO_POLICY_OR_WEIGHT, bound(256, 5, all, sizeof all));
    expect("21", RELEASE_REFUSAL_NO_POLICY_OR_WEIGHT, bound(0, 0, all, sizeof all));
    expect("21", RELEASE_REFUSAL_NO_POLICY_OR_WEIGHT, bound(0, 6, all, sizeof all));
    expect("21", RELEASE_REFUSAL_NO_POLICY_OR_WEIGHT, bound(0, 257, all, sizeof all));
    expect("the base's first bytes as a group", 256 * 8, bound(2, 5, shop, 4));
}

/* The answer is refusal + 256 * tried, and 5 carries the number tried too. */
static void parameters(void) {
    uint64_t answer = release_parameter(21, 3);
    expect("parameter", RELEASE_DONE, release_answer_refusal(answer));
    expect("tried up to role 2", 3, release_answer_count(answer));
    answer = release_parameter(9, 3);
    expect("5", RELEASE_REFUSAL_USERS, release_answer_refusal(answer));
    expect("all three tried", 3, release_answer_count(answer));
    expect("no role", 0, release_parameter(1, 3));
    expect("role 0", 256 * 1, release_parameter(3, 3));
    expect("role 0 of eight", 256 * 1, release_parameter(3, 8));
    expect("role 7", 256 * 8, release_parameter(23, 8));
    expect("all roles", 256 * 8, release_parameter(111546435, 8));
    expect("all eight roles of seven", 5 + 256 * 7, release_parameter(111546435, 7));
    expect("parameter 0", 5 + 256 * 3, release_parameter(0, 3));
    expect("role 3 of three", 5 + 256 * 3, release_parameter(11, 3));
    expect("the largest number", 5 + 256 * 8, release_parameter(UINT32_MAX, 8));
    expect("259 is not cut to 3", 5 + 256 * 8, release_parameter(259, 8));
    expect("no role of none", 0, release_parameter(1, 0));
    expect("role 0 of none", 5, release_parameter(3, 0));
    expect("9 roles are 8", 256 * 8, release_parameter(23, 9));
    expect("256 roles are 8", 256 * 8, release_parameter(23, 256));
    expect("257 roles are 8", 5 + 256 * 8, release_parameter(9, 257));
    expect("the largest number of roles is 8", 5 + 256 * 8, release_parameter(9, UINT32_MAX));
}

/* A sheet's bytes between guards. */
struct guarded {
    uint8_t before[8];
    uint8_t sheet[RELEASE_SHEET_BYTES];
    uint8_t after[8];
};

/* What lies there before a sheet is opened. */
static struct guarded unopened(void) {
    struct guarded guarded;
    memset(&guarded, 7, sizeof guarded);
    return guarded;
}

/* The sheet's bytes, and those beside it. */
static void expect_sheet(const char *what, const uint8_t *expected, struct guarded found) {
    struct guarded all = unopened();
    memcpy(all.sheet, expected, RELEASE_SHEET_BYTES);
    expect(what, 0, memcmp(&all, &found, sizeof all) != 0);
}

static void openings(void) {
    const uint8_t unsigned_0[RELEASE_SHEET_BYTES] = {0};
    const uint8_t refused[RELEASE_SHEET_BYTES] = {255};
    struct guarded guarded = unopened();
    expect("open", RELEASE_DONE, release_sheet_open(shop, SHOP, 0, guarded.sheet));
    expect_sheet("an opened sheet", unsigned_0, guarded);
    guarded = unopened();
    expect("10", RELEASE_REFUSAL_NO_PERMISSION,
           release_sheet_open(shop, SHOP, 256, guarded.sheet));
    expect_sheet("a refused opening writes", refused, guarded);
    guarded = unopened();
    expect("2", RELEASE_REFUSAL_LETTERS,
           release_sheet_open(shop, SHOP - 1, 0, guarded.sheet));
    expect_sheet("a refused opening writes", refused, guarded);
}

static void signings(void) {
    const uint8_t signed_1[RELEASE_SHEET_BYTES] = {0, 1, 0, 0};
    const uint8_t signed_2[RELEASE_SHEET_BYTES] = {0, 2, 0, 0, 3, 2};
    const uint8_t signed_3[RELEASE_SHEET_BYTES] = {0, 3, 0, 0, 3, 2, 1, 2};
    struct guarded guarded = unopened();
    expect("open", RELEASE_DONE, release_sheet_open(shop, SHOP, 0, guarded.sheet));
    expect("sign", RELEASE_DONE, release_sheet_sign(shop, SHOP, 0, 0, guarded.sheet));
    expect_sheet("a signed sheet", signed_1, guarded);
    expect("2", RELEASE_REFUSAL_LETTERS,
           release_sheet_sign(shop, SHOP - 1, 0, 0, guarded.sheet));
    expect("13", RELEASE_REFUSAL_NO_USER_OR_ROLE,
           release_sheet_sign(shop, SHOP, 256, 0, guarded.sheet));
    expect("13", RELEASE_REFUSAL_NO_USER_OR_ROLE,
           release_sheet_sign(shop, SHOP, 0, 3, guarded.sheet));
    expect("14", RELEASE_REFUSAL_USER_TWICE,
           release_sheet_sign(shop, SHOP, 0, 1, guarded.sheet));
    expect("15", RELEASE_REFUSAL_MEMBERSHIP,
           release_sheet_sign(shop, SHOP, 3, 1, guarded.sheet));
    expect_sheet("a refused signing writes nothing", signed_1, guarded);
    expect("sign", RELEASE_DONE, release_sheet_sign(shop, SHOP, 3, 2, guarded.sheet));
    expect_sheet("a sheet signed twice", signed_2, guarded);
    expect("the buyer as a clerk", RELEASE_DONE,
           release_sheet_sign(shop, SHOP, 1, 2, guarded.sheet));
    expect_sheet("a sheet signed by three", signed_3, guarded);
}

static void withdrawals(void) {
    const uint8_t three[RELEASE_SHEET_BYTES] = {0, 3, 0, 0, 3, 2, 1, 2};
    const uint8_t two[RELEASE_SHEET_BYTES] = {0, 2, 0, 0, 1, 2};
    const uint8_t again[RELEASE_SHEET_BYTES] = {0, 3, 0, 0, 1, 2, 3, 2};
    const uint8_t unsigned_0[RELEASE_SHEET_BYTES] = {0};
    struct guarded guarded = unopened();
    memcpy(guarded.sheet, three, sizeof three);
    expect("23", RELEASE_REFUSAL_NO_SIGNATURE, release_sheet_withdraw(2, guarded.sheet));
    expect("23", RELEASE_REFUSAL_NO_SIGNATURE, release_sheet_withdraw(256, guarded.sheet));
    expect("23", RELEASE_REFUSAL_NO_SIGNATURE, release_sheet_withdraw(259, guarded.sheet));
    expect("23", RELEASE_REFUSAL_NO_SIGNATURE,
           release_sheet_withdraw(UINT32_MAX, guarded.sheet));
    expect_sheet("a refused withdrawal writes nothing", three, guarded);
    expect("withdraw", RELEASE_DONE, release_sheet_withdraw(3, guarded.sheet));
    expect_sheet("the others in their order", two, guarded);
    expect("23", RELEASE_REFUSAL_NO_SIGNATURE, release_sheet_withdraw(3, guarded.sheet));
    expect("sign again", RELEASE_DONE, release_sheet_sign(shop, SHOP, 3, 2, guarded.sheet));
    expect_sheet("the last of three", again, guarded);
    expect("take it back", RELEASE_DONE, release_sheet_withdraw(3, guarded.sheet));
    expect_sheet("the sheet as it was", two, guarded);
    expect("withdraw", RELEASE_DONE, release_sheet_withdraw(0, guarded.sheet));
    expect("withdraw", RELEASE_DONE, release_sheet_withdraw(1, guarded.sheet));
    expect_sheet("an unsigned sheet", unsigned_0, guarded);
    expect("23", RELEASE_REFUSAL_NO_SIGNATURE, release_sheet_withdraw(0, guarded.sheet));
}

/* Sheets that no call made: more entries claimed than there can be, a user named
   twice, and bytes behind the entries. */
static void other_sheets(void) {
    const uint8_t over[RELEASE_SHEET_BYTES] = {9, 255, 1, 1, 2, 2, 3, 3, 4, 4, 5, 5, 6, 6};
    const uint8_t five[RELEASE_SHEET_BYTES] = {9, 5, 1, 1, 2, 2, 3, 3, 5, 5, 6, 6};
    const uint8_t twice[RELEASE_SHEET_BYTES] = {9, 3, 1, 1, 2, 2, 1, 3, 4, 4, 1, 5, 6, 6};
    const uint8_t one[RELEASE_SHEET_BYTES] = {9, 1, 2, 2};
    struct guarded guarded = unopened();
    memcpy(guarded.sheet, over, sizeof over);
    expect("withdraw", RELEASE_DONE, release_sheet_withdraw(4, guarded.sheet));
    expect_sheet("five of six", five, guarded);
    memcpy(guarded.sheet, twice, sizeof twice);
    expect("23", RELEASE_REFUSAL_NO_SIGNATURE, release_sheet_withdraw(4, guarded.sheet));
    expect_sheet("a refused withdrawal writes nothing", twice, guarded);
    expect("withdraw", RELEASE_DONE, release_sheet_withdraw(1, guarded.sheet));
    expect_sheet("one of three", one, guarded);
    expect("23", RELEASE_REFUSAL_NO_SIGNATURE, release_sheet_withdraw(1, guarded.sheet));
}

/* Sheets that claim as many entries as there can be, and more, of users that
   the shop doesn't have. */
static void full_sheets(void) {
    uint8_t full[RELEASE_SHEET_BYTES] = {0, 6, 9, 9, 10, 9, 11, 9, 12, 9, 13, 9, 14, 9};
    uint8_t claimed;
    for (claimed = RELEASE_MOST_ENTRIES; claimed <= 8; claimed++) {
        struct guarded guarded = unopened();
        full[RELEASE_SHEET_COUNT] = claimed;
        memcpy(guarded.sheet, full, RELEASE_SHEET_BYTES);
        expect("13", RELEASE_REFUSAL_NO_USER_OR_ROLE,
               release_sheet_sign(shop, SHOP, 9, 9, guarded.sheet));
        expect("15", RELEASE_REFUSAL_MEMBERSHIP,
               release_sheet_sign(shop, SHOP, 1, 0, guarded.sheet));
        expect("20", RELEASE_REFUSAL_SHEET_FULL,
               release_sheet_sign(shop, SHOP, 1, 1, guarded.sheet));
        expect("13", RELEASE_REFUSAL_NO_USER_OR_ROLE,
               release_sheet_ask(shop, SHOP, 600, 0, 0, DATE, guarded.sheet));
        expect_sheet("a full sheet", full, guarded);
    }
    full[RELEASE_SHEET_ENTRIES] = 1;
    expect("14", RELEASE_REFUSAL_USER_TWICE, release_sheet_sign(shop, SHOP, 1, 0, full));
}

static uint32_t ask(uint32_t minute, const uint8_t *sheet) {
    return release_sheet_ask(shop, SHOP, minute, 0, 0, DATE, sheet);
}

static void askings(void) {
    const uint8_t two[RELEASE_SHEET_BYTES] = {0, 2, 0, 0, 2, 2};
    uint8_t sheet[RELEASE_SHEET_BYTES];
    memcpy(sheet, two, sizeof sheet);
    expect("granted", RELEASE_DONE, ask(600, sheet));
    expect("2", RELEASE_REFUSAL_LETTERS,
           release_sheet_ask(shop, SHOP - 1, 600, 0, 0, DATE, sheet));
    expect("11", RELEASE_REFUSAL_CONTEXT, ask(1440, sheet));
    expect("11", RELEASE_REFUSAL_CONTEXT, release_sheet_ask(shop, SHOP, 0, 7, 0, DATE, sheet));
    expect("11", RELEASE_REFUSAL_CONTEXT, release_sheet_ask(shop, SHOP, 0, 0, 256, DATE, sheet));
    expect("16", RELEASE_REFUSAL_NO_WEIGHT, ask(480, sheet));
    sheet[RELEASE_SHEET_COUNT] = 1;
    expect("17", RELEASE_REFUSAL_CONDITION, ask(600, sheet));
    sheet[RELEASE_SHEET_COUNT] = 0;
    expect("12", RELEASE_REFUSAL_GROUP_LENGTH, ask(600, sheet));
    sheet[RELEASE_SHEET_PERMISSION] = 255;
    expect("10", RELEASE_REFUSAL_NO_PERMISSION, ask(1440, sheet));
    expect("the base as a sheet: user 1 as role 2", 17, ask(600, shop));
}

/* Manager and clerk, where the clerk has days 899 to 901. */
static void dates(void) {
    const uint8_t list[] = {RELEASE_RULE_LATER_DAY};
    const uint8_t two[] = {0, 0, 2, 2};
    const uint8_t clerks[] = {3, 2, 2, 2};
    const uint8_t as_senior[] = {2, 2, 1, 0};
    uint8_t base[SHOP];
    uint8_t sheet[RELEASE_SHEET_BYTES];
    uint32_t date;
    uint8_t batched = 77;
    with_days(base, 2, 899, 901);
    expect("open", RELEASE_DONE, release_sheet_open(base, SHOP, 0, sheet));
    expect("sign", RELEASE_DONE, release_sheet_sign(base, SHOP, 0, 0, sheet));
    expect("signing knows no date", RELEASE_DONE, release_sheet_sign(base, SHOP, 2, 2, sheet));
    for (date = 897; date <= 903; date++) {
        uint32_t answer = date < 899 || 901 < date ? RELEASE_REFUSAL_OUT_OF_DATE : RELEASE_DONE;
        expect("decide", answer, release_decide(base, SHOP, 0, 600, 0, 0, date, two, 4));
        expect("decide by", answer,
               release_decide_by(base, SHOP, 0, 600, 0, 0, date, list, 1, two, 4));
        expect("ask", answer, release_sheet_ask(base, SHOP, 600, 0, 0, date, sheet));
        expect("batch", RELEASE_DONE,
               release_batch(base, SHOP, 600, 0, 0, date, asked, RELEASE_QUERY_BYTES,
                             &batched, 1));
        expect("answer to a query", answer, batched);
    }
    expect("11", RELEASE_REFUSAL_CONTEXT,
           release_batch(base, SHOP, 600, 0, 0, 65536, asked, RELEASE_QUERY_BYTES, &batched, 1));
    expect("15 before 24", RELEASE_REFUSAL_MEMBERSHIP,
           release_decide(base, SHOP, 0, 600, 0, 0, 902, as_senior, 4));
    expect("24 of the second before 16 of the first", RELEASE_REFUSAL_OUT_OF_DATE,
           release_decide(base, SHOP, 0, 480, 0, 0, 902, clerks, 4));
    expect("16", RELEASE_REFUSAL_NO_WEIGHT,
           release_decide(base, SHOP, 0, 480, 0, 0, 901, clerks, 4));
    expect("the last date", RELEASE_DONE,
           release_decide(shop, SHOP, 0, 600, 0, 0, 65535, two, 4));
    expect("11", RELEASE_REFUSAL_CONTEXT,
           release_decide(shop, SHOP, 0, 600, 0, 0, 65536, two, 4));
    expect("11", RELEASE_REFUSAL_CONTEXT,
           release_decide_by(shop, SHOP, 0, 600, 0, 0, UINT32_MAX, list, 1, two, 4));
    expect("11", RELEASE_REFUSAL_CONTEXT,
           release_sheet_ask(shop, SHOP, 600, 0, 0, 65536 + DATE, sheet));
}

/* Where the manager has days 899 to 901, nobody else can release. */
static void reports_on_dates(void) {
    const uint8_t list[] = {RELEASE_RULE_LATER_DAY};
    uint8_t base[SHOP];
    uint8_t out[RELEASE_PERMISSION_BYTES];
    uint32_t date;
    with_days(base, 0, 899, 901);
    for (date = 897; date <= 903; date++) {
        uint64_t count = date < 899 || 901 < date ? 0 : 1;
        expect("report", 256 * count,
               release_report(base, SHOP, 600, 0, 0, date, out, sizeof out));
        expect("approvers", 2 * count, out[0]);
        expect("report by", 256 * count,
               release_report_by(base, SHOP, 600, 0, 0, date, list, 1, out, sizeof out));
        expect("approvers", 2 * count, out[0]);
    }
    expect("11", RELEASE_REFUSAL_CONTEXT,
           release_report(shop, SHOP, 600, 0, 0, 65536, out, sizeof out));
    expect("11", RELEASE_REFUSAL_CONTEXT,
           release_report_by(shop, SHOP, 600, 0, 0, 65536, list, 1, out, sizeof out));
}

static void nulls(void) {
    uint8_t out[RELEASE_PERMISSION_BYTES];
    uint8_t sheet[RELEASE_SHEET_BYTES] = {0};
    uint8_t least[RELEASE_SHORTEST_BASE];
    memset(least, 0, sizeof least);
    least[28] = 1;
    memcpy(least + 32, "LCAQ", 4);
    expect("no base", 1, release_check(NULL, 0));
    expect("no base", 1, release_decide(NULL, 0, 0, 480, 0, 0, DATE, NULL, 0));
    expect("no base", 1, release_decide_by(NULL, 0, 0, 480, 0, 0, DATE, NULL, 0, NULL, 0));
    expect("no base", 1, release_report(NULL, 0, 480, 0, 0, DATE, out, sizeof out));
    expect("no base", 1, release_report(NULL, 0, 480, 0, 0, DATE, NULL, 0));
    expect("no base", 1, release_report_by(NULL, 0, 480, 0, 0, DATE, NULL, 0, NULL, 0));
    expect("no base", 1,
           release_vouch_decide(NULL, 0, 0, 480, 0, 0, DATE, NULL, 0, 1, NULL, 0));
    expect("no base", 1, release_vouch_report(NULL, 0, 480, 0, 0, DATE, NULL, 0, 1, 0, NULL, 0));
    expect("no base", 1, release_conflicts(NULL, 0, out, sizeof out));
    expect("no base", 1, release_conflicts(NULL, 0, NULL, 0));
    expect("no base", 1, release_bound(NULL, 0, 0, 5, NULL, 0));
    expect("no base", 1, release_batch(NULL, 0, 480, 0, 0, DATE, NULL, 0, NULL, 0));
    expect("no base", 1, release_sheet_sign(NULL, 0, 0, 0, sheet));
    expect("no base", 1, release_sheet_ask(NULL, 0, 480, 0, 0, DATE, sheet));
    expect("no base", 1, release_sheet_open(NULL, 0, 0, sheet));
    expect("permission 255", 255, sheet[RELEASE_SHEET_PERMISSION]);
    expect("no list", 22, release_decide_by(shop, SHOP, 0, 480, 0, 0, DATE, NULL, 0, NULL, 0));
    expect("no list", 22, release_report_by(shop, SHOP, 480, 0, 0, DATE, NULL, 0, NULL, 0));
    expect("no group", 12, release_decide(shop, SHOP, 0, 480, 0, 0, DATE, NULL, 0));
    expect("no group", 12, release_decide_by(shop, SHOP, 0, 480, 0, 0, DATE, shop, 1, NULL, 0));
    expect("no group", 12, release_bound(shop, SHOP, 0, 5, NULL, 0));
    expect("no statements, no group", 12,
           release_vouch_decide(shop, SHOP, 0, 480, 0, 0, DATE, NULL, 0, 1, NULL, 0));
    expect("no statements, no buffer", 19,
           release_vouch_report(shop, SHOP, 480, 0, 0, DATE, NULL, 0, 1, 0, NULL, 0));
    expect("no buffer", 19, release_report(shop, SHOP, 480, 0, 0, DATE, NULL, 0));
    expect("no buffer", 19, release_report_by(shop, SHOP, 480, 0, 0, DATE, shop, 1, NULL, 0));
    expect("no permission, no buffer", 0,
           release_report(least, sizeof least, 480, 0, 0, DATE, NULL, 0));
    expect("no conflict, no buffer", 0, release_conflicts(shop, SHOP, NULL, 0));
    expect("no query, no buffer", 0,
           release_batch(shop, SHOP, 480, 0, 0, DATE, NULL, 0, NULL, 0));
    expect("no query, no context", 11,
           release_batch(shop, SHOP, 1440, 0, 0, DATE, NULL, 0, NULL, 0));
    expect("no buffer", 28,
           release_batch(shop, SHOP, 480, 0, 0, DATE, asked, sizeof asked, NULL, 0));
}

/* Registers, groups and buffers that start anywhere, and bases too. */
static void unaligned_registers(void) {
    const uint8_t two[] = {0, 0, 2, 2};
    uint8_t base[SHOP + 8];
    uint8_t statements[sizeof trusted + 8];
    uint8_t group[4 + 8];
    uint8_t out[RELEASE_PERMISSION_BYTES + 8];
    size_t at;
    for (at = 0; at < 8; at++) {
        memcpy(base + at, shop, SHOP);
        memset(statements, 255, sizeof statements);
        memcpy(statements + at, trusted, sizeof trusted);
        memcpy(group + at, two, 4);
        expect("vouch", 0,
               release_vouch_decide(base + at, SHOP, 0, 600, 0, 0, DATE, statements + at,
                                    sizeof trusted, 3, group + at, 4));
        expect("report for a requester", 256,
               release_vouch_report(base + at, SHOP, 600, 0, 0, DATE, statements + at,
                                    sizeof trusted, 3, 3, out + at, RELEASE_PERMISSION_BYTES));
        expect("approvers", 2, out[at]);
    }
}

/* Queries and answers that start anywhere, and bases too. */
static void unaligned_batches(void) {
    uint8_t base[SHOP + 8];
    uint8_t queries[2 * RELEASE_QUERY_BYTES + 8];
    uint8_t out[2 + 8];
    size_t at;
    for (at = 0; at < 8; at++) {
        memcpy(base + at, shop, SHOP);
        memset(queries, 255, sizeof queries);
        memcpy(queries + at, asked, 2 * RELEASE_QUERY_BYTES);
        memset(out, 77, sizeof out);
        expect("batch", 0,
               release_batch(base + at, SHOP, 600, 0, 0, DATE, queries + at,
                             2 * RELEASE_QUERY_BYTES, out + at, 2));
        expect("granted", 0, out[at]);
        expect("refused", 17, out[at + 1]);
        expect("the base's bytes as a query: user 1 as role 2", 0,
               release_batch(base + at, SHOP, 600, 0, 0, DATE, base + at, RELEASE_QUERY_BYTES,
                             out + at, 1));
        expect("refused", 17, out[at]);
    }
}

/* Bases, lists, groups, buffers and sheets that start anywhere. */
static void unaligned(void) {
    const uint8_t two[] = {0, 0, 1, 1};
    uint8_t base[SHOP + 8];
    uint8_t list[2 + 8];
    uint8_t group[4 + 8];
    uint8_t out[RELEASE_PERMISSION_BYTES + 8];
    uint8_t sheet[RELEASE_SHEET_BYTES + 8];
    size_t at;
    for (at = 0; at < 8; at++) {
        memcpy(base + at, shop, SHOP);
        memset(list, 255, sizeof list);
        list[at] = RELEASE_RULE_SMALLER_WEIGHT;
        list[at + 1] = RELEASE_RULE_LATER_DAY;
        memcpy(group + at, two, 4);
        memset(out, 7, sizeof out);
        expect("check", 0, release_check(base + at, SHOP));
        expect("decide", 0, release_decide(base + at, SHOP, 0, 480, 0, 0, DATE, group + at, 4));
        expect("report", 256,
               release_report(base + at, SHOP, 480, 0, 0, DATE, out + at,
                              RELEASE_PERMISSION_BYTES));
        expect("approvers", 2, out[at]);
        expect("decide by", 0,
               release_decide_by(base + at, SHOP, 0, 480, 0, 0, DATE, list + at, 2, group + at, 4));
        expect("report by", 256,
               release_report_by(base + at, SHOP, 480, 0, 0, DATE, list + at, 2, out + at,
                                 RELEASE_PERMISSION_BYTES));
        expect("conflicts", 0, release_conflicts(base + at, SHOP, out + at, 3));
        expect("bound", 256 * 8, release_bound(base + at, SHOP, 1, 5, group + at, 4));
        expect("open", 0, release_sheet_open(base + at, SHOP, 0, sheet + at));
        expect("sign", 0, release_sheet_sign(base + at, SHOP, 0, 0, sheet + at));
        expect("sign", 0, release_sheet_sign(base + at, SHOP, 1, 1, sheet + at));
        expect("ask", 0, release_sheet_ask(base + at, SHOP, 480, 0, 0, DATE, sheet + at));
        expect("withdraw", 0, release_sheet_withdraw(0, sheet + at));
        expect("the buyer moves up", 1, sheet[at + RELEASE_SHEET_ENTRIES]);
    }
}

int main(void) {
    if (fread(shop, 1, SHOP, stdin) != SHOP) {
        printf("the small shop has %d bytes\n", SHOP);
        return 1;
    }
    checks();
    days();
    lengths();
    decisions();
    decisions_by();
    reports();
    reports_by();
    vouched_decisions();
    vouched_refusals();
    registers();
    vouched_reports();
    batches();
    batch_refusals();
    longest_batch();
    conflicts();
    acting_conflicts();
    bounds();
    parameters();
    openings();
    signings();
    withdrawals();
    other_sheets();
    full_sheets();
    askings();
    dates();
    reports_on_dates();
    nulls();
    unaligned();
    unaligned_registers();
    unaligned_batches();
    if (differences == 0) {
        printf("ok\n");
    }
    return differences != 0;
}
