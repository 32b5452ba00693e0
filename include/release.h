/*
 * The release decider for shelf labels: its C interface.
 *
 * The functions are in libexports.a, which `tools/build` proves and
 * builds (target/staticlib/libexports.a, for x86-64 Linux):
 *
 *     cc -Iinclude program.c target/staticlib/libexports.a
 *
 * Answers. Each call takes any bytes whatever and gives one answer: 0 (granted
 * or done), or the number of the first refusal that applies, in the order of
 * enum release_refusal but for 22, which comes after 9, 25 and 27, which come after
 * 9 too, in this order, and 24 and 26, which come after 15. A refused call writes
 * nothing, with one exception: a refused opening gives the unsigned sheet for
 * permission 255 in its 14 bytes. Some answers carry a number beside the refusal;
 * it is 0 of every refusal but 18 of release_conflicts and 5 of release_parameter.
 * An answer depends on the arguments alone.
 *
 * Contexts. Eight calls take a context: a minute (0 to 1439), a day of the week (0
 * to 6), a zone (0 to 255) and a date (0 to 65535), in this order, each a number of
 * its own. The date counts days as the first and last days of the base's users do,
 * and those of a register's statements. Which policies are active depends on
 * minute, day and zone; who may approve and which statements are valid depends on
 * the date.
 *
 * Upgrading. A base whose users have no days is refused by 2, for its letters. The
 * date stands behind the zone in each call with a context; there is no call without
 * one, so that a compiler shows every place that lacks it. A program compiled with
 * an older header has to be compiled anew.
 *
 * Pointers. A slice passes as a pointer and its length in bytes.
 * - The pointer is valid for that length: base, list, statements (a register),
 *   group and queries to read, out and answers to read and write. It needs no
 *   alignment. Nothing beyond the length is read or written.
 * - With length 0 the pointer may be anything, NULL too: it isn't followed.
 *   With a length above 0 it isn't NULL; nothing checks that.
 * - out overlaps neither base, list nor statements, and answers neither base nor
 *   queries. base, list, statements, group and queries may overlap.
 * A sheet passes as a pointer alone.
 * - The pointer is valid for 14 bytes: to read and write for opening, signing
 *   and withdrawing, to read for asking. It needs no alignment, and nothing
 *   beyond is read or written. It is never NULL; nothing checks that.
 * - base and a sheet that is opened or signed don't overlap. base and a sheet
 *   that is asked may.
 * Nobody else writes the bytes during the call, and nobody else reads out, answers
 * or a sheet that is opened, signed or withdrawn from. The library keeps no pointer
 * when the call has returned.
 *
 * Threads. There is no state between calls and nothing is allocated. Any
 * number of threads may call at once, also with the same base, with the same
 * register or asking the same sheet, each with a buffer of its own, or a sheet of
 * its own to open, sign or withdraw from.
 *
 * Stack. release_report, release_report_by and release_vouch_report take about
 * 30,000 bytes, release_batch about 10,500, every other call less than 4,096. A
 * thread with 64 KiB of stack suffices for each.
 */
#ifndef RELEASE_H
#define RELEASE_H

#include <stddef.h>
#include <stdint.h>

/* A policy base has 36 to 2,460 bytes. */
#define RELEASE_SHORTEST_BASE 36
#define RELEASE_LONGEST_BASE 2460

/* A user has 8 bytes in a base: the parameter (4), the first day and the last (2
   each), all little-endian. Both days are among the user's days. */
#define RELEASE_USER_BYTES 8

/* A group has 1 to 6 entries of 2 bytes: user, role acted in. A user may act in
   a role that the user holds, or that is junior to one that the user holds. */
#define RELEASE_ENTRY_BYTES 2
#define RELEASE_MOST_ENTRIES 6

/* A report has 13 bytes a permission, and a base at most 16 permissions. */
#define RELEASE_PERMISSION_BYTES 13
#define RELEASE_MOST_PERMISSIONS 16
#define RELEASE_LONGEST_REPORT (RELEASE_PERMISSION_BYTES * RELEASE_MOST_PERMISSIONS)

/* A conflict list has 3 bytes a conflict: kind, first, second. */
#define RELEASE_CONFLICT_BYTES 3

/* A sheet has 14 bytes: at 0 its permission, at 1 the number of its entries,
   from 2 on six entries of 2 bytes: user, role acted in. It holds the first of
   them, as many as byte 1 says; where that is above six, it holds six. */
#define RELEASE_SHEET_BYTES 14
#define RELEASE_SHEET_PERMISSION 0
#define RELEASE_SHEET_COUNT 1
#define RELEASE_SHEET_ENTRIES 2

/* A resolution list has 1 to 3 bytes, each a different rule. Of two policies with
   the same role and permission the first rule that tells them apart decides which
   goes before, or else their order in A. */
#define RELEASE_LONGEST_RESOLUTION 3

/* The rules of a resolution list. */
enum release_rule {
    /* The later issue day goes first. */
    RELEASE_RULE_LATER_DAY = 0,
    /* The larger rank number goes first. */
    RELEASE_RULE_LARGER_RANK = 1,
    /* The smaller weight goes first. */
    RELEASE_RULE_SMALLER_WEIGHT = 2
};

/* A register has up to 256 statements of 8 bytes, in any order: the issuer, who
   trusts, the requester, who is trusted, the permission and the trust, 1 to 5 (1
   each), the first day and the last (2 each, little-endian). Both days are among
   the statement's days. */
#define RELEASE_STATEMENT_BYTES 8
#define RELEASE_LONGEST_REGISTER 2048

/* A query has 14 bytes: at 0 its permission, at 1 the number of its entries, from
   2 on six entries of 2 bytes: user, role acted in. Its group is the first of them,
   as many as byte 1 says. A batch has up to 1,024 queries and an answer of one byte
   for each. */
#define RELEASE_QUERY_BYTES 14
#define RELEASE_QUERY_PERMISSION 0
#define RELEASE_QUERY_COUNT 1
#define RELEASE_QUERY_ENTRIES 2
#define RELEASE_MOST_QUERIES 1024

/* The refusals; each call's comment says which it can give. They are checked in
   rising order, but for 22, 25 and 27, which come after 9, and 24 and 26, which
   come after 15: for a decision the order is 1 to 15, 24, 16, 17, for one by a list
   1 to 9, 22, 10 to 15, 24, 16, 17, for one by a register 1 to 9, 25, 27, 10 to 15,
   24, 26, 16, 17, for a report by a list 1 to 9, 22, 11, 19, for one by a register
   1 to 9, 25, 27, 11, 13, 19, for signing 1 to 9, 13, 14, 15, 20, for a bound 1 to
   9, 12 to 15, 21, for a batch 1 to 9, 11, 28. The tables of a base are H
   (hierarchy), U (users), P (permissions), K (group clauses), C (context clauses),
   A (policies) and X (exclusions); R is the number of roles. */
enum release_refusal {
    /* No refusal: granted or done. */
    RELEASE_DONE = 0,
    /* The base is shorter than 36 or longer than 2,460 bytes. */
    RELEASE_REFUSAL_LENGTH = 1,
    /* The base's last four bytes aren't LCAQ. */
    RELEASE_REFUSAL_LETTERS = 2,
    /* The rest of the trailer breaks its rules, a count is above its limit,
       or the tables don't fill the bytes before it in order. */
    RELEASE_REFUSAL_TRAILER = 3,
    /* An H record has senior not below junior, or junior not below R. */
    RELEASE_REFUSAL_HIERARCHY = 4,
    /* A user's parameter is no product of different codes of roles below R, or
       the first day is above the last. */
    RELEASE_REFUSAL_USERS = 5,
    /* A K record breaks its rules or names a permission that isn't in P. */
    RELEASE_REFUSAL_GROUP_CLAUSES = 6,
    /* A C record breaks its rules. */
    RELEASE_REFUSAL_CONTEXT_CLAUSES = 7,
    /* An A record breaks its rules, or its role or permission isn't there. */
    RELEASE_REFUSAL_POLICIES = 8,
    /* An X record breaks its rules, or its b isn't a role or permission
       there. */
    RELEASE_REFUSAL_EXCLUSIONS = 9,
    /* The permission isn't in P. */
    RELEASE_REFUSAL_NO_PERMISSION = 10,
    /* Minute, day, zone or date is out of range. */
    RELEASE_REFUSAL_CONTEXT = 11,
    /* The group's length is 0, odd or above 12; of a query, its number of entries
       is 0 or above 6. */
    RELEASE_REFUSAL_GROUP_LENGTH = 12,
    /* An entry's user isn't in U, or its role isn't below R; of
       release_vouch_report, the requester isn't in U. */
    RELEASE_REFUSAL_NO_USER_OR_ROLE = 13,
    /* A user stands in two entries; of a signing, its user is on the sheet. */
    RELEASE_REFUSAL_USER_TWICE = 14,
    /* An entry's user may not act in its role: the user holds neither it nor a
       role senior to it. */
    RELEASE_REFUSAL_MEMBERSHIP = 15,
    /* An entry's role has weight 0 for the permission. */
    RELEASE_REFUSAL_NO_WEIGHT = 16,
    /* The permission's condition doesn't hold. */
    RELEASE_REFUSAL_CONDITION = 17,
    /* The buffer is shorter than 3 times the number of conflicts. */
    RELEASE_REFUSAL_CONFLICT_BUFFER = 18,
    /* The buffer is shorter than 13 times the number of permissions. */
    RELEASE_REFUSAL_REPORT_BUFFER = 19,
    /* The sheet already holds six entries. */
    RELEASE_REFUSAL_SHEET_FULL = 20,
    /* The policy isn't in A, or its new weight isn't 1 to 5. */
    RELEASE_REFUSAL_NO_POLICY_OR_WEIGHT = 21,
    /* The resolution list is empty, longer than 3 bytes, repeats a rule or holds
       another byte. */
    RELEASE_REFUSAL_RESOLUTION = 22,
    /* The user has no entry on the sheet. */
    RELEASE_REFUSAL_NO_SIGNATURE = 23,
    /* The date is before the first or after the last day of an entry's user. */
    RELEASE_REFUSAL_OUT_OF_DATE = 24,
    /* The register's length isn't a multiple of 8 or exceeds 2,048, or a statement
       names a user or permission that isn't there, has a trust that isn't 1 to 5
       or a first day above the last. */
    RELEASE_REFUSAL_REGISTER = 25,
    /* An entry but the first has no statement by which its user vouches for the
       requester. */
    RELEASE_REFUSAL_NOT_VOUCHED = 26,
    /* The threshold isn't 1 to 5. */
    RELEASE_REFUSAL_THRESHOLD = 27,
    /* The query bytes aren't whole queries of 14, the queries are more than 1,024,
       or the answer buffer is shorter than their number. */
    RELEASE_REFUSAL_QUERIES = 28
};

#ifdef __cplusplus
extern "C" {
#endif

/*
 * The base check: 0, or the first of refusals 1 to 9 that applies.
 */
uint32_t release_check(const uint8_t *base, size_t base_len);

/*
 * The decision for one group: 0 if it is granted the permission, or the first
 * of refusals 1 to 15, 24, 16 and 17 that applies. The permission is its number
 * in P, from 0 on. The context is a minute (0 to 1439), a day (0 to 6), a zone (0
 * to 255) and a date (0 to 65535). Numbers aren't cut: permission 256 is refused
 * by 10, zone 256 and date 65536 by 11. The group is its entries' bytes, in any
 * order.
 */
uint32_t release_decide(const uint8_t *base, size_t base_len,
                        uint32_t permission,
                        uint32_t minute, uint32_t day, uint32_t zone,
                        uint32_t date,
                        const uint8_t *group, size_t group_len);

/*
 * The decision by a resolution list: 0 if the group is granted the permission,
 * or the first of refusals 1 to 9, 22, 10 to 15, 24, 16 and 17 that applies. An
 * empty list is refused by 22; without a list it is release_decide.
 *
 * Where several policies of one role for the permission are active, the one that
 * no other of them goes before counts for the role, in place of the first in A;
 * and among those of type 1 the one that no other of these goes before is what
 * its seniors inherit. All else is as in release_decide.
 */
uint32_t release_decide_by(const uint8_t *base, size_t base_len,
                           uint32_t permission,
                           uint32_t minute, uint32_t day, uint32_t zone,
                           uint32_t date,
                           const uint8_t *list, size_t list_len,
                           const uint8_t *group, size_t group_len);

/*
 * The decision at a requester's request: 0 if the group is granted the permission,
 * or the first of refusals 1 to 9, 25, 27, 10 to 15, 24, 26, 16 and 17 that
 * applies. The first entry of the group is the requester's. The user of each other
 * entry has to vouch for the requester, by a single statement of the register that
 * - is from that user, its issuer, to the requester,
 * - is for the permission,
 * - is valid on the date, its first and its last day included, and
 * - has a trust of at least the threshold, which is 1 to 5.
 * A requester alone needs none. Numbers aren't cut: threshold 257 is refused by 27.
 * All else is as in release_decide; the order of the entries behind the first
 * doesn't matter.
 *
 * An empty register passes. Statements may stand more than once, and those that the
 * group has no use for change no answer; but each of them has to keep the rules.
 */
uint32_t release_vouch_decide(const uint8_t *base, size_t base_len,
                              uint32_t permission,
                              uint32_t minute, uint32_t day, uint32_t zone,
                              uint32_t date,
                              const uint8_t *statements, size_t statements_len,
                              uint32_t threshold,
                              const uint8_t *group, size_t group_len);

/*
 * A batch of queries about one base in one context: 0, or the first of refusals 1
 * to 9, 11 and 28 that applies. The base is checked once for all of them, which
 * makes a batch much quicker than a call of release_decide for each query.
 *
 * Of 0, the first byte of answers is the answer to the first query, the next to the
 * second and so on: what release_decide answers for the query's permission, the
 * context and the group of its first n entries, where n is the query's number of
 * entries. So it is 10 if the permission isn't in P, else 12 if n is 0 or above 6,
 * else the first of 13, 14, 15, 24, 16 and 17 that applies, or 0 if the group is
 * granted the permission. Entries behind the first n may hold any bytes and change
 * no answer. One query's answer depends on no other query. Later bytes of answers
 * keep their contents.
 *
 * With no query at all it is 0 and no byte is written, and answers may have length
 * 0 too; a context out of range is refused by 11 even then.
 */
uint32_t release_batch(const uint8_t *base, size_t base_len,
                       uint32_t minute, uint32_t day, uint32_t zone,
                       uint32_t date,
                       const uint8_t *queries, size_t queries_len,
                       uint8_t *answers, size_t answers_len);

/*
 * The release report: refusal + 256 * count. The refusal is 0, or the first of
 * 1 to 9, 11 and 19 that applies; the count is the number of permissions that
 * some group is granted, and 0 if refused.
 *
 * Of 0, the first 13 bytes of out are permission 0's, the next 13 permission
 * 1's and so on: the number k of approvers (0 to 6), then the k entries of a
 * group that is granted, by rising user, and 255 in every byte left. No group
 * with fewer entries is granted; with k = 0 no group is. Granting is that of
 * release_decide in the same context, so that only users whose days include the
 * date are considered. Later bytes of out keep their contents.
 *
 * A buffer of RELEASE_LONGEST_REPORT bytes suffices for every base. If it was
 * filled with 255, a part that was written is told by its first byte, which is
 * at most 6.
 */
uint64_t release_report(const uint8_t *base, size_t base_len,
                        uint32_t minute, uint32_t day, uint32_t zone,
                        uint32_t date,
                        uint8_t *out, size_t out_len);

/*
 * The release report by a resolution list: refusal + 256 * count. The refusal is
 * 0, or the first of 1 to 9, 22, 11 and 19 that applies; the count is the number
 * of permissions that some group is granted, and 0 if refused. An empty list is
 * refused by 22; without a list it is release_report.
 *
 * The bytes of out are written as by release_report, for the groups that
 * release_decide_by grants with the same context and list.
 */
uint64_t release_report_by(const uint8_t *base, size_t base_len,
                           uint32_t minute, uint32_t day, uint32_t zone,
                           uint32_t date,
                           const uint8_t *list, size_t list_len,
                           uint8_t *out, size_t out_len);

/*
 * The release report for a requester: refusal + 256 * count. The refusal is 0, or
 * the first of 1 to 9, 25, 27, 11, 13 and 19 that applies; 13 is that the requester
 * isn't in U. The number isn't cut: requester 256 is refused by 13. The count is
 * the number of permissions that some group is granted with the requester first,
 * and 0 if refused.
 *
 * The bytes of out are written as by release_report, for the groups that
 * release_vouch_decide grants with the requester first, by the same context,
 * register and threshold. Of a group shown the requester's entry stands first, and
 * the others follow by rising user. Where the requester's days don't include the
 * date, every k is 0.
 */
uint64_t release_vouch_report(const uint8_t *base, size_t base_len,
                              uint32_t minute, uint32_t day, uint32_t zone,
                              uint32_t date,
                              const uint8_t *statements, size_t statements_len,
                              uint32_t threshold, uint32_t requester,
                              uint8_t *out, size_t out_len);

/*
 * The conflict list: refusal + 256 * count. The refusal is 0, or the first of
 * 1 to 9 and 18 that applies. The count is the number of conflicts: those
 * written or, of 18, those that would be. Of refusals 1 to 9 it is 0. So a
 * call with length 0 tells how many there are.
 *
 * Of 0, out starts with the list, by kind, then first, then second:
 * - kind 1: two policies of equal role and permission, whose contexts can hold
 *   together, with different weight or type;
 * - kind 2: two policies for permissions that exclude each other, and some
 *   role is covered by both, whatever their contexts; a policy covers its role
 *   and, if its type is 1, that role's seniors;
 * - kind 3: a user, and an exclusion of two roles in both of which that user may
 *   act: the roles held and those junior to them, whatever the user's days.
 * First and second are the records' numbers in A, of kind 3 in U and X. Later
 * bytes of out keep their contents.
 */
uint64_t release_conflicts(const uint8_t *base, size_t base_len,
                           uint8_t *out, size_t out_len);

/*
 * How far a new weight of one policy can shift a group's sum of weights:
 * refusal + 256 * bound. The refusal is 0, or the first of 1 to 9, 12 to 15 and
 * 21 that applies; if refused, the bound is 0. No byte is written.
 *
 * The policy is its number in A, from 0 on; the new weight is 1 to 5. Numbers
 * aren't cut: policy 256 is refused by 21, and so is weight 256. The group is
 * its entries' bytes, in any order; 12 to 15 are those of release_decide. The
 * users' days play no part.
 *
 * Of 0, the base with that weight in place of the old one passes the check, and
 * for every permission and context, by every resolution list and without one,
 * the sum of weights of this group by it differs from the sum by this base by at
 * most the bound: the difference of the two weights times the number of entries
 * whose role is the policy's or senior to it, whatever the policy's type,
 * permission and context. It is at most 24.
 */
uint64_t release_bound(const uint8_t *base, size_t base_len,
                       uint32_t policy, uint32_t weight,
                       const uint8_t *group, size_t group_len);

/*
 * The check of one user's parameter where there are so many roles: refusal +
 * 256 * tried. The refusal is 0, or 5 if the parameter is no product of different
 * codes of roles below that number; 1 is no role and passes. The call takes no
 * base, and no byte is read or written.
 *
 * The codes of roles 0 to 7 are 3, 5, 7, 11, 13, 17, 19 and 23. The check tries
 * them in role order, divides out each one that divides what is left of the
 * parameter, and ends as soon as 1 is left. The number tried is 0 for parameter 1;
 * for any other that passes, the highest role's number plus one; and for one that
 * is refused, the number of roles. So 5 carries a number here, as no refusal but
 * 18 does elsewhere.
 *
 * More than 8 roles are read as 8. Numbers aren't cut: 256 and 257 roles are read
 * as 8, and parameter 259 isn't 3. With 0 roles parameter 1 passes, every other
 * gets 5, and none is tried. A base has 1 to 8 roles; release_check gives 5, after
 * 1 to 4, where this call, with the base's number of roles, gives it for the
 * parameter of one of the users, or where a user's first day is above the last,
 * of which this call knows nothing.
 */
uint64_t release_parameter(uint32_t parameter, uint32_t roles);

/*
 * Opens a sheet, which collects signatures for a permission: 0, or the first of
 * refusals 1 to 10 that applies. The number isn't cut: permission 256 is
 * refused by 10.
 *
 * All 14 bytes of sheet are written, whatever they held. Of 0 it is the
 * unsigned sheet for the permission: its number, and 0 in every other byte. Of
 * a refusal it is the unsigned sheet for permission 255, which no base has.
 */
uint32_t release_sheet_open(const uint8_t *base, size_t base_len,
                            uint32_t permission, uint8_t *sheet);

/*
 * Takes a signature on a sheet, a user and the role acted in: 0, or the first
 * of refusals 1 to 9, 13, 14, 15 and 20 that applies. 13 to 15 are for the new
 * entry alone; it gets 14 if its user is on the sheet, in whatever role. A full
 * sheet gets them before 20. Numbers aren't cut: user 256 is refused by 13. The
 * sheet's permission isn't looked at, nor are the entries that it holds looked
 * at again: asking judges all of them by the base that it is handed. Signing
 * knows no date: a signature from out of its user's days is taken, and asking
 * gives 24.
 *
 * Of 0, the entry stands behind those that the sheet held, its number of
 * entries is one more, and every other byte is as it was. Of a refusal every
 * byte is.
 */
uint32_t release_sheet_sign(const uint8_t *base, size_t base_len,
                            uint32_t user, uint32_t role, uint8_t *sheet);

/*
 * Takes a user's signature back from a sheet: 0, or 23 if the user has no entry
 * among those that the sheet holds. The number isn't cut: user 256 is refused by
 * 23. No base is consulted.
 *
 * Of 0, the sheet holds the other entries, in their order: its number of entries
 * is theirs, they stand one behind the other from the first on, and every byte
 * behind them is 0. The permission is as it was. Where a sheet that no call made
 * names the user more than once, all those entries go. Of a refusal every byte
 * is as it was.
 *
 * So a signing that is taken back at once leaves every byte as it was before it.
 * The user may sign again, and then stands last.
 */
uint32_t release_sheet_withdraw(uint32_t user, uint8_t *sheet);

/*
 * Asks a sheet: 0, or the first of refusals 1 to 15, 24, 16 and 17 that applies,
 * which is the answer of release_decide for its permission, the context and the
 * group of the entries that it holds, in their order. So an unsigned sheet is
 * refused by 12, after 1 to 11, the sheet of a refused opening by 10, after 1 to
 * 9, and one with an entry whose user's days don't include the date by 24, after
 * 1 to 15, though its signing was taken. No byte is written.
 */
uint32_t release_sheet_ask(const uint8_t *base, size_t base_len,
                           uint32_t minute, uint32_t day, uint32_t zone,
                           uint32_t date,
                           const uint8_t *sheet);

/* The refusal in an answer of release_report, release_report_by,
   release_vouch_report, release_conflicts, release_bound or release_parameter. */
static inline uint32_t release_answer_refusal(uint64_t answer) {
    return (uint32_t)(answer % 256);
}

/* The count in an answer of release_report, release_report_by,
   release_vouch_report or release_conflicts, the bound in one of release_bound, or
   the number tried in one of release_parameter. */
static inline uint32_t release_answer_count(uint64_t answer) {
    return (uint32_t)(answer / 256);
}

#ifdef __cplusplus
}
#endif

#endif
