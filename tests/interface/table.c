/* The office's table as a C program sees it in the installed library: a day over any number of records, counts that are each group's own,
 * counts and allowances up to the highest number, and the lowest group that is nearly full. */
#include <pevghazo.h>
#include <stdio.h>
#include <stdlib.h>
#include <string.h>

static void check(const char *what, uint32_t found, uint32_t expected) {
    if (found == expected) return;
    fprintf(stderr, "table: %s gives %u, and should give %u\n", what, found, expected);
    exit(1);
}

/* The bytes of a session's fields; behind them anything may stand. */
enum { FIELDS = offsetof(pevghazo_session, opened) + 1 };

static void same_session(const char *what, const pevghazo_session *found, const pevghazo_session *expected) {
    check(what, memcmp(found, expected, FIELDS) != 0, 0);
}

static const uint8_t key[] = "the key of a group";
enum { key_len = sizeof key - 1 };

/* A run of up to 33 records, with one before and one behind it; their sessions and counts are all others, and the first of the run has
 * the highest count. */
enum { LONGEST = PEVGHAZO_GROUPS + 1 };
static pevghazo_record records[LONGEST + 2], before[LONGEST + 2];

static void fill(void) {
    for (uint32_t i = 0; i < LONGEST + 2; i++) {
        memset(&records[i], (int)(i + 1), sizeof records[i]);
        records[i].session.toggle = i % 2 == 0;
        records[i].session.opened = i % 3 == 0;
        records[i].count = i == 1 ? UINT32_MAX : UINT32_MAX / (i + 2);
    }
    memcpy(before, records, sizeof records);
}

/* Every count of the run becomes 0, every session stays, and nothing beside the run is altered. */
static void day_over(uint32_t length, uint32_t allowance) {
    fill();
    check("starting a day", pevghazo_start_day(&records[1], length, allowance), allowance);
    for (uint32_t i = 1; i <= length; i++) {
        check("a count at the start of a day", records[i].count, 0);
        same_session("a session at the start of a day", &records[i].session, &before[i].session);
    }
    check("what stands before the run", memcmp(&records[0], &before[0], sizeof records[0]) != 0, 0);
    check("what stands behind the run", memcmp(&records[length + 1], &before[length + 1], (LONGEST + 1 - length) * sizeof records[0]) != 0, 0);
}

static void days(void) {
    static const uint32_t lengths[] = {0, 1, 31, 32, 33}, allowances[] = {0, 1, 1000, UINT32_MAX - 1, UINT32_MAX};
    for (int i = 0; i < 5; i++)
        for (int j = 0; j < 5; j++) day_over(lengths[i], allowances[j]);
}

/* A table whose groups are all open; each has made one permutation. */
static pevghazo_record office[PEVGHAZO_GROUPS];

static void open_all(uint32_t allowance) {
    check("starting a day", pevghazo_start_day(office, PEVGHAZO_GROUPS, allowance), allowance);
    for (uint32_t group = 0; group < PEVGHAZO_GROUPS; group++)
        check("opening a group", pevghazo_open_group(office, PEVGHAZO_GROUPS, group, allowance, key, key_len).number, PEVGHAZO_ACCEPTED);
}

/* Wraps, and unwraps with a wrong tag, nothing for a group: each counts 3. */
static uint32_t wrap(uint32_t group, uint32_t allowance) {
    uint8_t out[1], tag[PEVGHAZO_TAG_LENGTH];
    return pevghazo_wrap_group(office, PEVGHAZO_GROUPS, group, allowance, key, 0, key, 0, out, 0, tag, sizeof tag).number;
}

static uint32_t unwrap_wrong(uint32_t group, uint32_t allowance) {
    uint8_t out[1], tag[PEVGHAZO_TAG_LENGTH] = {0};
    return pevghazo_unwrap_group(office, PEVGHAZO_GROUPS, group, allowance, key, 0, key, 0, tag, sizeof tag, out, 0).number;
}

/* A group that has used its allowance gets 10, and the others go on. */
static void busy(void) {
    const uint32_t allowance = 7;
    open_all(allowance);
    check("the busy group's first wrap", wrap(5, allowance), PEVGHAZO_ACCEPTED);
    pevghazo_session kept = office[5].session;
    check("its wrong tag", unwrap_wrong(5, allowance), PEVGHAZO_WRONG_TAG);
    same_session("its session after a wrong tag", &office[5].session, &kept);
    check("its count after a wrong tag", office[5].count, 7);
    check("its next wrap", wrap(5, allowance), PEVGHAZO_ALLOWANCE);
    check("its next unwrap", unwrap_wrong(5, allowance), PEVGHAZO_ALLOWANCE);
    check("its opening", pevghazo_open_group(office, PEVGHAZO_GROUPS, 5, allowance, key, key_len).number, PEVGHAZO_ALLOWANCE);
    same_session("its session after these", &office[5].session, &kept);
    check("its count after these", office[5].count, 7);
    for (uint32_t group = 0; group < PEVGHAZO_GROUPS; group++) {
        if (group == 5) continue;
        check("another group's count", office[group].count, 1);
        check("another group's wrap", wrap(group, allowance), PEVGHAZO_ACCEPTED);
        check("its count after it", office[group].count, 4);
    }
}

/* Opening again adds 1 and does not set the count back. */
static void opening(void) {
    open_all(3);
    check("opening a second time", pevghazo_open_group(office, PEVGHAZO_GROUPS, 31, 3, key, key_len).number, PEVGHAZO_ACCEPTED);
    check("the count after it", office[31].count, 2);
    check("opening with a short key", pevghazo_open_group(office, PEVGHAZO_GROUPS, 31, 3, key, PEVGHAZO_KEY_MIN - 1).number, PEVGHAZO_BAD_KEY);
    check("opening a group that is none", pevghazo_open_group(office, PEVGHAZO_GROUPS, 32, 3, key, key_len).number, PEVGHAZO_BAD_GROUP);
    check("opening in a short table", pevghazo_open_group(office, PEVGHAZO_GROUPS - 1, 0, 3, key, key_len).number, PEVGHAZO_BAD_GROUP);
    check("the count after refusals", office[31].count, 2);
    check("another group's count", office[0].count, 1);
}

/* Counts and allowances up to the highest number: nothing goes over. */
static void highest(void) {
    open_all(UINT32_MAX);
    office[0].count = UINT32_MAX, office[1].count = UINT32_MAX - 2, office[2].count = UINT32_MAX - 3, office[3].count = UINT32_MAX - 1;
    check("a wrap above the highest count", wrap(0, UINT32_MAX), PEVGHAZO_ALLOWANCE);
    check("a wrap that would pass it by 1", wrap(1, UINT32_MAX), PEVGHAZO_ALLOWANCE);
    check("a wrap under a small allowance", wrap(1, 0), PEVGHAZO_ALLOWANCE);
    check("an opening above the highest count", pevghazo_open_group(office, PEVGHAZO_GROUPS, 0, UINT32_MAX, key, key_len).number, PEVGHAZO_ALLOWANCE);
    check("an opening under the allowance 0", pevghazo_open_group(office, PEVGHAZO_GROUPS, 0, 0, key, key_len).number, PEVGHAZO_ALLOWANCE);
    check("a wrap that just fits", wrap(2, UINT32_MAX), PEVGHAZO_ACCEPTED);
    check("an opening that just fits", pevghazo_open_group(office, PEVGHAZO_GROUPS, 3, UINT32_MAX, key, key_len).number, PEVGHAZO_ACCEPTED);
    check("the highest count", office[0].count, UINT32_MAX);
    check("a count that was refused", office[1].count, UINT32_MAX - 2);
    check("a count that is full", office[2].count, UINT32_MAX);
    check("the count of an opening", office[3].count, UINT32_MAX);
}

enum { NONE = 99 };

/* The nearly-full question names this group, or none. */
static void names(const char *what, uint32_t mark, uint32_t expected) {
    const pevghazo_found full = pevghazo_nearly_full(office, PEVGHAZO_GROUPS, mark);
    check(what, full.number, PEVGHAZO_ACCEPTED);
    check(what, full.found ? full.group : NONE, expected);
    if (!full.found) check("the group where none is named", full.group, 0);
}

/* All groups are open, or closed, with this index. */
static void set_all(bool opened, uint32_t index) {
    memset(office, 0, sizeof office);
    for (uint32_t group = 0; group < PEVGHAZO_GROUPS; group++) office[group].session.opened = opened, office[group].session.index = index;
}

/* The lowest of several groups; once it is closed, or opened again, the next; and none where there is none. */
static void lowest(void) {
    open_all(1000);
    names("groups that were just opened", 0, NONE);
    office[4].session.index = 8, office[19].session.index = 9, office[31].session.index = 8;
    names("the lowest of three", 7, 4);
    names("the only one above the mark", 8, 19);
    names("no index above the mark", 9, NONE);
    office[4].session.opened = false;
    names("the lowest, where a lower one is closed", 7, 19);
    check("opening it again", pevghazo_open_group(office, PEVGHAZO_GROUPS, 19, 1000, key, key_len).number, PEVGHAZO_ACCEPTED);
    names("the lowest, where a lower one was opened again", 7, 31);
    office[31].session.index = 7;
    names("a group at the mark", 7, NONE);
    for (uint32_t group = 0; group < PEVGHAZO_GROUPS; group++) {
        set_all(true, 5);
        office[group].session.index = 6;
        names("one group above the mark", 5, group);
    }
}

/* All groups, and indices and marks up to the highest number; a closed group is not named, and another number of records is refused. */
static void no_group(void) {
    static pevghazo_record longer[PEVGHAZO_GROUPS + 1];
    static const uint32_t lengths[] = {0, 1, 31, 33};
    set_all(true, UINT32_MAX);
    names("all groups", 0, 0);
    names("all groups, with the highest index", UINT32_MAX - 1, 0);
    names("the highest mark", UINT32_MAX, NONE);
    memcpy(longer, office, sizeof office);
    longer[PEVGHAZO_GROUPS] = office[0];
    for (int i = 0; i < 4; i++) {
        const pevghazo_found refused = pevghazo_nearly_full(longer, lengths[i], 0);
        check("another number of records", refused.number, PEVGHAZO_BAD_GROUP);
        check("whether it names a group", refused.found, false);
        check("the group that it names", refused.group, 0);
    }
    set_all(false, UINT32_MAX);
    names("closed groups with the highest index", 0, NONE);
    office[31].session.opened = true;
    names("one of them that is open", 0, 31);
}

int main(void) {
    days();
    busy();
    opening();
    highest();
    lowest();
    no_group();
    puts("table: a day goes over any number of records, each group has a count of its own, and the lowest nearly full group is named");
    return 0;
}
