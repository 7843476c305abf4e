/* Asks the message check about good and damaged messages, and prints each answer. */
#include <stdio.h>
#include <string.h>

#include "scene_share.h"

enum { VOID = 0, EDIT = 1, REPORT = 2 };

static int wrong = 0;

static void expect(const char *what, const uint32_t *words, size_t count, uint32_t sites, uint32_t answer) {
    uint32_t got = scene_share_message_kind(words, count, sites);
    printf("%-44s %u%s\n", what, (unsigned)got, got == answer ? "" : "  WRONG");
    wrong |= got != answer;
}

/* Site 2, ticket 5, snapshot 3: item 7 is set to -1, and item 9 is removed. */
static const uint32_t edit[] = {0x12000002, 0x30000005, 0x40000003, 0x50000007, 0x6FFFFFFF, 0x50000009, 0x70000000};

/* Site 1 reports version 4. */
static const uint32_t report[] = {0x21000000, 0x40000004};

#define COUNT(words) (sizeof(words) / sizeof(words)[0])

/* The edit with one of its words replaced. */
static void expect_damaged(const char *what, size_t place, uint32_t word) {
    uint32_t words[COUNT(edit)];
    memcpy(words, edit, sizeof edit);
    words[place] = word;
    expect(what, words, COUNT(words), 3, VOID);
}

static void good_messages(void) {
    const uint32_t least[] = {0x10000001, 0x30000001, 0x40000000, 0x50000000, 0x68000000};
    const uint32_t greatest[] = {0x17000001, 0x3FFFFFFF, 0x4FFFFFFF, 0x5FFFFFFF, 0x67FFFFFF};
    const uint32_t last_report[] = {0x27000000, 0x4FFFFFFF};
    uint32_t full[3 + 2 * 16] = {0x10000010, 0x30000001, 0x40000000};
    for (uint32_t i = 0; i < 16; i++) {
        full[3 + 2 * i] = 0x50000000 + i;
        full[4 + 2 * i] = 0x70000000;
    }

    expect("edit", edit, COUNT(edit), 3, EDIT);
    expect("edit in the largest group", edit, COUNT(edit), 8, EDIT);
    expect("edit of least numbers", least, COUNT(least), 2, EDIT);
    expect("edit of greatest numbers", greatest, COUNT(greatest), 8, EDIT);
    expect("edit of sixteen writes", full, COUNT(full), 2, EDIT);
    expect("report", report, COUNT(report), 2, REPORT);
    expect("report of greatest numbers", last_report, COUNT(last_report), 8, REPORT);
}

static void damaged_messages(void) {
    uint32_t longer[COUNT(edit) + 1];
    memcpy(longer, edit, sizeof edit);
    longer[COUNT(edit)] = 0x70000000;
    const uint32_t no_writes[] = {0x12000000, 0x30000005, 0x40000003};
    uint32_t many[3 + 2 * 17] = {0x10000011, 0x30000001, 0x40000000};
    for (uint32_t i = 0; i < 17; i++) {
        many[3 + 2 * i] = 0x50000000 + i;
        many[4 + 2 * i] = 0x70000000;
    }
    const uint32_t longer_report[] = {0x21000000, 0x40000004, 0x40000004};
    const uint32_t counted_report[] = {0x21000001, 0x40000004};

    expect("edit cut by one word", edit, COUNT(edit) - 1, 3, VOID);
    expect("edit and one word more", longer, COUNT(longer), 3, VOID);
    expect_damaged("edit of equal items", 5, 0x50000007);
    expect_damaged("edit of falling items", 5, 0x50000006);
    expect_damaged("edit of ticket 0", 1, 0x30000000);
    expect_damaged("edit with a stray bit in its head", 0, 0x12000102);
    expect_damaged("edit with a removal that has a load", 6, 0x70000001);
    expect_damaged("edit of another count than its writes", 0, 0x12000003);
    expect_damaged("edit of count 255", 0, 0x120000FF);
    expect("edit of no writes", no_writes, COUNT(no_writes), 3, VOID);
    expect("edit of seventeen writes", many, COUNT(many), 3, VOID);
    expect("report cut by one word", report, COUNT(report) - 1, 2, VOID);
    expect("report and one word more", longer_report, COUNT(longer_report), 2, VOID);
    expect("report with a count", counted_report, COUNT(counted_report), 2, VOID);
    expect("no words", edit, 0, 3, VOID);
}

static void other_groups(void) {
    expect("edit of site 2 in a group of 2", edit, COUNT(edit), 2, VOID);
    expect("report in a group of 0", report, COUNT(report), 0, VOID);
    expect("report in a group of 1", report, COUNT(report), 1, VOID);
    expect("report in a group of 9", report, COUNT(report), 9, VOID);
    expect("edit in a group of 9", edit, COUNT(edit), 9, VOID);
}

int main(void) {
    good_messages();
    damaged_messages();
    other_groups();
    return wrong;
}
