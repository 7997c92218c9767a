/* Logs handed in without a plan, and names looked up. tools/hosts runs it: it says nothing and answers 0 where
 * all is as it should be. */
#include "kfs.h"
#include <stdio.h>

/* Client 7 makes directory 3 named `d` with mode 0711, and in it file 5 named `a` with mode 0640. */
static const uint8_t both[] = "KLOG\1\0\0\0\7\0\2\1\0\0\0\1\1d\0\0\0\3\1\1\311\1\0\0\0\3\1a\0\0\0\5\0\1\240";

/* It creates the name `d` of the root once more. */
static const uint8_t again[] = "KLOG\1\0\0\0\7\0\1\1\0\0\0\1\1d\0\0\0\6\0\1\244";

static const struct kfs_client clients[] = {
    { .number = 7, .uid = 1000, .gid = 1000, .first = 2, .last = 99 },
    { .number = 8, .uid = 1001, .gid = 1001, .first = 100, .last = 199 },
};
static const uint32_t groups[] = { 0 };

static int failed;

static void expect(uint32_t said, uint32_t due, const char *what)
{
    if (said == due) return;
    printf("%s: %u, not %u\n", what, said, due);
    failed = 1;
}

/* ---- logs without plans */

static void expect_fault(struct kfs *desk, uint32_t client, const uint8_t *log, size_t len, uint32_t code,
                         uint32_t reason, const char *what)
{
    struct kfs_reply reply = { 0 };
    expect(kfs_do(desk, client, log, len, &reply), KFS_DONE, what);
    expect(reply.kind, KFS_NO, what);
    expect(reply.fault.code, code, what);
    expect(reply.fault.reason, reason, what);
}

static void check_logs(struct kfs *desk)
{
    struct kfs_reply reply = { 0 };
    struct kfs_act act = { 0 };
    expect_fault(desk, 7, both, sizeof both - 1, KFS_ENTRY, KFS_NO_LEASE, "no lease");
    expect(kfs_lease(desk, 7, (const uint8_t *)"/", 1, true, 100, &act), KFS_DONE, "a lease");
    expect(kfs_do(desk, 7, both, sizeof both - 1, &reply), KFS_DONE, "both nodes");
    expect(reply.kind, KFS_YES, "both nodes");
    expect_fault(desk, 7, again, sizeof again - 1, KFS_ENTRY, KFS_NAME_TAKEN, "a taken name");
    expect_fault(desk, 11, again, sizeof again - 1, KFS_UNKNOWN_CLIENT, 0, "an unknown client");
    expect_fault(desk, 8, again, sizeof again - 1, KFS_WRONG_CLIENT, 0, "another client's log");
    expect_fault(desk, 7, again, 4, KFS_BAD_LOG, KFS_BAD_HEADER, "no log");
}

/* ---- names */

static void check_names(struct kfs *desk)
{
    static const struct {
        uint32_t directory;
        const char *name;
        size_t len;
        uint32_t status, number;
    } rows[] = {
        { 1, "d", 1, KFS_DONE, 3 },     { 3, "a", 1, KFS_DONE, 5 },       { 1, "a", 1, KFS_NOTHING, 77 },
        { 5, "a", 1, KFS_NOTHING, 77 }, { 9, "a", 1, KFS_NOTHING, 77 },   { 1, "..", 2, KFS_REFUSED, 77 },
        { 1, "", 0, KFS_REFUSED, 77 },  { 1, "a/b", 3, KFS_REFUSED, 77 },
    };
    for (size_t i = 0; i < sizeof rows / sizeof *rows; i++) {
        uint32_t number = 77;
        expect(kfs_find(desk, rows[i].directory, (const uint8_t *)rows[i].name, rows[i].len, &number), rows[i].status,
               rows[i].name);
        expect(number, rows[i].number, rows[i].name);
    }
}

/* ---- handles of another kind */

static void check_handles(struct kfs *view)
{
    struct kfs none = { 0 };
    struct kfs_reply reply = { 0 };
    uint32_t number = 0;
    expect(kfs_find(view, 1, (const uint8_t *)"d", 1, &number), KFS_WRONG_KIND, "names of a view");
    expect(kfs_find(&none, 1, (const uint8_t *)"d", 1, &number), KFS_CLOSED, "names of nothing");
    expect(kfs_do(view, 7, again, sizeof again - 1, &reply), KFS_WRONG_KIND, "a log for a view");
    expect(kfs_do(&none, 7, again, sizeof again - 1, &reply), KFS_CLOSED, "a log for nothing");
}

int main(void)
{
    struct kfs desk = { 0 }, view = { 0 };
    struct kfs_fault fault = { 0 };
    /* a docket of eight rows: six logs, a lease, and one more */
    expect(kfs_open(&desk, 8, 8, 8, clients, 2, groups, 0, 8, &fault), KFS_DONE, "a desk");
    check_logs(&desk);
    check_names(&desk);
    expect(kfs_look(&desk, &view), KFS_DONE, "a view");
    check_handles(&view);
    expect_fault(&desk, 7, again, sizeof again - 1, KFS_ENTRY, KFS_NAME_TAKEN, "the last row");
    struct kfs_reply reply = { 0 };
    expect(kfs_do(&desk, 7, both, sizeof both - 1, &reply), KFS_FULL, "a full docket");
    kfs_close(&view);
    kfs_close(&desk);
    return failed;
}
