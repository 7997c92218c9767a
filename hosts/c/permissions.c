/* Who may look names up, list them and read, and who gets a lease by number. tools/hosts runs it: it says nothing and answers 0 where all is as
 * it should be. */
#include "kfs.h"
#include <stdio.h>

/* Client 7 makes directory 3 named `d` with mode 0711, and in it file 5 named `a` with mode 0640. */
static const uint8_t both[] = "KLOG\1\0\0\0\7\0\2\1\0\0\0\1\1d\0\0\0\3\1\1\311\1\0\0\0\3\1a\0\0\0\5\0\1\240";

/* Client 8 is in the group of client 7, client 9 isn't, and client 10 is privileged. */
static const struct kfs_client clients[] = {
    { .number = 7, .uid = 1000, .gid = 1000, .first = 2, .last = 99 },
    { .number = 8, .uid = 1001, .gid = 1001, .first = 100, .last = 199, .groups_start = 0, .groups_count = 1 },
    { .number = 9, .uid = 1002, .gid = 1002, .first = 200, .last = 299 },
    { .number = 10, .uid = 1003, .gid = 1003, .first = 1, .last = 0, .privileged = true },
};
static const uint32_t groups[] = { 1000 };

static int failed;

static void expect(uint32_t said, uint32_t due, const char *what)
{
    if (said == due) return;
    printf("%s: %u, not %u\n", what, said, due);
    failed = 1;
}

/* Of each client on a directory and a file, a code for each of the three; 0: it may. */

static void check_permissions(struct kfs *view)
{
    static const struct {
        uint32_t client, directory, file, codes[3];
    } rows[] = {
        { 7, 3, 5, { 0, 0, 0 } },
        { 8, 3, 5, { 0, KFS_MAY_NO_READ, 0 } },
        { 9, 3, 5, { 0, KFS_MAY_NO_READ, KFS_MAY_NO_READ } },
        { 10, 3, 5, { 0, 0, 0 } },
        { 10, 5, 3, { KFS_MAY_NOT_DIRECTORY, KFS_MAY_NOT_DIRECTORY, KFS_MAY_IS_DIRECTORY } },
        { 9, 4, 0, { KFS_MAY_NO_SUCH_NODE, KFS_MAY_NO_SUCH_NODE, KFS_MAY_NO_SUCH_NODE } },
        { 11, 4, 0, { KFS_MAY_UNKNOWN_CLIENT, KFS_MAY_UNKNOWN_CLIENT, KFS_MAY_UNKNOWN_CLIENT } },
    };
    for (size_t i = 0; i < sizeof rows / sizeof *rows; i++)
        for (uint32_t access = KFS_FIND_NAME; access <= KFS_READ_BYTES; access++) {
            struct kfs_fault fault = { 0 };
            uint32_t number = access == KFS_READ_BYTES ? rows[i].file : rows[i].directory;
            uint32_t due = rows[i].codes[access - 1];
            expect(kfs_may(view, access, rows[i].client, number, &fault), due ? KFS_REFUSED : KFS_DONE, "a permission");
            expect(fault.code, due, "its code");
        }
}

/* Of a handle of another kind, and of an access that is none. */
static void check_handles(struct kfs *desk, struct kfs *view)
{
    struct kfs none = { 0 };
    struct kfs_fault fault = { 0 };
    expect(kfs_may(view, 0, 7, 1, &fault), KFS_NOTHING, "access 0");
    expect(kfs_may(view, 4, 11, 9, &fault), KFS_NOTHING, "access 4");
    expect(kfs_may(desk, KFS_FIND_NAME, 7, 1, &fault), KFS_WRONG_KIND, "permissions of a desk");
    expect(kfs_may(&none, KFS_FIND_NAME, 7, 1, &fault), KFS_CLOSED, "permissions of nothing");
    expect(fault.code, 0, "no fault");
}

/* Of leases by number: the refusals in their order, then what the bits of a file permit. */
static void check_leases(struct kfs *desk)
{
    static const struct {
        uint32_t client, number;
        bool write;
        uint64_t end;
        uint32_t code, detail;
    } rows[] = {
        { 11, 4, true, 0, KFS_LEASE_UNKNOWN_CLIENT, 0 },
        { 9, 4, true, 0, KFS_LEASE_NO_SUCH_NODE, 0 },
        { 9, 5, true, 0, KFS_LEASE_NOT_ALLOWED, 0 },
        { 10, 1, false, 0, KFS_LEASE_PAST, 0 },
        { 10, 1, false, 100, KFS_LEASE_HELD, 7 },
        { 8, 5, false, 100, 0, 0 },
        { 8, 5, true, 100, KFS_LEASE_NOT_ALLOWED, 0 },
        { 9, 5, false, 100, KFS_LEASE_NOT_ALLOWED, 0 },
        { 7, 5, true, 100, KFS_LEASE_HELD, 8 },
        { 10, 5, false, 100, 0, 0 },
        { 7, 3, true, 100, 0, 0 },
    };
    for (size_t i = 0; i < sizeof rows / sizeof *rows; i++) {
        struct kfs_act act = { 0 };
        expect(kfs_lease_at(desk, rows[i].client, rows[i].number, rows[i].write, rows[i].end, &act), KFS_DONE, "a lease by number");
        expect(act.done, rows[i].code == 0, "whether it is given");
        expect(act.fault.code, rows[i].code, "why not");
        expect(act.fault.detail, rows[i].detail, "by whom");
        if (act.done) expect((uint32_t)act.number, rows[i].number, "its number");
    }
}

int main(void)
{
    struct kfs desk = { 0 }, view = { 0 };
    struct kfs_fault fault = { 0 };
    struct kfs_act act = { 0 };
    struct kfs_reply reply = { 0 };
    expect(kfs_open(&desk, 8, 8, 8, clients, 4, groups, 1, 32, &fault), KFS_DONE, "a desk");
    expect(kfs_lease(&desk, 7, (const uint8_t *)"/", 1, true, 100, &act), KFS_DONE, "a lease");
    expect(kfs_do(&desk, 7, both, sizeof both - 1, &reply), KFS_DONE, "both nodes");
    expect(kfs_look(&desk, &view), KFS_DONE, "a view");
    check_permissions(&view);
    check_handles(&desk, &view);
    check_leases(&desk);
    kfs_close(&view);
    kfs_close(&desk);
    return failed;
}
