/* From a new image to a landing. docs/EMBEDDING.md shows `serve`; tools/hosts runs it. */
#include "kfs.h"
#include <stdio.h>
#include <stdlib.h>

/* Client 7 creates the file 5, named `a`, in the root directory, with mode 0644. */
static const uint8_t log_bytes[] = "KLOG\1\0\0\0\7\0\1\1\0\0\0\1\1a\0\0\0\5\0\1\244";

/* Opens a desk, lets client 7 lease the root, makes the plan of its log, judges it and lands it. */
static int serve(const uint8_t *log, size_t log_len, struct kfs_reply *reply)
{
    struct kfs desk = { 0 }, view = { 0 }, verdict = { 0 };
    struct kfs_client client = { .number = 7, .uid = 1000, .gid = 1000, .first = 2, .last = 99 };
    uint32_t groups[1] = { 50 };
    struct kfs_fault fault = { 0 };
    struct kfs_act act = { 0 };
    uint8_t none, *plan = NULL;
    size_t len = 0;
    client.groups_count = 1;
    /* three tiers, of 4, 16 and 64 MiB; at most 1,000 calls are answered */
    uint32_t status = kfs_open(&desk, 1024, 4096, 16384, &client, 1, groups, 1, 1000, &fault);
    if (status == KFS_DONE) status = kfs_lease(&desk, 7, (const uint8_t *)"/", 1, true, 100, &act);
    if (status == KFS_DONE && !act.done) status = KFS_REFUSED;
    /* the client's library makes the plan, where it can; else the desk does, its length first */
    if (status == KFS_DONE) status = kfs_plan(&desk, 7, log, log_len, &none, 0, &len);
    if (status == KFS_SHORT) status = (plan = malloc(len)) ? KFS_DONE : KFS_NO_MEMORY;
    if (status == KFS_DONE) status = kfs_plan(&desk, 7, log, log_len, plan, len, &len);
    /* judging looks at a view and touches nothing else: it may be done anywhere */
    if (status == KFS_DONE) status = kfs_look(&desk, &view);
    if (status == KFS_DONE) status = kfs_judge(&view, 7, log, log_len, plan, len, &verdict);
    kfs_close(&view);
    if (status == KFS_DONE) status = kfs_land(&desk, &verdict, reply);
    kfs_close(&verdict);
    kfs_close(&desk);
    free(plan);
    return status == KFS_DONE ? kfs_reply_errno(reply) : kfs_status_errno(status);
}

int main(void)
{
    struct kfs_reply reply = { 0 };
    int error = serve(log_bytes, sizeof log_bytes - 1, &reply);
    printf("errno %d, row %u, kind %u, need %u\n", error, reply.position, reply.kind, (unsigned)reply.need);
    return error;
}
