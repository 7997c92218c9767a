/* States and calls as bytes: a desk is saved and restored, and goes on by bytes as the other one goes on by structs. A
 * run of calls is cut at each of its calls: the desk is saved and restored there.
 *
 *     states [CUT]
 *
 * With CUT the run is cut there, and nothing else is done. tools/hosts runs it: it says nothing and answers 0 where all is
 * as it should be, and so it does where one allocation is refused of a run that is cut. */
#include "kfs.h"
#include <stdio.h>
#include <stdlib.h>
#include <string.h>

/* Client 7 creates the file 5, named `a`, in the root directory, with mode 0644. */
static const uint8_t create[] = "KLOG\1\0\0\0\7\0\1\1\0\0\0\1\1a\0\0\0\5\0\1\244";

/* It writes ten letters to it. */
static const uint8_t letters[] = "KLOG\1\0\0\0\7\0\1\2\0\0\0\5\0\0\0\0\0\0\0\0\0\0\0\12ABCDEFGHIJ";

/* It writes "xy" at 2 and "QRS" at 3, cuts the file to 4 bytes, lengthens it to 8, and writes "Z" at 12. */
static const uint8_t edits[] = "KLOG\1\0\0\0\7\0\5"
                               "\2\0\0\0\5\0\0\0\0\0\0\0\2\0\0\0\2xy"
                               "\2\0\0\0\5\0\0\0\0\0\0\0\3\0\0\0\3QRS"
                               "\3\0\0\0\5\0\0\0\0\0\0\0\4"
                               "\3\0\0\0\5\0\0\0\0\0\0\0\10"
                               "\2\0\0\0\5\0\0\0\0\0\0\0\14\0\0\0\1Z";

/* A plan of no rows. */
static const uint8_t no_rows[13] = "KPLN\1";

/* A byte that is no log, and two that are no plan. */
static const uint8_t no_log[1] = { 9 }, no_plan[2] = { 8, 7 };

static int failed;

static void expect(uint64_t said, uint64_t due, const char *what)
{
    if (said == due) return;
    printf("%s: %llu, not %llu\n", what, (unsigned long long)said, (unsigned long long)due);
    failed = 1;
}

/* ---- bytes, by docs/FORMATS.md */

struct bytes {
    uint8_t at[512];
    size_t len;
};

static void put(struct bytes *out, uint64_t number, size_t width)
{
    while (width-- > 0) out->at[out->len++] = (uint8_t)(number >> (8 * width));
}

static void put_all(struct bytes *out, const uint8_t *from, size_t len)
{
    memcpy(out->at + out->len, from, len);
    out->len += len;
}

static void put_fault(struct bytes *out, const struct kfs_fault *fault)
{
    put(out, fault->code, 1);
    put(out, fault->reason, 1);
    put(out, fault->index, 8);
    put(out, fault->detail, 4);
}

/* An answer to a call that is no submission: its tag where it was done, the width of what was done, and its tag
 * where it is refused. */
static void put_act(struct bytes *out, const struct kfs_act *act, uint8_t done, size_t width, uint8_t refused)
{
    put(out, act->position, 4);
    put(out, act->done ? done : refused, 1);
    if (act->done) put(out, act->number, width);
    else put_fault(out, &act->fault);
}

static void put_reply(struct bytes *out, const struct kfs_reply *reply)
{
    put(out, reply->position, 4);
    put(out, reply->kind == KFS_YES ? 1 : reply->kind == KFS_NO ? 2 : 3, 1);
    put(out, reply->rejudged, 1);
    if (reply->kind == KFS_NO) put_fault(out, &reply->fault);
    else put(out, reply->need, 8);
    if (reply->kind == KFS_NO_ROOM) put(out, reply->free, 4);
}

/* ---- calls as bytes */

static void put_submit(struct bytes *out, const uint8_t *log, size_t log_len, const uint8_t *plan, size_t plan_len)
{
    put(out, 1, 1);
    put(out, 7, 4);
    put(out, log_len, 4);
    put_all(out, log, log_len);
    put(out, plan_len, 4);
    put_all(out, plan, plan_len);
}

static void put_lease(struct bytes *out, uint32_t client, const char *path, bool write, uint64_t end)
{
    put(out, 2, 1);
    put(out, client, 4);
    put(out, write, 1);
    put(out, end, 8);
    put(out, strlen(path), 2);
    put_all(out, (const uint8_t *)path, strlen(path));
}

static void put_lease_at(struct bytes *out, uint32_t client, uint32_t number, bool write, uint64_t end)
{
    put(out, 6, 1);
    put(out, client, 4);
    put(out, write, 1);
    put(out, end, 8);
    put(out, number, 4);
}

static void put_drop(struct bytes *out, uint32_t client, uint32_t number)
{
    put(out, 3, 1);
    put(out, client, 4);
    put(out, number, 4);
}

static void put_tick(struct bytes *out, uint64_t moment)
{
    put(out, 4, 1);
    put(out, moment, 8);
}

static void put_moves(struct bytes *out, const struct kfs_move *moves, size_t count)
{
    put(out, 5, 1);
    put(out, count, 2);
    for (const struct kfs_move *move = moves; move < moves + count; move++) {
        put(out, move->number, 4);
        put(out, move->block, 4);
        put(out, move->tier, 1);
        put(out, move->place, 4);
    }
}

/* ---- states */

/* The desk's state as bytes, which the caller frees. */
static uint8_t *state_of(struct kfs *desk, size_t *len)
{
    uint8_t none, *bytes;
    expect(kfs_state(desk, &none, 0, len), KFS_SHORT, "the length of a state");
    bytes = malloc(*len);
    if (!bytes) exit(1);
    expect(kfs_state(desk, bytes, *len, len), KFS_DONE, "a state");
    return bytes;
}

static void check_same_state(struct kfs *one, struct kfs *other)
{
    size_t len, other_len;
    uint8_t *bytes = state_of(one, &len), *others = state_of(other, &other_len);
    expect(other_len, len, "the length of the other's state");
    if (len == other_len) expect(memcmp(bytes, others, len) != 0, 0, "the other's state");
    free(bytes);
    free(others);
}

/* A state with a byte changed, and one that is cut short, are refused, and the handle keeps its desk. */
static void check_refusals(struct kfs *desk, uint8_t *bytes, size_t len)
{
    struct kfs_fault fault = { 0 };
    uint32_t rows = 99;
    expect(kfs_restore(desk, bytes, 20, 9, &fault), KFS_REFUSED, "half a header");
    expect(fault.code == KFS_OPEN_STATE && fault.reason == 1, 1, "its fault");
    expect(kfs_restore(desk, bytes, 42, 9, &fault), KFS_REFUSED, "half a client");
    expect(fault.code == KFS_OPEN_STATE && fault.reason == 2 && fault.index == 0 && fault.detail == 0, 1, "its fault");
    bytes[50] ^= 1; /* the client of the lease: 7 becomes 6 */
    expect(kfs_restore(desk, bytes, len, 9, &fault), KFS_REFUSED, "a lease of no client");
    expect(fault.code == KFS_OPEN_LEASE && fault.reason == 1 && fault.index == 0, 1, "its fault");
    bytes[50] ^= 1;
    bytes[60] ^= 1; /* the first byte of the image */
    expect(kfs_restore(desk, bytes, len, 9, &fault), KFS_REFUSED, "no image");
    expect(fault.code == KFS_OPEN_IMAGE && fault.reason == 1, 1, "its fault");
    bytes[60] ^= 1;
    expect(kfs_docket_len(desk, &rows), KFS_DONE, "the desk that is kept");
    expect(rows, 0, "its docket");
}

/* ---- other clients */

/* What a host knows of its desk: clients and their groups, the leases that are held, and the moment. */
struct known {
    struct kfs_client clients[2];
    size_t clients_len;
    uint32_t groups[1];
    size_t groups_len;
    struct kfs_held leases[2];
    size_t leases_len;
    uint64_t moment;
};

/* Has the handle hold a desk with the image of the one that it holds, and with what the host knows. Where that is
 * refused, it holds the old one. */
static uint32_t resume(struct kfs *desk, const struct known *it, uint32_t limit, struct kfs_fault *fault)
{
    uint8_t none, *image = NULL;
    size_t len = 0;
    uint32_t status = kfs_save(desk, &none, 0, &len);
    if (status == KFS_SHORT) status = (image = malloc(len)) ? KFS_DONE : KFS_NO_MEMORY;
    if (status == KFS_DONE) status = kfs_save(desk, image, len, &len);
    if (status == KFS_DONE)
        status = kfs_resume(desk, image, len, it->clients, it->clients_len, it->groups, it->groups_len, it->leases,
                            it->leases_len, it->moment, limit, fault);
    free(image);
    return status;
}

/* Resumed with what it has, a desk has the same state. A lease that no desk has is refused by its reason, and the desk
 * stays. Another client can be added: it gets no lease that conflicts with one that goes on, and gets it where none does. */
static void check_resumed(struct kfs *desk, struct kfs *other, const struct kfs_client *client)
{
    struct known known = { .clients = { *client }, .clients_len = 1, .leases_len = 1, .moment = 5 };
    struct kfs_fault fault = { 0 };
    struct kfs_act act = { 0 };
    known.leases[0] = (struct kfs_held){ .number = 1, .client = 7, .end = 100, .write = true };
    expect(resume(other, &known, 9, &fault), KFS_DONE, "a resumed desk");
    check_same_state(desk, other);
    known.leases[0].end = 5;
    expect(resume(other, &known, 9, &fault), KFS_REFUSED, "an end that is past");
    expect(fault.code == KFS_OPEN_LEASE && fault.reason == 3 && fault.index == 0, 1, "its fault");
    check_same_state(desk, other);
    known.leases[0].end = 100;
    known.clients[known.clients_len++] = (struct kfs_client){ .number = 8, .uid = 1000, .gid = 1000, .first = 100, .last = 199 };
    expect(resume(other, &known, 9, &fault), KFS_DONE, "a desk with a client more");
    expect(kfs_lease(other, 8, (const uint8_t *)"/", 1, true, 100, &act), KFS_DONE, "its lease of the root");
    expect(!act.done && act.fault.code == KFS_LEASE_HELD && act.fault.detail == 7, 1, "the lease that is held");
    known.leases_len = 0;
    expect(resume(other, &known, 9, &fault), KFS_DONE, "a desk without the lease");
    expect(kfs_lease(other, 8, (const uint8_t *)"/", 1, true, 100, &act), KFS_DONE, "a lease of the root again");
    expect(act.done && act.number == 1, 1, "the lease");
}

/* ---- calls */

/* The desk answers the call's bytes with these bytes. */
static void check_answer(struct kfs *desk, const struct bytes *call, const struct bytes *due, const char *what)
{
    uint8_t answer[KFS_ANSWER_LIMIT];
    size_t len = 0;
    struct kfs_fault fault = { 0 };
    expect(kfs_call(desk, call->at, call->len, answer, sizeof answer, &len, &fault), KFS_DONE, what);
    expect(len, due->len, "the length of the answer");
    if (len == due->len) expect(memcmp(answer, due->at, len) != 0, 0, what);
}

/* One desk has submissions by structs, and the other one the same ones as bytes: a right one, one of a log that has landed
 * already, with a plan of no rows, and bytes that are no log and no plan. */
static void check_submissions(struct kfs *desk, struct kfs *other)
{
    uint8_t plan[128];
    size_t plan_len = 0;
    expect(kfs_plan(desk, 7, create, sizeof create - 1, plan, sizeof plan, &plan_len), KFS_DONE, "a plan");
    const struct {
        const uint8_t *log;
        size_t log_len;
        const uint8_t *plan;
        size_t plan_len;
    } rows[] = {
        { create, sizeof create - 1, plan, plan_len },
        { create, sizeof create - 1, no_rows, sizeof no_rows },
        { no_log, sizeof no_log, no_plan, sizeof no_plan },
    };
    for (size_t row = 0; row < 3; row++) {
        struct bytes call = { .len = 0 }, due = { .len = 0 };
        struct kfs_reply reply = { 0 };
        expect(kfs_submit(desk, 7, rows[row].log, rows[row].log_len, rows[row].plan, rows[row].plan_len, &reply), KFS_DONE,
               "a submission");
        put_submit(&call, rows[row].log, rows[row].log_len, rows[row].plan, rows[row].plan_len);
        put_reply(&due, &reply);
        check_answer(other, &call, &due, "a submission as bytes");
    }
}

/* The same with the other calls, each once where it is made and once where it is refused. */
static void check_calls(struct kfs *desk, struct kfs *other)
{
    static const struct kfs_move move = { .number = 5, .block = 0, .tier = 1, .place = 0 };
    struct kfs_act act = { 0 };
    for (uint32_t client = 7; client < 9; client++) {
        /* one lease that is given, and one of no client */
        struct bytes call = { .len = 0 }, due = { .len = 0 };
        expect(kfs_lease(desk, client, (const uint8_t *)"/a", 2, true, 200, &act), KFS_DONE, "a lease");
        put_lease(&call, client, "/a", true, 200);
        put_act(&due, &act, 4, 4, 8);
        check_answer(other, &call, &due, "a lease as bytes");
    }
    for (uint32_t number = 5; number < 7; number++) {
        /* one lease by number that is given, and one on no node */
        struct bytes call = { .len = 0 }, due = { .len = 0 };
        expect(kfs_lease_at(desk, 7, number, false, 300, &act), KFS_DONE, "a lease by number");
        put_lease_at(&call, 7, number, false, 300);
        put_act(&due, &act, 4, 4, 8);
        check_answer(other, &call, &due, "a lease by number as bytes");
    }
    for (int round = 0; round < 2; round++) {
        struct bytes call = { .len = 0 }, due = { .len = 0 };
        expect(kfs_drop(desk, 7, 5, &act), KFS_DONE, "a drop");
        put_drop(&call, 7, 5);
        put_act(&due, &act, 5, 4, 8);
        check_answer(other, &call, &due, "a drop as bytes");
    }
    for (uint64_t moment = 60; moment > 58; moment--) {
        struct bytes call = { .len = 0 }, due = { .len = 0 };
        expect(kfs_tick(desk, moment, &act), KFS_DONE, "a tick");
        put_tick(&call, moment);
        put_act(&due, &act, 6, 8, 8);
        check_answer(other, &call, &due, "a tick as bytes");
    }
    for (size_t count = 0; count < 2; count++) {
        /* no move, and one of a block that isn't mapped */
        struct bytes call = { .len = 0 }, due = { .len = 0 };
        expect(kfs_migrate(desk, &move, count, &act), KFS_DONE, "moves");
        put_moves(&call, &move, count);
        put_act(&due, &act, 7, 4, 9);
        check_answer(other, &call, &due, "moves as bytes");
    }
}

/* What is no call, and a short buffer, change nothing. A full docket is told first. */
static void check_unanswered(struct kfs *desk)
{
    static const uint8_t tick[10] = { 4, 0, 0, 0, 0, 0, 0, 0, 99 };
    uint8_t answer[KFS_ANSWER_LIMIT] = { 0 };
    size_t len = 0;
    uint32_t rows = 0;
    struct kfs_fault fault = { 0 };
    struct kfs none = { 0 };
    expect(kfs_call(desk, tick, 9, answer, KFS_ANSWER_LIMIT - 1, &len, &fault), KFS_SHORT, "a short buffer");
    expect(len, KFS_ANSWER_LIMIT, "the room that is needed");
    expect(fault.code, 0, "no fault");
    expect(kfs_call(desk, tick, 8, answer, sizeof answer, &len, &fault), KFS_REFUSED, "half a moment");
    expect(fault.code == KFS_CALL_BAD_FIELD && fault.index == 1, 1, "its fault");
    expect(kfs_call(desk, tick, 10, answer, sizeof answer, &len, &fault), KFS_REFUSED, "a byte more");
    expect(fault.code == KFS_CALL_TRAILING && fault.index == 0, 1, "its fault");
    expect(kfs_call(&none, tick, 9, answer, sizeof answer, &len, &fault), KFS_CLOSED, "a call of nothing");
    expect(kfs_docket_len(desk, &rows), KFS_DONE, "the docket");
    expect(rows, 13, "its rows");
    expect(kfs_call(desk, tick, 9, answer, sizeof answer, &len, &fault), KFS_DONE, "the last row");
    expect(kfs_call(desk, tick, 8, answer, 0, &len, &fault), KFS_FULL, "a full docket");
}

/* ---- a run of calls that is cut */

enum { CALLS = 19, ROOM = 16384 };

/* The calls of a run, and their answers. */
static struct bytes calls[CALLS], answers[CALLS];
static size_t count;

/* The tag of each answer: 1 yes, 2 no, 4 leased, 5 dropped, 6 ticked, 7 moved, 8 a lease is refused, 9 moves are. */
static const uint8_t due_tags[CALLS] = { 4, 1, 2, 4, 1, 8, 7, 8, 8, 9, 6, 8, 5, 4, 4, 6, 1, 8, 8 };

/* How many blocks the submissions write. */
static const uint8_t due_needs[CALLS] = { [4] = 1, [16] = 1 };

/* Where memory is refused, a call is made once more: of a process at most one allocation is refused. */
#define AGAIN(status, call)                                     \
    do {                                                        \
        (status) = (call);                                      \
        if ((status) == KFS_NO_MEMORY) (status) = (call);       \
    } while (0)

/* A desk with client 7, and client 8, who is in two groups and privileged. */
static void open_desk(struct kfs *desk)
{
    static const struct kfs_client clients[] = {
        { .number = 7, .uid = 1000, .gid = 1000, .first = 2, .last = 99 },
        { .number = 8, .uid = 1001, .gid = 1001, .first = 100, .last = 65536, .groups_count = 2, .privileged = true },
    };
    static const uint32_t groups[] = { 50, 51 };
    struct kfs_fault fault = { 0 };
    uint32_t status;
    AGAIN(status, kfs_open(desk, 8, 8, 8, clients, 2, groups, 2, 100, &fault));
    expect(status, KFS_DONE, "a desk for a run");
}

static void make(struct kfs *desk, const struct bytes *call, struct bytes *answer)
{
    struct kfs_fault fault = { 0 };
    uint32_t status;
    AGAIN(status, kfs_call(desk, call->at, call->len, answer->at, KFS_ANSWER_LIMIT, &answer->len, &fault));
    expect(status, KFS_DONE, "a call of a run");
}

/* Makes the run's next call, and keeps its answer. */
static void make_next(struct kfs *desk)
{
    const uint8_t *told = answers[count].at + 4;
    make(desk, &calls[count], &answers[count]);
    expect(told[0], due_tags[count], "how a call of a run is answered");
    if (told[0] == 1) expect(told[9], due_needs[count], "what a submission needs");
    count++;
}

/* Hands a log in with its plan; where it has none, with one of no rows. */
static void submit_next(struct kfs *desk, const uint8_t *log, size_t len)
{
    uint8_t plan[256];
    size_t plan_len = 0;
    uint32_t status;
    AGAIN(status, kfs_plan(desk, 7, log, len, plan, sizeof plan, &plan_len));
    if (status == KFS_NOTHING) memcpy(plan, no_rows, plan_len = sizeof no_rows);
    else expect(status, KFS_DONE, "a plan of a run");
    put_submit(&calls[count], log, len, plan, plan_len);
    make_next(desk);
}

static void lease_next(struct kfs *desk, uint32_t client, const char *path, bool write, uint64_t end)
{
    put_lease(&calls[count], client, path, write, end);
    make_next(desk);
}

static void lease_at_next(struct kfs *desk, uint32_t client, uint32_t number, bool write, uint64_t end)
{
    put_lease_at(&calls[count], client, number, write, end);
    make_next(desk);
}

static void drop_next(struct kfs *desk, uint32_t client, uint32_t number)
{
    put_drop(&calls[count], client, number);
    make_next(desk);
}

static void tick_next(struct kfs *desk, uint64_t moment)
{
    put_tick(&calls[count], moment);
    make_next(desk);
}

static void move_next(struct kfs *desk, uint8_t tier, uint32_t place)
{
    const struct kfs_move move = { .number = 5, .block = 0, .tier = tier, .place = place };
    put_moves(&calls[count], &move, 1);
    make_next(desk);
}

/* Calls of every kind, some of them refused: client 7 makes a file and writes to it twice, its first block moves, and
 * leases come, end and are given up. */
static void make_run(void)
{
    struct kfs desk = { 0 };
    open_desk(&desk);
    lease_next(&desk, 7, "/", true, 50);
    submit_next(&desk, create, sizeof create - 1);
    submit_next(&desk, create, sizeof create - 1);
    lease_next(&desk, 7, "/a", true, 100);
    submit_next(&desk, letters, sizeof letters - 1);
    lease_next(&desk, 8, "/a", false, 100);
    move_next(&desk, 1, 3);
    lease_at_next(&desk, 8, 5, true, 100);
    lease_at_next(&desk, 8, 9, false, 100);
    move_next(&desk, 9, 0);
    tick_next(&desk, 49);
    tick_next(&desk, 48);
    drop_next(&desk, 7, 1);
    lease_next(&desk, 8, "/", false, 60);
    lease_next(&desk, 7, "/", false, 70);
    tick_next(&desk, 60);
    submit_next(&desk, edits, sizeof edits - 1);
    drop_next(&desk, 8, 5);
    lease_at_next(&desk, 8, 5, false, 80);
    kfs_close(&desk);
}

/* Makes a call of the run on a desk whose docket has this many rows. It has the answer of the run, in its own row. */
static void make_again(struct kfs *desk, size_t call, size_t row)
{
    struct bytes answer = { .len = 0 }, due = { .len = 0 };
    make(desk, &calls[call], &answer);
    put(&due, row, 4);
    put_all(&due, answers[call].at + 4, answers[call].len - 4);
    expect(answer.len, due.len, "the length of an answer of a run");
    expect(memcmp(answer.at, due.at, due.len) != 0, 0, "an answer of a run");
}

static size_t save(struct kfs *desk, uint8_t *state)
{
    size_t len = 0;
    uint32_t status;
    AGAIN(status, kfs_state(desk, state, ROOM, &len));
    expect(status, KFS_DONE, "the state of a desk of a run");
    return len;
}

static void check_saved_alike(struct kfs *one, struct kfs *other)
{
    static uint8_t state[ROOM], others[ROOM];
    size_t len = save(one, state);
    expect(save(other, others), len, "the length of the state of the other desk of a run");
    expect(memcmp(state, others, len) != 0, 0, "the state of the other desk of a run");
}

/* A desk that is saved behind so many calls, and restored, shows the same state with an empty docket. It goes on as the
 * other one does. */
static void check_cut(size_t cut)
{
    static uint8_t state[ROOM];
    struct kfs desk = { 0 }, other = { 0 };
    struct kfs_fault fault = { 0 };
    uint32_t rows = 99, status;
    size_t len;
    open_desk(&desk);
    for (size_t call = 0; call < cut; call++) make_again(&desk, call, call);
    len = save(&desk, state);
    AGAIN(status, kfs_restore(&other, state, len, 100, &fault));
    expect(status, KFS_DONE, "a desk of a run that is restored");
    expect(kfs_docket_len(&other, &rows), KFS_DONE, "its docket");
    expect(rows, 0, "the rows of its docket");
    check_saved_alike(&desk, &other);
    for (size_t call = cut; call < CALLS; call++) {
        make_again(&desk, call, call);
        make_again(&other, call, call - cut);
    }
    check_saved_alike(&desk, &other);
    kfs_close(&desk);
    kfs_close(&other);
}

/* A desk is saved, restored and resumed, and answers calls as bytes. */
static void check_desks(void)
{
    static const struct kfs_client client = { .number = 7, .uid = 1000, .gid = 1000, .first = 2, .last = 99 };
    static const uint32_t groups[1] = { 0 };
    struct kfs desk = { 0 }, again = { 0 }, other = { 0 };
    struct kfs_fault fault = { 0 };
    struct kfs_act act = { 0 };
    size_t len = 0;
    uint8_t *bytes;
    expect(kfs_open(&desk, 8, 8, 8, &client, 1, groups, 0, 2, &fault), KFS_DONE, "a desk");
    expect(kfs_tick(&desk, 5, &act), KFS_DONE, "moment 5");
    expect(kfs_lease(&desk, 7, (const uint8_t *)"/", 1, true, 100, &act), KFS_DONE, "a lease of the root");
    bytes = state_of(&desk, &len);
    expect(kfs_restore(&other, bytes, len, 9, &fault), KFS_DONE, "a desk to resume");
    check_resumed(&desk, &other, &client);
    /* both go on from the state, since the first desk's docket is full */
    expect(kfs_restore(&again, bytes, len, 14, &fault), KFS_DONE, "a desk that goes on");
    expect(kfs_restore(&other, bytes, len, 14, &fault), KFS_DONE, "another one");
    check_same_state(&desk, &other);
    check_refusals(&other, bytes, len);
    check_submissions(&again, &other);
    check_calls(&again, &other);
    check_same_state(&again, &other);
    check_unanswered(&other);
    free(bytes);
    kfs_close(&desk);
    kfs_close(&again);
    kfs_close(&other);
}

int main(int words, char **word)
{
    make_run();
    if (failed) return failed;
    if (words > 1) {
        check_cut(strtoul(word[1], NULL, 10));
        return failed;
    }
    for (size_t cut = 0; cut <= CALLS; cut++) check_cut(cut);
    check_desks();
    return failed;
}
