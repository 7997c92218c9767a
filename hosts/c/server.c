/* A small server over the desk: it reads lines, makes the calls of include/kfs.h, and writes one reply
 * for each line, as `kfs run` does (docs/FORMATS.md, "The command lines of kfs run"). `call HEX` makes the call of these
 * bytes, and is answered as its line is; `again LIMIT` saves the state and restores it.
 *
 * gcc -O2 -I include hosts/c/server.c libkfs_c.a liblibc_c.a -o server && ./server < LINES */
#define _POSIX_C_SOURCE 200809L
#include "kfs.h"
#include <inttypes.h>
#include <pthread.h>
#include <stdio.h>
#include <stdlib.h>
#include <string.h>
#include <time.h>

enum { WORKERS = 8, CLIENTS = 4096, WORDS = 8192 };

/* What a desk will be begun with, and then the desk. */
static struct {
    bool has_image;
    uint32_t sizes[3];
    uint8_t *image; /* bytes; NULL: a new image of these sizes */
    size_t image_len;
    struct kfs_client clients[CLIENTS];
    size_t clients_len;
    uint32_t groups[CLIENTS * KFS_GROUP_LIMIT];
    size_t groups_len;
    bool begun;
    struct kfs desk;
    struct kfs verdicts[WORKERS];
    bool held[WORKERS];
    bool again;     /* a line for which memory is refused is answered again */
    bool refused;   /* memory was refused for this line */
    bool times;     /* each line's time is told */
    uint64_t spent; /* nanoseconds in the call that judged or landed */
} server;

/* ---- words */

static char *words[WORDS];
static size_t words_len;

/* Cuts a line into words. False where two spaces stand together, or one at an end. */
static bool cut(char *line)
{
    words_len = 0;
    for (;;) {
        char *space = strchr(line, ' ');
        if (space) *space = 0;
        if (!*line || words_len == WORDS) return false;
        words[words_len++] = line;
        if (!space) return true;
        line = space + 1;
    }
}

/* A number of at most `most`. */
static bool number(const char *word, uint64_t most, uint64_t *value)
{
    uint64_t sum = 0;
    for (; *word; word++) {
        if (*word < '0' || *word > '9') return false;
        uint64_t digit = (uint64_t)(*word - '0');
        if (sum > (most - digit) / 10) return false;
        sum = sum * 10 + digit;
    }
    *value = sum;
    return true;
}

static bool number32(const char *word, uint32_t *value)
{
    uint64_t wide;
    if (!number(word, UINT32_MAX, &wide)) return false;
    *value = (uint32_t)wide;
    return true;
}

static int digit(char c)
{
    if (c >= '0' && c <= '9') return c - '0';
    if (c >= 'a' && c <= 'f') return c - 'a' + 10;
    return c >= 'A' && c <= 'F' ? c - 'A' + 10 : -1;
}

/* Bytes in hexadecimal, or `-` for none, in the place of the word. */
static bool bytes(char *word, uint8_t **at, size_t *len)
{
    size_t digits = strlen(word);
    *at = (uint8_t *)word;
    *len = 0;
    if (!strcmp(word, "-")) return true;
    if (digits % 2) return false;
    for (size_t i = 0; i < digits; i += 2) {
        int high = digit(word[i]), low = digit(word[i + 1]);
        if (high < 0 || low < 0) return false;
        (*at)[(*len)++] = (uint8_t)(high * 16 + low);
    }
    return true;
}

static void say_bytes(const uint8_t *at, size_t len)
{
    if (!len) putchar('-');
    for (size_t i = 0; i < len; i++) printf("%02x", at[i]);
}

/* ---- replies */

static const char *const reasons[] = {
    "?", "NoSuchNode", "NotDirectory", "IsDirectory", "NoSuchName", "NameTaken", "NumberTaken",
    "NumberNotGranted", "NotEmpty", "BelowItself", "TooManyLinks", "TooBig", "NoSearch", "NoWrite",
    "NotOwner", "NoLease", "Sticky", "NotInGroup"
};

/* Whether there is a reply. Else says why not. */
static bool is_done(uint32_t status)
{
    if (status == KFS_DONE) return true;
    server.refused = status == KFS_NO_MEMORY;
    if (server.refused && server.again) return false;
    puts(status == KFS_NO_MEMORY ? "memory" : status == KFS_FULL ? "full" : "bad line");
    return false;
}

static void say_spelling(const struct kfs_fault *fault)
{
    switch (fault->reason) {
    case KFS_BAD_HEADER: puts("BadHeader"); break;
    case KFS_BAD_ENTRY: printf("BadEntry(%" PRIu64 ")\n", fault->index); break;
    case KFS_TRAILING: puts("Trailing"); break;
    default: printf("BadRow(%u,%" PRIu64 ")\n", fault->detail, fault->index);
    }
}

static void say_fault(const struct kfs_fault *fault)
{
    static const char *const parts[] = { "?", "Names", "Nodes", "Pieces" };
    switch (fault->code) {
    case KFS_UNKNOWN_CLIENT: puts("client unknown"); break;
    case KFS_BAD_LOG: printf("log "); say_spelling(fault); break;
    case KFS_WRONG_CLIENT: puts("client wrong"); break;
    case KFS_BAD_PLAN: printf("plan "); say_spelling(fault); break;
    case KFS_ENTRY:
        printf("entry %" PRIu64 " %s", fault->index, reasons[fault->reason]);
        if (fault->reason == KFS_NO_LEASE) printf("(%u)", fault->detail);
        puts("");
        break;
    default: printf("plan %s(%" PRIu64 ")\n", parts[fault->reason], fault->index);
    }
}

static void say_reply(const struct kfs_reply *reply)
{
    printf("%u ", reply->position);
    if (reply->kind == KFS_YES) {
        printf("yes rejudged=%d need=%" PRIu64 "\n", reply->rejudged, reply->need);
    } else if (reply->kind == KFS_NO_ROOM) {
        printf("noroom rejudged=%d need=%" PRIu64 " free=%u\n", reply->rejudged, reply->need, reply->free);
    } else {
        printf("no rejudged=%d ", reply->rejudged);
        say_fault(&reply->fault);
    }
}

static void say_act(const struct kfs_act *act, const char *done, const char *const names[])
{
    if (act->done) {
        printf("%u %s %" PRIu64 "\n", act->position, done, act->number);
        return;
    }
    printf("%u refused ", act->position);
    printf(names[act->fault.code], act->fault.index + act->fault.detail);
    puts("");
}

static const char *const lease_faults[] = {
    "?", "UnknownClient", "BadPath", "NoSuchName(%" PRIu64 ")", "NotDirectory(%" PRIu64 ")",
    "NoSearch(%" PRIu64 ")", "Past", "LeaseHeld(%" PRIu64 ")", "NoLeaseHeld", "Backwards",
    "NoSuchNode", "NotAllowed"
};

static const char *const move_faults[] = {
    "?", "NotMapped(%" PRIu64 ")", "OutOfRange(%" PRIu64 ")", "NotFree(%" PRIu64 ")",
    "Overlap(%" PRIu64 ")", "TooManyMoves"
};

static uint64_t nanoseconds(void)
{
    struct timespec now;
    clock_gettime(CLOCK_MONOTONIC, &now);
    return (uint64_t)now.tv_sec * 1000000000u + (uint64_t)now.tv_nsec;
}

/* ---- lines before the desk is begun. False: a bad line */

static bool new_line(void)
{
    uint32_t sizes[3];
    for (size_t i = 0; i < 3; i++)
        if (words_len != 4 || !number32(words[i + 1], &sizes[i]) || sizes[i] > KFS_TIER_LIMIT) return false;
    memcpy(server.sizes, sizes, sizeof sizes);
    free(server.image);
    server.image = NULL;
    server.has_image = true;
    puts("ok");
    return true;
}

/* Tries the bytes as an image, and keeps them where they are one. */
static bool image_line(void)
{
    static const char *const names[] = { "?", "BadImageHeader", "BadImageRow(%" PRIu64 ")", "ImageTrailing" };
    struct kfs trial = { 0 };
    struct kfs_fault fault = { 0 };
    uint8_t *at;
    size_t len;
    if (words_len != 2 || !bytes(words[1], &at, &len)) return false;
    uint32_t status = kfs_load(&trial, at, len, server.clients, 0, server.groups, 0, 0, &fault);
    kfs_close(&trial);
    if (status == KFS_REFUSED && fault.code == KFS_OPEN_IMAGE) {
        printf("image ");
        printf(names[fault.reason], fault.index);
        puts("");
    } else if (status == KFS_REFUSED) {
        printf("finding %u %" PRIu64 "\n", fault.reason, fault.index);
    } else if (is_done(status)) {
        uint8_t *copy = malloc(len);
        if (!copy) return is_done(KFS_NO_MEMORY) || true;
        memcpy(copy, at, len);
        free(server.image);
        server.image = copy;
        server.image_len = len;
        server.has_image = true;
        puts("ok");
    }
    return true;
}

/* Tries the client alone on a desk of no blocks, and keeps it where it can be one. */
static bool client_line(void)
{
    struct kfs trial = { 0 };
    struct kfs_fault fault = { 0 };
    struct kfs_client *client = &server.clients[server.clients_len];
    uint32_t *groups = &server.groups[server.groups_len], privileged, groups_len = 0;
    if (words_len < 7 || server.clients_len == CLIENTS) return false;
    memset(client, 0, sizeof *client);
    if (!number32(words[1], &client->number) || !number32(words[2], &client->uid) || !number32(words[3], &client->gid)
        || !number32(words[4], &privileged) || privileged > 1 || !number32(words[5], &client->first)
        || !number32(words[6], &client->last)) return false;
    for (size_t i = 7; i < words_len; i++) {
        uint32_t group;
        if (!number32(words[i], &group)) return false;
        if (groups_len <= KFS_GROUP_LIMIT && server.groups_len + groups_len < sizeof server.groups / 4) groups[groups_len++] = group;
    }
    client->privileged = privileged;
    client->groups_count = groups_len;
    uint32_t status = kfs_open(&trial, 0, 0, 0, client, 1, groups, groups_len, 0, &fault);
    kfs_close(&trial);
    if (status == KFS_REFUSED) {
        puts(fault.reason == 1 ? "client TooManyGroups" : "client BadGrant");
    } else if (is_done(status)) {
        client->groups_start = (uint32_t)server.groups_len;
        server.groups_len += groups_len;
        server.clients_len++;
        puts("ok");
    }
    return true;
}

static bool begin_line(void)
{
    struct kfs_fault fault = { 0 };
    uint32_t limit, status;
    if (words_len != 2 || !number32(words[1], &limit) || !server.has_image) return false;
    if (server.image) {
        status = kfs_load(&server.desk, server.image, server.image_len, server.clients, server.clients_len,
                          server.groups, server.groups_len, limit, &fault);
    } else {
        status = kfs_open(&server.desk, server.sizes[0], server.sizes[1], server.sizes[2], server.clients,
                          server.clients_len, server.groups, server.groups_len, limit, &fault);
    }
    if (status == KFS_REFUSED) {
        printf("begin %s(%" PRIu64 ")\n", fault.reason == 1 ? "ClientTwice" : "GrantOverlap", fault.index);
        server.clients_len = server.groups_len = 0;
    } else if (is_done(status)) {
        server.begun = true;
        puts("ok");
    }
    return true;
}

/* ---- lines of the desk. False: a bad line */

static bool lease_line(void)
{
    uint32_t client;
    uint64_t end;
    struct kfs_act act = { 0 };
    if (words_len != 5 || !number32(words[1], &client) || strlen(words[3]) != 1 || !strchr("rw", words[3][0])
        || !number(words[4], UINT64_MAX, &end)) return false;
    if (is_done(kfs_lease(&server.desk, client, (uint8_t *)words[2], strlen(words[2]), words[3][0] == 'w', end, &act)))
        say_act(&act, "leased", lease_faults);
    return true;
}

static bool drop_line(void)
{
    uint32_t client, node;
    struct kfs_act act = { 0 };
    if (words_len != 3 || !number32(words[1], &client) || !number32(words[2], &node)) return false;
    if (is_done(kfs_drop(&server.desk, client, node, &act))) say_act(&act, "dropped", lease_faults);
    return true;
}

static bool tick_line(void)
{
    uint64_t moment;
    struct kfs_act act = { 0 };
    if (words_len != 2 || !number(words[1], UINT64_MAX, &moment)) return false;
    if (is_done(kfs_tick(&server.desk, moment, &act))) say_act(&act, "ticked", lease_faults);
    return true;
}

static bool move_line(void)
{
    static struct kfs_move moves[WORDS / 4];
    size_t count = words_len / 4;
    struct kfs_act act = { 0 };
    if (words_len % 4 != 1 || !count) return false;
    for (size_t i = 0; i < count; i++) {
        uint64_t tier;
        char **word = &words[1 + 4 * i];
        if (!number32(word[0], &moves[i].number) || !number32(word[1], &moves[i].block) || !number(word[2], 255, &tier)
            || !number32(word[3], &moves[i].place)) return false;
        moves[i].tier = (uint8_t)tier;
    }
    if (is_done(kfs_migrate(&server.desk, moves, count, &act))) say_act(&act, "moved", move_faults);
    return true;
}

static bool submit_line(void)
{
    uint32_t client;
    uint8_t *log, *plan;
    size_t log_len, plan_len;
    struct kfs_reply reply = { 0 };
    if (words_len != 4 || !number32(words[1], &client) || !bytes(words[2], &log, &log_len)
        || !bytes(words[3], &plan, &plan_len)) return false;
    uint64_t begun = nanoseconds();
    uint32_t status = kfs_submit(&server.desk, client, log, log_len, plan, plan_len, &reply);
    server.spent = nanoseconds() - begun;
    if (is_done(status)) say_reply(&reply);
    return true;
}

/* A server with threads holds its mutex for kfs_look alone. */
static bool judge_line(void)
{
    uint32_t worker, client, status;
    uint8_t *log, *plan;
    size_t log_len, plan_len;
    struct kfs view = { 0 };
    if (words_len != 5 || !number32(words[1], &worker) || worker >= WORKERS || !number32(words[2], &client)
        || !bytes(words[3], &log, &log_len) || !bytes(words[4], &plan, &plan_len) || server.held[worker]) return false;
    status = kfs_look(&server.desk, &view);
    uint64_t begun = nanoseconds();
    if (status == KFS_DONE)
        status = kfs_judge(&view, client, log, log_len, plan, plan_len, &server.verdicts[worker]);
    server.spent = nanoseconds() - begun;
    kfs_close(&view);
    if (is_done(status)) {
        server.held[worker] = true;
        printf("judged %u\n", worker);
    }
    return true;
}

static bool land_line(void)
{
    uint32_t worker;
    struct kfs_reply reply = { 0 };
    if (words_len != 2 || !number32(words[1], &worker) || worker >= WORKERS || !server.held[worker]) return false;
    server.held[worker] = false;
    uint64_t begun = nanoseconds();
    uint32_t status = kfs_land(&server.desk, &server.verdicts[worker], &reply);
    server.spent = nanoseconds() - begun;
    if (is_done(status)) say_reply(&reply);
    return true;
}

/* Asks for the plan's length, and then for its bytes. */
static bool plan_line(void)
{
    uint32_t client, status;
    uint8_t *log, *plan = NULL, none;
    size_t log_len, len;
    if (words_len != 3 || !number32(words[1], &client) || !bytes(words[2], &log, &log_len)) return false;
    status = kfs_plan(&server.desk, client, log, log_len, &none, 0, &len);
    if (status == KFS_REFUSED) return false;
    if (status == KFS_NOTHING) {
        puts("plan none");
        return true;
    }
    if (status == KFS_SHORT) status = (plan = malloc(len)) ? KFS_DONE : KFS_NO_MEMORY;
    if (status == KFS_DONE) status = kfs_plan(&server.desk, client, log, log_len, plan, len, &len);
    if (is_done(status)) {
        printf("plan ");
        say_bytes(plan, len);
        puts("");
    }
    free(plan);
    return true;
}

static bool node_line(void)
{
    uint32_t at;
    struct kfs_node node = { 0 };
    if (words_len != 2 || !number32(words[1], &at)) return false;
    if (kfs_node(&server.desk, at, &node) == KFS_NOTHING) {
        puts("none");
    } else {
        printf("node %u %s %04o %u %u %u %" PRIu64 "\n", at, node.directory ? "dir" : "file", node.mode, node.uid,
               node.gid, node.links, node.size);
    }
    return true;
}

static bool list_line(void)
{
    uint32_t at, leads;
    struct kfs_node node = { 0 };
    uint8_t name[KFS_NAME_LIMIT];
    size_t len = 0;
    if (words_len != 2 || !number32(words[1], &at)) return false;
    if (kfs_node(&server.desk, at, &node) == KFS_NOTHING || !node.directory) {
        puts("none");
        return true;
    }
    printf("list %u", at);
    uint8_t after[KFS_NAME_LIMIT];
    while (kfs_name(&server.desk, at, after, len, name, sizeof name, &len, &leads) == KFS_DONE) {
        memcpy(after, name, len);
        putchar(' ');
        say_bytes(name, len);
        printf(":%u", leads);
    }
    puts("");
    return true;
}

static bool read_line(void)
{
    static uint8_t buffer[65536];
    uint32_t at, most;
    uint64_t start;
    size_t count;
    if (words_len != 4 || !number32(words[1], &at) || !number(words[2], UINT64_MAX, &start)
        || !number32(words[3], &most) || most > sizeof buffer) return false;
    uint32_t status = kfs_read(&server.desk, at, start, buffer, most, &count);
    if (status == KFS_NOTHING) {
        puts("read NoSuchNode");
    } else if (status == KFS_DIRECTORY) {
        puts("read IsDirectory");
    } else if (is_done(status)) {
        printf("bytes ");
        say_bytes(buffer, count);
        puts("");
    }
    return true;
}

static bool docket_line(void)
{
    uint32_t count;
    if (words_len != 1) return false;
    if (is_done(kfs_docket_len(&server.desk, &count))) printf("docket %u\n", count);
    return true;
}

/* Asks for the length, and then for the bytes. Opens a second desk with them, which must give the same
 * bytes: so would a server that starts again. */
static bool save_line(void)
{
    uint8_t none, *image, *again;
    size_t len, len_again;
    struct kfs copy = { 0 };
    struct kfs_fault fault = { 0 };
    if (words_len != 1) return false;
    uint32_t status = kfs_save(&server.desk, &none, 0, &len);
    if (status != KFS_SHORT) return is_done(status) || true;
    image = malloc(len);
    again = malloc(len);
    if (image && again) {
        status = kfs_save(&server.desk, image, len, &len);
        if (status == KFS_DONE)
            status = kfs_load(&copy, image, len, server.clients, server.clients_len, server.groups, server.groups_len, 1, &fault);
        if (status == KFS_DONE) status = kfs_save(&copy, again, len, &len_again);
        if (status == KFS_DONE && (len != len_again || memcmp(image, again, len))) status = KFS_REFUSED;
        kfs_close(&copy);
        if (is_done(status)) {
            printf("image ");
            say_bytes(image, len);
            puts("");
        }
    } else {
        is_done(KFS_NO_MEMORY);
    }
    free(image);
    free(again);
    return true;
}

/* ---- calls as bytes, which `kfs run` has no lines for */

static uint64_t take(const uint8_t **at, size_t width)
{
    uint64_t sum = 0;
    while (width-- > 0) sum = sum << 8 | *(*at)++;
    return sum;
}

static struct kfs_fault take_fault(const uint8_t **at)
{
    struct kfs_fault fault = { 0 };
    fault.code = (uint32_t)take(at, 1);
    fault.reason = (uint32_t)take(at, 1);
    fault.index = take(at, 8);
    fault.detail = (uint32_t)take(at, 4);
    return fault;
}

/* What the bytes of an answer say, as the line of the same call is answered. Tags 1 to 3 are of submissions. */
static void say_answer(const uint8_t *at)
{
    static const char *const done[] = { "leased", "dropped", "ticked", "moved" };
    uint32_t position = (uint32_t)take(&at, 4), tag = (uint32_t)take(&at, 1);
    struct kfs_reply reply = { .position = position };
    struct kfs_act act = { .position = position, .done = tag < 8 };
    if (tag > 3) {
        if (act.done) act.number = take(&at, tag == 6 ? 8 : 4);
        else act.fault = take_fault(&at);
        say_act(&act, act.done ? done[tag - 4] : "", tag == 8 ? lease_faults : move_faults);
        return;
    }
    reply.kind = tag == 1 ? KFS_YES : tag == 2 ? KFS_NO : KFS_NO_ROOM;
    reply.rejudged = take(&at, 1);
    if (tag == 2) reply.fault = take_fault(&at);
    else reply.need = take(&at, 8);
    if (tag == 3) reply.free = (uint32_t)take(&at, 4);
    say_reply(&reply);
}

static bool call_line(void)
{
    uint8_t *call, answer[KFS_ANSWER_LIMIT];
    size_t len, answer_len;
    struct kfs_fault fault = { 0 };
    if (words_len != 2 || !bytes(words[1], &call, &len)) return false;
    uint32_t status = kfs_call(&server.desk, call, len, answer, sizeof answer, &answer_len, &fault);
    if (status != KFS_REFUSED) {
        if (is_done(status)) say_answer(answer);
    } else if (fault.code == KFS_CALL_BAD_FIELD) {
        printf("call BadField(%" PRIu64 ")\n", fault.index);
    } else {
        puts("call Trailing");
    }
    return true;
}

/* Goes on with a desk that is restored from the state's bytes, and a docket of so many rows. */
static bool again_line(void)
{
    uint8_t none, *state;
    size_t len;
    uint32_t limit;
    struct kfs_fault fault = { 0 };
    if (words_len != 2 || !number32(words[1], &limit)) return false;
    uint32_t status = kfs_state(&server.desk, &none, 0, &len);
    if (status != KFS_SHORT) return is_done(status) || true;
    state = malloc(len);
    status = state ? kfs_state(&server.desk, state, len, &len) : KFS_NO_MEMORY;
    if (status == KFS_DONE) status = kfs_restore(&server.desk, state, len, limit, &fault);
    if (is_done(status)) puts("ok");
    free(state);
    return true;
}

static const struct {
    const char *name;
    bool begun; /* when the line may come */
    bool (*answer)(void);
} lines[] = {
    { "new", false, new_line },      { "image", false, image_line },  { "client", false, client_line },
    { "begin", false, begin_line },  { "lease", true, lease_line },   { "drop", true, drop_line },
    { "tick", true, tick_line },     { "move", true, move_line },     { "submit", true, submit_line },
    { "judge", true, judge_line },   { "land", true, land_line },     { "plan", true, plan_line },
    { "node", true, node_line },     { "list", true, list_line },     { "read", true, read_line },
    { "docket", true, docket_line }, { "save", true, save_line },     { "call", true, call_line },
    { "again", true, again_line },
};

static bool answer(char *line, size_t len)
{
    if (strlen(line) != len || !cut(line)) return false;
    for (size_t i = 0; i < sizeof lines / sizeof *lines; i++)
        if (!strcmp(words[0], lines[i].name)) return lines[i].begun == server.begun && lines[i].answer();
    return false;
}

/* Answers all lines. */
static void *serve(void *nothing)
{
    char *line = NULL, *copy = NULL;
    size_t room = 0, copy_room = 0;
    ssize_t len;
    while ((len = getline(&line, &room, stdin)) > 0) {
        if (line[len - 1] == '\n') line[--len] = 0;
        do {
            while (copy_room < room) {
                char *more = realloc(copy, room);
                if (more) { copy = more; copy_room = room; }
            }
            memcpy(copy, line, (size_t)len + 1);
            server.refused = false;
            server.spent = 0;
            if (!answer(copy, (size_t)len)) puts("bad line");
            if (server.times) fprintf(stderr, "%" PRIu64 "\n", server.spent);
        } while (server.refused && server.again);
    }
    free(line);
    free(copy);
    free(server.image);
    kfs_close(&server.desk);
    for (size_t i = 0; i < WORKERS; i++) kfs_close(&server.verdicts[i]);
    return nothing;
}

/* Has a thread with a stack of so many bytes answer all lines. */
static int serve_in_thread(uint64_t stack)
{
    pthread_attr_t attributes;
    pthread_t thread;
    if (pthread_attr_init(&attributes) || pthread_attr_setstacksize(&attributes, stack)
        || pthread_create(&thread, &attributes, serve, NULL)) return 1;
    pthread_attr_destroy(&attributes);
    return pthread_join(thread, NULL) != 0;
}

/* `--again`: a line for which memory is refused is answered once more, by a copy.
 * `--stack BYTES`: in a thread with such a stack. `--times`: standard error tells the nanoseconds of each
 * line's kfs_submit, kfs_judge or kfs_land, and 0 for the others. */
int main(int argc, char **argv)
{
    uint64_t stack = 0;
    for (int i = 1; i < argc; i++) {
        if (!strcmp(argv[i], "--again")) server.again = true;
        else if (!strcmp(argv[i], "--times")) server.times = true;
        else if (strcmp(argv[i], "--stack") || ++i == argc || !number(argv[i], SIZE_MAX, &stack)) return 2;
    }
    if (stack) return serve_in_thread(stack);
    serve(NULL);
    return 0;
}
