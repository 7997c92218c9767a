/* Measures calls of the desk, and the same on a file system by system calls: a Create, a Write of 64 KiB,
 * a read of 64 KiB. `tools/hosts --figures` runs it; the word is a folder, on a tmpfs. The logs and their
 * plans are made beforehand, as clients make them. The two take turns, so that both meet the machine in
 * the same state. */
#define _GNU_SOURCE
#include "kfs.h"
#include <fcntl.h>
#include <stdio.h>
#include <stdlib.h>
#include <string.h>
#include <sys/stat.h>
#include <time.h>
#include <unistd.h>

/* The calls of a round. */
enum { ROUNDS = 10, FILES = 1000, WRITES = 400, READS = 2000, PAYLOAD = 65536 };

static double now(void)
{
    struct timespec t;
    clock_gettime(CLOCK_MONOTONIC, &t);
    return (double)t.tv_sec * 1e9 + (double)t.tv_nsec;
}

static void must(bool well, const char *what)
{
    if (well) return;
    fprintf(stderr, "figures: %s\n", what);
    exit(1);
}

/* Bytes, most significant first. */
static uint8_t *put(uint8_t *at, uint64_t value, int width)
{
    for (int i = 0; i < width; i++) at[i] = (uint8_t)(value >> (8 * (width - 1 - i)));
    return at + width;
}

static uint8_t *log_head(uint8_t *at)
{
    memcpy(at, "KLOG\1", 5);
    return put(put(at + 5, 7, 4), 1, 2);
}

static int by_size(const void *one, const void *other)
{
    double a = *(const double *)one, b = *(const double *)other;
    return (a > b) - (a < b);
}

/* The times of one call, of all rounds, in nanoseconds. */
struct times {
    size_t count;
    double all[ROUNDS * READS];
};

static double median(struct times *times)
{
    qsort(times->all, times->count, sizeof *times->all, by_size);
    return times->all[times->count / 2];
}

static void took(struct times *times, double begun)
{
    times->all[times->count++] = now() - begun;
}

/* ---- the desk */

/* A log that creates a file, and its plan. */
struct create {
    uint8_t log[64], plan[128];
    size_t log_len, plan_len;
};

static struct create creates[ROUNDS * FILES];
static uint8_t write_log[PAYLOAD + 64], write_plan[128], *write_payload = write_log + 28;
static size_t write_plan_len;
static uint8_t payload[PAYLOAD], read_back[PAYLOAD];

static void submit(struct kfs *desk, const uint8_t *log, size_t log_len, const uint8_t *of, size_t of_len, struct times *times)
{
    struct kfs_reply reply = { 0 };
    double begun = now();
    uint32_t status = kfs_submit(desk, 7, log, log_len, of, of_len, &reply);
    if (times) took(times, begun);
    must(status == KFS_DONE && reply.kind == KFS_YES, "no Yes");
}

static void plan_write(struct kfs *desk)
{
    must(kfs_plan(desk, 7, write_log, 28 + PAYLOAD, write_plan, sizeof write_plan, &write_plan_len) == KFS_DONE, "no plan");
}

/* Opens the desk, and makes the file that is written, and all logs and plans. */
static void open_desk(struct kfs *desk)
{
    struct kfs_client client = { .number = 7, .uid = 0, .gid = 0, .first = 2, .last = 65536, .privileged = true };
    uint32_t none = 0;
    struct kfs_fault fault = { 0 };
    struct kfs_act act = { 0 };
    must(kfs_open(desk, 4096, 0, 0, &client, 1, &none, 0, UINT32_MAX, &fault) == KFS_DONE, "not opened");
    must(kfs_lease(desk, 7, (const uint8_t *)"/", 1, true, 9, &act) == KFS_DONE && act.done, "no lease");
    for (uint32_t i = 0; i < ROUNDS * FILES; i++) {
        struct create *it = &creates[i];
        char name[16];
        size_t len = (size_t)sprintf(name, "f%07u", i);
        uint8_t *at = put(put(put(log_head(it->log), 1, 1), 1, 4), len, 1);
        memcpy(at, name, len);
        at = put(put(put(at + len, i + 2, 4), 0, 1), 0644, 2);
        it->log_len = (size_t)(at - it->log);
        must(kfs_plan(desk, 7, it->log, it->log_len, it->plan, sizeof it->plan, &it->plan_len) == KFS_DONE, "no plan");
    }
    submit(desk, creates[0].log, creates[0].log_len, creates[0].plan, creates[0].plan_len, NULL);
    must(kfs_lease(desk, 7, (const uint8_t *)"/f0000000", 9, true, 9, &act) == KFS_DONE && act.done, "no lease");
    put(put(put(put(log_head(write_log), 2, 1), 2, 4), 0, 8), PAYLOAD, 4);
    memcpy(write_payload, payload, PAYLOAD);
    /* the first Write makes the file longer, all others go over its bytes and have one plan */
    plan_write(desk);
    submit(desk, write_log, 28 + PAYLOAD, write_plan, write_plan_len, NULL);
    plan_write(desk);
}

static void desk_round(struct kfs *desk, uint32_t round, struct times of[3])
{
    for (uint32_t i = round * FILES + (round == 0); i < (round + 1) * FILES; i++)
        submit(desk, creates[i].log, creates[i].log_len, creates[i].plan, creates[i].plan_len, &of[0]);
    for (uint32_t i = 0; i < WRITES; i++) {
        memset(write_payload, (int)(i % 251 + 1), 64);
        submit(desk, write_log, 28 + PAYLOAD, write_plan, write_plan_len, &of[1]);
    }
    for (uint32_t i = 0; i < READS; i++) {
        size_t count;
        double begun = now();
        uint32_t status = kfs_read(desk, 2, 0, read_back, PAYLOAD, &count);
        took(&of[2], begun);
        must(status == KFS_DONE && count == PAYLOAD, "not read");
    }
    must(!memcmp(read_back, write_payload, PAYLOAD), "other bytes");
}

/* ---- the folder */

static char folder[4096];

static const char *path_of(uint32_t i)
{
    static char path[sizeof folder + 16];
    snprintf(path, sizeof path, "%s/f%07u", folder, i);
    return path;
}

static void create(uint32_t i, struct times *times)
{
    const char *path = path_of(i);
    double begun = now();
    int file = open(path, O_CREAT | O_EXCL | O_RDWR, 0644);
    close(file);
    if (times) took(times, begun);
    must(file >= 0, "not created");
}

/* Makes the folder and the file that is written, and opens it. */
static int open_folder(const char *above)
{
    snprintf(folder, sizeof folder, "%s/kfs-figures-XXXXXX", above);
    must(mkdtemp(folder), "no folder");
    create(0, NULL);
    int file = open(path_of(0), O_RDWR);
    must(pwrite(file, payload, PAYLOAD, 0) == PAYLOAD, "not written");
    return file;
}

static void folder_round(int file, uint32_t round, struct times of[3])
{
    for (uint32_t i = round * FILES + (round == 0); i < (round + 1) * FILES; i++) create(i, &of[0]);
    for (uint32_t i = 0; i < WRITES; i++) {
        memset(payload, (int)(i % 251 + 1), 64);
        double begun = now();
        ssize_t count = pwrite(file, payload, PAYLOAD, 0);
        took(&of[1], begun);
        must(count == PAYLOAD, "not written");
    }
    for (uint32_t i = 0; i < READS; i++) {
        double begun = now();
        ssize_t count = pread(file, read_back, PAYLOAD, 0);
        took(&of[2], begun);
        must(count == PAYLOAD, "not read");
    }
    must(!memcmp(read_back, payload, PAYLOAD), "other bytes");
}

static void remove_folder(int file)
{
    close(file);
    for (uint32_t i = 0; i < ROUNDS * FILES; i++) unlink(path_of(i));
    rmdir(folder);
}

int main(int argc, char **argv)
{
    static const char *const calls[] = { "Create", "Write of 64 KiB", "read of 64 KiB" };
    static struct times of_desk[3], of_folder[3];
    struct kfs desk = { 0 };
    must(argc == 2, "which folder?");
    memset(payload, 'x', sizeof payload);
    open_desk(&desk);
    int file = open_folder(argv[1]);
    for (uint32_t round = 0; round < ROUNDS; round++) {
        desk_round(&desk, round, of_desk);
        folder_round(file, round, of_folder);
    }
    remove_folder(file);
    kfs_close(&desk);
    printf("median of each, microseconds: the desk, and %s\n", argv[1]);
    for (int i = 0; i < 3; i++) printf("%-16s %8.2f %8.2f\n", calls[i], median(&of_desk[i]) / 1000, median(&of_folder[i]) / 1000);
    return 0;
}
