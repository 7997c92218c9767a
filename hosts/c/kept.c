/* A desk whose answers outlive a crash, over SQLite. Calls come as bytes (docs/FORMATS.md, "Calls of a desk"), each a line in
 * hexadecimal, or `-` for no bytes; an empty line ends a group. Its calls are made, kept with their answers, committed at once, and then answered.
 *
 * gcc -O2 -I include hosts/c/kept.c libkfs_c.a liblibc_c.a -lsqlite3 -o kept && ./kept DATABASE STATE [LIMIT] < CALLS
 *
 * A new database begins with the bytes of the file STATE. Words of its output: `ready N`, how many calls are kept; then of each
 * call its answer in hexadecimal, or `refused CODE INDEX` or `memory` where it has none. Where STATE is `-`, it writes the
 * state's bytes and ends. The exit status is 3 where the database fails, and 4 where what it keeps isn't to be had again. */
#include "kfs.h"
#include <inttypes.h>
#include <sqlite3.h>
#include <stdio.h>
#include <stdlib.h>
#include <string.h>

enum { GROUP = 4096, LINE = 1 << 22, FAILED = 3, OTHER = 4 };

/* A new state is saved when the calls since the last one have this many times its bytes, and at least as many. */
enum { TIMES = 4, LEAST = 1 << 16 };

struct answer {
    uint32_t status;
    uint8_t bytes[KFS_ANSWER_LIMIT];
    size_t len;
    struct kfs_fault fault;
};

static struct kfs desk;
static sqlite3 *db;
static uint32_t limit = UINT32_MAX;
/* How many calls are kept in all, and the bytes of the saved state and of the calls since. */
static uint64_t kept, state_len, calls_len;

static void stop(int status, const char *what, const char *why)
{
    fprintf(stderr, "kept: %s: %s\n", what, why);
    exit(status);
}

static void must(bool is_well, const char *what)
{
    if (!is_well) stop(FAILED, what, sqlite3_errmsg(db));
}

static void sql(const char *text)
{
    must(sqlite3_exec(db, text, NULL, NULL, NULL) == SQLITE_OK, text);
}

static sqlite3_stmt *prepared(const char *text)
{
    sqlite3_stmt *made = NULL;
    must(sqlite3_prepare_v2(db, text, -1, &made, NULL) == SQLITE_OK, text);
    return made;
}

/* ---- the desk */

/* The state's bytes, which the caller frees. */
static uint8_t *state_of(size_t *len)
{
    uint8_t none, *bytes;
    if (kfs_state(&desk, &none, 0, len) != KFS_SHORT) stop(FAILED, "state", "memory");
    bytes = malloc(*len);
    if (!bytes || kfs_state(&desk, bytes, *len, len) != KFS_DONE) stop(FAILED, "state", "memory");
    return bytes;
}

static void restore(const uint8_t *bytes, size_t len)
{
    struct kfs_fault fault = { 0 };
    uint32_t status = kfs_restore(&desk, bytes, len, limit, &fault);
    if (status == KFS_REFUSED) stop(OTHER, "state", "it is refused");
    if (status != KFS_DONE) stop(FAILED, "state", "memory");
}

/* A new docket, where the old one is full: the desk goes on where it stands. */
static void begin_docket(void)
{
    size_t len;
    uint8_t *bytes = state_of(&len);
    restore(bytes, len);
    free(bytes);
}

static void make_call(const uint8_t *bytes, size_t len, struct answer *answer)
{
    memset(answer, 0, sizeof *answer);
    for (int tries = 0; tries < 2; tries++) {
        answer->status = kfs_call(&desk, bytes, len, answer->bytes, sizeof answer->bytes, &answer->len, &answer->fault);
        if (answer->status != KFS_FULL) return;
        begin_docket();
    }
}

/* ---- the database: a state, and the calls since */

static void save_state(const char *text)
{
    size_t len;
    uint8_t *bytes = state_of(&len);
    sqlite3_stmt *row = prepared(text);
    must(sqlite3_bind_blob64(row, 1, bytes, len, SQLITE_STATIC) == SQLITE_OK, text);
    must(sqlite3_bind_int64(row, 2, (sqlite3_int64)kept) == SQLITE_OK, text);
    must(sqlite3_step(row) == SQLITE_DONE, text);
    must(sqlite3_finalize(row) == SQLITE_OK, text);
    free(bytes);
    state_len = len;
    calls_len = 0;
}

/* The old state and its calls go in the transaction in which the new state comes. */
static void checkpoint(void)
{
    sql("BEGIN IMMEDIATE");
    save_state("UPDATE state SET bytes = ?, number = ?");
    sql("DELETE FROM calls");
    sql("COMMIT");
}

static void keep(sqlite3_stmt *row, const uint8_t *call, size_t len, const struct answer *answer)
{
    kept++;
    must(sqlite3_bind_int64(row, 1, (sqlite3_int64)kept) == SQLITE_OK, "keep");
    must(sqlite3_bind_blob64(row, 2, call, len, SQLITE_STATIC) == SQLITE_OK, "keep");
    /* the first four bytes are the row of this docket: that of a desk that is opened anew counts anew */
    must(sqlite3_bind_blob64(row, 3, answer->bytes + 4, answer->len - 4, SQLITE_STATIC) == SQLITE_OK, "keep");
    must(sqlite3_step(row) == SQLITE_DONE, "keep");
    must(sqlite3_reset(row) == SQLITE_OK, "keep");
    calls_len += len + answer->len;
}

/* Makes a kept call again: it has the answer that is kept. */
static void make_again(sqlite3_stmt *row)
{
    struct answer answer;
    const uint8_t *call = sqlite3_column_blob(row, 1), *due = sqlite3_column_blob(row, 2);
    size_t len = (size_t)sqlite3_column_bytes(row, 1), due_len = (size_t)sqlite3_column_bytes(row, 2);
    kept++;
    if ((uint64_t)sqlite3_column_int64(row, 0) != kept) stop(OTHER, "calls", "one is missing");
    make_call(call, len, &answer);
    if (answer.status == KFS_NO_MEMORY) stop(FAILED, "calls", "memory");
    if (answer.status != KFS_DONE || answer.len != due_len + 4 || memcmp(answer.bytes + 4, due, due_len))
        stop(OTHER, "calls", "one has another answer than it had");
    calls_len += len + answer.len;
}

/* Opens the database: its state, and its calls made again. False where it has no state yet. */
static bool open_kept(const char *file)
{
    sqlite3_stmt *row;
    bool is_there;
    must(sqlite3_open(file, &db) == SQLITE_OK, file);
    sql("PRAGMA journal_mode = WAL");
    /* a commit is on the disk when it is answered */
    sql("PRAGMA synchronous = FULL");
    sql("CREATE TABLE IF NOT EXISTS state (bytes BLOB NOT NULL, number INTEGER NOT NULL)");
    sql("CREATE TABLE IF NOT EXISTS calls (number INTEGER PRIMARY KEY, call BLOB NOT NULL, answer BLOB NOT NULL)");
    row = prepared("SELECT bytes, number FROM state");
    is_there = sqlite3_step(row) == SQLITE_ROW;
    if (is_there) {
        state_len = (uint64_t)sqlite3_column_bytes(row, 0);
        kept = (uint64_t)sqlite3_column_int64(row, 1);
        restore(sqlite3_column_blob(row, 0), state_len);
    }
    must(sqlite3_finalize(row) == SQLITE_OK, "state");
    row = prepared("SELECT number, call, answer FROM calls ORDER BY number");
    while (sqlite3_step(row) == SQLITE_ROW) make_again(row);
    must(sqlite3_finalize(row) == SQLITE_OK, "calls");
    return is_there;
}

/* ---- lines */

static int digit(int c)
{
    if (c >= '0' && c <= '9') return c - '0';
    return c >= 'a' && c <= 'f' ? c - 'a' + 10 : -1;
}

/* How many bytes a line has, which stand in its place then: none where it isn't hexadecimal. */
static size_t bytes_of(char *line)
{
    size_t digits = strcspn(line, "\n");
    if (digits % 2) return 0;
    for (size_t at = 0; at < digits; at += 2) {
        int high = digit(line[at]), low = digit(line[at + 1]);
        if (high < 0 || low < 0) return 0;
        line[at / 2] = (char)(high * 16 + low);
    }
    return digits / 2;
}

static void say_bytes(const uint8_t *bytes, size_t len)
{
    for (size_t at = 0; at < len; at++) printf("%02x", bytes[at]);
    putchar('\n');
}

static void say(const struct answer *answer)
{
    if (answer->status == KFS_DONE) say_bytes(answer->bytes, answer->len);
    else if (answer->status == KFS_REFUSED) printf("refused %u %" PRIu64 "\n", answer->fault.code, answer->fault.index);
    else puts("memory");
}

/* Makes the calls of a group and keeps them, and answers once they are on the disk. False at the end of the input. */
static bool serve_group(char *line, sqlite3_stmt *row)
{
    static struct answer answers[GROUP];
    size_t count = 0;
    bool goes_on = false;
    sql("BEGIN IMMEDIATE");
    while (count < GROUP && (goes_on = fgets(line, LINE, stdin) != NULL) && *line != '\n') {
        size_t len = bytes_of(line);
        struct answer *answer = &answers[count++];
        make_call((const uint8_t *)line, len, answer);
        if (answer->status == KFS_DONE) keep(row, (const uint8_t *)line, len, answer);
    }
    /* where this fails, the desk is ahead of the database: it answers nothing more */
    sql("COMMIT");
    for (size_t at = 0; at < count; at++) say(&answers[at]);
    fflush(stdout);
    if (calls_len > LEAST && calls_len > TIMES * state_len) checkpoint();
    return goes_on;
}

static void begin_with(const char *file)
{
    static uint8_t bytes[1 << 20];
    FILE *from = fopen(file, "rb");
    size_t len = from ? fread(bytes, 1, sizeof bytes, from) : 0;
    if (!from || !feof(from)) stop(OTHER, file, "it can't be read");
    fclose(from);
    restore(bytes, len);
    sql("BEGIN IMMEDIATE");
    save_state("INSERT INTO state VALUES (?, ?)");
    sql("COMMIT");
}

int main(int words, char **word)
{
    static char line[LINE];
    sqlite3_stmt *row;
    if (words < 3) stop(2, "words", "DATABASE STATE [LIMIT]");
    if (words > 3) limit = (uint32_t)strtoul(word[3], NULL, 10);
    if (!open_kept(word[1])) begin_with(word[2]);
    if (!strcmp(word[2], "-")) {
        size_t len;
        uint8_t *bytes = state_of(&len);
        say_bytes(bytes, len);
        free(bytes);
        return 0;
    }
    printf("ready %" PRIu64 "\n", kept);
    fflush(stdout);
    row = prepared("INSERT INTO calls VALUES (?, ?, ?)");
    while (serve_group(line, row)) {}
    must(sqlite3_finalize(row) == SQLITE_OK, "calls");
    must(sqlite3_close(db) == SQLITE_OK, "close");
    kfs_close(&desk);
    return 0;
}
