/* The digest desk, for C. A commit server for a log-structured file system, inside your process.
 *
 * Link libkfs_c.a and the kit's liblibc_c.a. docs/EMBEDDING.md has the commands, and who makes what.
 * This header is written by hand; nothing proves that it says what crates/kfs_c/src says.
 *
 * Handles.  `struct kfs` is the host's own memory. All zero is a handle that holds nothing. A handle
 *   holds a desk, a view of a desk, or a verdict. What it holds is freed by kfs_close, and by a call that
 *   has it hold something else, once that is there: a call that fails leaves it as it is. A verdict is
 *   used up by kfs_land. Never copy a handle that holds something, and never write its fields.
 *
 * Memory.  All of it is taken by malloc and realloc, and freed by free. Where one of them answers NULL,
 *   the call answers KFS_NO_MEMORY, and each handle holds what it held, but for the verdict of kfs_land.
 *   No call keeps a pointer that it is given. A handle that is opened, loaded, restored or resumed anew holds both
 *   desks for a while: close it first where memory is short.
 *
 * Pointers.  None may be NULL, also where its length is 0. What is passed for a call must not overlap
 *   what the call writes, and no other thread may touch it meanwhile. So copy a name out of the buffer
 *   before you pass it to kfs_name as `after`.
 *
 * Before a call.  Buffers, and the numbers of what a call writes, may be uninitialised. So may the room
 *   between fields. Each bool must be false or true, also in a reply that is only written: begin with
 *   `= { 0 }`, in C++ with `= {}`. A handle must be all zero, or as a call left it.
 *
 * Threads.  Each handle takes one call at a time; the host orders them, by a mutex for one. Calls on
 *   different handles may run beside each other: so hold the desk's mutex for kfs_look, judge against
 *   that view with no mutex, and hold it again for kfs_land. A handle may go to another thread.
 *   Don't call from a signal handler, nor in the child of a fork with several threads.
 *
 * Moments.  A count in a unit of the host's choice. It begins at 0 and never goes back.
 */
#ifndef KFS_H
#define KFS_H

#include <errno.h>
#include <stdbool.h>
#include <stddef.h>
#include <stdint.h>

/* The version of the library, of this header and of the formats: the file VERSION. */
#define KFS_VERSION "0.1.0"

#ifdef __cplusplus
extern "C" {
#endif

/* A desk, a view, a verdict, or nothing. */
struct kfs {
    void *at;
    bool full;
};

/* What a call answers. */
enum {
    KFS_DONE = 0,       /* the call was made; a reply says what came of it */
    KFS_NO_MEMORY = 1,  /* memory was refused; no desk has changed; the same call may be tried again,
                         * kfs_land after kfs_judge */
    KFS_FULL = 2,       /* the docket has `limit` rows; the desk is as it was; it takes no more rows */
    KFS_NOTHING = 3,    /* there is no such node, name, block or plan */
    KFS_REFUSED = 4,    /* refused; see the call */
    KFS_SHORT = 5,      /* the buffer is too short; the length that is needed is told */
    KFS_CLOSED = 6,     /* the handle holds nothing */
    KFS_WRONG_KIND = 7, /* the handle holds something of another kind */
    KFS_DIRECTORY = 8,  /* the node is a directory, and the call is for files */
    KFS_SAME_HANDLE = 9 /* one handle was given for two; nothing was done. This header answers it */
};

/* The most of everything. */
enum {
    KFS_GREATEST_NUMBER = 65536, /* of a node; the root is 1 */
    KFS_TIER_LIMIT = 65536,      /* blocks of a tier */
    KFS_BLOCK_SIZE = 4096,       /* bytes of a block */
    KFS_LINK_LIMIT = 1024,       /* names of a file */
    KFS_NAME_LIMIT = 255,        /* bytes of a name */
    KFS_GROUP_LIMIT = 16,        /* supplementary groups of a client */
    KFS_ENTRY_LIMIT = 4096,      /* entries of a log */
    KFS_MOVE_LIMIT = 1024,       /* moves of a call */
    KFS_ANSWER_LIMIT = 20        /* bytes of an answer of kfs_call */
};

/* Why something was refused. All zero: no fault. The lists of codes are below. */
struct kfs_fault {
    uint32_t code;   /* the fault's number in its list, from 1 */
    uint32_t reason; /* the number of the reason within that fault, from 1; 0 where it has none */
    uint64_t index;  /* which entry, row, move, component or client, from 0 */
    uint32_t detail; /* a number that the reason tells: of a node, a client or a part */
};

/* Of a reply to a submission. */
enum {
    KFS_UNKNOWN_CLIENT = 1, /* the desk was begun without this client */
    KFS_BAD_LOG = 2,        /* the bytes are no log; reason: KFS_BAD_HEADER .. KFS_TRAILING */
    KFS_WRONG_CLIENT = 3,   /* the log is another client's */
    KFS_BAD_PLAN = 4,       /* the bytes are no plan; reason: KFS_BAD_HEADER .. KFS_BAD_ROW */
    KFS_ENTRY = 5,          /* entry `index` is refused; reason: enum kfs_reason */
    KFS_ROW = 6             /* row `index` of the plan is wrong; reason: 1 names, 2 nodes, 3 pieces */
};

/* Of bytes that are no log or no plan. */
enum {
    KFS_BAD_HEADER = 1,
    KFS_BAD_ENTRY = 2, /* `index` entries were read, and no entry follows */
    KFS_TRAILING = 3,  /* all was read, and bytes remain */
    KFS_BAD_ROW = 4    /* `index` rows of part `detail` (0 names, 1 nodes, 2 pieces) were read */
};

/* Why an entry is refused. */
enum kfs_reason {
    KFS_NO_SUCH_NODE = 1,
    KFS_NOT_DIRECTORY = 2,
    KFS_IS_DIRECTORY = 3,
    KFS_NO_SUCH_NAME = 4,
    KFS_NAME_TAKEN = 5,
    KFS_NUMBER_TAKEN = 6,
    KFS_NUMBER_NOT_GRANTED = 7,
    KFS_NOT_EMPTY = 8,
    KFS_BELOW_ITSELF = 9,
    KFS_TOO_MANY_LINKS = 10,
    KFS_TOO_BIG = 11,
    KFS_NO_SEARCH = 12,
    KFS_NO_WRITE = 13,
    KFS_NOT_OWNER = 14,
    KFS_NO_LEASE = 15, /* no live write lease on node `detail` */
    KFS_STICKY = 16,
    KFS_NOT_IN_GROUP = 17
};

/* Of a call for leases. */
enum {
    KFS_LEASE_UNKNOWN_CLIENT = 1,
    KFS_LEASE_BAD_PATH = 2,      /* neither "/" nor names with one "/" before each */
    KFS_LEASE_NO_SUCH_NAME = 3,  /* component `index` */
    KFS_LEASE_NOT_DIRECTORY = 4, /* what comes before component `index` */
    KFS_LEASE_NO_SEARCH = 5,     /* of the directory before component `index` */
    KFS_LEASE_PAST = 6,          /* the end isn't above the moment */
    KFS_LEASE_HELD = 7,          /* by client `detail` */
    KFS_LEASE_NONE_HELD = 8,
    KFS_LEASE_BACKWARDS = 9,     /* the moment would go down */
    KFS_LEASE_NO_SUCH_NODE = 10,
    KFS_LEASE_NOT_ALLOWED = 11   /* no permission on the node for such a lease */
};

/* Of moves of blocks: move `index`. */
enum {
    KFS_MOVE_NOT_MAPPED = 1,
    KFS_MOVE_OUT_OF_RANGE = 2,
    KFS_MOVE_NOT_FREE = 3,
    KFS_MOVE_OVERLAP = 4,
    KFS_MOVE_TOO_MANY = 5
};

/* Of kfs_may, the first that applies. */
enum {
    KFS_MAY_UNKNOWN_CLIENT = 1, /* the desk was begun without this client */
    KFS_MAY_NO_SUCH_NODE = 2,
    KFS_MAY_NOT_DIRECTORY = 3,  /* for names */
    KFS_MAY_IS_DIRECTORY = 4,   /* for bytes */
    KFS_MAY_NO_SEARCH = 5,      /* for a name */
    KFS_MAY_NO_READ = 6         /* for all names, and for bytes */
};

/* Of bytes that are no call of kfs_call. */
enum {
    KFS_CALL_BAD_FIELD = 1, /* `index` fields were read, and no field that may follow them does; the tag is field 0 */
    KFS_CALL_TRAILING = 2   /* a call was read, and bytes remain */
};

/* Of kfs_open, kfs_load, kfs_restore and kfs_resume. */
enum {
    KFS_OPEN_SIZES = 1,   /* a tier has over 65,536 blocks */
    KFS_OPEN_CLIENT = 2,  /* client `index`; reason: 1 over 16 groups, 2 a bad grant, 3 groups out of the list */
    KFS_OPEN_CLIENTS = 3, /* client `index`; reason: 1 its number is an earlier one's, 2 so is a number of its grant */
    KFS_OPEN_IMAGE = 4,   /* the bytes are no image; reason: 1 header, 2 row `index`, 3 bytes remain */
    KFS_OPEN_RULE = 5,    /* the image breaks rule `reason`, 1 to 10, at node `index` */
    KFS_OPEN_STATE = 6,   /* the bytes are no state; reason: 1 header, 2 row `index` of part `detail`: 0 clients,
                           * 1 leases */
    KFS_OPEN_LEASE = 7    /* lease `index`; reason: 1 no such client, 2 no such node, 3 its end isn't above the
                           * moment, 4 it isn't behind the one before it, 5 it conflicts with an earlier one */
};

/* What kfs_may is asked, of a node. */
enum {
    KFS_FIND_NAME = 1,  /* to look a name of the directory up: search permission */
    KFS_LIST_NAMES = 2, /* to list the directory's names: read permission */
    KFS_READ_BYTES = 3  /* to read the file's bytes: read permission */
};

/* A client. It may give the numbers first to last to new nodes, each 1 to 65,536; none where first is
 * above last. Its supplementary groups are groups[groups_start] on. */
struct kfs_client {
    uint32_t number;
    uint32_t uid;
    uint32_t gid;
    uint32_t first;
    uint32_t last;
    uint32_t groups_start;
    uint32_t groups_count;
    bool privileged; /* permission bits don't bind it */
};

/* A lease of a client on a node. */
struct kfs_held {
    uint32_t number;
    uint32_t client;
    uint64_t end; /* above the moment */
    bool write;   /* else for reading */
};

/* The move of a block of a file to a place of a tier. All count from 0. */
struct kfs_move {
    uint32_t number;
    uint32_t block;
    uint8_t tier;
    uint32_t place;
};

enum { KFS_YES = 0, KFS_NO = 1, KFS_NO_ROOM = 2 };

/* The answer to a submission. The tree has changed only where it is KFS_YES. */
struct kfs_reply {
    uint32_t kind;          /* KFS_YES, KFS_NO or KFS_NO_ROOM */
    uint32_t position;      /* its row of the docket, from 0 */
    bool rejudged;          /* it was judged again, since what the verdict rested on had changed */
    uint64_t need;          /* blocks that are written, each to a free place of tier 0; 0 for KFS_NO */
    uint32_t free;          /* free places of tier 0, for KFS_NO_ROOM */
    struct kfs_fault fault; /* for KFS_NO */
};

/* The answer to a call that is no submission. */
struct kfs_act {
    uint32_t position;      /* its row of the docket, from 0 */
    bool done;              /* else `fault` says why not, and nothing has changed */
    uint64_t number;        /* the node, the moment, or how many blocks moved */
    struct kfs_fault fault;
};

/* The header of a node. */
struct kfs_node {
    bool directory;
    uint16_t mode;  /* 0 to 01777 */
    uint16_t links; /* 1 to 1,024 */
    uint32_t uid;
    uint32_t gid;
    uint64_t size;  /* bytes, at most 2^32 */
};

#ifdef __cplusplus
#define KFS_HOLDS(test, words) static_assert(test, words)
#else
#define KFS_HOLDS(test, words) _Static_assert(test, words)
#endif
#define KFS_LIES(type, field, at) KFS_HOLDS(offsetof(struct type, field) == (at), #type "." #field)
KFS_HOLDS(sizeof(struct kfs) == 16 && sizeof(size_t) == 8, "a machine of 64 bits");
KFS_LIES(kfs, full, 8);
KFS_HOLDS(sizeof(struct kfs_fault) == 24, "kfs_fault");
KFS_LIES(kfs_fault, reason, 4);
KFS_LIES(kfs_fault, index, 8);
KFS_LIES(kfs_fault, detail, 16);
KFS_HOLDS(sizeof(struct kfs_client) == 32, "kfs_client");
KFS_LIES(kfs_client, uid, 4);
KFS_LIES(kfs_client, gid, 8);
KFS_LIES(kfs_client, first, 12);
KFS_LIES(kfs_client, last, 16);
KFS_LIES(kfs_client, groups_start, 20);
KFS_LIES(kfs_client, groups_count, 24);
KFS_LIES(kfs_client, privileged, 28);
KFS_HOLDS(sizeof(struct kfs_held) == 24, "kfs_held");
KFS_LIES(kfs_held, client, 4);
KFS_LIES(kfs_held, end, 8);
KFS_LIES(kfs_held, write, 16);
KFS_HOLDS(sizeof(struct kfs_move) == 16, "kfs_move");
KFS_LIES(kfs_move, block, 4);
KFS_LIES(kfs_move, tier, 8);
KFS_LIES(kfs_move, place, 12);
KFS_HOLDS(sizeof(struct kfs_reply) == 56, "kfs_reply");
KFS_LIES(kfs_reply, position, 4);
KFS_LIES(kfs_reply, rejudged, 8);
KFS_LIES(kfs_reply, need, 16);
KFS_LIES(kfs_reply, free, 24);
KFS_LIES(kfs_reply, fault, 32);
KFS_HOLDS(sizeof(struct kfs_act) == 40, "kfs_act");
KFS_LIES(kfs_act, done, 4);
KFS_LIES(kfs_act, number, 8);
KFS_LIES(kfs_act, fault, 16);
KFS_HOLDS(sizeof(struct kfs_node) == 24, "kfs_node");
KFS_LIES(kfs_node, mode, 2);
KFS_LIES(kfs_node, links, 4);
KFS_LIES(kfs_node, uid, 8);
KFS_LIES(kfs_node, gid, 12);
KFS_LIES(kfs_node, size, 16);

/* ---- opening and closing */

/* Has the handle hold a desk with a new image: a root directory, and three tiers of so many blocks.
 * What it held is freed then. The docket will have at most `limit` rows; each answered call takes one.
 * KFS_REFUSED: `fault` has a KFS_OPEN_ code, of the first client that is wrong if one is.
 * KFS_REFUSED, KFS_NO_MEMORY: the handle holds what it held. */
uint32_t kfs_open(struct kfs *handle, uint32_t first, uint32_t second, uint32_t third,
                  const struct kfs_client *clients, size_t clients_len,
                  const uint32_t *groups, size_t groups_len, uint32_t limit, struct kfs_fault *fault);

/* The same with the image that the bytes spell, as kfs_save gives them. */
uint32_t kfs_load(struct kfs *handle, const uint8_t *bytes, size_t bytes_len,
                  const struct kfs_client *clients, size_t clients_len,
                  const uint32_t *groups, size_t groups_len, uint32_t limit, struct kfs_fault *fault);

/* Has the handle hold a desk that goes on where another one stood: moment, clients, leases and image are those of the
 * bytes, as kfs_state gives them. What it held is freed then. The docket is empty, and will have at most `limit` rows.
 * KFS_REFUSED: `fault` has a KFS_OPEN_ code, of the first thing that is wrong: the state's bytes, its image's bytes, a
 * rule of the image, a client by itself, a lease, clients together. KFS_REFUSED, KFS_NO_MEMORY: the handle holds what
 * it held. */
uint32_t kfs_restore(struct kfs *handle, const uint8_t *bytes, size_t bytes_len, uint32_t limit,
                     struct kfs_fault *fault);

/* Has the handle hold a desk that goes on with the image that the bytes spell, as kfs_save gives them, these clients,
 * and the leases that they hold at this moment, ascending by node and then by client. What it held is freed then. The
 * docket is empty, and will have at most `limit` rows.
 * KFS_REFUSED: `fault` has a KFS_OPEN_ code, of the first thing that is wrong: the image's bytes, a rule of the image,
 * a client by itself, a lease, clients together. KFS_REFUSED, KFS_NO_MEMORY: the handle holds what it held. */
uint32_t kfs_resume(struct kfs *handle, const uint8_t *bytes, size_t bytes_len,
                    const struct kfs_client *clients, size_t clients_len,
                    const uint32_t *groups, size_t groups_len,
                    const struct kfs_held *leases, size_t leases_len, uint64_t moment, uint32_t limit,
                    struct kfs_fault *fault);

/* Frees what the handle holds. It holds nothing then, and may be closed again. */
void kfs_close(struct kfs *handle);

/* ---- submissions. KFS_DONE: there is a reply. KFS_NO_MEMORY, KFS_FULL: nothing has changed. */

/* Judges the log and its plan against the desk's state now, and lands them. Both are read where they lie,
 * and are the host's again after the call. The host says which client it is; nothing here authenticates
 * it. */
uint32_t kfs_submit(struct kfs *handle, uint32_t client, const uint8_t *log, size_t log_len,
                    const uint8_t *plan, size_t plan_len, struct kfs_reply *reply);

/* Makes the log's plan against the desk's state now (kfs_plan), and submits both (kfs_submit). Where there is
 * no plan, the reply tells the fault of the log: an unknown client, bytes that are no log of this client, or
 * the first entry that is refused. */
uint32_t kfs_do(struct kfs *handle, uint32_t client, const uint8_t *log, size_t log_len,
                struct kfs_reply *reply);

/* Has `view` hold a view of the desk's state now; what it held is freed then. It shares the desk's tables
 * and doesn't change when the desk goes on. A view that is kept makes the desk copy what it changes.
 * Whatever isn't KFS_DONE leaves `view` as it was. */
uint32_t kfs_look(struct kfs *handle, struct kfs *view);

/* Has `verdict` hold a verdict on a submission; what it held is freed then. `view` is as it was, and no
 * desk is touched. A bad submission has a verdict, too. Whatever isn't KFS_DONE leaves `verdict` as it
 * was. */
uint32_t kfs_judge(struct kfs *view, uint32_t client, const uint8_t *log, size_t log_len,
                   const uint8_t *plan, size_t plan_len, struct kfs *verdict);

/* Lands a verdict, whatever view it is from; it is judged again only where it has to be. The verdict is
 * used up, for KFS_NO_MEMORY and KFS_FULL too: to try again, judge again. It stays where the answer is
 * KFS_CLOSED or KFS_WRONG_KIND, which may be said of either handle. */
uint32_t kfs_land(struct kfs *handle, struct kfs *verdict, struct kfs_reply *reply);

/* Writes the plan of a client's log, against the state now, into the front of the buffer. As kfs_save
 * otherwise. KFS_NOTHING: there is none, since the bytes are no log of this client, or the log has a
 * fault, whatever leases the client gets. KFS_REFUSED: the desk has no such client. */
uint32_t kfs_plan(struct kfs *handle, uint32_t client, const uint8_t *log, size_t log_len,
                  uint8_t *buffer, size_t buffer_len, size_t *len);

/* ---- other calls. KFS_DONE: there is a reply. KFS_NO_MEMORY, KFS_FULL: nothing has changed. */

/* Gives the client a lease on the node at the path, up to the moment `end`: for writing, or else for
 * reading. */
uint32_t kfs_lease(struct kfs *handle, uint32_t client, const uint8_t *path, size_t path_len,
                   bool write, uint64_t end, struct kfs_act *reply);

/* The same for the node with this number, without a path: no directory is searched. In place of it the
 * client must have permission on the node itself: for reading it may read the node; for writing it may
 * write it, or owns it, or is privileged. Else KFS_LEASE_NOT_ALLOWED. */
uint32_t kfs_lease_at(struct kfs *handle, uint32_t client, uint32_t number, bool write, uint64_t end,
                      struct kfs_act *reply);

/* Ends the client's lease on the node. */
uint32_t kfs_drop(struct kfs *handle, uint32_t client, uint32_t number, struct kfs_act *reply);

/* Goes to this moment, and ends the leases whose end has come. */
uint32_t kfs_tick(struct kfs *handle, uint64_t moment, struct kfs_act *reply);

/* Moves blocks to other places, all of them or none. Trees, leases and verdicts stay as they are. */
uint32_t kfs_migrate(struct kfs *handle, const struct kfs_move *moves, size_t moves_len,
                     struct kfs_act *reply);

/* ---- calls as bytes */

/* Makes the call that the bytes spell: a submission, or one of the four calls above. Its answer's bytes go into the
 * front of the buffer, and `len` tells how many there are. docs/FORMATS.md has both formats: an answer has the row of
 * the docket and the numbers of kfs_reply or kfs_act. KFS_DONE: the call is answered, and has its row. Of all others
 * the desk and the buffer are as they were. KFS_SHORT: the buffer has fewer than KFS_ANSWER_LIMIT bytes, which `len`
 * tells. KFS_REFUSED: the bytes are no call, and `fault` has a KFS_CALL_ code. KFS_FULL comes before KFS_SHORT, and
 * that before KFS_REFUSED. */
uint32_t kfs_call(struct kfs *handle, const uint8_t *bytes, size_t bytes_len,
                  uint8_t *answer, size_t answer_len, size_t *len, struct kfs_fault *fault);

/* ---- look-ups. The desk or the view is as it was, and no row is added. Only kfs_save and kfs_state take memory. */

/* The header of a node, or KFS_NOTHING. */
uint32_t kfs_node(struct kfs *handle, uint32_t number, struct kfs_node *node);

/* The number to which a name of the directory leads. KFS_NOTHING: it has no such name, or is no directory.
 * KFS_REFUSED: the bytes are no name. No check is made of who looks: ask kfs_may for KFS_FIND_NAME. */
uint32_t kfs_find(struct kfs *handle, uint32_t directory, const uint8_t *name, size_t name_len,
                  uint32_t *number);

/* Whether the client may do what `access` says with the node, by the permission bits that the view shows
 * (POSIX.1-2017, XBD 4.5); a privileged client may. Only this node's bits count, and none of the directories
 * above it: along a path ask for KFS_FIND_NAME at each directory. KFS_DONE: it may. KFS_REFUSED: it may not,
 * and `fault` has a KFS_MAY_ code. KFS_NOTHING: `access` is none of the three. The handle is a view's, so
 * the desk's mutex isn't needed. */
uint32_t kfs_may(struct kfs *view, uint32_t access, uint32_t client, uint32_t number,
                 struct kfs_fault *fault);

/* The least name of the directory above `after`, or the least of all where after_len is 0: its bytes
 * into the front of `name` (255 are always enough), its length, and the number that it leads to.
 * KFS_NOTHING: there is no such name. KFS_REFUSED: `after` is no name. KFS_SHORT: `len` tells its
 * length. */
uint32_t kfs_name(struct kfs *handle, uint32_t directory, const uint8_t *after, size_t after_len,
                  uint8_t *name, size_t name_len, size_t *len, uint32_t *number);

/* Bytes of a file from `start` on, as pread(): `count` tells how many, 0 at the file's end. No check is
 * made of who reads: ask kfs_may for KFS_READ_BYTES. KFS_NOTHING: no such node. KFS_DIRECTORY: the node is one. */
uint32_t kfs_read(struct kfs *handle, uint32_t number, uint64_t start,
                  uint8_t *buffer, size_t buffer_len, size_t *count);

/* Where a block of a file lies, or KFS_NOTHING where it isn't mapped. */
uint32_t kfs_place(struct kfs *handle, uint32_t number, uint32_t block, uint8_t *tier, uint32_t *place);

/* How many places of the tier hold no block; 0 for a tier over 2. */
uint32_t kfs_free(struct kfs *handle, uint8_t tier, uint32_t *count);

/* How many rows the docket has. */
uint32_t kfs_docket_len(struct kfs *handle, uint32_t *count);

/* Writes the image's bytes into the front of the buffer. `len` tells how many there are, also for
 * KFS_SHORT; so ask with a buffer of length 0 first. The docket and the leases aren't in them. */
uint32_t kfs_save(struct kfs *handle, uint8_t *buffer, size_t buffer_len, size_t *len);

/* Writes the bytes of the desk's state into the front of the buffer: moment, clients, leases and image, without the
 * docket (docs/FORMATS.md). As kfs_save otherwise. kfs_restore makes a desk of them again. KFS_REFUSED: there are 2^32
 * clients or leases or more, or a client has more groups than a client may have. */
uint32_t kfs_state(struct kfs *handle, uint8_t *buffer, size_t buffer_len, size_t *len);

/* ---- one handle for two */

static inline uint32_t kfs_look_apart(struct kfs *handle, struct kfs *view)
{
    return handle == view ? (uint32_t)KFS_SAME_HANDLE : kfs_look(handle, view);
}

static inline uint32_t kfs_judge_apart(struct kfs *view, uint32_t client, const uint8_t *log, size_t log_len,
                                       const uint8_t *plan, size_t plan_len, struct kfs *verdict)
{
    if (view == verdict) return KFS_SAME_HANDLE;
    return kfs_judge(view, client, log, log_len, plan, plan_len, verdict);
}

static inline uint32_t kfs_land_apart(struct kfs *handle, struct kfs *verdict, struct kfs_reply *reply)
{
    return handle == verdict ? (uint32_t)KFS_SAME_HANDLE : kfs_land(handle, verdict, reply);
}

/* Calls of these three names look first whether there are two handles. */
#define kfs_look(handle, view) kfs_look_apart(handle, view)
#define kfs_judge(view, client, log, log_len, plan, plan_len, verdict) \
    kfs_judge_apart(view, client, log, log_len, plan, plan_len, verdict)
#define kfs_land(handle, verdict, reply) kfs_land_apart(handle, verdict, reply)

/* ---- errno */

/* An errno of POSIX.1-2017 for the reason of an entry; EIO for none of them. EAGAIN: get the lease, and
 * try again. */
static inline int kfs_errno(uint32_t reason)
{
    switch (reason) {
    case KFS_NO_SUCH_NODE:
    case KFS_NO_SUCH_NAME: return ENOENT;
    case KFS_NOT_DIRECTORY: return ENOTDIR;
    case KFS_IS_DIRECTORY: return EISDIR;
    case KFS_NAME_TAKEN:
    case KFS_NUMBER_TAKEN: return EEXIST;
    case KFS_NUMBER_NOT_GRANTED: return EPERM;
    case KFS_NOT_EMPTY: return ENOTEMPTY;
    case KFS_BELOW_ITSELF: return EINVAL;
    case KFS_TOO_MANY_LINKS: return EMLINK;
    case KFS_TOO_BIG: return EFBIG;
    case KFS_NO_SEARCH:
    case KFS_NO_WRITE: return EACCES;
    case KFS_NOT_OWNER:
    case KFS_STICKY:
    case KFS_NOT_IN_GROUP: return EPERM;
    case KFS_NO_LEASE: return EAGAIN;
    default: return EIO;
    }
}

/* An errno for a reply to a submission; 0 for KFS_YES. */
static inline int kfs_reply_errno(const struct kfs_reply *reply)
{
    if (reply->kind == KFS_YES) return 0;
    if (reply->kind == KFS_NO_ROOM) return ENOSPC;
    return reply->fault.code == KFS_ENTRY ? kfs_errno(reply->fault.reason) : EIO;
}

/* An errno for a fault of kfs_may. */
static inline int kfs_may_errno(uint32_t code)
{
    switch (code) {
    case KFS_MAY_NO_SUCH_NODE: return ENOENT;
    case KFS_MAY_NOT_DIRECTORY: return ENOTDIR;
    case KFS_MAY_IS_DIRECTORY: return EISDIR;
    case KFS_MAY_NO_SEARCH:
    case KFS_MAY_NO_READ: return EACCES;
    default: return EIO;
    }
}

/* An errno for what a call answers; 0 for KFS_DONE. */
static inline int kfs_status_errno(uint32_t status)
{
    switch (status) {
    case KFS_DONE: return 0;
    case KFS_NO_MEMORY: return ENOMEM;
    case KFS_FULL: return ENOSPC;
    case KFS_NOTHING: return ENOENT;
    case KFS_SHORT: return ERANGE;
    case KFS_CLOSED: return EBADF;
    case KFS_DIRECTORY: return EISDIR;
    default: return EINVAL;
    }
}

#ifdef __cplusplus
}
#endif

#endif
