/* mazzulpe.h: a verified transaction component, a data component and a BPF runner, for C and C++.
 *
 * A transaction component (mz_tc) takes all locks of a call, runs the call's stored procedure, keeps the
 * log, and hands out numbered operations on records. Your storage is a data component: it performs each
 * number once, and answers. Nothing here starts a thread, waits, reads a clock, a file or the environment,
 * or ends the process; each call returns.
 *
 * A CALL'S WAY
 *
 *     mz_admit -> mz_ask -> MZ_REQUEST: carry the wire, mz_answer, mz_ask again
 *                        -> MZ_DOWN: the data component restarted; once it is up again, mz_resend
 *                        -> MZ_UNDOING: mz_undo instead of mz_ask, until it says MZ_OVER
 *                        -> MZ_OVER: mz_end; before it mz_result says what was read and written
 *
 * mz_run does that with a function of yours that carries. Where nobody answers it stops, and goes on where it is
 * called again.
 *
 * A DATA COMPONENT THAT RESTARTED and may have lost what came after its last checkpoint tells its new
 * incarnation and the low-water mark that it kept:
 *
 *     mz_told -> mz_redo_next -> carry the wire, mz_redone, mz_redo_next again
 *             -> *up: all is redone, and open requests are sent again
 *
 * YOUR STORAGE HAS TO KEEP THE MARK THAT IT WAS TOLD BEFORE mz_checkpoint (mz_low_water) WITH ITS OWN
 * CHECKPOINT, FOR GOOD: the log behind it is gone. News of a lower mark are MZ_FORGOTTEN at every later
 * restart.
 *
 * MZ_FORGOTTEN IS THE LOSS OF THAT STORAGE: what it lost can't be redone. The component stays known in its
 * old incarnation, replies of the new one are refused, and no call gets on there. Only a copy of the storage
 * whose mark isn't lower brings it back.
 *
 * MZ_STUCK IS FOR GOOD: its locks stay held, calls that want them are MZ_BUSY, and mz_checkpoint is refused, so that the log
 * grows. mz_lock_at says its records. The way out: end what else is open, put those records right by hand, and begin
 * another log, whose session each component begins (docs/COMPONENTS.md).
 *
 * AN ENGINE THAT DIED COMES BACK from the rows of its log and from what it noted of its data components:
 *
 *     mz_recover -> each data component that is down: mz_redo
 *                -> each mz_open_from: mz_retake where it waits, and mz_run
 *
 * What a component lost while the engine was dead the engine learns from it: by the news to the first wire, or, before that,
 * by a call of yours that asks the component for its incarnation and mark, for mz_told (MZ_OLD_NEWS: nothing was lost).
 *
 * ERRORS. A call answers MZ_OK (0), or why it did nothing: a letter and a number in one word, as
 * MZ_CODE('B', 1) is "B1", a lock in the way. The handle is then as it was before; what was to be written
 * through a pointer is written only where a function says so. Where a code isn't listed at a function,
 * it doesn't come from it, but for three that may come from any: MZ_BAD_ARGUMENT is a number, a count or a
 * kind out of its range, or NULL where a function doesn't say that a pointer may be NULL; MZ_NO_SUCH_CALL a
 * handle of another kind, or one that is closed, as long as its memory isn't used again; MZ_MEMORY want of
 * memory, of a function that takes some. A function that answers a number answers 0 to such a handle.
 * mz_code_text says a code in a word.
 *
 * THREADS. A handle has no lock: make one call on it at a time, and order calls of different threads by a
 * lock of yours. Different handles have nothing in common. No call blocks, so a lock round a call is held
 * for microseconds; carry a wire to your storage without the lock. Looks (mz_open_from, mz_count and the like) are calls too: any
 * thread may make one, under the lock. With MZ_DEBUG defined before this header
 * is included, a call that finds another on its way on the same handle says so on standard error and aborts.
 *
 * MEMORY. A handle takes mazzulpe_size() bytes by malloc, and its tables more as they grow, by the three
 * functions of heap.c. The log grows by some 130 bytes an event, until mz_checkpoint, of which an event writes
 * 40, and 8 for each argument of a call or word of a value up to the last that isn't zero. Once mz_admit has
 * answered MZ_OK, no call on that transaction takes memory, but for mz_log_bytes and mz_log_at. mz_recover takes
 * memory as mz_admit does, and as much again as the rows have while it runs.
 *
 * RANGES. Data components are 0 to 65534, tables 0 to 65535, keys, numbers and arguments 64 bits, values
 * 64 bytes; names UTF-8 of at most 256 bytes; code at most 4096 slots of 8 bytes; a procedure takes at
 * most 8 arguments and has at most 16 access slots. Numbers of requests go to 2^62.
 *
 * What is proved, and what you have to see to yourself: docs/EMBEDDING.md.
 */
#ifndef MAZZULPE_H
#define MAZZULPE_H

#if !defined(__cplusplus) && (!defined(__STDC_VERSION__) || __STDC_VERSION__ < 199901L)
#error "mazzulpe.h is written in C99: compile with -std=c99 or later"
#endif

#include <stddef.h>
#include <stdint.h>
#include <stdlib.h>
#include <string.h>
#ifdef MZ_DEBUG
#include <stdio.h>
#endif

#ifdef __cplusplus
extern "C" {
#endif

/* ---- what is handed over */

#define MZ_VERSION 2 /* of this header and of the frame; mazzulpe_version() answers the library's */
#define MZ_RELEASE "0.2.0" /* 0.MZ_VERSION.PATCH: of the library, its packages and procd */

typedef uint32_t mz_code;
#define MZ_CODE(letter, number) ((mz_code)((letter) << 8 | (number)))
#define MZ_OK 0
#define MZ_NO_SUCH_CALL MZ_CODE('W', 1)       /* the handle is of another kind, or closed */
#define MZ_BAD_ARGUMENT MZ_CODE('W', 2)       /* a count, a kind or a number out of its range, or NULL */
#define MZ_NOT_TEXT MZ_CODE('W', 3)           /* a name isn't UTF-8 */
#define MZ_BAD_OBJECT MZ_CODE('W', 4)         /* mz_load_object: the file isn't whole, or isn't such a file */
#define MZ_MEMORY MZ_CODE('W', 5)
#define MZ_NO_PLACE MZ_CODE('W', 6)           /* nothing has this place */
#define MZ_SILENT MZ_CODE('W', 7)             /* mz_dc_perform: there is no reply to this wire */
#define MZ_OTHER_LIBRARY MZ_CODE('W', 8)      /* the library isn't the one that this header is for */
#define MZ_BUSY MZ_CODE('B', 1)               /* a lock of another transaction stands in the way */
#define MZ_NUMBERS_SPENT MZ_CODE('B', 2)      /* too few of the 2^62 numbers are left */
#define MZ_NO_PROCEDURE MZ_CODE('B', 4)       /* there is no such procedure */
#define MZ_ARGUMENT_COUNT MZ_CODE('B', 5)     /* it takes another number of arguments */
#define MZ_NO_TXN MZ_CODE('I', 2)             /* no such transaction is open */
#define MZ_NOT_OVER MZ_CODE('I', 5)           /* it can't end now */
#define MZ_NOTHING_OPEN MZ_CODE('I', 6)       /* it waits for no answer */
#define MZ_STRANGER MZ_CODE('I', 9)           /* no reply to what is waited for, which is still waited for */
#define MZ_NO_DC MZ_CODE('I', 10)             /* there is no such data component */
#define MZ_INCARNATIONS_SPENT MZ_CODE('I', 12) /* it has restarted 2^62 times */
#define MZ_DC_DOWN MZ_CODE('I', 13)           /* the data component is down, so nothing is sent there */
#define MZ_OLD_NEWS MZ_CODE('I', 15)          /* this restart, or a later one, is known */
#define MZ_NOT_DOWN MZ_CODE('I', 16)          /* the data component isn't down */
#define MZ_FORGOTTEN MZ_CODE('Q', 3)          /* the data component lost what the log can't redo any more */
#define MZ_DIVERGED MZ_CODE('D', 1)           /* the data component says otherwise than the log, or than can be */
#define MZ_DEPOSED MZ_CODE('D', 2)            /* it says Old to what isn't old: it serves another transaction component */
#define MZ_NOTHING_YET MZ_CODE('G', 1)        /* nothing has happened: there is nothing to begin behind */
#define MZ_TXNS_OPEN MZ_CODE('G', 2)          /* a transaction is open, one in doubt or stuck perhaps */
#define MZ_ONE_DOWN MZ_CODE('G', 4)           /* a data component is down */
#define MZ_BEHIND MZ_CODE('G', 5)             /* a checkpoint hasn't kept all that was answered */
#define MZ_ADMISSIONS_SPENT MZ_CODE('G', 6)   /* more than 2^62 transactions were admitted */
#define MZ_BEGUN MZ_CODE('R', 1)              /* something has happened here already */
#define MZ_NOTE_COUNT MZ_CODE('R', 2)         /* there isn't one note for each data component */
#define MZ_ROW_LENGTH MZ_CODE('L', 1)         /* the rows aren't 96 bytes each; mz_recover never says it */
#define MZ_NO_EVENT MZ_CODE('L', 2)           /* a row is no event's */
#define MZ_LOG_ILLEGAL MZ_CODE('U', 1)        /* an event may not stand behind the ones before it */
#define MZ_DAMAGED MZ_CODE('F', 1)            /* the file of a log is damaged */
#define MZ_NO_LOG MZ_CODE('F', 2)             /* the file is no log's */
#define MZ_OTHER_PROCEDURES MZ_CODE('F', 3)   /* the log of other procedures, or of another number of data components */
#define MZ_NO_BASE MZ_CODE('F', 4)            /* a log's file has no whole base */
#define MZ_NO_BATCH MZ_CODE('F', 5)           /* a frame of a log's file is no batch */
#define MZ_FRAMES_SPENT MZ_CODE('F', 6)       /* a log's file has 2^64 - 1 frames */
#define MZ_HAS_RECORDS MZ_CODE('F', 7)        /* a log's file begins with records, which no engine's does */
#define MZ_LOG_FAILED MZ_CODE('F', 8)         /* mazzulpe_log.h: the file can't be read, written or synced */
#define MZ_LOG_IN_USE MZ_CODE('F', 9)         /* mazzulpe_log.h: another has opened it */
#define MZ_NO_SESSION MZ_CODE('F', 10)        /* mazzulpe_log.h: neither the log nor FILE.session says one */
#define MZ_SESSION_STAYS MZ_CODE('F', 11)     /* the log's file says it, or a wire may have it */
#define MZ_NAME_TAKEN MZ_CODE('P', 1)
#define MZ_DC_UNKNOWN MZ_CODE('P', 2)         /* an access slot names a data component that isn't there */
/* 'E' 1 to 7: the bytes are no code; 'S' 1 to 3: the access slots are no declaration; 'V' 1 to 14: the
 * verifier refuses an instruction. docs/FORMATS.md says what each means. */

enum { MZ_ARGS = 8, MZ_SLOTS = 16, MZ_VALUE = 64, MZ_CODE_BYTES = 4096 * 8, MZ_NAME = 256, MZ_EVENT_BYTES = 96 };

typedef struct { uint16_t dc, table; uint64_t key; } mz_record;

/* The record that a procedure's access slot names: a fixed key, or an argument of the call. */
typedef struct {
    int write;       /* 0: reads alone; 1: reads and writes */
    uint16_t dc, table;
    int by_argument; /* 1: the key is argument number `key`, from 0 */
    uint64_t key;
} mz_slot;

typedef enum { MZ_READ = 1, MZ_INSERT, MZ_UPDATE, MZ_DELETE } mz_op;

/* What goes to the data component record.dc. */
typedef struct {
    uint64_t number;      /* 1, 2, ..: perform it once, and answer it alike ever after */
    uint64_t low_water;   /* all numbers up to it are answered, and never come again */
    uint64_t incarnation; /* for this one alone: another incarnation of the data component doesn't answer */
    int redo;             /* 1: it was answered before, and may be lost; perform it, also where it is full */
    mz_op op;
    mz_record record;
    uint8_t value[MZ_VALUE]; /* of an insert or an update; zeros else */
    uint64_t session;        /* whose number it is, of the transaction components over the same storage (mz_session) */
    int undoes;              /* 1: it undoes a write: perform it, also where it is full. A redo has 0 */
} mz_wire;

typedef enum {
    MZ_VALUE_IS = 1, /* to a read: the value */
    MZ_ABSENT,       /* to a read: no such record */
    MZ_DONE,         /* to an insert */
    MZ_DONE_WAS,     /* to an update or a delete, with the former value */
    MZ_DUPLICATE,    /* to an insert: the record is there */
    MZ_MISSING,      /* to an update or a delete: there is none */
    MZ_NO_ROOM,      /* to an insert */
    MZ_OLD           /* to a number at or under the low-water mark; mz_answer refuses it */
} mz_said;

typedef struct {
    uint64_t number, incarnation; /* of the wire, and of the data component that says it */
    mz_said said;
    uint8_t value[MZ_VALUE];      /* of MZ_VALUE_IS and MZ_DONE_WAS */
} mz_reply;

/* What a data component tells of its restart: its new incarnation, above all earlier ones, and the
 * low-water mark that it kept. What it performed under numbers above that mark may be lost. The first incarnation is 0, of a
 * component that has never restarted; the mark for a session that it has just begun is 0. */
typedef struct { uint64_t incarnation, mark; } mz_news;

typedef enum {
    MZ_REQUEST = 1, /* carry `wire` */
    MZ_UNDOING,     /* mz_undo has to be asked instead */
    MZ_OVER,        /* mz_end */
    MZ_STUCK,       /* a write wasn't undone under four numbers, the last in wire.number; its locks stay held */
    MZ_WAITS,       /* for the answer to wire.number */
    MZ_RUNNING,     /* it isn't to be undone: mz_ask */
    MZ_DOWN = 8     /* a request as MZ_REQUEST, which is held back: its data component, wire.record.dc, is down */
} mz_next;

typedef struct { mz_next next; mz_wire wire; } mz_asked;

typedef enum { MZ_COMMITTED = 1, MZ_ABORTED, MZ_ENDED_NO_ROOM } mz_outcome;

/* How a transaction ended, with the value of an abort, and the place of its end in the log, from 0. */
typedef struct { mz_outcome outcome; uint64_t value; uint64_t place; } mz_receipt;

/* What an operator watches (mz_count). What isn't `now` counts from mz_tc_new on, by calls of this header. */
typedef struct {
    uint64_t admitted, busy;               /* mz_admit: done; MZ_BUSY */
    uint64_t committed, aborted, no_room;  /* mz_end, by outcome */
    uint64_t open, waiting;                /* now: transactions; those of them that wait for an answer */
    uint64_t wires, resent, redone;        /* requests made; their wires made again; operations redone */
    uint64_t restarts, refused;            /* news taken in; replies that weren't */
    uint64_t last_number, low_water, events; /* now: as mz_last_number, mz_low_water and mz_log_length */
} mz_counts;

/* Handles. What they are is the library's: there are pointers to them alone. */
typedef struct mz_tc mz_tc;
typedef struct mz_dc mz_dc;
typedef struct mz_program mz_program;

/* ---- inside: the library, and how the functions below reach it. Leave it alone: it is here so that they
 * can be inlined. */

/* What a call is made through: the caller fills it, the library reads it, and answers in it. */
typedef struct {
    uint32_t what, kind, op, count;
    uint16_t dc, table;
    uint32_t redo;
    uint64_t txn, number, low_water, incarnation, key, word, place;
    uint64_t args[MZ_ARGS];
    uint8_t value[MZ_VALUE];
    uint8_t bytes[256];
} mz_frame;

/* The six functions of libmazzulpe.a. */
size_t mazzulpe_size(void);
size_t mazzulpe_frame_size(void);
void mazzulpe_open(mz_frame *room);    /* room for mazzulpe_size() bytes, aligned to 16 */
uint32_t mazzulpe_call(mz_frame *handle);
void mazzulpe_close(mz_frame *handle); /* its memory is room again */
uint32_t mazzulpe_version(void);

enum {
    MZ_CALL_START_TC = 1, MZ_CALL_START_DC, MZ_CALL_START_CODE,
    MZ_CALL_BYTES = 10, MZ_CALL_SLOT, MZ_CALL_CLEAR, MZ_CALL_LOAD, MZ_CALL_FIND, MZ_CALL_NOTE,
    MZ_CALL_RECOVER,
    MZ_CALL_ADMIT = 20, MZ_CALL_BLOCKED, MZ_CALL_ASK, MZ_CALL_UNDO, MZ_CALL_WIRE, MZ_CALL_ANSWER,
    MZ_CALL_GIVE_UP, MZ_CALL_END, MZ_CALL_OPEN_COUNT, MZ_CALL_LOG_LENGTH, MZ_CALL_LOG_BYTES,
    MZ_CALL_SITE, MZ_CALL_TOLD, MZ_CALL_REDO_NEXT, MZ_CALL_REDONE, MZ_CALL_LOG_ANEW, MZ_CALL_LOW_WATER,
    MZ_CALL_OPEN_FROM, MZ_CALL_RETAKE, MZ_CALL_LOCK_AT,
    MZ_CALL_PERFORM = 40, MZ_CALL_RESTART, MZ_CALL_GET, MZ_CALL_ROWS, MZ_CALL_ROW, MZ_CALL_MARK,
    MZ_CALL_CHECKPOINT, MZ_CALL_INCARNATION, MZ_CALL_HEAR_MARK, MZ_CALL_FORGET,
    MZ_CALL_VERIFY = 50, MZ_CALL_RUN, MZ_CALL_RESUME,
    MZ_CALL_WAITING_FROM = 60, MZ_CALL_REDO_BEHIND, MZ_CALL_RESULT,
    MZ_CALL_FILE_AHEAD, MZ_CALL_FILE_BYTES, MZ_CALL_FILE_BACK, MZ_CALL_SESSION, MZ_CALL_SET_SESSION
};

/* What a handle points to; behind it comes the library's part, which begins with the frame. */
typedef struct {
    uint64_t spare[4];   /* here an allocator writes once the handle is closed */
    uint32_t kind;       /* MZ_KIND_.. */
    uint32_t busy;       /* with MZ_DEBUG: 1 while a call is on its way */
    uint64_t object;     /* of a transaction component: the digest of the object file that MZ_MEMORY cut off */
    uint64_t of_object;  /* and how many of its procedures are loaded */
    uint64_t session;    /* which one it is of a transaction component, whose library has it too; or of a data component */
    mz_reply refused;    /* to the data component refused_dc, which may be 0 too: what mz_refused_reply says */
    uint32_t refused_dc, is_refused;
    uint64_t is_begun;   /* of a data component: 1 where mz_dc_begin gave it its session */
    mz_counts counts;    /* of a transaction component: those that aren't `now`, and `waiting` */
} mz_head;

typedef char mz_head_keeps_the_frame_aligned[sizeof(mz_head) % 16 ? -1 : 1];

enum { MZ_KIND_TC = 0x4d5a5443, MZ_KIND_DC = 0x4d5a4443, MZ_KIND_PROGRAM = 0x4d5a5052, MZ_KIND_CLOSED = 0x4d5a0000 };

static inline mz_code mz_make(mz_frame *f, uint32_t what) {
    f->what = what;
    return mazzulpe_call(f);
}

static inline mz_head *mz_head_of(mz_frame *f) { return (mz_head *)(void *)f - 1; }

/* The frame of an open handle of this kind, in *f. given: whether each pointer that has to be there is. */
static inline mz_code mz_enter(void *handle, uint32_t kind, int given, mz_frame **f) {
    mz_head *head = (mz_head *)handle;
    if (!head || !given) return MZ_BAD_ARGUMENT;
    if (*(volatile uint32_t *)&head->kind != kind) return MZ_NO_SUCH_CALL;
#ifdef MZ_DEBUG
    if (__atomic_exchange_n(&head->busy, 1u, __ATOMIC_SEQ_CST)) {
        fputs("mazzulpe: two calls at once on one handle; order them by a lock\n", stderr);
        abort();
    }
#endif
    *f = (mz_frame *)(void *)(head + 1);
    return MZ_OK;
}

/* The end of what mz_enter began. */
static inline mz_code mz_leave(mz_frame *f, mz_code code) {
#ifdef MZ_DEBUG
    __atomic_store_n(&mz_head_of(f)->busy, 0u, __ATOMIC_SEQ_CST);
#else
    (void)f;
#endif
    return code;
}

static inline void *mz_new(uint32_t kind, uint32_t what, uint64_t word, uint64_t place, mz_code *code) {
    if (!code) return NULL;
    *code = MZ_OTHER_LIBRARY;
    if (mazzulpe_version() != MZ_VERSION || mazzulpe_frame_size() != sizeof(mz_frame)) return NULL;
    mz_head *head = (mz_head *)malloc(sizeof *head + mazzulpe_size());
    *code = MZ_MEMORY;
    if (!head) return NULL;
    memset(head, 0, sizeof *head);
    head->kind = kind;
    mz_frame *f = (mz_frame *)(void *)(head + 1);
    mazzulpe_open(f);
    f->word = word;
    f->place = place;
    *code = mz_make(f, what);
    if (*code == MZ_OK) return head;
    mazzulpe_close(f);
    free(head);
    return NULL;
}

/* Closes an open handle of this kind; anything else is left alone. */
static inline void mz_free(void *handle, uint32_t kind) {
    mz_frame *f;
    if (mz_enter(handle, kind, 1, &f) != MZ_OK) return;
    mazzulpe_close(f);
    *(volatile uint32_t *)&mz_head_of(f)->kind = MZ_KIND_CLOSED;
    free(handle);
}

/* A call without arguments. */
static inline mz_code mz_plain(void *handle, uint32_t kind, uint32_t what) {
    mz_frame *f;
    mz_code c = mz_enter(handle, kind, 1, &f);
    return c == MZ_OK ? mz_leave(f, mz_make(f, what)) : c;
}

/* One that answers a number. */
static inline uint64_t mz_counted(void *handle, uint32_t kind, uint32_t what) {
    mz_frame *f;
    if (mz_enter(handle, kind, 1, &f) != MZ_OK) return 0;
    uint64_t count = mz_make(f, what) == MZ_OK ? f->word : 0;
    mz_leave(f, MZ_OK);
    return count;
}

static inline void mz_put_record(mz_frame *f, const mz_record *r) {
    f->dc = r->dc;
    f->table = r->table;
    f->key = r->key;
}

static inline void mz_get_record(const mz_frame *f, mz_record *r) {
    r->dc = f->dc;
    r->table = f->table;
    r->key = f->key;
}

static inline void mz_put_wire(mz_frame *f, const mz_wire *w) {
    f->number = w->number;
    f->low_water = w->low_water;
    f->incarnation = w->incarnation;
    f->redo = w->redo || w->undoes;
    f->op = (uint32_t)w->op;
    mz_put_record(f, &w->record);
    memcpy(f->value, w->value, MZ_VALUE);
}

static inline void mz_get_wire(mz_frame *f, mz_wire *w) {
    w->number = f->number;
    w->low_water = f->low_water;
    w->incarnation = f->incarnation;
    w->session = mz_head_of(f)->session;
    w->undoes = 0;
    w->redo = f->redo != 0;
    w->op = (mz_op)f->op;
    mz_get_record(f, &w->record);
    memcpy(w->value, f->value, MZ_VALUE);
}

static inline void mz_put_reply(mz_frame *f, const mz_reply *r) {
    f->number = r->number;
    f->incarnation = r->incarnation;
    f->kind = (uint32_t)r->said;
    memcpy(f->value, r->value, MZ_VALUE);
}

static inline void mz_get_reply(const mz_frame *f, mz_reply *r) {
    r->number = f->number;
    r->incarnation = f->incarnation;
    r->said = (mz_said)f->kind;
    memcpy(r->value, f->value, MZ_VALUE);
}

static inline mz_code mz_put_text(mz_frame *f, const char *text) {
    size_t length = strlen(text);
    if (length > MZ_NAME) return MZ_BAD_ARGUMENT;
    memcpy(f->bytes, text, length);
    f->count = (uint32_t)length;
    return MZ_OK;
}

static inline mz_code mz_put_args(mz_frame *f, const uint64_t *args, size_t count) {
    if (count > MZ_ARGS || (count && !args)) return MZ_BAD_ARGUMENT;
    f->count = (uint32_t)count;
    for (size_t i = 0; i < count; i++) f->args[i] = args[i];
    return MZ_OK;
}

static inline mz_code mz_put_call(mz_frame *f, uint64_t procedure, const uint64_t *args, size_t count) {
    f->word = procedure;
    return mz_put_args(f, args, count);
}

/* These bytes in place of all that was handed in. */
static inline mz_code mz_hand_in_more(mz_frame *f, const void *from, size_t bytes) {
    mz_code c = MZ_OK;
    const uint8_t *at = (const uint8_t *)from;
    for (; c == MZ_OK && bytes; at += f->count, bytes -= f->count) {
        f->count = bytes < 256 ? (uint32_t)bytes : 256;
        memcpy(f->bytes, at, f->count);
        c = mz_make(f, MZ_CALL_BYTES);
    }
    return c;
}

static inline mz_code mz_hand_in_bytes(mz_frame *f, const void *from, size_t bytes) {
    mz_code c = mz_make(f, MZ_CALL_CLEAR);
    return c == MZ_OK ? mz_hand_in_more(f, from, bytes) : c;
}

static inline mz_code mz_hand_in(mz_frame *f, const void *code, size_t bytes, const mz_slot *slots, size_t count) {
    if (bytes > MZ_CODE_BYTES + 8 || count > MZ_SLOTS + 1) return MZ_BAD_ARGUMENT;
    if ((bytes && !code) || (count && !slots)) return MZ_BAD_ARGUMENT;
    mz_code c = mz_hand_in_bytes(f, code, bytes);
    for (size_t i = 0; c == MZ_OK && i < count; i++) {
        f->kind = slots[i].write ? 1 : 0;
        f->dc = slots[i].dc;
        f->table = slots[i].table;
        f->op = slots[i].by_argument ? 1 : 0;
        f->key = slots[i].key;
        c = mz_make(f, MZ_CALL_SLOT);
    }
    return c;
}

static inline uint64_t mz_little(const uint8_t *at, int bytes) {
    uint64_t n = 0;
    for (int i = bytes; i-- > 0;) n = n << 8 | at[i];
    return n;
}

/* The kind of the last event from `low` to before `high` that gave a number out, which is in *number, and its place in
 * *at; 0 where there is none, or no memory for its row. */
static inline uint32_t mz_giver_before(mz_frame *f, uint64_t low, uint64_t high, uint64_t *number, uint64_t *at) {
    for (*at = high; *at > low;) {
        f->place = --*at;
        if (mz_make(f, MZ_CALL_LOG_BYTES) != MZ_OK) return 0;
        *number = mz_little(f->bytes + 16, 8);
        if (f->bytes[0] == 2 || f->bytes[0] == 4) return f->bytes[0];
    }
    return 0;
}

/* Whether this open request undoes a write, by its event in the log, where numbers rise. */
static inline int mz_is_undo(mz_frame *f, uint64_t number) {
    uint64_t low = 0, high = mz_make(f, MZ_CALL_LOG_LENGTH) == MZ_OK ? f->word : 0, found = 0, at = 0;
    while (low < high) {
        uint64_t middle = low + (high - low) / 2;
        uint32_t kind = mz_giver_before(f, low, middle + 1, &found, &at);
        if (kind && found == number) return kind == 4;
        if (kind && found > number) high = at;
        else low = middle + 1;
    }
    return 0;
}

static inline mz_code mz_asked_by(mz_tc *tc, uint32_t what, uint64_t txn, mz_asked *asked) {
    mz_frame *f;
    mz_code c = mz_enter(tc, MZ_KIND_TC, asked != NULL, &f);
    if (c != MZ_OK) return c;
    f->txn = txn;
    c = mz_make(f, what);
    if (c != MZ_OK) return mz_leave(f, c);
    asked->next = (mz_next)f->kind;
    if (asked->next != MZ_REQUEST && asked->next != MZ_DOWN) {
        asked->wire.number = f->number;
        return mz_leave(f, c);
    }
    mz_get_wire(f, &asked->wire);
    mz_counts *counts = &mz_head_of(f)->counts;
    if (what == MZ_CALL_RETAKE) counts->resent++;
    else counts->wires++, counts->waiting++;
    asked->wire.undoes = what == MZ_CALL_UNDO || (what == MZ_CALL_RETAKE && mz_is_undo(f, asked->wire.number));
    return mz_leave(f, c);
}

/* Keeps in mind a reply that the data component can't give, and says which code that is. */
static inline mz_code mz_refused_as(mz_frame *f, uint16_t dc, const mz_reply *reply) {
    mz_head *head = mz_head_of(f);
    head->refused = *reply;
    head->refused_dc = dc;
    head->is_refused = 1;
    return reply->said == MZ_OLD ? MZ_DEPOSED : MZ_DIVERGED;
}

/* Of a reply that was no answer to the open request of a transaction: MZ_STRANGER where it is another's, too. */
static inline mz_code mz_why_no_answer(mz_frame *f, uint64_t txn, const mz_reply *reply) {
    f->txn = txn;
    if (mz_make(f, MZ_CALL_WIRE) != MZ_OK || f->number != reply->number || f->incarnation != reply->incarnation) return MZ_STRANGER;
    return mz_refused_as(f, f->dc, reply);
}

/* The same of the operation under redo: the one behind the number that was redone last. */
static inline mz_code mz_why_not_redone(mz_frame *f, uint16_t dc, const mz_reply *reply) {
    f->dc = dc;
    if (mz_make(f, MZ_CALL_SITE) != MZ_OK || f->kind != 2 || f->incarnation != reply->incarnation) return MZ_STRANGER;
    f->dc = dc;
    if (mz_make(f, MZ_CALL_REDO_BEHIND) != MZ_OK || f->kind != 1 || f->number != reply->number) return MZ_STRANGER;
    return mz_refused_as(f, dc, reply);
}

/* ---- the transaction component: its procedures */

/* A transaction component for data components numbered 0 to dcs - 1. NULL, and why in *code: MZ_MEMORY;
 * MZ_OTHER_LIBRARY where this header and the library aren't of one version. NULL also where code is NULL. */
static inline mz_tc *mz_tc_new(uint16_t dcs, mz_code *code) {
    return (mz_tc *)mz_new(MZ_KIND_TC, MZ_CALL_START_TC, dcs, 0, code);
}

/* Gives it back. Open transactions are left as they stand at their data components. NULL is nothing, and so
 * is what is closed or of another kind. */
static inline void mz_tc_free(mz_tc *tc) { mz_free(tc, MZ_KIND_TC); }

/* Verifies and loads a procedure under a name that no other has: BPF code (RFC 9669, little-endian, 8
 * bytes a slot, at most 4096), its access slots (at most 16), and how many arguments it takes (at most
 * 8). *number is how many were loaded before. It can't be taken out again.
 *
 * Refused, in this order: MZ_BAD_ARGUMENT (a name of more than 256 bytes, far too much code), 'S' the access
 * slots are no declaration, 'E' the bytes are no code, 'V' the verifier refuses an instruction,
 * MZ_NOT_TEXT, MZ_NAME_TAKEN, MZ_DC_UNKNOWN. *place is then the slot of the code ('E', 'V') or the access
 * slot ('S', MZ_DC_UNKNOWN) that is refused, from 0, and else nothing; it may be NULL. */
static inline mz_code mz_load(mz_tc *tc, const char *name, const void *code, size_t bytes, const mz_slot *slots,
                              size_t slot_count, unsigned args, uint64_t *number, uint64_t *place) {
    mz_frame *f;
    mz_code c = mz_enter(tc, MZ_KIND_TC, name && number, &f);
    if (c != MZ_OK) return c;
    c = mz_hand_in(f, code, bytes, slots, slot_count);
    if (c == MZ_OK) c = mz_put_text(f, name);
    if (c != MZ_OK) return mz_leave(f, c);
    f->word = args;
    f->place = 0;
    c = mz_make(f, MZ_CALL_LOAD);
    if (c == MZ_OK) *number = f->word;
    else if (place) *place = f->place;
    return mz_leave(f, c);
}

/* The number of the procedure with this name, or MZ_NO_PROCEDURE. */
static inline mz_code mz_find(mz_tc *tc, const char *name, uint64_t *number) {
    mz_frame *f;
    mz_code c = mz_enter(tc, MZ_KIND_TC, name && number, &f);
    if (c != MZ_OK) return c;
    c = mz_put_text(f, name);
    if (c == MZ_OK) c = mz_make(f, MZ_CALL_FIND);
    if (c == MZ_OK) *number = f->word;
    return mz_leave(f, c);
}

/* ---- its transactions */

/* Admits a call: *txn is its serial number, from 1, and all its locks are held from now on until mz_end.
 * MZ_BUSY: *record is the least record in the way and *holder its least holder (either may be NULL); try
 * again once a transaction has ended, unless mz_blocked says that all in the way are in doubt or stuck.
 * Also MZ_NO_PROCEDURE, MZ_ARGUMENT_COUNT, MZ_NUMBERS_SPENT. */
static inline mz_code mz_admit(mz_tc *tc, uint64_t procedure, const uint64_t *args, size_t count, uint64_t *txn,
                               mz_record *record, uint64_t *holder) {
    mz_frame *f;
    mz_code c = mz_enter(tc, MZ_KIND_TC, txn != NULL, &f);
    if (c != MZ_OK) return c;
    c = mz_put_call(f, procedure, args, count);
    if (c == MZ_OK) c = mz_make(f, MZ_CALL_ADMIT);
    if (c == MZ_OK) *txn = f->txn;
    mz_head_of(f)->counts.admitted += c == MZ_OK;
    mz_head_of(f)->counts.busy += c == MZ_BUSY;
    if (c == MZ_BUSY) {
        if (record) mz_get_record(f, record);
        if (holder) *holder = f->txn;
    }
    return mz_leave(f, c);
}

/* *blocked: whether others stand in the way of this call and each of them is in doubt or stuck, so that
 * waiting for an end is in vain. 0 for a procedure that isn't there, or takes other arguments. */
static inline mz_code mz_blocked(mz_tc *tc, uint64_t procedure, const uint64_t *args, size_t count, int *blocked) {
    mz_frame *f;
    mz_code c = mz_enter(tc, MZ_KIND_TC, blocked != NULL, &f);
    if (c != MZ_OK) return c;
    c = mz_put_call(f, procedure, args, count);
    if (c == MZ_OK) c = mz_make(f, MZ_CALL_BLOCKED);
    if (c == MZ_OK) *blocked = f->word != 0;
    return mz_leave(f, c);
}

/* Runs the transaction to its next operation or its end. A request is logged and numbered here, and open
 * until it is answered. MZ_NO_TXN. */
static inline mz_code mz_ask(mz_tc *tc, uint64_t txn, mz_asked *asked) {
    return mz_asked_by(tc, MZ_CALL_ASK, txn, asked);
}

/* What undoes the last write that stands, of a transaction that is to be undone; else MZ_RUNNING or
 * MZ_OVER. It is asked again where the undo wasn't done, four times at most. MZ_NO_TXN. */
static inline mz_code mz_undo(mz_tc *tc, uint64_t txn, mz_asked *asked) {
    return mz_asked_by(tc, MZ_CALL_UNDO, txn, asked);
}

/* The open request's wire, to be carried again: the same number, the low-water mark and the incarnation
 * of now. MZ_NOTHING_OPEN; MZ_DC_DOWN while its data component is down. */
static inline mz_code mz_resend(mz_tc *tc, uint64_t txn, mz_wire *wire) {
    mz_frame *f;
    mz_code c = mz_enter(tc, MZ_KIND_TC, wire != NULL, &f);
    if (c != MZ_OK) return c;
    f->txn = txn;
    c = mz_make(f, MZ_CALL_WIRE);
    if (c != MZ_OK) return mz_leave(f, c);
    mz_get_wire(f, wire);
    wire->undoes = mz_is_undo(f, wire->number);
    mz_head_of(f)->counts.resent++;
    return mz_leave(f, c);
}

/* Takes a reply in. MZ_STRANGER: it has another number, is of another incarnation than the known one, or
 * its data component is down. MZ_DEPOSED: it says Old to the open number, as a component that has heard a higher mark
 * from another transaction component; MZ_DIVERGED: nor can anything else of what it says be an answer to the
 * operation. The transaction waits on. MZ_NOTHING_OPEN. */
static inline mz_code mz_answer(mz_tc *tc, uint64_t txn, const mz_reply *reply) {
    mz_frame *f;
    mz_code c = mz_enter(tc, MZ_KIND_TC, reply != NULL, &f);
    if (c != MZ_OK) return c;
    f->txn = txn;
    mz_put_reply(f, reply);
    c = mz_make(f, MZ_CALL_ANSWER);
    mz_head_of(f)->counts.waiting -= c == MZ_OK;
    mz_head_of(f)->counts.refused += c == MZ_STRANGER;
    return mz_leave(f, c == MZ_STRANGER ? mz_why_no_answer(f, txn, reply) : c);
}

/* The reply that the last MZ_DIVERGED or MZ_DEPOSED was said of, with its number, and its data component; each may be
 * NULL. MZ_NO_PLACE: neither was said yet. */
static inline mz_code mz_refused_reply(mz_tc *tc, uint16_t *dc, mz_reply *reply) {
    mz_frame *f;
    mz_code c = mz_enter(tc, MZ_KIND_TC, 1, &f);
    if (c != MZ_OK) return c;
    const mz_head *head = mz_head_of(f);
    if (!head->is_refused) return mz_leave(f, MZ_NO_PLACE);
    if (dc) *dc = (uint16_t)head->refused_dc;
    if (reply) *reply = head->refused;
    return mz_leave(f, MZ_OK);
}

/* Gives the open request up, and says its number (which may be NULL): nobody answers it any more. Its
 * transaction is in doubt, and keeps its locks, unless mz_retake takes it up again. MZ_NOTHING_OPEN. */
static inline mz_code mz_give_up(mz_tc *tc, uint64_t txn, uint64_t *number) {
    mz_frame *f;
    mz_code c = mz_enter(tc, MZ_KIND_TC, 1, &f);
    if (c != MZ_OK) return c;
    f->txn = txn;
    c = mz_make(f, MZ_CALL_GIVE_UP);
    if (c == MZ_OK && number) *number = f->number;
    return mz_leave(f, c);
}

/* Ends a transaction that is over, and frees its locks. MZ_NO_TXN, MZ_NOT_OVER. */
static inline mz_code mz_end(mz_tc *tc, uint64_t txn, mz_receipt *receipt) {
    mz_frame *f;
    mz_code c = mz_enter(tc, MZ_KIND_TC, receipt != NULL, &f);
    if (c != MZ_OK) return c;
    f->txn = txn;
    c = mz_make(f, MZ_CALL_END);
    if (c == MZ_OK) {
        mz_counts *counts = &mz_head_of(f)->counts;
        ++*(f->kind == MZ_COMMITTED ? &counts->committed : f->kind == MZ_ABORTED ? &counts->aborted : &counts->no_room);
        receipt->outcome = (mz_outcome)f->kind;
        receipt->value = f->word;
        receipt->place = f->place;
    }
    return mz_leave(f, c);
}

/* What access slot number `slot`, from 0, of an open transaction holds once its run has ended, until mz_end: the bytes
 * of its buffer, and in *there whether the last operation by it that did anything left a record (1) or none (0). What
 * undoes an abort changes neither. MZ_NO_TXN; MZ_NO_PLACE: its procedure has no such slot; MZ_NOT_OVER: its run goes on.
 * It runs the procedure again on the log's answers, and takes no memory. */
static inline mz_code mz_result(mz_tc *tc, uint64_t txn, uint64_t slot, uint8_t value[MZ_VALUE], int *there) {
    mz_frame *f;
    mz_code c = mz_enter(tc, MZ_KIND_TC, value && there, &f);
    if (c != MZ_OK) return c;
    f->txn = txn;
    f->place = slot;
    c = mz_make(f, MZ_CALL_RESULT);
    if (c != MZ_OK) return mz_leave(f, c);
    memcpy(value, f->value, MZ_VALUE);
    *there = f->word == 1;
    return mz_leave(f, c);
}

/* How many transactions are open. */
static inline uint64_t mz_open_count(mz_tc *tc) {
    return mz_counted(tc, MZ_KIND_TC, MZ_CALL_OPEN_COUNT);
}

/* An open transaction. */
typedef struct {
    uint64_t txn, procedure;
    uint64_t place;   /* in the log, from 0, where it was admitted */
    int waits;        /* 1: for the answer to `number`, an operation `op` on `record` */
    int held;         /* 1: that request is held, and mz_resend makes its wire; 0: mz_retake takes it up */
    int stranded;     /* 1: in doubt, since that number was given up, or stuck: who waits for its locks waits in vain */
    uint64_t number;
    mz_op op;
    mz_record record;
} mz_open;

/* ---- inside */

static inline mz_code mz_opened_by(mz_tc *tc, uint32_t what, uint16_t dc, uint64_t place, mz_open *open) {
    mz_frame *f;
    mz_code c = mz_enter(tc, MZ_KIND_TC, open != NULL, &f);
    if (c != MZ_OK) return c;
    f->dc = dc;
    f->place = place;
    c = mz_make(f, what);
    if (c != MZ_OK) return mz_leave(f, c);
    memset(open, 0, sizeof *open);
    open->txn = f->txn;
    open->procedure = f->word;
    open->place = f->place;
    open->waits = f->kind != 3;
    open->held = f->kind == 1;
    open->stranded = f->count == 1;
    if (!open->waits) return mz_leave(f, c);
    open->number = f->number;
    open->op = (mz_op)f->op;
    mz_get_record(f, &open->record);
    return mz_leave(f, c);
}

/* ---- what is seen of them: nothing is copied, and nothing changed */

/* The first open transaction that was admitted at this place of the log or behind it; for each of them, from 0
 * and then from open->place + 1, whatever ends in between. It goes through the log from there on. MZ_NO_PLACE: there is no
 * further one. */
static inline mz_code mz_open_from(mz_tc *tc, uint64_t place, mz_open *open) {
    return mz_opened_by(tc, MZ_CALL_OPEN_FROM, 0, place, open);
}

/* The first of them that waits for this data component: so each number that is open there is told. */
static inline mz_code mz_waiting_from(mz_tc *tc, uint16_t dc, uint64_t place, mz_open *open) {
    return mz_opened_by(tc, MZ_CALL_WAITING_FROM, dc, place, open);
}

/* A lock that a transaction holds. write 0: for reading alone; 1: for reading and writing. */
typedef struct { uint64_t txn; mz_record record; int write; } mz_lock;

/* The lock of this number, from 0, by rising record, of the open transaction that was admitted at this place of the
 * log: open->place of the two above. It holds each of them from mz_admit to mz_end. MZ_NO_PLACE: it has no further one,
 * or none is open that was admitted there. */
static inline mz_code mz_lock_at(mz_tc *tc, uint64_t place, uint64_t number, mz_lock *lock) {
    mz_frame *f;
    mz_code c = mz_enter(tc, MZ_KIND_TC, lock != NULL, &f);
    if (c != MZ_OK) return c;
    f->place = place;
    f->word = number;
    c = mz_make(f, MZ_CALL_LOCK_AT);
    if (c != MZ_OK) return mz_leave(f, c);
    lock->txn = f->txn;
    lock->write = f->kind == 2;
    mz_get_record(f, &lock->record);
    return mz_leave(f, c);
}

/* ---- a request that nobody holds */

/* The open request of a transaction, the same as it was, also where nobody holds it: behind mz_recover, or behind
 * mz_give_up, where a data component is back that nobody hoped for. *asked is MZ_REQUEST with the wire to carry, or
 * MZ_DOWN; mz_resend and mz_run go on with it. One that was given up counts as in doubt for mz_blocked until it is
 * answered. MZ_NO_TXN; MZ_NOTHING_OPEN: it waits for no answer, and mz_ask goes on. */
static inline mz_code mz_retake(mz_tc *tc, uint64_t txn, mz_asked *asked) {
    return mz_asked_by(tc, MZ_CALL_RETAKE, txn, asked);
}

/* ---- a log that begins anew, so that it doesn't grow for ever */

/* The low-water mark: each number up to it is answered. Tell it to your storage before its checkpoint: then
 * it needn't know numbers up to it any more. Your log has to have those answers for good by then (mz_log_sync): else numbers
 * that are open in it are old there, and never end. */
static inline uint64_t mz_low_water(mz_tc *tc) {
    mz_frame *f;
    if (mz_enter(tc, MZ_KIND_TC, 1, &f) != MZ_OK) return 0;
    uint64_t mark = mz_make(f, MZ_CALL_LOW_WATER) == MZ_OK ? f->low_water : 0;
    mz_leave(f, MZ_OK);
    return mark;
}

/* The last number that was given out, or 0. */
static inline uint64_t mz_last_number(mz_tc *tc) {
    mz_frame *f;
    if (mz_enter(tc, MZ_KIND_TC, 1, &f) != MZ_OK) return 0;
    uint64_t number = mz_make(f, MZ_CALL_LOW_WATER) == MZ_OK ? f->number : 0;
    mz_leave(f, MZ_OK);
    return number;
}

/* The log begins anew, as one event, and its memory is for further ones; places count from 0 again, numbers
 * and transactions go on. kept: the least mark that a checkpoint of your storage has kept for good. Stop
 * admitting first, and end what is open: MZ_TXNS_OPEN. MZ_BEHIND where kept is below mz_low_water,
 * MZ_ONE_DOWN, MZ_NOTHING_YET, MZ_ADMISSIONS_SPENT. */
static inline mz_code mz_checkpoint(mz_tc *tc, uint64_t kept) {
    mz_frame *f;
    mz_code c = mz_enter(tc, MZ_KIND_TC, 1, &f);
    if (c != MZ_OK) return c;
    f->low_water = kept;
    return mz_leave(f, mz_make(f, MZ_CALL_LOG_ANEW));
}

/* ---- data components that restart */

/* What is known of a data component: its incarnation, and whether it is down; either may be NULL. MZ_NO_DC. */
static inline mz_code mz_site(mz_tc *tc, uint16_t dc, uint64_t *incarnation, int *down) {
    mz_frame *f;
    mz_code c = mz_enter(tc, MZ_KIND_TC, 1, &f);
    if (c != MZ_OK) return c;
    f->dc = dc;
    c = mz_make(f, MZ_CALL_SITE);
    if (c == MZ_OK && incarnation) *incarnation = f->incarnation;
    if (c == MZ_OK && down) *down = f->kind == 2;
    return mz_leave(f, c);
}

/* A data component has restarted: it is down from now on, also where it was down already, and what was
 * done there above the mark is to be redone. MZ_OLD_NEWS, MZ_FORGOTTEN, MZ_NO_DC; MZ_BAD_ARGUMENT also where the incarnation
 * or the mark is above 2^62, which no component has. mz_run and mz_redo hand that on. */
static inline mz_code mz_told(mz_tc *tc, uint16_t dc, const mz_news *news) {
    mz_frame *f;
    const uint64_t most = (uint64_t)1 << 62;
    mz_code c = mz_enter(tc, MZ_KIND_TC, news && news->incarnation <= most && news->mark <= most, &f);
    if (c != MZ_OK) return c;
    f->dc = dc;
    f->incarnation = news->incarnation;
    f->low_water = news->mark;
    c = mz_make(f, MZ_CALL_TOLD);
    mz_head_of(f)->counts.restarts += c == MZ_OK;
    return mz_leave(f, c);
}

/* How far the redo of a data component that is down has got: the mark of its news, and the number that was redone last, which
 * goes to mz_last_number at most; either may be NULL. MZ_NOT_DOWN, MZ_NO_DC. */
static inline mz_code mz_redo_at(mz_tc *tc, uint16_t dc, uint64_t *mark, uint64_t *redone) {
    mz_frame *f;
    mz_code c = mz_enter(tc, MZ_KIND_TC, 1, &f);
    if (c != MZ_OK) return c;
    f->dc = dc;
    c = mz_make(f, MZ_CALL_SITE);
    if (c == MZ_OK && f->kind != 2) c = MZ_NOT_DOWN;
    if (c == MZ_OK && mark) *mark = f->low_water;
    if (c == MZ_OK && redone) *redone = f->number > f->low_water ? f->number : f->low_water;
    return mz_leave(f, c);
}

/* The operation under redo at a data component that is down, the same until mz_redone takes its reply;
 * numbers rise. Where none is left, *up is 1: the data component is up, and open requests are to be sent
 * again. MZ_NOT_DOWN, MZ_NO_DC. */
static inline mz_code mz_redo_next(mz_tc *tc, uint16_t dc, mz_wire *wire, int *up) {
    mz_frame *f;
    mz_code c = mz_enter(tc, MZ_KIND_TC, wire && up, &f);
    if (c != MZ_OK) return c;
    f->dc = dc;
    c = mz_make(f, MZ_CALL_REDO_NEXT);
    if (c != MZ_OK) return mz_leave(f, c);
    *up = f->kind == 2;
    if (!*up) mz_get_wire(f, wire);
    return mz_leave(f, c);
}

/* So that several are carried at once: the operation of mz_redo_next and those behind it, by rising number, at most
 * `most` of them (1 at least). *count says how many; 0: the data component is up. Those on one record are to be performed
 * in this order, others may overlap. Give the replies to mz_redone in this order: each counts at once. As mz_redo_next. */
static inline mz_code mz_redo_some(mz_tc *tc, uint16_t dc, mz_wire *wires, size_t most, size_t *count) {
    mz_frame *f;
    int up = 0;
    if (!count || !most) return MZ_BAD_ARGUMENT;
    mz_code c = mz_redo_next(tc, dc, wires, &up);
    if (c == MZ_OK) *count = up ? 0 : 1;
    if (c == MZ_OK) c = mz_enter(tc, MZ_KIND_TC, 1, &f);
    if (c != MZ_OK) return c;
    for (f->kind = 1; c == MZ_OK && !up && *count < most; *count += !up) {
        f->dc = dc;
        f->number = wires[*count - 1].number;
        c = mz_make(f, MZ_CALL_REDO_BEHIND);
        up = f->kind == 2; /* once those before it are redone */
        if (c == MZ_OK && !up) mz_get_wire(f, &wires[*count]);
    }
    return mz_leave(f, c);
}

/* Takes the reply to the operation under redo, which has to say what was said to it before. MZ_STRANGER: it is
 * another's. MZ_DIVERGED: it says something else, so that the storage isn't what the log has made of it: nothing of it is
 * to be trusted, and a copy of it has to take its place. MZ_DEPOSED: it says Old. */
static inline mz_code mz_redone(mz_tc *tc, uint16_t dc, const mz_reply *reply) {
    mz_frame *f;
    mz_code c = mz_enter(tc, MZ_KIND_TC, reply != NULL, &f);
    if (c != MZ_OK) return c;
    f->dc = dc;
    mz_put_reply(f, reply);
    c = mz_make(f, MZ_CALL_REDONE);
    mz_head_of(f)->counts.redone += c == MZ_OK;
    mz_head_of(f)->counts.refused += c == MZ_STRANGER;
    return mz_leave(f, c == MZ_STRANGER ? mz_why_not_redone(f, dc, reply) : c);
}

/* ---- its log */

/* How many events there are. */
static inline uint64_t mz_log_length(mz_tc *tc) {
    return mz_counted(tc, MZ_KIND_TC, MZ_CALL_LOG_LENGTH);
}

/* The 96 bytes of the event at this place, from 0, as docs/FORMATS.md says under "Log records". What
 * happened stays. MZ_NO_PLACE past the end. To keep the log elsewhere before anything is sent, write the
 * events from the old mz_log_length to the new one behind each mz_admit, mz_ask, mz_undo, mz_answer and
 * mz_end, and carry a wire only then. */
static inline mz_code mz_log_bytes(mz_tc *tc, uint64_t place, uint8_t bytes[MZ_EVENT_BYTES]) {
    mz_frame *f;
    mz_code c = mz_enter(tc, MZ_KIND_TC, bytes != NULL, &f);
    if (c != MZ_OK) return c;
    f->place = place;
    c = mz_make(f, MZ_CALL_LOG_BYTES);
    if (c == MZ_OK) memcpy(bytes, f->bytes, MZ_EVENT_BYTES);
    return mz_leave(f, c);
}

typedef enum {
    MZ_EVENT_ADMIT = 1,
    MZ_EVENT_ASK,
    MZ_EVENT_ANSWER,
    MZ_EVENT_UNDO,
    MZ_EVENT_END,
    MZ_EVENT_CHECKPOINT /* the oldest event of a log that began anew, and no other */
} mz_event_kind;

/* An event of the log; what its kind doesn't name is nothing. */
typedef struct {
    mz_event_kind kind;
    uint64_t txn;       /* of a checkpoint: the last that was admitted before it */
    uint64_t procedure; /* admit, with count and args */
    unsigned count;
    uint64_t args[MZ_ARGS];
    uint64_t number; /* ask, answer, undo; of a checkpoint: the last that was given out before it */
    mz_op op;        /* ask, undo, with record and value */
    mz_record record;
    uint8_t value[MZ_VALUE];
    mz_said said;       /* answer, with value */
    mz_outcome outcome; /* end, with aborted */
    uint64_t aborted;
} mz_event;

/* What the 96 bytes of an event say. */
static inline void mz_event_of(const uint8_t bytes[MZ_EVENT_BYTES], mz_event *event) {
    if (!bytes || !event) return;
    uint64_t word = mz_little(bytes + 16, 8);
    memset(event, 0, sizeof *event);
    event->kind = (mz_event_kind)bytes[0];
    event->txn = mz_little(bytes + 8, 8);
    switch (event->kind) {
    case MZ_EVENT_ADMIT:
        event->procedure = word;
        event->count = bytes[1];
        for (unsigned i = 0; i < event->count && i < MZ_ARGS; i++) event->args[i] = mz_little(bytes + 32 + 8 * i, 8);
        break;
    case MZ_EVENT_ASK:
    case MZ_EVENT_UNDO:
        event->number = word;
        event->op = (mz_op)bytes[1];
        event->record.dc = (uint16_t)mz_little(bytes + 2, 2);
        event->record.table = (uint16_t)mz_little(bytes + 4, 2);
        event->record.key = mz_little(bytes + 24, 8);
        memcpy(event->value, bytes + 32, MZ_VALUE);
        break;
    case MZ_EVENT_ANSWER:
        event->number = word;
        event->said = (mz_said)bytes[1];
        memcpy(event->value, bytes + 32, MZ_VALUE);
        break;
    case MZ_EVENT_END:
        event->outcome = (mz_outcome)bytes[1];
        event->aborted = word;
        break;
    case MZ_EVENT_CHECKPOINT: event->number = word; break;
    }
}

/* The event at this place, from 0. MZ_NO_PLACE past the end. */
static inline mz_code mz_log_at(mz_tc *tc, uint64_t place, mz_event *event) {
    uint8_t bytes[MZ_EVENT_BYTES];
    mz_code c = event ? mz_log_bytes(tc, place, bytes) : MZ_BAD_ARGUMENT;
    if (c == MZ_OK) mz_event_of(bytes, event);
    return c;
}

/* What an operator watches, in one look, which takes no memory and a time that doesn't grow with the log. */
static inline mz_code mz_count(mz_tc *tc, mz_counts *counts) {
    mz_frame *f;
    mz_code c = mz_enter(tc, MZ_KIND_TC, counts != NULL, &f);
    if (c != MZ_OK) return c;
    *counts = mz_head_of(f)->counts;
    if (mz_make(f, MZ_CALL_OPEN_COUNT) == MZ_OK) counts->open = f->word;
    if (mz_make(f, MZ_CALL_LOG_LENGTH) == MZ_OK) counts->events = f->word;
    if (mz_make(f, MZ_CALL_LOW_WATER) == MZ_OK) {
        counts->low_water = f->low_water;
        counts->last_number = f->number;
    }
    return mz_leave(f, MZ_OK);
}

/* ---- the way back from a log */

/* What is known of a data component, to be kept with the log: that it is up in this incarnation, or has restarted
 * with this mark. Zeros are what is known at first. */
typedef struct { uint64_t incarnation, mark; int down; } mz_note;

/* What is to be kept of a data component now. Write it before a wire is carried that rests on it: behind mz_told
 * before the first wire of the redo, and behind mz_redo_next that said *up before the next wire. MZ_NO_DC. */
static inline mz_code mz_noted(mz_tc *tc, uint16_t dc, mz_note *note) {
    mz_frame *f;
    mz_code c = mz_enter(tc, MZ_KIND_TC, note != NULL, &f);
    if (c != MZ_OK) return c;
    f->dc = dc;
    c = mz_make(f, MZ_CALL_SITE);
    if (c != MZ_OK) return mz_leave(f, c);
    note->incarnation = f->incarnation;
    note->down = f->kind == 2;
    note->mark = note->down ? f->low_water : 0;
    return mz_leave(f, c);
}

/* ---- inside */

/* Behind a way back: how many wait. */
static inline void mz_count_waiting(mz_frame *f) {
    uint64_t *waiting = &mz_head_of(f)->counts.waiting;
    *waiting = 0;
    for (f->place = 0; mz_make(f, MZ_CALL_OPEN_FROM) == MZ_OK; f->place++) *waiting += f->kind != 3;
}

static inline mz_code mz_hand_in_notes(mz_frame *f, const mz_note *notes, size_t count) {
    mz_code c = MZ_OK;
    for (size_t i = 0; c == MZ_OK && i < count; i++) {
        f->kind = notes[i].down ? 2 : 1;
        f->incarnation = notes[i].incarnation;
        f->low_water = notes[i].mark;
        c = mz_make(f, MZ_CALL_NOTE);
    }
    return c;
}

/* ---- */

/* Comes back from `count` rows of 96 bytes, the log from its beginning as mz_log_bytes gave it, and from what was
 * noted last of each data component, in order. The same procedures have to be loaded, in the same order. Then what
 * was open is open, with its locks: mz_open_from, and mz_retake. A redo that was on its way begins anew.
 *
 * Refused, in this order: MZ_NO_EVENT, a row is no event's; MZ_BEGUN, something has happened here, a mz_recover
 * perhaps; MZ_NOTE_COUNT, there isn't one note for each data component; MZ_LOG_ILLEGAL, an event may not stand
 * behind the ones before it; MZ_FORGOTTEN, the log begins behind the mark of a data component that is down. *place
 * is then the row, from 0, of MZ_FORGOTTEN the data component, and else 0; it may be NULL. */
static inline mz_code mz_recover(mz_tc *tc, const void *rows, size_t count, const mz_note *notes, size_t note_count,
                                 uint64_t *place) {
    mz_frame *f;
    int given = (rows || !count) && (notes || !note_count) && count <= SIZE_MAX / MZ_EVENT_BYTES;
    mz_code c = mz_enter(tc, MZ_KIND_TC, given, &f);
    if (c != MZ_OK) return c;
    f->place = 0;
    c = mz_hand_in_bytes(f, rows, count * MZ_EVENT_BYTES);
    if (c == MZ_OK) c = mz_hand_in_notes(f, notes, note_count);
    if (c == MZ_OK) c = mz_make(f, MZ_CALL_RECOVER);
    if (c == MZ_OK) mz_count_waiting(f);
    if (c == MZ_OK) return mz_leave(f, c);
    if (place) *place = f->place;
    mz_make(f, MZ_CALL_CLEAR);
    return mz_leave(f, c);
}

/* ---- inside */

/* Comes back from a file's bytes, which are handed in unless `c` says why not. */
static inline mz_code mz_back_from(mz_frame *f, mz_code c, uint64_t *whole, uint64_t *place) {
    f->place = 0;
    if (c == MZ_OK) c = mz_make(f, MZ_CALL_FILE_BACK);
    if (c == MZ_OK) *whole = f->word;
    else if (place) *place = f->place;
    if (c == MZ_OK) mz_count_waiting(f);
    else mz_make(f, MZ_CALL_CLEAR);
    if (c == MZ_OK && mz_make(f, MZ_CALL_SESSION) == MZ_OK) mz_head_of(f)->session = f->word;
    return c;
}

/* ---- its log as the bytes of a file */

/* The file's format is the one of `procd run --log` (docs/FORMATS.md), which `procd log` reads. mazzulpe_log.h writes
 * such a file. By these three calls an engine does it over a device of its own: before a wire is carried, and before
 * anybody is told how a call ended, what mz_file_ahead has prepared has to be in the file for good. */

/* Prepares what has to be behind the file's end: at first its beginning, which says the session, and then what has happened, with what is known
 * of data components. *count is how many bytes lie prepared; 0: nothing has to be written. Behind mz_checkpoint it is
 * the whole content of a new file: carry nothing and tell nobody until that has taken the old one's place for good.
 * MZ_OTHER_PROCEDURES: procedures were loaded since the file was begun; mz_checkpoint begins one for them. MZ_FRAMES_SPENT. */
static inline mz_code mz_file_ahead(mz_tc *tc, uint64_t *count) {
    mz_frame *f;
    mz_code c = mz_enter(tc, MZ_KIND_TC, count != NULL, &f);
    if (c != MZ_OK) return c;
    c = mz_make(f, MZ_CALL_FILE_AHEAD);
    if (c == MZ_OK) *count = f->word;
    return mz_leave(f, c);
}

/* Hands out the next bytes of what is prepared, at most 256, once: they belong to the file, one behind the other. *count
 * is 0 where none is left. */
static inline mz_code mz_file_bytes(mz_tc *tc, uint8_t bytes[256], size_t *count) {
    mz_frame *f;
    mz_code c = mz_enter(tc, MZ_KIND_TC, bytes && count, &f);
    if (c != MZ_OK) return c;
    c = mz_make(f, MZ_CALL_FILE_BYTES);
    if (c == MZ_OK) memcpy(bytes, f->bytes, *count = f->count);
    return mz_leave(f, c);
}

/* Comes back from the bytes of a file, as mz_recover does from rows and notes: the same procedures have to be loaded, in
 * the same order. So many of the bytes, *whole, are whole: cut off what is behind them, the end that a crash left, and
 * write on there. 0: there is nothing to come back from, and mz_file_ahead begins a file. The session is the file's from
 * then on, and where a file of layout 1 or 2 says none, the one that was set before.
 *
 * Refused, with *place (which may be NULL): MZ_BEGUN; MZ_DAMAGED, MZ_NO_BASE, MZ_NO_BATCH at a frame; MZ_NO_LOG;
 * MZ_OTHER_PROCEDURES; MZ_HAS_RECORDS; MZ_NO_EVENT, MZ_LOG_ILLEGAL at an event; MZ_FORGOTTEN of a data component. */
static inline mz_code mz_file_back(mz_tc *tc, const void *bytes, size_t count, uint64_t *whole, uint64_t *place) {
    mz_frame *f;
    mz_code c = mz_enter(tc, MZ_KIND_TC, (bytes || !count) && whole, &f);
    if (c != MZ_OK) return c;
    c = mz_hand_in_bytes(f, bytes, count);
    return mz_leave(f, mz_back_from(f, c, whole, place));
}

/* Which transaction component this is, of which log: each wire has it, since the numbers of another one begin with 1 as
 * well. 0 until it is set, or mz_file_back finds it; mazzulpe_log.h sees to it. */
static inline uint64_t mz_session(mz_tc *tc) {
    mz_frame *f;
    if (mz_enter(tc, MZ_KIND_TC, 1, &f) != MZ_OK) return 0;
    uint64_t session = mz_head_of(f)->session;
    mz_leave(f, MZ_OK);
    return session;
}

/* Sets it, before mz_recover and mz_file_back: not 0, and no number that another transaction component over the same storage
 * has had. mz_file_ahead writes it into the file. MZ_SESSION_STAYS: a number was given to a wire, or the file says its session. */
static inline mz_code mz_set_session(mz_tc *tc, uint64_t session) {
    mz_frame *f;
    mz_code c = mz_enter(tc, MZ_KIND_TC, 1, &f);
    if (c != MZ_OK) return c;
    f->word = session;
    c = mz_make(f, MZ_CALL_SET_SESSION);
    if (c == MZ_OK) mz_head_of(f)->session = session;
    return mz_leave(f, c);
}

/* ---- whole calls */

/* What became of a wire that a function of yours carried. */
typedef enum {
    MZ_LOST,     /* no reply came */
    MZ_REPLIED,  /* *reply is the reply */
    MZ_RESTARTED, /* *news are the news of the data component, which didn't perform the wire */
    MZ_RETIRED,  /* the data component serves another session than the wire's, and didn't perform it */
    MZ_UNWRITTEN /* your log failed, so that the wire wasn't carried */
} mz_carried;

/* Carries a wire to its data component, which is wire->record.dc. */
typedef mz_carried mz_carry(void *context, const mz_wire *wire, mz_reply *reply, mz_news *news);

/* ---- inside */

/* Hears news of a restart, one of the *restarts that may be heard of. News that were known are nothing. */
static inline mz_code mz_hear(mz_tc *tc, uint16_t dc, const mz_news *news, int *restarts) {
    mz_code c = mz_told(tc, dc, news);
    if (c == MZ_OK) --*restarts;
    return c == MZ_OLD_NEWS ? MZ_OK : c;
}

/* What doesn't come otherwise if the wire is carried once more. */
static inline int mz_is_final(mz_code c) { return c == MZ_DIVERGED || c == MZ_DEPOSED || c == MZ_LOG_FAILED; }

/* What a wire that nobody performed is told as, where it is final. */
static inline mz_code mz_not_carried(mz_tc *tc, const mz_wire *wire, mz_carried carried) {
    mz_frame *f;
    if (carried == MZ_UNWRITTEN) return MZ_LOG_FAILED;
    if (carried != MZ_RETIRED) return MZ_OK;
    mz_code c = mz_enter(tc, MZ_KIND_TC, 1, &f);
    mz_reply reply = {wire->number, wire->incarnation, MZ_OLD, {0}};
    return c == MZ_OK ? mz_leave(f, mz_refused_as(f, wire->record.dc, &reply)) : c;
}

/* Redoes while wires are answered, and while restarts may be heard of. A wire is the same until it is redone, by whomever. */
static inline mz_code mz_redo_within(mz_tc *tc, uint16_t dc, mz_carry *carry, void *context, int tries, int *restarts,
                                     int *up) {
    uint64_t number = 0, incarnation = 0;
    for (int left = tries;; left--) {
        mz_wire wire;
        mz_reply reply;
        mz_news news = {0, 0};
        mz_code c = mz_redo_next(tc, dc, &wire, up);
        if (c != MZ_OK || *up) return c;
        if (wire.number != number || wire.incarnation != incarnation) left = tries;
        if (left == 0 || *restarts <= 0) return MZ_OK;
        number = wire.number;
        incarnation = wire.incarnation;
        mz_carried carried = carry(context, &wire, &reply, &news);
        c = carried == MZ_REPLIED ? mz_redone(tc, dc, &reply) : mz_not_carried(tc, &wire, carried);
        if (mz_is_final(c)) return c;
        c = carried == MZ_RESTARTED ? mz_hear(tc, dc, &news, restarts) : MZ_OK;
        if (c != MZ_OK) return c;
    }
}

/* The request that is kept of a transaction, as it is now: MZ_REQUEST with its wire, or MZ_DOWN. */
static inline mz_code mz_held(mz_tc *tc, uint64_t txn, mz_asked *asked) {
    mz_code c = mz_resend(tc, txn, &asked->wire);
    if (c == MZ_DC_DOWN) return mz_retake(tc, txn, asked);
    asked->next = MZ_REQUEST;
    return c;
}

/* The same, behind the redo of its data component where that is down. */
static inline mz_code mz_renew(mz_tc *tc, uint64_t txn, mz_asked *asked, mz_carry *carry, void *context, int tries,
                               int *restarts) {
    int up;
    mz_code c = mz_held(tc, txn, asked);
    if (c != MZ_OK || asked->next != MZ_DOWN || *restarts <= 0) return c;
    c = mz_redo_within(tc, asked->wire.record.dc, carry, context, tries, restarts, &up);
    return c == MZ_OK || c == MZ_NOT_DOWN ? mz_held(tc, txn, asked) : c;
}

/* Carries the open request of a transaction until it is answered. *asked is MZ_REQUEST, MZ_DOWN or MZ_WAITS; behind it
 * MZ_RUNNING, with what was said, or as mz_held where it isn't answered. It gives nothing up. */
static inline mz_code mz_carry_open(mz_tc *tc, uint64_t txn, mz_asked *asked, mz_carry *carry, void *context, int tries,
                                    mz_said *said) {
    int restarts = tries;
    mz_code c = MZ_OK;
    if (asked->next != MZ_REQUEST) c = mz_renew(tc, txn, asked, carry, context, tries, &restarts);
    for (int i = 0; c == MZ_OK && asked->next == MZ_REQUEST && i < tries; i++) {
        mz_reply reply;
        mz_news news = {0, 0};
        mz_carried carried = carry(context, &asked->wire, &reply, &news);
        c = carried == MZ_REPLIED ? mz_answer(tc, txn, &reply) : mz_not_carried(tc, &asked->wire, carried);
        if (carried == MZ_REPLIED && c == MZ_OK) {
            asked->next = MZ_RUNNING;
            *said = reply.said;
            return MZ_OK;
        }
        if (mz_is_final(c)) return c;
        c = carried == MZ_RESTARTED ? mz_hear(tc, asked->wire.record.dc, &news, &restarts) : MZ_OK;
        if (c == MZ_OK) c = mz_renew(tc, txn, asked, carry, context, tries, &restarts);
    }
    return c;
}

/* ---- */

/* Redoes what a data component that is down has lost, by one thread. Each wire is carried `tries` times at
 * most, and so many restarts are heard of at most. *up is 1 where it is up behind this; else it is still
 * down: a wire wasn't answered, or it restarted too often. MZ_BAD_ARGUMENT where tries isn't above 0; as
 * mz_redo_next; MZ_FORGOTTEN of its news; MZ_DIVERGED and MZ_DEPOSED as mz_redone, and mz_refused_reply has the number;
 * MZ_DEPOSED also of MZ_RETIRED, and MZ_LOG_FAILED of MZ_UNWRITTEN. */
static inline mz_code mz_redo(mz_tc *tc, uint16_t dc, mz_carry *carry, void *context, int tries, int *up) {
    int restarts = tries;
    if (!carry || !up || tries < 1) return MZ_BAD_ARGUMENT;
    return mz_redo_within(tc, dc, carry, context, tries, &restarts, up);
}

/* As mz_run, but doesn't end it: behind MZ_OVER mz_result says what its access slots hold, and mz_end ends it. */
static inline mz_code mz_run_until_over(mz_tc *tc, uint64_t txn, mz_carry *carry, void *context, int tries,
                                        mz_next *stopped) {
    if (!carry || !stopped || tries < 1) return MZ_BAD_ARGUMENT;
    int undoing = 0, full = 0;
    mz_asked asked;
    memset(&asked, 0, sizeof asked);
    for (;;) {
        mz_said said = MZ_DONE;
        mz_code c = undoing ? mz_undo(tc, txn, &asked) : mz_ask(tc, txn, &asked);
        if (c != MZ_OK) return c;
        *stopped = asked.next;
        switch (asked.next) {
        case MZ_REQUEST:
        case MZ_DOWN:
        case MZ_WAITS:
            c = mz_carry_open(tc, txn, &asked, carry, context, tries, &said);
            *stopped = asked.next == MZ_DOWN ? MZ_DOWN : MZ_WAITS;
            if (c == MZ_NOTHING_OPEN) return MZ_OK;
            if (asked.next == MZ_REQUEST && asked.wire.undoes) *stopped = MZ_UNDOING;
            if (c != MZ_OK || asked.next != MZ_RUNNING) return c;
            full = asked.wire.undoes && said == MZ_NO_ROOM;
            if (full) undoing = 0;
            break;
        case MZ_UNDOING:
            if (full) return MZ_OK;
            undoing = 1;
            break;
        case MZ_RUNNING: undoing = 0; break;
        case MZ_OVER:
        case MZ_STUCK: return MZ_OK;
        }
    }
}

/* Runs an admitted transaction by one thread, until it ends or nobody answers. Each wire is carried `tries` times at
 * most; a data component that is down, or says that it restarted, is redone, and while one request waits so many
 * restarts are heard of at most. So it returns, whatever is carried. *stopped is
 *   MZ_OVER: it has ended, as *receipt says;
 *   MZ_WAITS: nobody answered;
 *   MZ_DOWN: its data component is down, and a wire of its redo wasn't answered;
 *   MZ_UNDOING: what undoes a write wasn't answered, or found no room;
 *   MZ_STUCK: it found no room under four numbers, which are all that it has.
 * Nothing is given up: behind MZ_WAITS and MZ_DOWN wait a while, behind MZ_UNDOING longer each time, since one of four numbers
 * may be spent, and call this again; it keeps its locks. Or mz_give_up, behind which this answers MZ_WAITS, and carries
 * nothing, until mz_retake. If a lock of yours is held round this call, `carry` may let it go while it carries, for calls
 * on other transactions. MZ_NO_TXN; MZ_BAD_ARGUMENT where tries isn't above 0; of what a data component says, while the
 * request stays open: MZ_FORGOTTEN of news, MZ_DIVERGED and MZ_DEPOSED as mz_answer and mz_redone (mz_refused_reply);
 * MZ_DEPOSED also of MZ_RETIRED, and MZ_LOG_FAILED of MZ_UNWRITTEN. */
static inline mz_code mz_run(mz_tc *tc, uint64_t txn, mz_carry *carry, void *context, int tries, mz_receipt *receipt,
                             mz_next *stopped) {
    if (!receipt) return MZ_BAD_ARGUMENT;
    mz_code c = mz_run_until_over(tc, txn, carry, context, tries, stopped);
    return c == MZ_OK && *stopped == MZ_OVER ? mz_end(tc, txn, receipt) : c;
}

/* ---- a data component in memory: performs each number once */

/* With room for so many records (at most 65536) and operations (at most 1048576), all taken here. NULL,
 * and why in *code: MZ_BAD_ARGUMENT, MZ_MEMORY, MZ_OTHER_LIBRARY. */
static inline mz_dc *mz_dc_new(uint64_t rows, uint64_t operations, mz_code *code) {
    return (mz_dc *)mz_new(MZ_KIND_DC, MZ_CALL_START_DC, rows, operations, code);
}

static inline void mz_dc_free(mz_dc *dc) { mz_free(dc, MZ_KIND_DC); }

/* From now on it performs this session's wires alone, of each incarnation; before this it performs any. MZ_BEGUN: it is
 * another session's, whose numbers it doesn't forget: make a new one. */
static inline mz_code mz_dc_begin(mz_dc *dc, uint64_t session) {
    mz_frame *f;
    mz_code c = mz_enter(dc, MZ_KIND_DC, 1, &f);
    if (c != MZ_OK) return c;
    mz_head *head = mz_head_of(f);
    if (head->is_begun && head->session != session) return mz_leave(f, MZ_BEGUN);
    head->is_begun = 1;
    head->session = session;
    return mz_leave(f, MZ_OK);
}

/* Performs a wire. MZ_SILENT: it is for another incarnation, or there is no room for a further operation;
 * there is no reply, and nothing but the low-water mark has changed. MZ_DEPOSED: it is another session's than the one that
 * mz_dc_begin gave it, and nothing has changed. */
static inline mz_code mz_dc_perform(mz_dc *dc, const mz_wire *wire, mz_reply *reply) {
    mz_frame *f;
    mz_code c = mz_enter(dc, MZ_KIND_DC, wire && reply, &f);
    if (c != MZ_OK) return c;
    if (mz_head_of(f)->is_begun && mz_head_of(f)->session != wire->session) return mz_leave(f, MZ_DEPOSED);
    mz_put_wire(f, wire);
    c = mz_make(f, MZ_CALL_PERFORM);
    if (c == MZ_OK) mz_get_reply(f, reply);
    return mz_leave(f, c);
}

/* Keeps what it has: a restart loses what comes after this. */
static inline mz_code mz_dc_checkpoint(mz_dc *dc) { return mz_plain(dc, MZ_KIND_DC, MZ_CALL_CHECKPOINT); }

/* Hears a low-water mark that comes with no wire: the transaction component's, for this incarnation. */
static inline mz_code mz_dc_hear_mark(mz_dc *dc, uint64_t incarnation, uint64_t low_water) {
    mz_frame *f;
    mz_code c = mz_enter(dc, MZ_KIND_DC, 1, &f);
    if (c != MZ_OK) return c;
    f->incarnation = incarnation;
    f->low_water = low_water;
    return mz_leave(f, mz_make(f, MZ_CALL_HEAR_MARK));
}

/* Forgets the operations that it performed, and keeps the records: where its last checkpoint has all of them,
 * and all their numbers are at or under the mark that it kept (else *forgotten is 0, and nothing changes).
 * Then there is room again for as many as at first. */
static inline mz_code mz_dc_forget(mz_dc *dc, int *forgotten) {
    mz_frame *f;
    mz_code c = mz_enter(dc, MZ_KIND_DC, forgotten != NULL, &f);
    if (c != MZ_OK) return c;
    c = mz_make(f, MZ_CALL_FORGET);
    if (c == MZ_OK) *forgotten = f->word == 1;
    return mz_leave(f, c);
}

/* Loses what came after the last checkpoint, and begins the next incarnation, whose news are for mz_told.
 * MZ_INCARNATIONS_SPENT. */
static inline mz_code mz_dc_restart(mz_dc *dc, mz_news *news) {
    mz_frame *f;
    mz_code c = mz_enter(dc, MZ_KIND_DC, news != NULL, &f);
    if (c != MZ_OK) return c;
    c = mz_make(f, MZ_CALL_RESTART);
    if (c == MZ_OK) {
        news->incarnation = f->incarnation;
        news->mark = f->low_water;
    }
    return mz_leave(f, c);
}

/* The value of a record (*said is MZ_VALUE_IS), or MZ_ABSENT in *said. The record's dc isn't looked at. */
static inline mz_code mz_dc_get(mz_dc *dc, const mz_record *record, mz_said *said, uint8_t value[MZ_VALUE]) {
    mz_frame *f;
    mz_code c = mz_enter(dc, MZ_KIND_DC, record && said && value, &f);
    if (c != MZ_OK) return c;
    mz_put_record(f, record);
    c = mz_make(f, MZ_CALL_GET);
    if (c == MZ_OK) {
        *said = (mz_said)f->kind;
        memcpy(value, f->value, MZ_VALUE);
    }
    return mz_leave(f, c);
}

/* How many records there are. */
static inline uint64_t mz_dc_rows(mz_dc *dc) {
    return mz_counted(dc, MZ_KIND_DC, MZ_CALL_ROWS);
}

/* The record at this place, from 0, and its value; records rise. MZ_NO_PLACE past the end. */
static inline mz_code mz_dc_row(mz_dc *dc, uint64_t place, mz_record *record, uint8_t value[MZ_VALUE]) {
    mz_frame *f;
    mz_code c = mz_enter(dc, MZ_KIND_DC, record && value, &f);
    if (c != MZ_OK) return c;
    f->place = place;
    c = mz_make(f, MZ_CALL_ROW);
    if (c == MZ_OK) {
        mz_get_record(f, record);
        memcpy(value, f->value, MZ_VALUE);
    }
    return mz_leave(f, c);
}

/* ---- verified code alone */

/* A program: code that is run outside of transactions, whose questions you answer. NULL, and why in *code. */
static inline mz_program *mz_program_new(mz_code *code) {
    return (mz_program *)mz_new(MZ_KIND_PROGRAM, MZ_CALL_START_CODE, 0, 0, code);
}

static inline void mz_program_free(mz_program *program) { mz_free(program, MZ_KIND_PROGRAM); }

/* As mz_load: the code is kept where it is accepted, in the place of the code before. */
static inline mz_code mz_program_verify(mz_program *program, const void *code, size_t bytes, const mz_slot *slots,
                                        size_t slot_count, unsigned args, uint64_t *place) {
    mz_frame *f;
    mz_code c = mz_enter(program, MZ_KIND_PROGRAM, 1, &f);
    if (c != MZ_OK) return c;
    c = mz_hand_in(f, code, bytes, slots, slot_count);
    if (c != MZ_OK) return mz_leave(f, c);
    f->word = args;
    f->place = 0;
    c = mz_make(f, MZ_CALL_VERIFY);
    if (c != MZ_OK && place) *place = f->place;
    return mz_leave(f, c);
}

/* Where a run stands: at its end (op is 0) with the value of register 0, or at an operation; and how many
 * instructions it has executed, at most as many as the code has slots. */
typedef struct {
    int op; /* 0, or an mz_op, with record and written */
    uint64_t value;
    mz_record record;
    uint8_t written[MZ_VALUE]; /* of an insert or an update; zeros else */
    uint64_t executed;
} mz_stop;

/* ---- inside */

static inline void mz_get_stop(const mz_frame *f, mz_stop *stop) {
    stop->op = (int)f->op;
    stop->value = f->op ? 0 : f->word;
    mz_get_record(f, &stop->record);
    memcpy(stop->written, f->value, MZ_VALUE);
    stop->executed = f->place;
}

/* ---- */

/* Runs it from its beginning to its end or its first operation. MZ_NO_PROCEDURE: no code was accepted yet;
 * MZ_ARGUMENT_COUNT. */
static inline mz_code mz_program_run(mz_program *program, const uint64_t *args, size_t count, mz_stop *stop) {
    mz_frame *f;
    mz_code c = mz_enter(program, MZ_KIND_PROGRAM, stop != NULL, &f);
    if (c != MZ_OK) return c;
    c = mz_put_args(f, args, count);
    if (c == MZ_OK) c = mz_make(f, MZ_CALL_RUN);
    if (c == MZ_OK) mz_get_stop(f, stop);
    return mz_leave(f, c);
}

/* Goes on from the operation with what is said to it (of *reply its `said` and `value` alone). MZ_STRANGER:
 * that can't be an answer to it, or is MZ_NO_ROOM, with which no run goes on. MZ_NOTHING_OPEN. */
static inline mz_code mz_program_resume(mz_program *program, const mz_reply *reply, mz_stop *stop) {
    mz_frame *f;
    mz_code c = mz_enter(program, MZ_KIND_PROGRAM, reply && stop, &f);
    if (c != MZ_OK) return c;
    mz_put_reply(f, reply);
    c = mz_make(f, MZ_CALL_RESUME);
    if (c == MZ_OK) mz_get_stop(f, stop);
    return mz_leave(f, c);
}

/* ---- codes in words */

/* What a code says, as "Busy"; "?" of a number that is none. */
static inline const char *mz_code_text(mz_code code) {
    static const char *const v[] = {
        "Backward", "OutOfCode", "IntoWide", "FallsOff", "EmptyRegister", "WritesR10", "NotAPointer",
        "OutOfBounds", "ReadOnly", "MaybeNull", "UnknownHelper", "SlotUnknown", "ModeTooWeak", "PointerReturned"};
    static const char *const e[] = {
        "NoCode", "Length", "TooLong", "WideCut", "UnusedField", "Undefined", "OutsideProfile"};
    static const char *const s[] = {"TooManyArgs", "TooManySlots", "NoSuchArg"};
    uint32_t n = code & 255;
    switch (code) {
    case MZ_OK: return "OK";
    case MZ_NO_SUCH_CALL: return "NoSuchCall";
    case MZ_BAD_ARGUMENT: return "BadArgument";
    case MZ_NOT_TEXT: return "NotText";
    case MZ_BAD_OBJECT: return "BadObject";
    case MZ_MEMORY: return "Memory";
    case MZ_NO_PLACE: return "NoPlace";
    case MZ_SILENT: return "Silent";
    case MZ_OTHER_LIBRARY: return "OtherLibrary";
    case MZ_BUSY: return "Busy";
    case MZ_NUMBERS_SPENT: return "NumbersSpent";
    case MZ_NO_PROCEDURE: return "NoProcedure";
    case MZ_ARGUMENT_COUNT: return "ArgumentCount";
    case MZ_NO_TXN: return "NoTxn";
    case MZ_NOT_OVER: return "NotOver";
    case MZ_NOTHING_OPEN: return "NothingOpen";
    case MZ_STRANGER: return "Stranger";
    case MZ_NO_DC: return "NoDc";
    case MZ_INCARNATIONS_SPENT: return "IncarnationsSpent";
    case MZ_DC_DOWN: return "Down";
    case MZ_OLD_NEWS: return "OldNews";
    case MZ_NOT_DOWN: return "NotDown";
    case MZ_FORGOTTEN: return "Forgotten";
    case MZ_DIVERGED: return "Diverged";
    case MZ_DEPOSED: return "Deposed";
    case MZ_NOTHING_YET: return "NothingYet";
    case MZ_TXNS_OPEN: return "TxnsOpen";
    case MZ_ONE_DOWN: return "OneDown";
    case MZ_BEHIND: return "Behind";
    case MZ_ADMISSIONS_SPENT: return "AdmissionsSpent";
    case MZ_BEGUN: return "Begun";
    case MZ_NOTE_COUNT: return "NoteCount";
    case MZ_ROW_LENGTH: return "RowLength";
    case MZ_NO_EVENT: return "NoEvent";
    case MZ_LOG_ILLEGAL: return "LogIllegal";
    case MZ_DAMAGED: return "Damaged";
    case MZ_NO_LOG: return "NoLog";
    case MZ_OTHER_PROCEDURES: return "OtherProcedures";
    case MZ_NO_BASE: return "NoBase";
    case MZ_NO_BATCH: return "NoBatch";
    case MZ_FRAMES_SPENT: return "FramesSpent";
    case MZ_HAS_RECORDS: return "HasRecords";
    case MZ_LOG_FAILED: return "LogFailed";
    case MZ_LOG_IN_USE: return "LogInUse";
    case MZ_NO_SESSION: return "NoSession";
    case MZ_SESSION_STAYS: return "SessionStays";
    case MZ_NAME_TAKEN: return "NameTaken";
    case MZ_DC_UNKNOWN: return "DcUnknown";
    }
    if (n && code >> 8 == 'V' && n <= 14) return v[n - 1];
    if (n && code >> 8 == 'E' && n <= 7) return e[n - 1];
    if (n && code >> 8 == 'S' && n <= 3) return s[n - 1];
    return "?";
}

#ifdef __cplusplus
}
#endif
#endif
