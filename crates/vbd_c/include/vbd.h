/* The back of a Xen block device (io/blkif.h, io/ring.h, io/xenbus.h) as a machine that a program moves; vbd_front.h has the front.
 *
 * A program asks what the back, or a job of it, wants done next, does that, and answers. Nothing blocks, and nothing is
 * called back. An answer that the ask doesn't allow is refused and changes nothing, so no misuse of an answer breaks what
 * is proved of the back; which mappings are held, which words are touched and which sectors, is the back's to say.
 *
 * What the caller owes, since nothing checks it:
 *   a handle's bytes are all 0 before vbd_back_new, and are neither written nor copied after it;
 *   one call at a time uses a handle; it may go to another thread by a lock, a thread's start or join, or a seq_cst atomic;
 *   no call is made from a signal handler, nor in the forked child of a process with threads;
 *   each pointer leads to as much memory as its type and its count say, is aligned, and is never null, also where a count is
 *   0; and no two of a call overlap;
 *   malloc, realloc and free are those of one allocator, which aligns as C demands. */
#ifndef VBD_H
#define VBD_H
#include <stdbool.h>
#include <stddef.h>
#include <stdint.h>

/* A back, or none. `job` is 0 for the back itself, else the number of a job that is held (vbd_back_next_job). */
struct vbd_back {
    bool live;
    void *at;
};

/* What a call answers. But for VBD_DONE and VBD_TOLD it changed nothing. */
enum vbd_status {
    VBD_DONE,
    VBD_TOLD,         /* done, and the move told something: vbd_back_told before the next answer */
    VBD_NOT_ALLOWED,  /* the ask doesn't allow this answer */
    VBD_UNTOLD,       /* what the last move told wasn't taken yet */
    VBD_EMPTY,        /* the handle has none */
    VBD_IN_USE,       /* the handle has one already */
    VBD_NO_MEMORY,
    VBD_OUT_OF_RANGE, /* an option; a text that is too long or no UTF-8; no submission of a front */
};

/* The disk's number of 512-byte sectors; the most segments of an indirect request, 0 to 960, where 0 turns them off; the
 * first ring index; whether the disk is for reading alone; and how many mappings are kept for later requests at most, 0 to
 * 1000, where 0 turns that off (feature-persistent: only where the front publishes it too). The ring's layout and its order
 * come from the front's keys. */
struct vbd_options {
    uint64_t sectors;
    uint32_t indirect, start;
    bool read_only;
    uint32_t persistent;
};

/* What is asked, and what answers it. */
enum vbd_kind {
    VBD_WAIT,       /* nothing: vbd_back_watched, or VBD_EVENT. A job's has no answer */
    VBD_FENCE,      /* a full memory barrier: VBD_OK */
    VBD_READ,       /* `word` of the frame that `mapping` reaches: VBD_WORD */
    VBD_WRITE,      /* the same, to be `value`: VBD_OK */
    VBD_MAP,        /* the frame of grant `gref`, for writing too where `writes`: vbd_back_mapped, or VBD_REFUSED */
    VBD_UNMAP,      /* `mapping`: VBD_OK */
    VBD_BIND,       /* the front's `port`: VBD_OK or VBD_UNBOUND */
    VBD_SEND,       /* an event to the front: VBD_OK */
    VBD_CLOSE_PORT, /* the port that was bound: VBD_OK */
    VBD_GET_KEY,    /* the text at vbd_back_path: vbd_back_key, or VBD_NO_KEY where there is none */
    VBD_SET_KEY,    /* the text at vbd_back_path is to be vbd_back_text: VBD_OK */
    VBD_WATCH,      /* vbd_back_path and all below: VBD_OK. It fires at once, and whenever a text there changes */
    VBD_DISK_READ,  /* `sector`: vbd_back_sector or VBD_FAILED */
    VBD_DISK_WRITE, /* `sector`, which is to be vbd_back_words: VBD_OK or VBD_FAILED */
    VBD_FLUSH,      /* all that was written is to be stable: VBD_OK or VBD_FAILED */
    VBD_TRIM,       /* `sectors` from `sector` on: VBD_OK or VBD_FAILED */
    VBD_CAS,        /* of a front alone: vbd_front.h */
    VBD_NEW_PORT,   /* likewise */
};

/* Fields that a kind doesn't name are 0. Words are below 1024, sectors below the disk's. Of a mapping `gref` and `writes`
 * say what it was made of; it is one that was made and not unmapped, and is written through only where `writes`. At most
 * 1529 mappings are held at once, with those that are kept. A kept one is used for each request that names its reference,
 * without another VBD_MAP, until VBD_UNMAP. */
struct vbd_ask {
    uint32_t kind, gref, word, value, port;
    bool writes;
    uint64_t mapping, sector, sectors;
};

/* Words that a job has read or written next, one after another through one mapping, up to its sector's last one: `count` of them,
 * 1 to 128, from `word` on, below 1024. `writes` says that they are written, as VBD_WRITE asks for one; else VBD_READ does. */
struct vbd_part {
    uint64_t mapping;
    uint32_t gref, word, count;
    bool writes;
};

enum vbd_answer_kind {
    VBD_OK,
    VBD_EVENT,
    VBD_WORD,    /* `word` */
    VBD_REFUSED, /* `status`, GNTST_* of grant_table.h */
    VBD_UNBOUND,
    VBD_NO_KEY,
    VBD_FAILED,
    VBD_PORT,    /* `word`, of a front's VBD_NEW_PORT */
};
struct vbd_answer {
    uint32_t kind, word;
    int32_t status;
};

/* What a move told: of request `id`, its sector of number `index` done on the disk or failed there, or its reply. */
enum vbd_told_kind { VBD_EFFECT = 1, VBD_FLUSHED, VBD_TRIMMED, VBD_FAULT, VBD_REPLY };
struct vbd_told {
    uint32_t kind, index;
    int32_t status; /* of a reply, BLKIF_RSP_* */
    uint64_t id;
};

/* Why the back serves nothing more until it is made anew. */
enum vbd_halt_kind {
    VBD_OVERRUN = 1, /* the front's producer `number` is further ahead of the back's own, `rsp_prod`, than the ring has slots */
    VBD_GONE,        /* the front is gone: its state */
    VBD_UNPLUGGED,   /* the front is gone after vbd_back_close: its state */
    VBD_BAD_KEY,     /* vbd_back_halt_key is missing or malformed */
    VBD_BAD_ORDER,   /* a state of the front's that may not come now */
    VBD_BAD_PORT,    /* the front's port can't be bound */
    VBD_MAP_REFUSED, /* the ring's page of grant `number`: `status` */
};
struct vbd_halt {
    uint32_t kind, number, rsp_prod;
    int32_t status;
};

/* VBD_DONE, VBD_IN_USE, VBD_OUT_OF_RANGE or VBD_NO_MEMORY. vbd_back_free leaves a handle without a back. */
uint32_t vbd_back_new(struct vbd_back *back, const struct vbd_options *options);
void vbd_back_free(struct vbd_back *back);

/* What is asked, and what goes with it. An ask stays until it is answered. Each copies a text to the front of `bytes` and
 * answers its length, 0 where there is none or no room: paths have up to 80 bytes, texts 64, names of keys 32. */
uint32_t vbd_back_ask(struct vbd_back *back, uint64_t job, struct vbd_ask *ask);
size_t vbd_back_path(struct vbd_back *back, uint8_t *bytes, size_t count);
size_t vbd_back_text(struct vbd_back *back, uint8_t *bytes, size_t count);
bool vbd_back_words(struct vbd_back *back, uint64_t job, uint32_t *words, size_t count); /* false but for a write, and 128 */

/* The answer: VBD_DONE, VBD_TOLD, VBD_NOT_ALLOWED, VBD_UNTOLD or VBD_EMPTY; of a text also VBD_OUT_OF_RANGE. Mappings are
 * numbered by the program, which gives no number again while a mapping of it is held. */
uint32_t vbd_back_complete(struct vbd_back *back, uint64_t job, const struct vbd_answer *answer);
uint32_t vbd_back_mapped(struct vbd_back *back, uint64_t job, uint64_t mapping);
uint32_t vbd_back_key(struct vbd_back *back, const uint8_t *text, size_t count);
uint32_t vbd_back_watched(struct vbd_back *back, const uint8_t *path, size_t count);
uint32_t vbd_back_sector(struct vbd_back *back, uint64_t job, const uint32_t *words, size_t count);

/* The words that a job has read or written next; false, and nothing is written, where it asks for none. vbd_back_part_words copies
 * what is to be written to them, as many as there is room for, and answers how many. */
bool vbd_back_part(struct vbd_back *back, uint64_t job, struct vbd_part *part);
size_t vbd_back_part_words(struct vbd_back *back, uint64_t job, uint32_t *words, size_t count);

/* The first `count` of them were read, or written: that many of vbd_back_complete in one. VBD_DONE, or VBD_NOT_ALLOWED where that
 * isn't asked for, VBD_UNTOLD or VBD_EMPTY. A program moves each word by itself, as for a single ask, and in their order. */
uint32_t vbd_back_part_read(struct vbd_back *back, uint64_t job, const uint32_t *words, size_t count);
uint32_t vbd_back_part_written(struct vbd_back *back, uint64_t job, size_t count);

/* The least number above `after` of a job that is held; 0: none. At most 512 are held. */
uint64_t vbd_back_next_job(struct vbd_back *back, uint64_t after);

/* What the last move told, once; false, and nothing is written, where that is nothing. */
bool vbd_back_told(struct vbd_back *back, struct vbd_told *told);

/* Why it halted; false, and nothing is written, where it didn't. */
bool vbd_back_halted(struct vbd_back *back, struct vbd_halt *halt);
size_t vbd_back_halt_key(struct vbd_back *back, uint8_t *bytes, size_t count);

/* The back is to close: it says so in its state once it is connected, and serves on until the front is gone. */
uint32_t vbd_back_close(struct vbd_back *back);

/* The guest's domain was suspended: its mappings, its port and the keys of both ends are gone, and the back is made anew, of a
 * ring of this first index; one that has halted where the front isn't `going` on. VBD_DONE, VBD_UNTOLD, VBD_NO_MEMORY. */
uint32_t vbd_back_suspend(struct vbd_back *back, uint32_t start, bool going);
#endif
