/* The front of a Xen block device (io/blkif.h, io/ring.h, io/xenbus.h) as a machine that a program moves, as vbd.h has the back.
 *
 * A program asks what the front wants done next, does that, and answers; it hands the front requests, and takes what became of
 * them. An answer that the ask doesn't allow is refused and changes nothing, and so is a request that can't be taken. Which
 * words are touched, which frames are granted and when an event is sent is the front's to say. After vbd_front_new it takes no
 * memory. What the caller owes is what vbd.h says. */
#ifndef VBD_FRONT_H
#define VBD_FRONT_H
#include "vbd.h"

/* A front, or none. */
struct vbd_front {
    bool live;
    void *at;
};

/* The order of the ring that is wished, 0 to 4: it gets 2^order pages, or as many as the back takes; the first ring index;
 * whether entries have the layout of x86_32-abi; and whether grants are kept for later requests (feature-persistent: only where
 * the back publishes it too). What else the back serves, indirect requests among it, comes from its keys. */
struct vbd_front_options {
    uint32_t order, start;
    bool x86_32, persistent;
};

/* What is asked, by enum vbd_kind; fields that a kind doesn't name are 0. Frames are below 1018 and words below 1024, of the
 * guest's own memory, in which frames 0 and 1 are grant entries (grant_table.h, struct grant_entry_v1) and 2 to 17 the ring.
 *
 *   VBD_WAIT        nothing: vbd_front_watched, or VBD_EVENT
 *   VBD_FENCE       a full memory barrier: VBD_OK
 *   VBD_READ        `word` of `frame`: VBD_WORD
 *   VBD_WRITE       the same, to be `value`: VBD_OK
 *   VBD_CAS         the same, to be `value` if it is `expected`: VBD_WORD, which stood there before, be it so or not
 *   VBD_NEW_PORT    a port that the back can bind: VBD_PORT
 *   VBD_SEND        an event to the back: VBD_OK
 *   VBD_CLOSE_PORT  that port: VBD_OK
 *   VBD_GET_KEY     the text at vbd_front_path: vbd_front_key, or VBD_NO_KEY where there is none
 *   VBD_SET_KEY     the text at vbd_front_path is to be vbd_front_text: VBD_OK
 *   VBD_WATCH       vbd_front_path and all below: VBD_OK. It fires at once, and whenever a text there changes */
struct vbd_front_ask {
    uint32_t kind, frame, word, value, expected;
};

/* Words of a request's data that are asked for next, one after another: `count` of them, 1 to 128, from `word` of `frame` on,
 * up to the last word of their sector, which is number `index` of request `id`. Where `writes` is 1 each is to be `value`;
 * where it is 0 each is read, and `value` is 0. */
struct vbd_front_part {
    uint32_t id, index, frame, word, count, value, writes;
};

/* A request. Sectors have 512 bytes; the words of sector `i` of a write or a barrier are all `tag + i`. */
enum vbd_op { VBD_OP_READ, VBD_OP_WRITE, VBD_OP_BARRIER, VBD_OP_FLUSH, VBD_OP_DISCARD = 5 }; /* BLKIF_OP_* */
struct vbd_submission {
    uint32_t op, count, tag;
    uint64_t sector;
};

/* Why a request isn't taken, the first that applies, as vbd_front_submit answers it: then nothing changed. */
enum vbd_refusal {
    VBD_SPENT = 8,   /* 4294967295 requests were taken */
    VBD_NOT_READY,   /* it isn't connected, or is broken */
    VBD_CLOSING,     /* it closes, or is closed */
    VBD_UNSUPPORTED, /* the back doesn't serve this operation */
    VBD_READ_ONLY,   /* the disk is */
    VBD_RANGE,       /* a sector is past the disk's end */
    VBD_LONG,        /* more sectors than its segments have: 88, or 8 times the segments of an indirect request */
    VBD_FULL,        /* as many requests are unfinished as the ring has entries: wait, and try again */
    VBD_BUFFERS,     /* fewer of its 1000 frames are free than the sectors take: likewise */
};

/* What is told, and its fields. */
enum vbd_front_told_kind {
    VBD_ANSWER = 1,   /* request `id` was answered: `status`, BLKIF_RSP_* */
    VBD_SECTOR,       /* the sector of number `index` that read `id` read: `words` */
    VBD_BROKEN,       /* it met `word`, which no honest back leaves, and does nothing more */
    VBD_READY,        /* it is connected, and takes requests */
    VBD_NOW_CLOSING,  /* it takes no more */
    VBD_NOW_CLOSED,
};
struct vbd_front_told {
    uint32_t kind, id, index, word;
    int32_t status;
    uint32_t words[128];
};

/* How many requests are unfinished, and how many sectors they move. */
struct vbd_owed {
    uint32_t requests;
    uint64_t sectors;
};

/* VBD_DONE, VBD_IN_USE, VBD_OUT_OF_RANGE or VBD_NO_MEMORY. vbd_front_free leaves a handle without a front. */
uint32_t vbd_front_new(struct vbd_front *front, const struct vbd_front_options *options);
void vbd_front_free(struct vbd_front *front);

/* What is asked, and what goes with it, as vbd_back_ask and its kin. */
uint32_t vbd_front_ask(struct vbd_front *front, struct vbd_front_ask *ask);
size_t vbd_front_path(struct vbd_front *front, uint8_t *bytes, size_t count);
size_t vbd_front_text(struct vbd_front *front, uint8_t *bytes, size_t count);

/* The answer: VBD_DONE, VBD_TOLD, VBD_NOT_ALLOWED, VBD_UNTOLD or VBD_EMPTY; of a text also VBD_OUT_OF_RANGE. */
uint32_t vbd_front_complete(struct vbd_front *front, const struct vbd_answer *answer);
uint32_t vbd_front_key(struct vbd_front *front, const uint8_t *text, size_t count);
uint32_t vbd_front_watched(struct vbd_front *front, const uint8_t *path, size_t count);

/* The words of data that are asked for next; false, and nothing is written, where vbd_front_ask asks for something else. */
bool vbd_front_part(struct vbd_front *front, struct vbd_front_part *part);

/* Answers for the first `count` words of that part, that they were written or are these, as so many single answers: VBD_DONE
 * or VBD_TOLD. VBD_NOT_ALLOWED where fewer are asked for or of the other kind, VBD_UNTOLD and VBD_EMPTY change nothing.
 * A program with data of its own writes its own words at the places of a part that is written, in place of `value`, before it
 * answers: the front never reads them again, and nothing that is proved of it speaks of their values. */
uint32_t vbd_front_part_written(struct vbd_front *front, size_t count);
uint32_t vbd_front_part_read(struct vbd_front *front, const uint32_t *words, size_t count);

/* What is told, once; false, and nothing is written, where that is nothing. Each move tells one thing at most. */
bool vbd_front_told(struct vbd_front *front, struct vbd_front_told *told);

/* Hands it a request, whose number is written to `id`: VBD_DONE, VBD_EMPTY, a refusal, or VBD_OUT_OF_RANGE for an operation
 * that isn't there or no sectors. What is asked may change: ask again. */
uint32_t vbd_front_submit(struct vbd_front *front, const struct vbd_submission *submission, uint32_t *id);
uint32_t vbd_front_owed(struct vbd_front *front, struct vbd_owed *owed);

/* The front is to close: it takes no more requests, finishes those that it has, and closes. VBD_DONE where it did before,
 * VBD_TOLD, VBD_UNTOLD or VBD_EMPTY. */
uint32_t vbd_front_close(struct vbd_front *front);

/* Its domain was suspended and resumes: it negotiates anew, and issues what isn't answered again. The data of a read that was
 * answered are told first. VBD_DONE or VBD_EMPTY. */
uint32_t vbd_front_suspend(struct vbd_front *front);
#endif
