/* The proved back as a host drives it: ask, do what is asked, answer. Copy this file for a host of your own. */
#define _GNU_SOURCE
#include "live.h"
#include "vbd.h"
#include <poll.h>
#include <string.h>
#include <unistd.h>

static struct vbd_back back;
static uint64_t moves, effects, replies, faults, maps;

static void take(uint32_t status, const struct vbd_ask *ask) {
    struct vbd_told told;
    if (status == VBD_DONE) return;
    if (status != VBD_TOLD || !vbd_back_told(&back, &told)) die("status %u of an answer to ask %u", status, ask->kind);
    effects += told.kind == VBD_EFFECT;
    replies += told.kind == VBD_REPLY;
    faults += told.kind == VBD_FAULT;
}

static void answer(uint64_t job, const struct vbd_ask *ask, uint32_t kind, uint32_t word, int32_t status) {
    struct vbd_answer given = {kind, word, status};
    take(vbd_back_complete(&back, job, &given), ask);
}

static void map(uint64_t job, const struct vbd_ask *ask) {
    uint64_t mapping = 0;
    int32_t status = map_grant(ask->gref, ask->writes, &mapping);
    if (status) answer(job, ask, VBD_REFUSED, 0, status);
    else maps++, take(vbd_back_mapped(&back, job, mapping), ask);
}

static void key(const struct vbd_ask *ask) {
    uint8_t path[TEXT_ROOM] = {0}, text[TEXT_ROOM] = {0};
    vbd_back_path(&back, path, sizeof path - 1);
    if (ask->kind == VBD_SET_KEY) {
        vbd_back_text(&back, text, sizeof text - 1);
        set_key((char *)path, (char *)text);
        answer(0, ask, VBD_OK, 0, 0);
    } else if (!get_key((char *)path, (char *)text)) {
        answer(0, ask, VBD_NO_KEY, 0, 0);
    } else {
        uint32_t status = vbd_back_key(&back, text, strlen((char *)text));
        if (status == VBD_OUT_OF_RANGE) answer(0, ask, VBD_NO_KEY, 0, 0); /* too long, or no UTF-8 */
        else take(status, ask);
    }
}

static bool write_zeros(uint64_t sector, uint64_t sectors) {
    static const uint8_t zeros[SECTOR_BYTES];
    for (uint64_t i = 0; i < sectors; i++)
        if (pwrite(outside.image, zeros, SECTOR_BYTES, (off_t)((sector + i) * SECTOR_BYTES)) != SECTOR_BYTES) return false;
    return true;
}

static void disk(uint64_t job, const struct vbd_ask *ask) {
    uint32_t words[SECTOR_WORDS];
    off_t at = (off_t)(ask->sector * SECTOR_BYTES);
    bool well = false;
    if (ask->kind == VBD_DISK_READ && pread(outside.image, words, sizeof words, at) == sizeof words) {
        take(vbd_back_sector(&back, job, words, SECTOR_WORDS), ask);
        return;
    }
    if (ask->kind == VBD_DISK_WRITE)
        well = vbd_back_words(&back, job, words, SECTOR_WORDS) && pwrite(outside.image, words, sizeof words, at) == sizeof words;
    if (ask->kind == VBD_FLUSH) well = fdatasync(outside.image) == 0;
    if (ask->kind == VBD_TRIM) well = write_zeros(ask->sector, ask->sectors);
    answer(job, ask, well ? VBD_OK : VBD_FAILED, 0, 0);
}

/* The words of a sector that a job has read or written next, each moved by itself: all of them, or now and then fewer; false where
 * it asks for none. */
static bool move_part(uint64_t job) {
    struct vbd_part part;
    if (!vbd_back_part(&back, job, &part)) return false;
    uint32_t words[SECTOR_WORDS], frame = mapped_frame(part.mapping, part.writes);
    uint32_t count = any(4) ? part.count : 1 + (uint32_t)any(part.count), status;
    if (part.writes) {
        vbd_back_part_words(&back, job, words, count);
        for (uint32_t i = 0; i < count; i++) store_word(frame, part.word + i, words[i]);
        status = vbd_back_part_written(&back, job, count);
    } else {
        for (uint32_t i = 0; i < count; i++) words[i] = load_word(frame, part.word + i);
        status = vbd_back_part_read(&back, job, words, count);
    }
    if (status != VBD_DONE) die("status %u of an answer to %u words", status, count);
    moves += count;
    return true;
}

/* One move of the back, where `job` is 0, or of a job, or words of a sector of its; false where it waits. */
static bool move(uint64_t job) {
    struct vbd_ask ask;
    if (job && move_part(job)) return true;
    if (vbd_back_ask(&back, job, &ask) != VBD_DONE || ask.kind == VBD_WAIT) return false;
    moves++;
    switch (ask.kind) {
    case VBD_FENCE: full_fence(); break;
    case VBD_READ: answer(job, &ask, VBD_WORD, load_word(mapped_frame(ask.mapping, false), ask.word), 0); return true;
    case VBD_WRITE: store_word(mapped_frame(ask.mapping, true), ask.word, ask.value); break;
    case VBD_MAP: map(job, &ask); return true;
    case VBD_UNMAP: unmap_grant(ask.mapping); break;
    case VBD_BIND: answer(job, &ask, ask.port == 1 ? VBD_OK : VBD_UNBOUND, 0, 0); return true; /* the front's only port */
    case VBD_SEND: delay(), wake(outside.event[FRONT]); break;
    case VBD_CLOSE_PORT: break;
    case VBD_GET_KEY:
    case VBD_SET_KEY: key(&ask); return true;
    case VBD_WATCH: wake(outside.watch[BACK]); break;
    default: disk(job, &ask); return true;
    }
    answer(job, &ask, VBD_OK, 0, 0);
    return true;
}

/* The back and its jobs by turns, each a few moves; false once all wait. */
static bool move_all(void) {
    bool moved = false;
    uint64_t job = 0;
    do {
        for (uint64_t i = any(64) + 1; i > 0 && move(job); i--) moved = true;
        job = vbd_back_next_job(&back, job);
    } while (job);
    return moved;
}

/* The guest's domain was suspended: nothing of it stays but the disk, and the back begins anew. */
static void suspend(void) {
    if (vbd_back_suspend(&back, options.start, true) != VBD_DONE) die("the back can't be made anew");
    forget_grants();
    make_keys();
    woken(outside.event[BACK]), woken(outside.watch[BACK]);
    wake(outside.resumed);
}

/* Waits for an event or a watch; false where the front is gone for good. */
static bool wait(void) {
    static const char path[] = FRONT_KEYS "/state";
    struct vbd_ask ask = {0};
    struct pollfd until[] = {
        {outside.stopped, POLLIN, 0}, {outside.event[BACK], POLLIN, 0}, {outside.watch[BACK], POLLIN, 0}, {outside.suspend, POLLIN, 0}};
    int ready = poll(until, 4, options.hostile ? 2000 : 20000);
    if (ready == 0 && !options.hostile) die("the back waited for 20 seconds: an event is lost");
    if (woken(outside.watch[BACK])) take(vbd_back_watched(&back, (const uint8_t *)path, sizeof path - 1), &ask);
    else if (woken(outside.event[BACK])) answer(0, &ask, VBD_EVENT, 0, 0);
    else return ready > 0 && !(until[0].revents & POLLIN);
    return true;
}

int run_back(void) {
    seed_of_thread(BACK);
    map_memory();
    struct vbd_options disk_of = {.sectors = disk_sectors(), .indirect = options.indirect, .start = options.start,
                                  .read_only = options.read_only, .persistent = options.persistent};
    if (vbd_back_new(&back, &disk_of) != VBD_DONE) die("the back can't be made");
    while (move_all() || wait())
        if (woken(outside.suspend)) suspend();
    struct vbd_halt halt = {0};
    uint8_t name[33] = {0};
    vbd_back_halted(&back, &halt);
    vbd_back_halt_key(&back, name, sizeof name - 1);
    printf("back: %" PRIu64 " moves, %" PRIu64 " effects, %" PRIu64 " replies, %" PRIu64 " faults; halted: reason %u, number %u %s; "
           "mappings held: %" PRIu64 "\n", moves, effects, replies, faults, halt.kind, halt.number, (char *)name, mappings_held());
    if (options.persistent) printf("back: %" PRIu64 " maps\n", maps);
    vbd_back_free(&back);
    return halt.kind && mappings_held() ? 1 : 0;
}
