/* The proved front as a host drives it: ask, do what is asked, answer; hand it requests, and take what it tells. Copy this file
 * for a host of your own. Each request has a part of the disk of its own: what is on the disk is then known. */
#define _GNU_SOURCE
#include "live.h"
#include "vbd_front.h"
#include <poll.h>
#include <string.h>
#include <time.h>

enum { MOST = 512, DIRECT_SECTORS = 88 };

static struct vbd_front front;
static struct { bool busy, own; uint32_t id, left; struct vbd_submission of; } requests[MOST];
static uint64_t moves, taken, answered, refusals, sectors, words_seen, suspends, odd_answers;
static bool ready, closing, closed, gave_up;

/* What an honest back never does. Beside a hostile hand the front may break, and read what isn't on the disk. */
static void odd(const char *what) {
    if (!options.hostile) die("the front: %s", what);
    odd_answers++;
}

static void finish(uint64_t slot) {
    const struct vbd_submission *of = &requests[slot].of;
    for (uint32_t i = 0; i < of->count && of->op != VBD_OP_READ; i++)
        if (requests[slot].own) wrote_sector(of->sector + i, of->tag);
        else filled_sector(of->sector + i, of->op == VBD_OP_DISCARD ? 0 : of->tag + i);
    if (of->op <= VBD_OP_BARRIER) sectors += of->count;
    requests[slot].busy = false;
    answered++;
}

/* After the answer of a read come its sectors. */
static void answer_came(const struct vbd_front_told *told, uint64_t slot) {
    if (told->status) odd("a request failed");
    requests[slot].left = requests[slot].of.op == VBD_OP_READ && !told->status ? requests[slot].of.count : 0;
    if (!requests[slot].left) finish(slot);
}
static void sector_came(const struct vbd_front_told *told, uint64_t slot) {
    uint64_t sector = requests[slot].of.sector + told->index;
    for (uint32_t word = 0; word < SECTOR_WORDS; word++, words_seen++)
        if (told->words[word] != word_on_disk(sector, word)) odd("a word that was read is wrong");
    if (!--requests[slot].left) finish(slot);
}

static uint64_t slot_of(uint32_t id) {
    uint64_t slot = 0;
    while (slot < options.depth && !(requests[slot].busy && requests[slot].id == id)) slot++;
    return slot;
}
static void take(uint32_t status, uint32_t kind) {
    struct vbd_front_told told;
    if (status == VBD_DONE) return;
    if (status != VBD_TOLD || !vbd_front_told(&front, &told)) die("status %u of an answer to ask %u of the front", status, kind);
    uint64_t slot = slot_of(told.id);
    if (told.kind <= VBD_SECTOR && slot == options.depth) die("the front tells of request %u, which isn't in flight", told.id);
    switch (told.kind) {
    case VBD_ANSWER: answer_came(&told, slot); break;
    case VBD_SECTOR: sector_came(&told, slot); break;
    case VBD_BROKEN: odd("it is broken"), gave_up = true; break;
    case VBD_READY: ready = true; break;
    case VBD_NOW_CLOSING: closing = true; break;
    default: closed = true;
    }
}
static void answer(uint32_t kind, uint32_t word, uint32_t asked) {
    struct vbd_answer given = {kind, word, 0};
    take(vbd_front_complete(&front, &given), asked);
}

static void key(uint32_t kind) {
    uint8_t path[TEXT_ROOM] = {0}, text[TEXT_ROOM] = {0};
    vbd_front_path(&front, path, sizeof path - 1);
    if (kind == VBD_SET_KEY) {
        vbd_front_text(&front, text, sizeof text - 1);
        set_key((char *)path, (char *)text);
        answer(VBD_OK, 0, kind);
    } else if (!get_key((char *)path, (char *)text)) {
        answer(VBD_NO_KEY, 0, kind);
    } else {
        uint32_t status = vbd_front_key(&front, text, strlen((char *)text));
        if (status == VBD_OUT_OF_RANGE) answer(VBD_NO_KEY, 0, kind); /* too long, or no UTF-8 */
        else take(status, kind);
    }
}

/* The words of a sector, each moved by itself: those that the front fills it with, or words of the program's own. */
static void move_words(const struct vbd_front_part *part) {
    uint32_t words[SECTOR_WORDS], first = part->word % SECTOR_WORDS;
    uint64_t slot = part->writes ? slot_of(part->id) : options.depth;
    for (uint32_t i = 0; i < part->count; i++)
        if (!part->writes) words[i] = load_word(part->frame, part->word + i);
        else if (slot == options.depth) die("the front writes for request %u, which isn't in flight", part->id);
        else if (!requests[slot].own) store_word(part->frame, part->word + i, part->value);
        else store_word(part->frame, part->word + i, word_of(requests[slot].of.tag, requests[slot].of.sector + part->index, first + i));
    moves += part->count;
    if (part->writes) take(vbd_front_part_written(&front, part->count), VBD_WRITE);
    else take(vbd_front_part_read(&front, words, part->count), VBD_READ);
}

/* One move of the front, or the rest of a sector; false where it waits. */
static bool move(void) {
    struct vbd_front_ask ask;
    struct vbd_front_part part;
    if (vbd_front_part(&front, &part)) {
        if (any(8) == 0) part.count = 1 + (uint32_t)any(part.count); /* fewer may be moved */
        move_words(&part);
        return true;
    }
    if (vbd_front_ask(&front, &ask) != VBD_DONE || ask.kind == VBD_WAIT) return false;
    moves++;
    switch (ask.kind) {
    case VBD_FENCE: full_fence(); break;
    case VBD_READ: answer(VBD_WORD, load_word(ask.frame, ask.word), ask.kind); return true;
    case VBD_WRITE: store_word(ask.frame, ask.word, ask.value); break;
    case VBD_CAS: answer(VBD_WORD, exchange_word(ask.frame, ask.word, ask.expected, ask.value), ask.kind); return true;
    case VBD_NEW_PORT: answer(VBD_PORT, 1, ask.kind); return true; /* the only port that the back binds */
    case VBD_SEND: delay(), wake(outside.event[BACK]); break;
    case VBD_CLOSE_PORT: break;
    case VBD_GET_KEY:
    case VBD_SET_KEY: key(ask.kind); return true;
    case VBD_WATCH: wake(outside.watch[FRONT]); break;
    default: die("the front asks for %u", ask.kind);
    }
    answer(VBD_OK, 0, ask.kind);
    return true;
}

static void draw(uint64_t slot) {
    static const uint32_t ops[] = {VBD_OP_BARRIER, VBD_OP_FLUSH, VBD_OP_DISCARD};
    struct vbd_submission *of = &requests[slot].of;
    uint64_t kind = any_asked(100), most = options.sectors_each;
    of->op = kind < 45 || options.read_only ? VBD_OP_READ : kind < 92 || options.data_only ? VBD_OP_WRITE : ops[kind % 3];
    if (of->op == VBD_OP_BARRIER && most > DIRECT_SECTORS) most = DIRECT_SECTORS; /* no barrier is indirect */
    of->count = of->op == VBD_OP_FLUSH ? 0 : 1 + (uint32_t)any_asked(most);
    of->sector = of->op == VBD_OP_FLUSH ? 0 : slot * options.sectors_each + any_asked(options.sectors_each - of->count + 1);
    of->tag = 1 + (uint32_t)any_asked(UINT32_MAX);
    requests[slot].own = (of->op == VBD_OP_WRITE || of->op == VBD_OP_BARRIER) && any_asked(2);
}

/* Hands it requests while some are left. One that is refused for want of room is kept, and tried again once another is answered. */
static void submit(void) {
    static uint64_t kept = MOST, tried_at; /* the slot of one that was refused, when so many were answered */
    if (kept < MOST && tried_at == answered && taken > answered) return;
    for (uint64_t slot = 0; ready && !closing && slot < options.depth && taken < options.requests; slot++) {
        if (requests[slot].busy || (kept < MOST && kept != slot) || (taken > answered && any(4) == 0)) continue;
        if (kept != slot) draw(slot);
        uint32_t status;
        while ((status = vbd_front_submit(&front, &requests[slot].of, &requests[slot].id)) == VBD_UNSUPPORTED) draw(slot);
        if (status == VBD_NOT_READY && gave_up) return;
        if (status != VBD_DONE && status != VBD_FULL && status != VBD_BUFFERS) die("the front refuses a request: %u", status);
        kept = MOST;
        if (status == VBD_DONE) requests[slot].busy = true, taken++;
        else if (taken == answered) die("the front refuses a request with none in flight: %u", status);
        else { kept = slot, tried_at = answered, refusals++; return; }
    }
}

/* The domain is suspended and resumes: what lay between both ends is gone, and the front issues anew what isn't answered. */
static void suspend(void) {
    struct pollfd until = {outside.resumed, POLLIN, 0};
    wake(outside.suspend);
    if (poll(&until, 1, 20000) == 0) die("the domain doesn't resume");
    woken(outside.resumed), woken(outside.event[FRONT]), woken(outside.watch[FRONT]);
    if (vbd_front_suspend(&front) != VBD_DONE) die("the front can't be suspended");
    ready = false;
    suspends++;
}

static void wait(void) {
    static const char path[] = BACK_KEYS "/state";
    struct pollfd until[] = {{outside.event[FRONT], POLLIN, 0}, {outside.watch[FRONT], POLLIN, 0}};
    if (poll(until, 2, options.hostile ? 1000 : 20000) == 0) odd("an event is lost"), gave_up = true;
    else if (woken(outside.watch[FRONT])) take(vbd_front_watched(&front, (const uint8_t *)path, sizeof path - 1), VBD_WAIT);
    else if (woken(outside.event[FRONT])) answer(VBD_EVENT, 0, VBD_WAIT);
}

/* Moves it until it is closed, as it is asked to be once all is answered. */
static void serve(void) {
    bool asked = false;
    while (!closed && !gave_up) {
        if (suspends < options.suspends && answered > suspends * options.requests / options.suspends && any(256) == 0) suspend();
        if (answered == options.requests && !asked) asked = true, take(vbd_front_close(&front), VBD_WAIT);
        if (any(64) == 0 || taken == answered) submit();
        if (move()) continue;
        submit();
        if (!move()) wait();
    }
}

int run_front(void) {
    struct timespec began, ended;
    struct vbd_front_options made = {.order = options.order, .start = options.start, .x86_32 = options.x86_32, .persistent = options.persistent != 0};
    seed_of_thread(FRONT);
    map_memory();
    make_image();
    if (vbd_front_new(&front, &made) != VBD_DONE) die("the front can't be made");
    clock_gettime(CLOCK_MONOTONIC, &began);
    serve();
    clock_gettime(CLOCK_MONOTONIC, &ended);
    if (!closed) set_key(FRONT_KEYS "/state", "6"); /* as a toolstack does for a domain that is gone */
    wake(outside.stopped);
    if (!options.hostile) compare_image();
    double seconds = (double)(ended.tv_sec - began.tv_sec) + (double)(ended.tv_nsec - began.tv_nsec) / 1e9;
    printf("front: %" PRIu64 " requests, %" PRIu64 " answered, %" PRIu64 " sectors, %" PRIu64 " words compared, %" PRIu64 " suspends, "
           "%" PRIu64 " moves, %" PRIu64 " waited for room, in %.2f seconds; ", taken, answered, sectors, words_seen, suspends, moves, refusals, seconds);
    if (options.hostile) printf("%" PRIu64 " answers or words were odd\n", odd_answers);
    else printf("the image is as it should be\n");
    vbd_front_free(&front);
    return 0;
}
