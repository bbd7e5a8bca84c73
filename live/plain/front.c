/* A plain front: it connects as blkfront does, over a ring of one page, and has direct requests served whose data it knows.
 * Nothing is proved of it. Linked in place of ../front.c it gives the proved back another's guest. */
#define _GNU_SOURCE
#include "live.h"
#include <poll.h>
#include <time.h>

/* A ring of one page of the 64-bit layout (io/ring.h, io/blkif.h): 32 slots of 28 words behind 16 words of indices. */
enum { SLOTS = 32, SLOT_WORDS = 28, REQ_PROD = 0, REQ_EVENT, RSP_PROD, RSP_EVENT };
enum { READ, WRITE, BARRIER, FLUSH, DISCARD = 5 };
enum { RING_FRAME = 2, DATA_FRAME = 3, RING_GREF = 8, DATA_GREF = 16, MOST_PAGES = 11, PAGE_SECTORS = 8, PORT = 1 };

/* Each request has a part of the disk, frames and grants of its own: what is on the disk is then known. */
static struct { bool busy; uint32_t op, count, tag; uint64_t sector; } requests[SLOTS];
static uint32_t produced, consumed;
static uint64_t submitted, answered, sectors, words_seen, odd_answers;
static bool gave_up;
static struct { bool barrier, flush_cache, discard; } features; /* which the back's keys offer */

/* What an honest back never does. Beside a hostile hand the front gives up where the ring is wrong, and goes on where data are. */
static void wrong(const char *what) {
    if (!options.hostile) die("the front: %s", what);
    if (!gave_up) printf("front: gives up: %s\n", what);
    gave_up = true;
}
static void odd(const char *what) {
    if (!options.hostile) die("the front: %s", what);
    odd_answers++;
}

static uint32_t frame_of(uint32_t slot, uint32_t page) { return DATA_FRAME + slot * MOST_PAGES + page; }
static uint32_t gref_of(uint32_t slot, uint32_t page) { return DATA_GREF + slot * MOST_PAGES + page; }
static uint32_t pages_of(uint32_t slot) { return (requests[slot].count + PAGE_SECTORS - 1) / PAGE_SECTORS; }
static bool has_data(uint32_t op) { return op <= BARRIER; }

static void set_state(int state) {
    char text[8];
    snprintf(text, sizeof text, "%d", state);
    set_key(FRONT_KEYS "/state", text);
}

/* Waits until the back's state is one of these. */
static void wait_for_state(int state, int other) {
    for (;;) {
        int seen = (int)get_number(BACK_KEYS, "state", 0);
        struct pollfd until = {outside.watch[FRONT], POLLIN, 0};
        if (seen == state || seen == other || gave_up) return;
        if (poll(&until, 1, options.hostile ? 1000 : 20000) == 0) wrong("the back's state doesn't come");
        woken(outside.watch[FRONT]);
    }
}

static void connect_to_back(void) {
    char text[16];
    wait_for_state(INIT_WAIT, INIT_WAIT);
    for (uint32_t index = REQ_PROD; index <= RSP_EVENT; index++) /* SHARED_RING_INIT: each event is one ahead */
        store_word(RING_FRAME, index, options.start + index % 2);
    produced = consumed = options.start;
    grant(RING_GREF, RING_FRAME, false);
    snprintf(text, sizeof text, "%d", RING_GREF);
    set_key(FRONT_KEYS "/ring-ref", text);
    snprintf(text, sizeof text, "%d", PORT);
    set_key(FRONT_KEYS "/event-channel", text);
    set_key(FRONT_KEYS "/protocol", "x86_64-abi");
    set_state(INITIALISED);
    wait_for_state(CONNECTED, CLOSED);
    if (get_number(BACK_KEYS, "sectors", 0) != disk_sectors()) wrong("the disk has another size"); /* or the back couldn't connect */
    features.barrier = get_number(BACK_KEYS, "feature-barrier", 0) == 1;
    features.flush_cache = get_number(BACK_KEYS, "feature-flush-cache", 0) == 1;
    features.discard = get_number(BACK_KEYS, "feature-discard", 0) == 1;
    set_state(CONNECTED);
}

/* The words of the data of a request: filled before a write, compared after a read. */
static void fill(uint32_t slot) {
    for (uint32_t i = 0; i < requests[slot].count; i++)
        for (uint32_t word = 0; word < SECTOR_WORDS; word++)
            store_word(frame_of(slot, i / PAGE_SECTORS), i % PAGE_SECTORS * SECTOR_WORDS + word,
                       word_of(requests[slot].tag, requests[slot].sector + i, word));
}
static void compare(uint32_t slot) {
    for (uint32_t i = 0; i < requests[slot].count; i++)
        for (uint32_t word = 0; word < SECTOR_WORDS; word++, words_seen++) {
            uint64_t sector = requests[slot].sector + i;
            uint32_t seen = load_word(frame_of(slot, i / PAGE_SECTORS), i % PAGE_SECTORS * SECTOR_WORDS + word);
            if (seen != word_on_disk(sector, word)) return odd("a word that was read is wrong");
        }
}

static void put_request(uint32_t slot) {
    uint32_t base = 16 + produced % SLOTS * SLOT_WORDS, op = requests[slot].op, pages = has_data(op) ? pages_of(slot) : 0;
    if (op == WRITE || op == BARRIER) fill(slot);
    store_word(RING_FRAME, base, op | pages << 8);
    store_word(RING_FRAME, base + 2, slot);
    store_word(RING_FRAME, base + 3, 0);
    store_word(RING_FRAME, base + 4, (uint32_t)requests[slot].sector);
    store_word(RING_FRAME, base + 5, (uint32_t)(requests[slot].sector >> 32));
    for (uint32_t page = 0; page < pages; page++) {
        uint32_t left = requests[slot].count - page * PAGE_SECTORS, last = (left < PAGE_SECTORS ? left : PAGE_SECTORS) - 1;
        grant(gref_of(slot, page), frame_of(slot, page), op != READ);
        store_word(RING_FRAME, base + 6 + 2 * page, gref_of(slot, page));
        store_word(RING_FRAME, base + 7 + 2 * page, last << 8);
    }
    if (op == DISCARD) {
        store_word(RING_FRAME, base + 6, requests[slot].count);
        store_word(RING_FRAME, base + 7, 0);
    }
    produced++;
}

/* RING_PUSH_REQUESTS_AND_CHECK_NOTIFY. */
static void push(uint32_t before) {
    if (produced == before) return;
    full_fence();
    store_word(RING_FRAME, REQ_PROD, produced);
    full_fence();
    if (produced - load_word(RING_FRAME, REQ_EVENT) < produced - before) wake(outside.event[BACK]);
}

static uint32_t any_operation(void) {
    uint64_t kind = any_asked(100);
    if (kind < 45 || options.read_only) return READ;
    if (options.data_only) return WRITE;
    if (kind < 48 && features.barrier) return BARRIER;
    if (kind < 50 && features.flush_cache) return FLUSH;
    return kind < 53 && features.discard ? DISCARD : WRITE;
}

/* Has requests served while some are left and free. */
static void submit(void) {
    uint32_t before = produced;
    for (uint32_t slot = 0; slot < options.depth && submitted < options.requests; slot++) {
        if (requests[slot].busy || (submitted > answered && any(4) == 0)) continue; /* never asleep with none in flight */
        uint64_t most = options.sectors_each;
        requests[slot].busy = true;
        requests[slot].op = any_operation();
        requests[slot].count = 1 + (uint32_t)any_asked(most);
        requests[slot].sector = slot * most + any_asked(most - requests[slot].count + 1);
        requests[slot].tag = 1 + (uint32_t)any_asked(UINT32_MAX);
        if (requests[slot].op == FLUSH) requests[slot].sector = requests[slot].count = 0;
        put_request(slot);
        submitted++;
    }
    push(before);
}

static void finish(uint32_t slot) {
    for (uint32_t page = 0; has_data(requests[slot].op) && page < pages_of(slot); page++)
        if (!end_grant(gref_of(slot, page))) odd("a frame is still mapped after its answer");
    if (requests[slot].op == READ) compare(slot);
    for (uint32_t i = 0; i < requests[slot].count && requests[slot].op != READ; i++)
        wrote_sector(requests[slot].sector + i, requests[slot].op == DISCARD ? 0 : requests[slot].tag);
    sectors += has_data(requests[slot].op) ? requests[slot].count : 0;
    requests[slot].busy = false;
    answered++;
}

/* Takes the responses; RING_FINAL_CHECK_FOR_RESPONSES. False once none is left. */
static bool take_responses(void) {
    uint32_t pushed = load_word(RING_FRAME, RSP_PROD);
    if (pushed - consumed > produced - consumed) return wrong("more responses than requests"), false;
    full_fence();
    for (; consumed != pushed && !gave_up; consumed++) {
        uint32_t base = 16 + consumed % SLOTS * SLOT_WORDS, slot = load_word(RING_FRAME, base);
        uint32_t high = load_word(RING_FRAME, base + 1), last = load_word(RING_FRAME, base + 2);
        if (high || slot >= options.depth || !requests[slot].busy) return wrong("a response to no request"), false;
        if ((last & 255) != requests[slot].op || last >> 16) odd("a request failed");
        finish(slot);
    }
    store_word(RING_FRAME, RSP_EVENT, consumed + 1);
    full_fence();
    return load_word(RING_FRAME, RSP_PROD) != consumed;
}

int run_front(void) {
    struct timespec began, ended;
    if (options.depth > SLOTS || options.order || options.indirect || options.x86_32 || options.suspends)
        die("the plain front has the smallest ring alone, and no suspends");
    seed_of_thread(FRONT);
    map_memory();
    make_image();
    connect_to_back();
    clock_gettime(CLOCK_MONOTONIC, &began);
    while (!gave_up && answered < options.requests) {
        if (take_responses()) continue;
        submit();
        struct pollfd until = {outside.event[FRONT], POLLIN, 0};
        if (answered == options.requests || gave_up) break;
        if (poll(&until, 1, options.hostile ? 1000 : 20000) == 0) wrong("an event is lost");
        woken(outside.event[FRONT]);
    }
    clock_gettime(CLOCK_MONOTONIC, &ended);
    set_state(CLOSING);
    wait_for_state(CLOSED, CLOSED);
    if (!end_grant(RING_GREF)) wrong("the ring is still mapped");
    set_state(CLOSED);
    wake(outside.stopped);
    if (!options.hostile) compare_image();
    double seconds = (double)(ended.tv_sec - began.tv_sec) + (double)(ended.tv_nsec - began.tv_nsec) / 1e9;
    printf("front: %" PRIu64 " requests, %" PRIu64 " answered, %" PRIu64 " sectors, %" PRIu64 " words compared, 0 suspends, "
           "in %.2f seconds", submitted, answered, sectors, words_seen, seconds);
    if (options.hostile) printf("; %" PRIu64 " answers, words or grants were odd\n", odd_answers);
    else printf("; the image is as it should be\n");
    return 0;
}
