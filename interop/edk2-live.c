/*
 * EDK2's own front at the same time as a back: the front that live/host.c runs (live.h) in a process of its own, in the place of live/front.c.
 * The machine that EDK2 wants around it (edk2.h) is the memory, the keys and the events of live.
 *
 * A random guest reads, writes and flushes: it keeps requests in flight, more at times than the ring has room for, on sectors apart; it moves
 * long pieces through the block device meanwhile; and at last it shuts the front down. What a request's frames hold is known, word by word, and
 * so is the image.
 */
#define _GNU_SOURCE
#include "live.h"
#include "edk2.h"
#include <signal.h>
#include <string.h>
#include <poll.h>
#include <sys/mman.h>
#include <unistd.h>

#define PAGE_SECTORS 8
/* Each request has frames of its own, and behind all of them are those of a piece that is moved through the block device. */
#define REQUEST_FRAMES (EDK2_MOST_SECTORS / PAGE_SECTORS)
#define PIECE EDK2_MOST_ISSUED
#define PIECE_SECTORS 200
#define UNTOUCHED 0xDEADBEEF
#define RESERVED_GREFS 8
#define SECONDS 20

/* A request in flight, or a piece: so many sectors, from sector `offset` of its first frame on. */
struct transfer {
    bool is_busy, is_write;
    uint64_t sector;
    unsigned count, offset;
    uint32_t tag;
};

static uint32_t *guest;
static struct transfer transfers[EDK2_MOST_ISSUED + 1];
static unsigned in_flight, wanted;
static uint64_t submitted, answered, pieces, sectors, words_seen, flushes, refused_barriers;
static bool missed_closing;

/* The machine. */

void machine_fence(void)
{
    full_fence();
}

void machine_event(void)
{
    delay();
    wake(outside.event[BACK]);
}

void machine_wait(void)
{
    struct pollfd until = { outside.watch[FRONT], POLLIN, 0 };
    if (poll(&until, 1, 1000 * SECONDS) == 0) {
        die("EDK2's front waits for a key that doesn't come");
    }
    woken(outside.watch[FRONT]);
}

bool machine_key(const char *name, char text[EDK2_KEY_ROOM])
{
    char path[2 * EDK2_KEY_ROOM];
    snprintf(path, sizeof path, BACK_KEYS "/%s", name);
    return get_key(path, text);
}

void machine_set_key(const char *name, const char *text)
{
    char path[2 * EDK2_KEY_ROOM];
    snprintf(path, sizeof path, FRONT_KEYS "/%s", name);
    set_key(path, text);
}

/* A back that is asked to close writes Closing and Closed, and where EDK2 sees the second alone it takes that as an error. */
void machine_told(const char *format)
{
    if (strstr(format, "write barrier error")) {
        refused_barriers++;
    } else if (strstr(format, "waiting for closing backend state")) {
        missed_closing = true;
    } else {
        die("EDK2 tells: %s", format);
    }
}

static void late(int signal)
{
    static const char what[] = "host: EDK2's front got no answer for 20 seconds\n";
    (void)signal;
    _exit(write(2, what, sizeof what - 1) < 0 ? 2 : 1);
}

/* The words of a transfer. */

static uint32_t *frames_of(unsigned place)
{
    return guest + (EDK2_FIRST_DATA + place * REQUEST_FRAMES) * EDK2_WORDS;
}

static unsigned frame_sectors(const struct transfer *it)
{
    return (it->offset + it->count + PAGE_SECTORS - 1) / PAGE_SECTORS * PAGE_SECTORS;
}

/* What stands in a sector of its frames: the data of a write, and those of a read once it is answered; nothing was written around them. */
static uint32_t word_in(const struct transfer *it, bool is_answered, unsigned sector, uint32_t word)
{
    if (sector < it->offset || sector >= it->offset + it->count || (!it->is_write && !is_answered)) {
        return UNTOUCHED;
    }
    uint64_t at = it->sector + sector - it->offset;
    return it->is_write ? word_of(it->tag, at, word) : word_on_disk(at, word);
}

static void fill(unsigned place)
{
    uint32_t *at = frames_of(place);
    for (unsigned sector = 0; sector < frame_sectors(transfers + place); sector++) {
        for (uint32_t word = 0; word < SECTOR_WORDS; word++) {
            *at++ = word_in(transfers + place, false, sector, word);
        }
    }
}

static void compare(unsigned place)
{
    const uint32_t *at = frames_of(place);
    for (unsigned sector = 0; sector < frame_sectors(transfers + place); sector++) {
        for (uint32_t word = 0; word < SECTOR_WORDS; word++, words_seen++) {
            if (*at++ != word_in(transfers + place, true, sector, word)) {
                die("word %u of sector %u of the frames of request %u is wrong", word, sector, place);
            }
        }
    }
}

/* What the guest does. */

/* A transfer of up to so many sectors on the disk, none of which another in flight has; false where none was found. */
static bool begin(unsigned place, unsigned most)
{
    struct transfer it = { .is_busy = true, .offset = any(2) ? 0 : any(PAGE_SECTORS), .tag = 1 + (uint32_t)any(UINT32_MAX) };
    most = most - it.offset < disk_sectors() ? most - it.offset : disk_sectors();
    it.count = 1 + any(any(3) ? (most < PAGE_SECTORS ? most : PAGE_SECTORS) : most);
    it.sector = any(disk_sectors() - it.count + 1);
    it.is_write = !options.read_only && any(2);
    for (unsigned other = 0; other <= PIECE; other++) {
        const struct transfer *its = transfers + other;
        if (its->is_busy && it.sector < its->sector + its->count && its->sector < it.sector + it.count) {
            return false;
        }
    }
    transfers[place] = it;
    fill(place);
    return true;
}

static void finish(unsigned place, uint64_t status)
{
    struct transfer *it = transfers + place;
    if (status) {
        die("EDK2 got status %" PRIu64 " of request %u", status, place);
    }
    for (unsigned sector = 0; it->is_write && sector < it->count; sector++) {
        wrote_sector(it->sector + sector, it->tag);
    }
    compare(place);
    it->is_busy = false;
    sectors += it->count;
    answered++;
    alarm(SECONDS);
}

static void take_answers(void)
{
    uint64_t status;
    for (unsigned place = 0; place < PIECE; place++) {
        if (transfers[place].is_busy && edk2_is_answered(place, &status)) {
            finish(place, status);
            in_flight--;
            wanted = any(16) ? wanted : 1 + any(options.depth + options.depth / 4);
        }
    }
}

/* EDK2 waits for all answers. */
static void flush(void)
{
    edk2_flush();
    flushes++;
    take_answers();
    if (in_flight) {
        die("after a flush not all is answered");
    }
}

static void move_piece(void)
{
    struct transfer *it = transfers + PIECE;
    if (begin(PIECE, PIECE_SECTORS)) {
        submitted++, pieces++;
        finish(PIECE, edk2_transfer(it->is_write, it->sector, it->count, frames_of(PIECE) + it->offset * SECTOR_WORDS));
    }
}

static void issue(void)
{
    unsigned place = 0;
    while (transfers[place].is_busy) {
        place++;
    }
    struct transfer *it = transfers + place;
    if (begin(place, options.sectors_each < EDK2_MOST_SECTORS - PAGE_SECTORS ? options.sectors_each + PAGE_SECTORS : EDK2_MOST_SECTORS)) {
        submitted++, in_flight++;
        edk2_issue(place, it->is_write, it->sector, it->count, frames_of(place) + it->offset * SECTOR_WORDS);
    }
}

static void move(void)
{
    uint64_t kind = in_flight < wanted && submitted < options.requests ? any(100) : 100;
    if (kind < 2) {
        flush();
    } else if (kind < 6) {
        move_piece();
    } else if (kind < 90) {
        issue();
    } else {
        edk2_poll();
    }
    take_answers();
}

/* At the end. */

static void check_disk(void)
{
    if (edk2_sectors() != disk_sectors() || edk2_is_read_only() != options.read_only) {
        die("the disk isn't as the back's keys should say");
    }
    if (options.read_only && edk2_transfer(true, 0, 1, frames_of(PIECE)) == 0) {
        die("a disk for reading alone was written");
    }
}

/* Every response was taken, every barrier without data was refused, and no grant is left. */
static void check_end(void)
{
    uint64_t barriers = get_number(BACK_KEYS, "feature-barrier", 0) == 1 ? flushes : 0;
    if (load_word(EDK2_RING_FRAME, 0) != load_word(EDK2_RING_FRAME, 2)) {
        die("requests are left in the ring");
    }
    if (refused_barriers != (options.read_only ? 0 : barriers)) {
        die("%" PRIu64 " barriers were refused, and not %" PRIu64, refused_barriers, barriers);
    }
    for (uint32_t gref = RESERVED_GREFS; gref < GREFS; gref++) {
        if (load_word(gref / 512, 2 * (gref % 512)) & 0xFFFF) {
            die("grant %u is left", gref);
        }
    }
}

static uint32_t *guest_memory(void)
{
    void *at = mmap(NULL, 4 * EDK2_FRAMES * EDK2_WORDS, PROT_READ | PROT_WRITE, MAP_SHARED, outside.memory, 0);
    if (at == MAP_FAILED) {
        die("the memory can't be mapped");
    }
    return at;
}

int run_front(void)
{
    if (options.start || options.suspends || options.hostile) {
        die("EDK2's front has no --start, no --suspends and no --hostile");
    }
    seed_of_thread(FRONT);
    map_memory();
    make_image();
    guest = guest_memory();
    signal(SIGALRM, late);
    edk2_begin(guest);
    check_disk();
    wanted = 1 + any(options.depth);
    for (alarm(SECONDS); answered < options.requests;) {
        move();
    }
    edk2_shut_down();
    flushes++;
    alarm(0);
    check_end();
    compare_image();
    wake(outside.stopped);
    printf("front: %" PRIu64 " requests, %" PRIu64 " of them pieces, %u in the ring, %" PRIu64 " sectors, %" PRIu64 " flushes, %" PRIu64
           " barriers refused, %" PRIu64 " words compared; %s\n", answered, pieces, load_word(EDK2_RING_FRAME, 2), sectors, flushes,
           refused_barriers, words_seen, missed_closing ? "saw Closed alone" : "saw Closing");
    return 0;
}
