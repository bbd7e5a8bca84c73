/*
 * QEMU's own back at the same time as a front: the back that live/host.c runs (live.h) in a process of its own, in the place of live/back.c.
 * QEMU's data plane and its shim (guest.h) serve the ring on the memory of live; the few keys that a front needs are written here, since QEMU's
 * negotiation (hw/block/xen-block.c) isn't among what is taken.
 */
#define _GNU_SOURCE
#include "live.h"
#include "guest.h"
#include "hw/block/xen_blkif.h"
#include "plane.h"
#include <poll.h>

#define SECONDS 20

static uint64_t events;
static bool keys_changed = true; /* since the front's state was last read */

void event_sent(void)
{
    delay();
    events++;
    wake(outside.event[FRONT]);
}

static void set_number(const char *name, uint64_t value)
{
    char path[64], text[24];
    snprintf(path, sizeof(path), BACK_KEYS "/%s", name);
    snprintf(text, sizeof(text), "%" PRIu64, value);
    set_key(path, text);
}

/* Waits for an event or a watch; false once the front has left. */
static bool wait(void)
{
    struct pollfd until[] = { { outside.stopped, POLLIN, 0 }, { outside.event[BACK], POLLIN, 0 }, { outside.watch[BACK], POLLIN, 0 } };
    if (poll(until, 3, 1000 * SECONDS) == 0) {
        die("QEMU's back waited for %d seconds: an event is lost", SECONDS);
    }
    keys_changed |= woken(outside.watch[BACK]);
    return !(until[0].revents & POLLIN);
}

static uint64_t front_state(void)
{
    keys_changed = false;
    return get_number(FRONT_KEYS, "state", INITIALISING);
}

static void *shared(int file, size_t length)
{
    void *at = mmap(NULL, length, PROT_READ | PROT_WRITE, MAP_SHARED, file, 0);
    if (at == MAP_FAILED) {
        die("the memory or the image can't be mapped");
    }
    return at;
}

/* Takes up the ring of the front's keys, which has one page and the layout of x86_64, and publishes the disk. */
static XenBlockDataPlane *connected(BlockBackend *disk)
{
    static XenDevice device;
    Error *error = NULL;
    unsigned int reference = get_number(FRONT_KEYS, "ring-ref", 0), port = get_number(FRONT_KEYS, "event-channel", 0);
    XenBlockDataPlane *plane = xen_block_dataplane_create(&device, disk, SECTOR_BYTES, NULL);
    xen_block_dataplane_start(plane, &reference, 1, port, BLKIF_PROTOCOL_X86_64, &error);
    if (error) {
        die("%s", error->text);
    }
    take_up_ring(plane, options.start);
    set_number("sectors", disk_sectors());
    set_number("sector-size", SECTOR_BYTES);
    set_number("info", options.read_only ? 4 : 0); /* VDISK_READONLY */
    set_number("state", CONNECTED);
    return plane;
}

static void serve(XenBlockDataPlane *plane)
{
    while ((!keys_changed || front_state() < CLOSING) && wait()) {
        if (woken(outside.event[BACK])) {
            serve_event();
        }
    }
    xen_block_dataplane_stop(plane);
    xen_block_dataplane_destroy(plane);
}

int run_back(void)
{
    BlockBackend disk = { shared(outside.image, disk_sectors() * SECTOR_BYTES), disk_sectors() * SECTOR_BYTES, !options.read_only };
    if (options.suspends || options.hostile) {
        die("QEMU's back has no --suspends and no --hostile");
    }
    seed_of_thread(BACK);
    guest = shared(outside.memory, 4 * FRAMES * FRAME_WORDS);
    set_number("feature-flush-cache", !options.read_only);
    set_number("feature-discard", !options.read_only);
    set_number("state", INIT_WAIT);
    while (front_state() != INITIALISED && front_state() != CONNECTED) {
        wait();
    }
    serve(connected(&disk));
    set_number("state", CLOSING);
    set_number("state", CLOSED);
    while (wait()) {
    }
    printf("back: %" PRIu64 " events sent\n", events);
    return 0;
}
