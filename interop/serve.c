/*
 * QEMU's own back of a Xen disk serves a ring in a guest's memory.
 *
 *     serve [--read-only] MEMORY IMAGE 64|32 START REFERENCE...
 *
 * MEMORY is a file of 1024 frames of 4096 bytes, the guest's memory, with its grant table in frames 0 and 1; IMAGE is the disk, whole
 * sectors of 512 bytes. Both are mapped, so each is read and written in place, also by whoever else has it mapped. 64 or 32 is the
 * layout of the entries, START the ring's first index, and the references are those of the ring's pages, which must lie one after another.
 * With --read-only the disk may not be written.
 *
 * Each line `event` on standard input is an event at the back's port. What comes of it is written to standard output, and then `done`:
 *
 *     response INDEX ID OPERATION STATUS    a response stands in the ring, that of this index
 *     notify                                an event was sent to the front
 *     said TEXT                             QEMU reports an error
 *
 * At the end of the input the back lets go of the ring, and `closed` is written.
 */
#include <fcntl.h>
#include <inttypes.h>
#include <sys/stat.h>
#include <unistd.h>

#include "guest.h"
#include "hw/block/xen_blkif.h"
#include "plane.h"

#define MOST_PAGES 16
#define RSP_PROD 2
#define FIRST_ENTRY 64
#define SECTOR_BYTES 512

static const unsigned char *ring;
static size_t entry_bytes;
static uint32_t entries, printed;

/* Prints each response that was published since the last call. */
static void print_responses(void)
{
    uint32_t produced;
    memcpy(&produced, ring + 4 * RSP_PROD, 4);
    for (; printed != produced; printed++) {
        const unsigned char *entry = ring + FIRST_ENTRY + entry_bytes * (printed % entries);
        uint64_t id;
        int16_t status;
        memcpy(&id, entry, 8);
        memcpy(&status, entry + 10, 2);
        printf("response %" PRIu32 " %" PRIu64 " %d %d\n", printed, id, entry[8], status);
    }
}

void event_sent(void)
{
    print_responses();
    printf("notify\n");
}

/* A whole file, mapped; its length in `length`. */
static void *mapped_file(const char *name, off_t *length)
{
    struct stat about;
    void *bytes;
    int file = open(name, O_RDWR);
    if (file < 0 || fstat(file, &about) || about.st_size == 0) {
        qemu_dies("the memory or the image can't be opened, or is empty");
    }
    bytes = mmap(NULL, about.st_size, PROT_READ | PROT_WRITE, MAP_SHARED, file, 0);
    if (bytes == MAP_FAILED) {
        qemu_dies("the memory or the image can't be mapped");
    }
    close(file);
    *length = about.st_size;
    return bytes;
}

/* Connects QEMU's back to the ring of these references, which stands at `printed`. */
static XenBlockDataPlane *connected(XenDevice *device, BlockBackend *disk, const unsigned int references[], unsigned int pages, bool is_64)
{
    Error *error = NULL;
    XenBlockDataPlane *plane = xen_block_dataplane_create(device, disk, SECTOR_BYTES, NULL);
    xen_block_dataplane_start(plane, references, pages, 1, is_64 ? BLKIF_PROTOCOL_X86_64 : BLKIF_PROTOCOL_X86_32, &error);
    if (error) {
        qemu_dies(error->text);
    }
    take_up_ring(plane, printed);
    ring = (unsigned char *)(guest + guest[2 * references[0] + 1] * FRAME_WORDS);
    entry_bytes = is_64 ? sizeof(blkif_x86_64_request_t) : sizeof(blkif_x86_32_request_t);
    entries = is_64 ? __CONST_RING_SIZE(blkif_x86_64, pages * XC_PAGE_SIZE) : __CONST_RING_SIZE(blkif_x86_32, pages * XC_PAGE_SIZE);
    return plane;
}

static void serve_events(void)
{
    char line[32];
    while (fgets(line, sizeof(line), stdin)) {
        if (strcmp(line, "event\n")) {
            qemu_dies("a line other than `event`");
        }
        serve_event();
        print_responses();
        printf("done\n");
        fflush(stdout);
    }
}

int main(int count, char **words)
{
    static XenDevice device;
    BlockBackend disk;
    XenBlockDataPlane *plane;
    unsigned int references[MOST_PAGES];
    off_t length;
    bool writable = count < 2 || strcmp(words[1], "--read-only");
    int pages;
    if (!writable) {
        words++;
        count--;
    }
    pages = count - 5;
    if (pages < 1 || pages > MOST_PAGES || (strcmp(words[3], "64") && strcmp(words[3], "32"))) {
        qemu_dies("usage: serve [--read-only] MEMORY IMAGE 64|32 START REFERENCE...");
    }
    guest = mapped_file(words[1], &length);
    if (length != (off_t)FRAMES * FRAME_WORDS * 4) {
        qemu_dies("the memory has another length than 1024 frames");
    }
    disk.bytes = mapped_file(words[2], &length);
    disk.length = length - length % SECTOR_BYTES;
    disk.writable = writable;
    printed = strtoul(words[4], NULL, 10);
    for (int i = 0; i < pages; i++) {
        references[i] = strtoul(words[5 + i], NULL, 10);
    }
    plane = connected(&device, &disk, references, pages, !strcmp(words[3], "64"));
    serve_events();
    xen_block_dataplane_stop(plane);
    xen_block_dataplane_destroy(plane);
    printf("closed\n");
    return 0;
}
