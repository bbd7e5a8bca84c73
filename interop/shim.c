/*
 * The guest's grants, its events and the disk, as QEMU's data plane calls them.
 *
 * A grant is decided by its entry as it stands, with the tests of version 1 of the grant table. While a page is mapped, its entry has
 * the bits that say so; the copy of a piece maps, copies and unmaps. Each call of the disk is done at once, before it returns.
 */
#include <stdarg.h>

#include "guest.h"
#include "hw/xen/xen-bus.h"

#define GRANT_FLAGS_TYPE 3u
#define GRANT_PERMIT_ACCESS 1u
#define GRANT_READONLY 4u
#define GRANT_READING 8u
#define GRANT_WRITING 16u
#define GRANT_UNKNOWN_FLAGS 0xffe0u
#define GRANTS 1024u
#define TABLE_FRAMES 2u

uint32_t *guest;
Error *error_abort;

struct XenEventChannel {
    XenEventHandler handler;
    void *opaque;
};

struct QEMUBH {
    void (*work)(void *);
    void *opaque;
    bool is_due;
};

static XenEventChannel channel;
static QEMUBH later;
static AioContext only_context;
static uint32_t readers[GRANTS], writers[GRANTS];

/* Memory. */

void qemu_dies(const char *what)
{
    fprintf(stderr, "qemu: %s\n", what);
    exit(1);
}

void *zeroed(size_t size)
{
    void *made = calloc(1, size);
    if (!made) {
        qemu_dies("out of memory");
    }
    return made;
}

void *aligned(size_t alignment, size_t size)
{
    void *made = NULL;
    if (posix_memalign(&made, alignment, size)) {
        qemu_dies("out of memory");
    }
    return made;
}

/* Errors. */

void error_setg(Error **place, const char *format, ...)
{
    va_list rest;
    Error *made = zeroed(sizeof(*made));
    va_start(rest, format);
    vsnprintf(made->text, sizeof(made->text), format, rest);
    va_end(rest);
    if (place == &error_abort) {
        qemu_dies(made->text);
    }
    *place = made;
}

void error_report(const char *format, ...)
{
    va_list rest;
    va_start(rest, format);
    printf("said ");
    vprintf(format, rest);
    printf("\n");
    va_end(rest);
}

void error_report_err(Error *error)
{
    error_report("%s", error->text);
    free(error);
}

void error_reportf_err(Error *error, const char *format, ...)
{
    char before[100];
    va_list rest;
    va_start(rest, format);
    vsnprintf(before, sizeof(before), format, rest);
    va_end(rest);
    error_report("%s%s", before, error->text);
    free(error);
}

/* Grants. */

static uint32_t *entry_of(uint32_t reference)
{
    return guest + 2 * reference;
}

/* Why a page can't be had by this reference, or that it can. */
static int verdict(uint32_t reference, bool to_write)
{
    uint32_t first, frame;
    if (reference >= GRANTS) {
        return GNTST_bad_gntref;
    }
    first = entry_of(reference)[0];
    frame = entry_of(reference)[1];
    if ((first & GRANT_FLAGS_TYPE) != GRANT_PERMIT_ACCESS || (first & GRANT_UNKNOWN_FLAGS) || first >> 16) {
        return GNTST_general_error;
    }
    if (to_write && (first & GRANT_READONLY)) {
        return GNTST_general_error;
    }
    return frame < TABLE_FRAMES || frame >= FRAMES ? GNTST_general_error : GNTST_okay;
}

/* A mapping of a page whose verdict is okay. */
static void *map(uint32_t reference, bool to_write)
{
    readers[reference]++;
    writers[reference] += to_write;
    __atomic_fetch_or(entry_of(reference), GRANT_READING | (to_write ? GRANT_WRITING : 0), __ATOMIC_SEQ_CST);
    return guest + entry_of(reference)[1] * FRAME_WORDS;
}

static void unmap(uint32_t reference, bool to_write)
{
    readers[reference]--;
    writers[reference] -= to_write;
    if (!writers[reference]) {
        __atomic_fetch_and(entry_of(reference), ~GRANT_WRITING, __ATOMIC_SEQ_CST);
    }
    if (!readers[reference]) {
        __atomic_fetch_and(entry_of(reference), ~GRANT_READING, __ATOMIC_SEQ_CST);
    }
}

void xen_device_set_max_grant_refs(XenDevice *device, unsigned int count, Error **error)
{
    (void)device, (void)count, (void)error;
}

/* The references of the pages that are mapped at once: those of the ring. */
static uint32_t mapped[16];

void *xen_device_map_grant_refs(XenDevice *device, uint32_t *references, unsigned int count, int protection, Error **error)
{
    unsigned int i;
    bool to_write = protection & PROT_WRITE;
    (void)device;
    for (i = 0; i < count; i++) {
        int status = verdict(references[i], to_write);
        if (status != GNTST_okay || i == 16 || entry_of(references[i])[1] != entry_of(references[0])[1] + i) {
            error_setg(error, "reference %u of the ring can't be mapped behind those before (%d)", references[i], status);
            return NULL;
        }
    }
    for (i = 0; i < count; i++) {
        mapped[i] = references[i];
        map(references[i], to_write);
    }
    return guest + entry_of(references[0])[1] * FRAME_WORDS;
}

void xen_device_unmap_grant_refs(XenDevice *device, void *address, unsigned int count, Error **error)
{
    (void)device, (void)address, (void)error;
    for (unsigned int i = 0; i < count; i++) {
        unmap(mapped[i], true);
    }
}

/* Copies one piece, and answers its status. */
static int copy(XenDeviceGrantCopySegment *piece, bool to_guest)
{
    uint32_t reference = to_guest ? piece->dest.foreign.ref : piece->source.foreign.ref;
    size_t offset = to_guest ? piece->dest.foreign.offset : piece->source.foreign.offset;
    int status = verdict(reference, to_guest);
    unsigned char *page;
    if (status != GNTST_okay) {
        return status;
    }
    if (offset + piece->len > XC_PAGE_SIZE) {
        return GNTST_bad_copy_arg;
    }
    page = map(reference, to_guest);
    if (to_guest) {
        memcpy(page + offset, piece->source.virt, piece->len);
    } else {
        memcpy(piece->dest.virt, page + offset, piece->len);
    }
    unmap(reference, to_guest);
    return GNTST_okay;
}

void xen_device_copy_grant_refs(XenDevice *device, bool to_guest, XenDeviceGrantCopySegment pieces[], unsigned int count, Error **error)
{
    int first_failed = -1;
    (void)device;
    for (unsigned int i = 0; i < count; i++) {
        if (copy(&pieces[i], to_guest) != GNTST_okay && first_failed < 0) {
            first_failed = i;
        }
    }
    if (first_failed >= 0) {
        error_setg(error, "the copy of piece %d failed", first_failed);
    }
}

/* Events, and work for later. */

XenEventChannel *xen_device_bind_event_channel(XenDevice *device, unsigned int port, XenEventHandler handler, void *opaque, Error **error)
{
    (void)device, (void)port, (void)error;
    channel = (XenEventChannel){handler, opaque};
    return &channel;
}

void xen_device_set_event_channel_context(XenDevice *device, XenEventChannel *end, AioContext *context, Error **error)
{
    (void)device, (void)end, (void)context, (void)error;
}

void xen_device_notify_event_channel(XenDevice *device, XenEventChannel *end, Error **error)
{
    (void)device, (void)end, (void)error;
    event_sent();
}

void xen_device_unbind_event_channel(XenDevice *device, XenEventChannel *end, Error **error)
{
    (void)device, (void)end, (void)error;
    channel = (XenEventChannel){NULL, NULL};
}

AioContext *qemu_get_aio_context(void)
{
    return &only_context;
}

QEMUBH *aio_bh_new_guarded(AioContext *context, void (*work)(void *), void *opaque, MemReentrancyGuard *guard)
{
    (void)context, (void)guard;
    later = (QEMUBH){work, opaque, false};
    return &later;
}

void qemu_bh_schedule(QEMUBH *half)
{
    half->is_due = true;
}

void qemu_bh_cancel(QEMUBH *half)
{
    half->is_due = false;
}

void qemu_bh_delete(QEMUBH *half)
{
    half->is_due = false;
}

void serve_event(void)
{
    channel.handler(channel.opaque);
    while (later.is_due) {
        later.is_due = false;
        later.work(later.opaque);
    }
}

/* Where data are. */

void qemu_iovec_init(QEMUIOVector *vector, int hint)
{
    (void)hint;
    qemu_iovec_reset(vector);
}

void qemu_iovec_add(QEMUIOVector *vector, void *base, size_t size)
{
    if (vector->size) {
        qemu_dies("a second piece of data");
    }
    *vector = (QEMUIOVector){base, size};
}

void qemu_iovec_reset(QEMUIOVector *vector)
{
    *vector = (QEMUIOVector){NULL, 0};
}

void qemu_iovec_destroy(QEMUIOVector *vector)
{
    qemu_iovec_reset(vector);
}

/* The disk. */

static bool is_within(BlockBackend *disk, int64_t at, int64_t size)
{
    return at >= 0 && size >= 0 && at <= disk->length && size <= disk->length - at;
}

bool blk_is_writable(BlockBackend *disk)
{
    return disk->writable;
}

int64_t blk_getlength(BlockBackend *disk)
{
    return disk->length;
}

void blk_aio_flush(BlockBackend *disk, BlockCompletionFunc *then, void *opaque)
{
    (void)disk;
    then(opaque, 0);
}

void blk_aio_preadv(BlockBackend *disk, int64_t at, QEMUIOVector *vector, int flags, BlockCompletionFunc *then, void *opaque)
{
    bool may = is_within(disk, at, vector->size);
    (void)flags;
    if (may) {
        memcpy(vector->base, disk->bytes + at, vector->size);
    }
    then(opaque, may ? 0 : -EIO);
}

void blk_aio_pwritev(BlockBackend *disk, int64_t at, QEMUIOVector *vector, int flags, BlockCompletionFunc *then, void *opaque)
{
    bool may = is_within(disk, at, vector->size);
    (void)flags;
    if (may) {
        memcpy(disk->bytes + at, vector->base, vector->size);
    }
    then(opaque, may ? 0 : -EIO);
}

void blk_aio_pdiscard(BlockBackend *disk, int64_t at, int64_t size, BlockCompletionFunc *then, void *opaque)
{
    int status = !is_within(disk, at, size) ? -EIO : !disk->writable ? -EPERM : 0;
    if (!status) {
        memset(disk->bytes + at, 0, size);
    }
    then(opaque, status);
}
