/* The disk of QEMU's shim by calls of the kernel, one for each request, as the host of live/ has its image: linked with
 * -Wl,--wrap=blk_aio_preadv,--wrap=blk_aio_pwritev. */
#define _GNU_SOURCE
#include "live.h"
#include "guest.h"
#include <unistd.h>

static bool is_within(const BlockBackend *disk, int64_t at, size_t bytes) {
    return at >= 0 && at <= disk->length && bytes <= (size_t)(disk->length - at);
}
void __wrap_blk_aio_preadv(BlockBackend *disk, int64_t at, QEMUIOVector *vector, int flags, BlockCompletionFunc *then, void *opaque) {
    bool well = is_within(disk, at, vector->size) && pread(outside.image, vector->base, vector->size, at) == (ssize_t)vector->size;
    (void)flags;
    then(opaque, well ? 0 : -EIO);
}
void __wrap_blk_aio_pwritev(BlockBackend *disk, int64_t at, QEMUIOVector *vector, int flags, BlockCompletionFunc *then, void *opaque) {
    bool well = is_within(disk, at, vector->size) && pwrite(outside.image, vector->base, vector->size, at) == (ssize_t)vector->size;
    (void)flags;
    then(opaque, well ? 0 : -EIO);
}
