/*
 * What QEMU's data plane of a Xen disk takes from the rest of QEMU and from Xen's libraries, as little as it needs.
 *
 * `build` puts this in the place of each header that isn't taken as it is. What is declared here and in QEMU's `xen-bus.h` stands in
 * `shim.c`: one guest, whose memory is a file, one disk, which is a file too, and calls of the block layer that are done at once.
 */
#ifndef SHIM_H
#define SHIM_H

#include <errno.h>
#include <stdbool.h>
#include <stddef.h>
#include <stdint.h>
#include <stdio.h>
#include <stdlib.h>
#include <string.h>
#include <sys/mman.h>
#include <sys/types.h>

#include "hw/xen/interface/io/xenbus.h"

/* The compiler, Xen's libraries. */

#define XC_PAGE_SIZE 4096
#define GNTST_okay 0
#define GNTST_general_error (-1)
#define GNTST_bad_gntref (-3)
#define GNTST_bad_copy_arg (-10)

#define sizeof_field(type, field) sizeof(((type *)0)->field)
#define barrier() __asm__ __volatile__("" ::: "memory")
#define xen_mb() __sync_synchronize()
#define xen_rmb() __sync_synchronize()
#define xen_wmb() __sync_synchronize()

typedef uint16_t domid_t;
typedef struct xengnttab_handle xengnttab_handle;
struct xs_handle;

/* Memory. */

#define G_GNUC_PRINTF(format, first) __attribute__((__format__(__printf__, format, first)))
#define g_new0(type, count) ((type *)zeroed(sizeof(type) * (count)))
#define g_new(type, count) g_new0(type, count)
#define g_malloc0(size) zeroed(size)
#define g_free(pointer) free(pointer)
#define qemu_memalign(alignment, size) aligned(alignment, size)
#define qemu_vfree(pointer) free(pointer)

void *zeroed(size_t size);
void *aligned(size_t alignment, size_t size);

/* Objects: a device is one of Xen's, and nothing else is asked of it. */

#define OBJECT(object) ((void *)(object))
#define DEVICE(device) (&(device)->qdev)
#define OBJECT_DECLARE_TYPE(instance, class, name) \
    typedef struct instance instance;              \
    typedef struct class class;
#define object_ref(object) ((void)(object))
#define object_unref(object) ((void)(object))

typedef struct MemReentrancyGuard { bool engaged; } MemReentrancyGuard;
typedef struct DeviceState { MemReentrancyGuard mem_reentrancy_guard; } DeviceState;
typedef struct DeviceClass { int unused; } DeviceClass;
typedef struct BusState { int unused; } BusState;
typedef struct BusClass { int unused; } BusClass;

/* Errors: each is printed as a line `said TEXT`. */

typedef struct Error { char text[200]; } Error;

#define ERRP_GUARD()            \
    Error *unheard = NULL;      \
    errp = errp ? errp : &unheard

extern Error *error_abort;

void error_setg(Error **place, const char *format, ...) G_GNUC_PRINTF(2, 3);
void error_report(const char *format, ...) G_GNUC_PRINTF(1, 2);
void error_report_err(Error *error);
void error_reportf_err(Error *error, const char *format, ...) G_GNUC_PRINTF(2, 3);

/* Work for later: at most one bottom half, which `serve_event` carries out. */

typedef struct AioContext { int unused; } AioContext;
typedef struct IOThread { AioContext context; } IOThread;
typedef struct QEMUBH QEMUBH;

#define aio_context_acquire(context) ((void)(context))
#define aio_context_release(context) ((void)(context))
#define iothread_get_aio_context(thread) (&(thread)->context)

AioContext *qemu_get_aio_context(void);
QEMUBH *aio_bh_new_guarded(AioContext *context, void (*work)(void *), void *opaque, MemReentrancyGuard *guard);
void qemu_bh_schedule(QEMUBH *half);
void qemu_bh_cancel(QEMUBH *half);
void qemu_bh_delete(QEMUBH *half);

/* Where data are: the data plane adds one piece before each call of the disk. */

typedef struct QEMUIOVector {
    void *base;
    size_t size;
} QEMUIOVector;

void qemu_iovec_init(QEMUIOVector *vector, int hint);
void qemu_iovec_add(QEMUIOVector *vector, void *base, size_t size);
void qemu_iovec_reset(QEMUIOVector *vector);
void qemu_iovec_destroy(QEMUIOVector *vector);

/* The disk. */

#define BDRV_REQUEST_MAX_BYTES (1 << 30)

typedef struct BlockBackend BlockBackend;
typedef void BlockCompletionFunc(void *opaque, int outcome);

bool blk_is_writable(BlockBackend *disk);
int64_t blk_getlength(BlockBackend *disk);
void blk_aio_flush(BlockBackend *disk, BlockCompletionFunc *then, void *opaque);
void blk_aio_preadv(BlockBackend *disk, int64_t at, QEMUIOVector *vector, int flags, BlockCompletionFunc *then, void *opaque);
void blk_aio_pwritev(BlockBackend *disk, int64_t at, QEMUIOVector *vector, int flags, BlockCompletionFunc *then, void *opaque);
void blk_aio_pdiscard(BlockBackend *disk, int64_t at, int64_t size, BlockCompletionFunc *then, void *opaque);

#define blk_get_aio_context(disk) ((void)(disk), qemu_get_aio_context())
#define blk_set_aio_context(disk, context, error) ((void)(disk), (void)(context))
#define blk_io_plug(disk) ((void)(disk))
#define blk_io_unplug(disk) ((void)(disk))

/* The counters of the disk's work, which nobody reads here. */

typedef struct BlockAcctCookie { int unused; } BlockAcctCookie;

#define BLOCK_ACCT_READ 0
#define BLOCK_ACCT_WRITE 1
#define BLOCK_ACCT_FLUSH 2
#define blk_get_stats(disk) (disk)
#define block_acct_start(counters, cookie, size, kind) ((void)(counters), (void)(cookie), (void)(size), (void)(kind))
#define block_acct_done(counters, cookie) ((void)(counters), (void)(cookie))
#define block_acct_failed(counters, cookie) ((void)(counters), (void)(cookie))
#define block_acct_invalid(counters, kind) ((void)(counters), (void)(kind))

#endif
