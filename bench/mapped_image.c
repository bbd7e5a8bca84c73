/* The image of live's host in the memory of each process, as QEMU's shim has it: linked with -Wl,--wrap=pread,--wrap=pwrite, the calls by which
 * the proved back moves a sector of it are copies. */
#define _GNU_SOURCE
#include "live.h"
#include <string.h>
#include <sys/mman.h>
#include <unistd.h>

ssize_t __real_pread(int file, void *to, size_t bytes, off_t at);
ssize_t __real_pwrite(int file, const void *from, size_t bytes, off_t at);

/* Where these bytes of the image lie; null where the image has no such bytes. */
static unsigned char *image_at(size_t bytes, off_t at) {
    static unsigned char *image;
    size_t length = disk_sectors() * SECTOR_BYTES;
    if (!image) {
        void *mapped = mmap(0, length, PROT_READ | PROT_WRITE, MAP_SHARED, outside.image, 0);
        if (mapped == MAP_FAILED) die("the image can't be mapped");
        image = mapped;
    }
    return at >= 0 && (size_t)at <= length && bytes <= length - (size_t)at ? image + at : 0;
}

ssize_t __wrap_pread(int file, void *to, size_t bytes, off_t at) {
    if (file != outside.image) return __real_pread(file, to, bytes, at);
    unsigned char *from = image_at(bytes, at);
    return from ? (memcpy(to, from, bytes), (ssize_t)bytes) : -1;
}
ssize_t __wrap_pwrite(int file, const void *from, size_t bytes, off_t at) {
    if (file != outside.image) return __real_pwrite(file, from, bytes, at);
    unsigned char *to = image_at(bytes, at);
    return to ? (memcpy(to, from, bytes), (ssize_t)bytes) : -1;
}
