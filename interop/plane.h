/* What `plane.c` has besides QEMU's data plane. */
#ifndef PLANE_H
#define PLANE_H

#include <stdint.h>

#include "hw/block/dataplane/xen-block.h"

/* The back goes on as if the ring had come to this index: its next request and its next response are the index-th. */
void take_up_ring(XenBlockDataPlane *plane, uint32_t index);

#endif
