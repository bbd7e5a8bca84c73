/*
 * QEMU's data plane, unchanged, and one call more: its back takes up a ring where it stands (BACK_RING_ATTACH of `io/ring.h`). QEMU begins
 * each ring at index 0 (BACK_RING_INIT), whatever the ring says.
 */
#include "hw/block/dataplane/xen-block.c"
#include "plane.h"

void take_up_ring(XenBlockDataPlane *plane, uint32_t index)
{
    plane->rings.common.rsp_prod_pvt = index;
    plane->rings.common.req_cons = index;
}
