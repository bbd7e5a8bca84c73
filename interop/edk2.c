/*
 * EDK2's own front of a Xen disk in a guest, over a machine that is given to it (edk2.h): its libraries, its bus, and what it is asked for.
 */
/* First, since EDK2's headers hide whatever is named after them. */
#include <stdarg.h>
#include <stdio.h>
#include <stdlib.h>
#include <string.h>
#include "edk2.h"
#undef NULL

#include "BlockFront.h"
#include "XenBusDxe.h"
#include "GrantTable.h"
#include <IndustryStandard/Xen/io/xenbus.h>
#include <IndustryStandard/Xen/memory.h>
#include <Library/SynchronizationLib.h>
#include <Library/XenHypercallLib.h>

static UINT32 *guest;
static unsigned next_frame = EDK2_FIRST_DATA;
static XEN_BLOCK_FRONT_DEVICE *device;
static XEN_BLOCK_FRONT_IO issued[EDK2_MOST_ISSUED];

void edk2_dies(const char *what)
{
    fprintf(stderr, "edk2: %s\n", what);
    exit(2);
}

/* Libraries. */

VOID EFIAPI MemoryFence(VOID)
{
    machine_fence();
}

UINT16 EFIAPI InterlockedCompareExchange16(IN OUT volatile UINT16 *Value, IN UINT16 Old, IN UINT16 New)
{
    return __sync_val_compare_and_swap(Value, Old, New);
}

/* The one page that is asked for is the ring's. */
VOID *EFIAPI AllocatePages(IN UINTN Pages)
{
    static int made_ring;
    if (!made_ring && Pages == 1) {
        made_ring = 1;
        return guest + EDK2_RING_FRAME * EDK2_WORDS;
    }
    edk2_dies("a second page was asked for");
}

VOID EFIAPI FreePages(IN VOID *Buffer, IN UINTN Pages)
{
}

/* So many frames of data that follow each other, each used again only after all others. */
static UINT8 *data_frames(unsigned count)
{
    if (next_frame + count > EDK2_LAST_DATA + 1) {
        next_frame = EDK2_FIRST_DATA;
    }
    UINT8 *first = (UINT8 *)(guest + next_frame * EDK2_WORDS);
    next_frame += count;
    return first;
}

VOID *EFIAPI AllocateAlignedPages(IN UINTN Pages, IN UINTN Alignment)
{
    return data_frames(Pages);
}

VOID EFIAPI FreeAlignedPages(IN VOID *Buffer, IN UINTN Pages)
{
}

VOID *EFIAPI AllocateZeroPool(IN UINTN Size)
{
    return calloc(1, Size);
}

VOID EFIAPI FreePool(IN VOID *Buffer)
{
    free(Buffer);
}

VOID *EFIAPI CopyMem(OUT VOID *To, IN CONST VOID *From, IN UINTN Length)
{
    return memmove(To, From, Length);
}

VOID *EFIAPI ZeroMem(OUT VOID *Buffer, IN UINTN Length)
{
    return memset(Buffer, 0, Length);
}

UINT64 EFIAPI MultU64x32(IN UINT64 A, IN UINT32 B)
{
    return A * B;
}

UINTN EFIAPI AsciiStrLen(IN CONST CHAR8 *Text)
{
    return strlen(Text);
}

INTN EFIAPI AsciiStrCmp(IN CONST CHAR8 *A, IN CONST CHAR8 *B)
{
    return strcmp(A, B);
}

UINT64 EFIAPI AsciiStrDecimalToUint64(IN CONST CHAR8 *Text)
{
    return strtoull(Text, NULL, 10);
}

BOOLEAN EFIAPI DebugAssertEnabled(VOID)
{
    return TRUE;
}

VOID EFIAPI DebugAssert(IN CONST CHAR8 *File, IN UINTN Line, IN CONST CHAR8 *What)
{
    fprintf(stderr, "edk2: %s:%u: not so: %s\n", File, (unsigned)Line, What);
    exit(2);
}

BOOLEAN EFIAPI DebugPrintEnabled(VOID)
{
    return TRUE;
}

BOOLEAN EFIAPI DebugPrintLevelEnabled(IN CONST UINTN Level)
{
    return (Level & (DEBUG_ERROR | DEBUG_WARN)) != 0;
}

VOID EFIAPI DebugPrint(IN UINTN Level, IN CONST CHAR8 *Format, ...)
{
    machine_told(Format);
}

BOOLEAN EFIAPI DebugCodeEnabled(VOID)
{
    return FALSE;
}

EFI_LOCK *EFIAPI EfiInitializeLock(IN OUT EFI_LOCK *Lock, IN EFI_TPL Priority)
{
    return Lock;
}

VOID EFIAPI EfiAcquireLock(IN EFI_LOCK *Lock)
{
}

VOID EFIAPI EfiReleaseLock(IN EFI_LOCK *Lock)
{
}

INTN EFIAPI XenHypercallMemoryOp(IN UINTN Operation, IN OUT VOID *Arguments)
{
    return 0;
}

/* The bus. */

static VOID *text_of(const char *text)
{
    return strdup(text);
}

static XENSTORE_STATUS EFIAPI read_own(XENBUS_PROTOCOL *This, CONST XENSTORE_TRANSACTION *T, CONST CHAR8 *Node, VOID **Result)
{
    *Result = text_of(strcmp(Node, "device-type") ? "0" : "disk");
    return XENSTORE_STATUS_SUCCESS;
}

static XENSTORE_STATUS EFIAPI read_back(XENBUS_PROTOCOL *This, CONST XENSTORE_TRANSACTION *T, CONST CHAR8 *Node, VOID **Result)
{
    char text[EDK2_KEY_ROOM];
    if (!machine_key(Node, text)) {
        return XENSTORE_STATUS_ENOENT;
    }
    *Result = text_of(text);
    return XENSTORE_STATUS_SUCCESS;
}

/* Of EDK2's formats the front uses two: a number, and a text of bytes. */
static XENSTORE_STATUS EFIAPI print_key(XENBUS_PROTOCOL *This, CONST XENSTORE_TRANSACTION *T, CONST CHAR8 *D, CONST CHAR8 *Node, CONST CHAR8 *Format, ...)
{
    char text[EDK2_KEY_ROOM];
    va_list arguments;
    va_start(arguments, Format);
    if (!strcmp(Format, "%d")) {
        snprintf(text, sizeof text, "%d", va_arg(arguments, int));
    } else if (!strcmp(Format, "%a")) {
        snprintf(text, sizeof text, "%s", va_arg(arguments, const char *));
    } else {
        edk2_dies("a format that the front didn't use");
    }
    va_end(arguments);
    machine_set_key(Node, text);
    return XENSTORE_STATUS_SUCCESS;
}

/* Nobody reads a key of a front that has left, and it stays. */
static XENSTORE_STATUS EFIAPI remove_key(XENBUS_PROTOCOL *This, CONST XENSTORE_TRANSACTION *T, CONST CHAR8 *Node)
{
    return XENSTORE_STATUS_SUCCESS;
}

static XENSTORE_STATUS EFIAPI start(XENBUS_PROTOCOL *This, XENSTORE_TRANSACTION *T)
{
    return XENSTORE_STATUS_SUCCESS;
}

static XENSTORE_STATUS EFIAPI end(XENBUS_PROTOCOL *This, CONST XENSTORE_TRANSACTION *T, BOOLEAN Abort)
{
    return XENSTORE_STATUS_SUCCESS;
}

static XENSTORE_STATUS EFIAPI set_state(XENBUS_PROTOCOL *This, CONST XENSTORE_TRANSACTION *T, XenBusState State)
{
    char text[EDK2_KEY_ROOM];
    snprintf(text, sizeof text, "%d", State);
    machine_set_key("state", text);
    return XENSTORE_STATUS_SUCCESS;
}

/* EDK2's own table, by frames of the guest in place of the process's. */
static EFI_STATUS EFIAPI grant(XENBUS_PROTOCOL *This, domid_t Domain, UINTN Frame, BOOLEAN ReadOnly, grant_ref_t *Ref)
{
    return XenBusGrantAccess(This, Domain, Frame - ((UINTN)guest >> EFI_PAGE_SHIFT), ReadOnly, Ref);
}

static UINT32 EFIAPI new_port(XENBUS_PROTOCOL *This, domid_t Domain, evtchn_port_t *Port)
{
    *Port = EDK2_PORT;
    return 0;
}

static UINT32 EFIAPI notify(XENBUS_PROTOCOL *This, evtchn_port_t Port)
{
    machine_event();
    return 0;
}

static UINT32 EFIAPI close_port(XENBUS_PROTOCOL *This, evtchn_port_t Port)
{
    return 0;
}

static XENSTORE_STATUS EFIAPI watch(XENBUS_PROTOCOL *This, CONST CHAR8 *Node, VOID **Token)
{
    *Token = This;
    return XENSTORE_STATUS_SUCCESS;
}

static VOID EFIAPI unwatch(XENBUS_PROTOCOL *This, VOID *Token)
{
}

static XENSTORE_STATUS EFIAPI wait_for_watch(XENBUS_PROTOCOL *This, VOID *Token)
{
    machine_wait();
    return XENSTORE_STATUS_SUCCESS;
}

static XENBUS_PROTOCOL bus = {
    .XsRead = read_own, .XsBackendRead = read_back, .XsPrintf = print_key, .XsRemove = remove_key, .XsTransactionStart = start,
    .XsTransactionEnd = end, .SetState = set_state, .GrantAccess = grant, .GrantEndAccess = XenBusGrantEndAccess,
    .EventChannelAllocate = new_port, .EventChannelNotify = notify, .EventChannelClose = close_port, .RegisterWatch = watch,
    .RegisterWatchBackend = watch, .UnregisterWatch = unwatch, .WaitForWatch = wait_for_watch, .Type = "vbd", .DeviceId = 51712,
    .Node = "device/vbd/51712", .Backend = "backend/vbd/1/51712",
};

/* What the front is asked for. */

void edk2_begin(uint32_t *memory)
{
    static XENIO_PROTOCOL io;
    static XENBUS_DEVICE bus_device = { .XenIo = &io };
    static EFI_BLOCK_IO_MEDIA media = { .BlockSize = 512, .IoAlign = 512, .MediaPresent = TRUE };
    guest = memory;
    io.GrantTableAddress = (UINTN)guest;
    XenGrantTableInit(&bus_device);
    if (XenPvBlockFrontInitialization(&bus, bus.Node, &device) != EFI_SUCCESS) {
        edk2_dies("EDK2's front doesn't begin");
    }
    media.LastBlock = device->MediaInfo.Sectors - 1;
    media.ReadOnly = !device->MediaInfo.ReadWrite;
    device->BlockIo.Media = &media;
}

uint64_t edk2_sectors(void)
{
    return device->MediaInfo.Sectors;
}

bool edk2_is_read_only(void)
{
    return !device->MediaInfo.ReadWrite;
}

uint32_t *edk2_buffer(unsigned count, unsigned offset)
{
    return (UINT32 *)(data_frames((offset + count + 7) / 8) + 512 * offset);
}

uint64_t edk2_transfer(bool is_write, uint64_t sector, unsigned count, void *buffer)
{
    EFI_BLOCK_IO_PROTOCOL *disk = &device->BlockIo;
    return is_write ? XenPvBlkDxeBlockIoWriteBlocks(disk, 0, sector, 512 * count, buffer)
                    : XenPvBlkDxeBlockIoReadBlocks(disk, 0, sector, 512 * count, buffer);
}

void edk2_issue(unsigned place, bool is_write, uint64_t sector, unsigned count, void *buffer)
{
    XEN_BLOCK_FRONT_IO *io = issued + place;
    if (place >= EDK2_MOST_ISSUED || count > EDK2_MOST_SECTORS) {
        edk2_dies("too many were issued, or too long a one");
    }
    *io = (XEN_BLOCK_FRONT_IO){ .Dev = device, .Buffer = buffer, .Size = 512 * count, .Sector = sector, .Status = EFI_ALREADY_STARTED };
    XenPvBlockAsyncIo(io, is_write);
}

bool edk2_is_answered(unsigned place, uint64_t *status)
{
    *status = issued[place].Status;
    return *status != EFI_ALREADY_STARTED;
}

void edk2_poll(void)
{
    XenPvBlockAsyncIoPoll(device);
}

void edk2_flush(void)
{
    XenPvBlkDxeBlockIoFlushBlocks(&device->BlockIo);
}

void edk2_shut_down(void)
{
    XenPvBlockFrontShutdown(device);
}
