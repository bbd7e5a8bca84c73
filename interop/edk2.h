/*
 * EDK2's own front of a Xen disk, and the machine that it wants around it. No header of EDK2's is needed here, and none bears one beside it.
 *
 * The front is one (edk2.c is its libraries and its bus); the machines are two: edk2-turns.c gives each move of others away in a conversation,
 * edk2-live.c runs it at the same time as a back, on memory that both share.
 */
#ifndef EDK2_H
#define EDK2_H
#include <stdbool.h>
#include <stdint.h>

/* The guest's memory has so many frames of so many words, its grant table in frames 0 and 1 and EDK2's ring in frame 3; the frames of data are
 * 18 and on. The front's event channel is port 1. */
enum { EDK2_FRAMES = 1024, EDK2_WORDS = 1024, EDK2_RING_FRAME = 3, EDK2_FIRST_DATA = 18, EDK2_LAST_DATA = 1017, EDK2_PORT = 1 };
/* So many requests may be issued without waiting, of so many sectors each; a key's name and its text have so much room. */
enum { EDK2_MOST_ISSUED = 64, EDK2_MOST_SECTORS = 88, EDK2_KEY_ROOM = 81 };

/* The machine. */
void machine_fence(void);                                     /* a full barrier of memory */
void machine_event(void);                                     /* an event to the back */
void machine_wait(void);                                      /* until a key of the back's may have changed */
bool machine_key(const char *name, char text[EDK2_KEY_ROOM]); /* a key of the back's; false where there is none */
void machine_set_key(const char *name, const char *text);     /* a key of the front's own */
void machine_told(const char *format);                        /* a warning or an error that EDK2 tells, without its numbers */

/* The front. A status is EDK2's: 0, or why not. */
_Noreturn void edk2_dies(const char *what);
void edk2_begin(uint32_t *memory); /* the front negotiates, and its block device is there */
uint64_t edk2_sectors(void);
bool edk2_is_read_only(void);
/* A buffer of so many sectors that begins at this sector of its first frame, 0 to 7; its frames are used again only after all others. */
uint32_t *edk2_buffer(unsigned count, unsigned offset);
/* Through the block device, which divides what is long; it waits for the answer. */
uint64_t edk2_transfer(bool is_write, uint64_t sector, unsigned count, void *buffer);
/* The same without waiting, as request `place`, which isn't in use; and whether that is answered, once the front has looked. */
void edk2_issue(unsigned place, bool is_write, uint64_t sector, unsigned count, void *buffer);
bool edk2_is_answered(unsigned place, uint64_t *status);
void edk2_poll(void);
/* The block device is flushed: EDK2 pushes the operations for it that the keys offer, and waits for all answers. */
void edk2_flush(void);
void edk2_shut_down(void);
#endif
