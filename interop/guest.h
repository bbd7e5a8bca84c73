/*
 * The guest and the disk that `serve.c` opened, and what it has `shim.c` do with them.
 */
#ifndef GUEST_H
#define GUEST_H

#include "shim.h"

#define FRAMES 1024
#define FRAME_WORDS 1024

struct BlockBackend {
    unsigned char *bytes;
    int64_t length;
    bool writable;
};

/* The words of the guest's frames, one after another. Frames 0 and 1 are its grant table. */
extern uint32_t *guest;

/* An event at the back's port, and the work for later that comes of it. */
void serve_event(void);

/* What is done once the data plane sent an event: `serve.c` has it. */
void event_sent(void);

/* Ends the program, with a line on the error output. */
void qemu_dies(const char *what) __attribute__((noreturn));

#endif
