/* The least that a program does with the proved back: it asks, does what is asked, and answers. The keys here are printed and not
 * kept, and the front says nothing, so the back says what it offers and waits. */
#include "vbd.h"
#include <stdio.h>
#include <stdlib.h>

static struct vbd_back back;

static void check(uint32_t status) {
    if (status == VBD_DONE || status == VBD_TOLD) return;
    fprintf(stderr, "first: status %u\n", status);
    exit(1);
}

static void answer(uint32_t kind) {
    struct vbd_answer given = {.kind = kind};
    check(vbd_back_complete(&back, 0, &given));
}

static void print_key(void) {
    uint8_t path[81] = {0}, text[65] = {0};
    vbd_back_path(&back, path, sizeof path - 1);
    vbd_back_text(&back, text, sizeof text - 1);
    printf("%s = %s\n", (char *)path, (char *)text);
}

int main(void) {
    struct vbd_options options = {.sectors = 2048}; /* a disk of a megabyte, of which nothing is asked here */
    struct vbd_ask ask;
    check(vbd_back_new(&back, &options));
    while (vbd_back_ask(&back, 0, &ask) == VBD_DONE && ask.kind != VBD_WAIT) {
        switch (ask.kind) {
        case VBD_SET_KEY: print_key(), answer(VBD_OK); break;
        case VBD_GET_KEY: answer(VBD_NO_KEY); break;
        case VBD_WATCH: answer(VBD_OK); break;
        default: fprintf(stderr, "first: ask %u\n", ask.kind); return 1; /* reads, maps and the disk: live/back.c has them all */
        }
    }
    vbd_back_free(&back);
    return 0;
}
