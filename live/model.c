/* A plain model of the disk, in the front's process: of each sector what its words are made of. */
#define _GNU_SOURCE
#include "live.h"
#include <stdlib.h>
#include <unistd.h>

/* The tag of its last write, 0 for zeros; or the one word that fills it. */
static struct { uint32_t tag; bool is_filled; } *disk;

uint32_t word_of(uint32_t tag, uint64_t sector, uint32_t word) {
    return tag ? tag * 2654435761u + (uint32_t)sector * 40503u + word * 97u : 0;
}
uint32_t word_on_disk(uint64_t sector, uint32_t word) {
    return disk[sector].is_filled ? disk[sector].tag : word_of(disk[sector].tag, sector, word);
}
void wrote_sector(uint64_t sector, uint32_t tag) { disk[sector].tag = tag, disk[sector].is_filled = false; }
void filled_sector(uint64_t sector, uint32_t word) { disk[sector].tag = word, disk[sector].is_filled = true; }
uint64_t disk_sectors(void) { return options.depth * options.sectors_each; }

/* The image has known words before the first request. */
void make_image(void) {
    disk = calloc(disk_sectors(), sizeof *disk);
    if (!disk) die("there is not enough memory");
    for (uint64_t sector = 0; sector < disk_sectors(); sector++) {
        uint32_t words[SECTOR_WORDS];
        wrote_sector(sector, (uint32_t)any(UINT32_MAX));
        for (uint32_t word = 0; word < SECTOR_WORDS; word++) words[word] = word_on_disk(sector, word);
        if (pwrite(outside.image, words, sizeof words, (off_t)(sector * SECTOR_BYTES)) != sizeof words) die("the image can't be made");
    }
}
void compare_image(void) {
    for (uint64_t sector = 0; sector < disk_sectors(); sector++) {
        uint32_t words[SECTOR_WORDS];
        if (pread(outside.image, words, sizeof words, (off_t)(sector * SECTOR_BYTES)) != sizeof words) die("the image is short");
        for (uint32_t word = 0; word < SECTOR_WORDS; word++)
            if (words[word] != word_on_disk(sector, word)) die("sector %" PRIu64 " of the image is wrong", sector);
    }
}
