/* The host of a block device on real shared memory: what both ends use. */
#ifndef LIVE_H
#define LIVE_H
#include <inttypes.h>
#include <stdatomic.h>
#include <stdbool.h>
#include <stddef.h>
#include <stdint.h>
#include <stdio.h>

/* The order of each load and store of a shared word. With memory_order_relaxed they are plain moves of an x86 processor, and
 * only the ends' own fences order them. */
#ifndef WORD_ORDER
#define WORD_ORDER memory_order_seq_cst
#endif

enum { FRONT, BACK, ENDS };
enum { FRAMES = 1024, FRAME_WORDS = 1024, GREFS = 1024, SECTOR_WORDS = 128, SECTOR_BYTES = 512, TEXT_ROOM = 81 };
enum { INITIALISING = 1, INIT_WAIT, INITIALISED, CONNECTED, CLOSING, CLOSED }; /* io/xenbus.h */
#define FRONT_KEYS "/local/domain/1/device/vbd/51712"
#define BACK_KEYS "/local/domain/0/backend/vbd/1/51712"

struct options {
    uint64_t requests, depth, sectors_each, suspends, seed;
    uint32_t start, order, indirect, persistent;
    bool x86_32, read_only, data_only, delays, hostile, threads;
    const char *image;
};
extern struct options options;

/* What both processes are given: descriptors, which each opens or maps for itself. */
struct outside {
    int memory, image, event[ENDS], watch[ENDS], suspend, resumed, stopped;
    char folder[64];
};
extern struct outside outside;

_Noreturn void die(const char *format, ...) __attribute__((format(printf, 1, 2)));
uint64_t any(uint64_t below);
uint64_t any_asked(uint64_t below);
void seed_of_thread(uint64_t who);
void delay(void);
void long_delay(void);
void wake(int descriptor);
bool woken(int descriptor);

/* The guest's memory (memory.c). Grants are 8-byte entries in frames 0 and 1 (grant_table.h, struct grant_entry_v1). */
void map_memory(void);
uint32_t load_word(uint32_t frame, uint32_t word);
void store_word(uint32_t frame, uint32_t word, uint32_t value);
uint32_t exchange_word(uint32_t frame, uint32_t word, uint32_t expected, uint32_t value);
void full_fence(void);
void grant(uint32_t gref, uint32_t frame, bool readonly);
bool end_grant(uint32_t gref);
int32_t map_grant(uint32_t gref, bool writes, uint64_t *mapping);
void unmap_grant(uint64_t mapping);
uint32_t mapped_frame(uint64_t mapping, bool writes);
uint64_t mappings_held(void);
void forget_grants(void);
void overwrite_memory(void);

/* Keys (keys.c): a small file of lines `path=text`, under a lock. A key that is set wakes both ends' watches. At first, and
 * after a suspend, there are both states alone. */
void make_keys(void);
bool get_key(const char *path, char text[TEXT_ROOM]);
void set_key(const char *path, const char *text);
uint64_t get_number(const char *folder, const char *name, uint64_t otherwise);

/* A plain model of the disk (model.c): what each word of the image should be, after what was asked for. */
uint64_t disk_sectors(void);
void make_image(void);
uint32_t word_of(uint32_t tag, uint64_t sector, uint32_t word);
uint32_t word_on_disk(uint64_t sector, uint32_t word);
void wrote_sector(uint64_t sector, uint32_t tag);
void filled_sector(uint64_t sector, uint32_t word);
void compare_image(void);

int run_back(void);  /* back.c: the proved back */
int run_front(void); /* front.c: the proved front */
#endif
