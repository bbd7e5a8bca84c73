/* The guest's memory: words, grants, and the mappings that the back holds. */
#define _GNU_SOURCE
#include "live.h"
#include <string.h>
#include <sys/mman.h>

static _Atomic uint32_t (*frames)[FRAME_WORDS];

void map_memory(void) {
    if (options.threads && frames) return;
    void *at = mmap(0, sizeof(uint32_t) * FRAMES * FRAME_WORDS, PROT_READ | PROT_WRITE, MAP_SHARED, outside.memory, 0);
    if (at == MAP_FAILED) die("the memory can't be mapped");
    frames = at;
}

static _Atomic uint32_t *place(uint32_t frame, uint32_t word) {
    if (frame >= FRAMES || word >= FRAME_WORDS) die("word %u of frame %u is out of memory", word, frame);
    return &frames[frame][word];
}
uint32_t load_word(uint32_t frame, uint32_t word) {
    delay();
    return atomic_load_explicit(place(frame, word), WORD_ORDER);
}
void store_word(uint32_t frame, uint32_t word, uint32_t value) {
    delay();
    atomic_store_explicit(place(frame, word), value, WORD_ORDER);
}
/* Compares and exchanges; the word that stood there. */
uint32_t exchange_word(uint32_t frame, uint32_t word, uint32_t expected, uint32_t value) {
    delay();
    atomic_compare_exchange_strong(place(frame, word), &expected, value);
    return expected;
}
void full_fence(void) {
    delay();
    atomic_thread_fence(memory_order_seq_cst);
}

/* A grant entry is read and changed whole, in one step: flags in bits 0 to 15, the domain in 16 to 31, the frame above. */
enum { PERMIT = 1, TYPE = 3, READONLY = 4, READING = 8, WRITING = 16 };
static _Atomic uint64_t *entry_of(uint32_t gref) {
    if (gref >= GREFS) die("grant %u is out of the table", gref);
    return (_Atomic uint64_t *)&frames[gref / 512][2 * (gref % 512)];
}
void grant(uint32_t gref, uint32_t frame, bool readonly) {
    delay();
    atomic_store(entry_of(gref), (uint64_t)frame << 32 | PERMIT | (readonly ? READONLY : 0));
}

/* False where the entry is in use still, which no honest back leaves it in once it has answered. */
bool end_grant(uint32_t gref) {
    delay();
    uint64_t seen = atomic_load(entry_of(gref));
    return !(seen & (READING | WRITING)) && atomic_compare_exchange_strong(entry_of(gref), &seen, 0);
}

/* The back's mappings, which the hypervisor would keep: by number, and how many there are of each grant. */
enum { MAPPINGS = 1 << 12 };
static struct { uint64_t number; uint32_t gref, frame; bool writes; } mappings[MAPPINGS];
static uint32_t mapped[GREFS], writers[GREFS];
static uint64_t last_number, held;

/* Maps by one exchange of the whole entry; GNTST_bad_gntref is -3, GNTST_general_error -1. */
int32_t map_grant(uint32_t gref, bool writes, uint64_t *mapping) {
    delay();
    if (gref >= GREFS) return -3;
    uint64_t seen = atomic_load(entry_of(gref));
    for (;;) {
        uint32_t flags = (uint32_t)seen, frame = (uint32_t)(seen >> 32);
        bool well = (flags & TYPE) == PERMIT && !(flags >> 5) && !(writes && (flags & READONLY)) && frame >= 2 && frame < FRAMES;
        if (!well) return -1;
        if (atomic_compare_exchange_weak(entry_of(gref), &seen, seen | READING | (writes ? WRITING : 0))) {
            if (held == MAPPINGS) die("more than %d mappings", MAPPINGS);
            do last_number++;
            while (mappings[last_number % MAPPINGS].number); /* the places of the ring's pages and of what is kept are passed over */
            mappings[last_number % MAPPINGS].number = *mapping = last_number;
            mappings[last_number % MAPPINGS].gref = gref;
            mappings[last_number % MAPPINGS].frame = frame;
            mappings[last_number % MAPPINGS].writes = writes;
            mapped[gref]++, writers[gref] += writes, held++;
            return 0;
        }
    }
}

/* What the back touches, it holds: the host ends at any other touch. */
uint32_t mapped_frame(uint64_t mapping, bool writes) {
    if (!mapping || mappings[mapping % MAPPINGS].number != mapping) die("mapping %" PRIu64 " isn't held", mapping);
    if (writes && !mappings[mapping % MAPPINGS].writes) die("mapping %" PRIu64 " is for reading", mapping);
    return mappings[mapping % MAPPINGS].frame;
}
void unmap_grant(uint64_t mapping) {
    delay();
    mapped_frame(mapping, false);
    uint32_t gref = mappings[mapping % MAPPINGS].gref, clear = 0;
    mapped[gref]--, writers[gref] -= mappings[mapping % MAPPINGS].writes, held--;
    if (!writers[gref]) clear |= WRITING;
    if (!mapped[gref]) clear |= READING;
    mappings[mapping % MAPPINGS].number = 0;
    atomic_fetch_and(entry_of(gref), ~(uint64_t)clear);
}
uint64_t mappings_held(void) { return held; }

/* A suspend: all mappings are gone, and with them the table of grants. */
void forget_grants(void) {
    memset(mappings, 0, sizeof mappings);
    memset(mapped, 0, sizeof mapped);
    memset(writers, 0, sizeof writers);
    held = 0;
    for (uint32_t gref = 0; gref < GREFS; gref++) atomic_store(entry_of(gref), 0);
}

/* A hostile hand: any word of the grant table, the ring and the first frames of data. */
void overwrite_memory(void) {
    uint32_t frame = (uint32_t)any(24), word = (uint32_t)any(any(2) ? FRAME_WORDS : 64);
    uint32_t value = (uint32_t)(any(2) ? any(UINT64_MAX) : any(64));
    if (any(2)) atomic_store(&frames[frame][word], value);
    else atomic_fetch_xor(&frames[frame][word], 1u << any(32));
}
