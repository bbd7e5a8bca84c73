/* Each call of vbd.h by itself: what it answers, and that what is refused changes nothing. Prints what is wrong. */
#include "vbd.h"
#include <stdio.h>
#include <string.h>

static int wrong;
#define HOLDS(what) ((what) ? (void)0 : (void)(wrong++, printf("calls: line %d: %s doesn't hold\n", __LINE__, #what)))

static struct vbd_back back;
static struct vbd_ask asked(uint64_t job) {
    struct vbd_ask ask;
    memset(&ask, 255, sizeof ask);
    HOLDS(vbd_back_ask(&back, job, &ask) == VBD_DONE);
    return ask;
}
static uint32_t answered(uint64_t job, uint32_t kind, uint32_t word) {
    struct vbd_answer answer = {kind, word, 0};
    return vbd_back_complete(&back, job, &answer);
}
static int path_is(const char *path) {
    uint8_t bytes[80];
    return vbd_back_path(&back, bytes, sizeof bytes) == strlen(path) && !memcmp(bytes, path, strlen(path));
}
static uint32_t key(const char *text) { return vbd_back_key(&back, (const uint8_t *)text, strlen(text)); }

static void a_handle_without_a_back(void) {
    struct vbd_ask ask = {.kind = 99};
    struct vbd_told told = {.kind = 99};
    struct vbd_halt halt = {.kind = 99};
    struct vbd_options wide = {.sectors = 8, .indirect = 961}, kept = {.sectors = 8, .persistent = 1001};
    uint32_t words[128] = {0};
    uint8_t bytes[80];
    HOLDS(vbd_back_ask(&back, 0, &ask) == VBD_EMPTY && ask.kind == 99);
    HOLDS(answered(0, VBD_OK, 0) == VBD_EMPTY && vbd_back_mapped(&back, 0, 1) == VBD_EMPTY && key("4") == VBD_EMPTY);
    HOLDS(vbd_back_sector(&back, 0, words, 128) == VBD_EMPTY && !vbd_back_words(&back, 1, words, 128));
    HOLDS(vbd_back_path(&back, bytes, 80) == 0 && vbd_back_text(&back, bytes, 80) == 0 && vbd_back_halt_key(&back, bytes, 80) == 0);
    HOLDS(!vbd_back_told(&back, &told) && told.kind == 99 && !vbd_back_halted(&back, &halt) && halt.kind == 99);
    HOLDS(vbd_back_next_job(&back, 0) == 0 && vbd_back_close(&back) == VBD_EMPTY && vbd_back_suspend(&back, 0, true) == VBD_EMPTY);
    struct vbd_part part = {.count = 99};
    HOLDS(!vbd_back_part(&back, 1, &part) && part.count == 99 && vbd_back_part_words(&back, 1, words, 128) == 0);
    HOLDS(vbd_back_part_read(&back, 1, words, 1) == VBD_EMPTY && vbd_back_part_written(&back, 1, 1) == VBD_EMPTY);
    HOLDS(vbd_back_new(&back, &wide) == VBD_OUT_OF_RANGE && vbd_back_new(&back, &kept) == VBD_OUT_OF_RANGE);
    vbd_back_free(&back);
}

/* What a back publishes first (io/blkif.h), each key in turn, up to InitWait (2) and its watch. */
static void what_a_back_publishes(void) {
    struct vbd_ask ask = asked(0), again;
    uint8_t text[64];
    HOLDS(ask.kind == VBD_SET_KEY && path_is("/local/domain/0/backend/vbd/1/51712/feature-barrier"));
    HOLDS(vbd_back_text(&back, text, 64) == 1 && text[0] == '1' && vbd_back_text(&back, text, 0) == 0);
    HOLDS(answered(0, VBD_EVENT, 0) == VBD_NOT_ALLOWED && answered(0, VBD_WORD, 7) == VBD_NOT_ALLOWED && answered(0, 77, 0) == VBD_NOT_ALLOWED);
    HOLDS(vbd_back_mapped(&back, 0, 1) == VBD_NOT_ALLOWED && key("1") == VBD_NOT_ALLOWED && answered(5, VBD_OK, 0) == VBD_NOT_ALLOWED);
    again = asked(0);
    HOLDS(!memcmp(&ask, &again, offsetof(struct vbd_ask, writes)) && path_is("/local/domain/0/backend/vbd/1/51712/feature-barrier"));
    while (asked(0).kind == VBD_SET_KEY) HOLDS(answered(0, VBD_OK, 0) == VBD_DONE);
    HOLDS(asked(0).kind == VBD_WATCH && path_is("/local/domain/1/device/vbd/51712/state") && answered(0, VBD_OK, 0) == VBD_DONE);
    HOLDS(asked(0).kind == VBD_GET_KEY || asked(0).kind == VBD_WAIT);
}

static void a_front_that_connects(void) {
    static const char path[] = "/local/domain/1/device/vbd/51712/state";
    static const uint8_t no_text[] = {0xff, 0xfe};
    char long_text[65];
    memset(long_text, '4', sizeof long_text);
    if (asked(0).kind == VBD_WAIT) HOLDS(vbd_back_watched(&back, (const uint8_t *)path, strlen(path)) == VBD_DONE);
    HOLDS(asked(0).kind == VBD_GET_KEY && path_is(path));
    HOLDS(vbd_back_key(&back, no_text, 2) == VBD_OUT_OF_RANGE && vbd_back_key(&back, (uint8_t *)long_text, 65) == VBD_OUT_OF_RANGE);
    HOLDS(key("3") == VBD_DONE && asked(0).kind == VBD_GET_KEY);
    while (asked(0).kind == VBD_GET_KEY) {
        if (path_is("/local/domain/1/device/vbd/51712/ring-ref")) HOLDS(key("8") == VBD_DONE);
        else if (path_is("/local/domain/1/device/vbd/51712/event-channel")) HOLDS(key("1") == VBD_DONE);
        else if (path_is("/local/domain/1/device/vbd/51712/feature-persistent")) HOLDS(key("1") == VBD_DONE); /* asked for by one that keeps mappings */
        else HOLDS(answered(0, VBD_NO_KEY, 0) == VBD_DONE);
    }
    struct vbd_ask ask = asked(0);
    HOLDS(ask.kind == VBD_MAP && ask.gref == 8 && ask.writes && answered(0, VBD_OK, 0) == VBD_NOT_ALLOWED);
    HOLDS(vbd_back_mapped(&back, 0, 41) == VBD_DONE);
    ask = asked(0);
    HOLDS(ask.kind == VBD_BIND && ask.port == 1 && answered(0, VBD_OK, 0) == VBD_DONE);
}

static void it_halts_where_the_front_overruns_its_ring(void) {
    struct vbd_halt halt = {0};
    struct vbd_ask ask;
    while ((ask = asked(0)).kind == VBD_SET_KEY) HOLDS(answered(0, VBD_OK, 0) == VBD_DONE);
    HOLDS(ask.kind == VBD_READ && ask.mapping == 41 && ask.gref == 8 && ask.word == 0 && !vbd_back_halted(&back, &halt));
    HOLDS(answered(0, VBD_WORD, 33) == VBD_DONE && vbd_back_halted(&back, &halt));
    HOLDS(halt.kind == VBD_OVERRUN && halt.number == 33 && halt.rsp_prod == 0);
    ask = asked(0);
    HOLDS(ask.kind == VBD_UNMAP && ask.mapping == 41 && answered(0, VBD_OK, 0) == VBD_DONE && asked(0).kind == VBD_CLOSE_PORT);
}

static void suspends_and_the_end(void) {
    struct vbd_options few = {.sectors = 8, .read_only = true};
    struct vbd_halt halt = {0};
    HOLDS(vbd_back_suspend(&back, 7, true) == VBD_DONE && !vbd_back_halted(&back, &halt) && asked(0).kind == VBD_SET_KEY);
    HOLDS(vbd_back_suspend(&back, 7, false) == VBD_DONE && vbd_back_halted(&back, &halt) && halt.kind == VBD_GONE && halt.number == 6);
    HOLDS(vbd_back_new(&back, &few) == VBD_IN_USE && vbd_back_close(&back) == VBD_DONE);
    vbd_back_free(&back);
    HOLDS(vbd_back_new(&back, &few) == VBD_DONE && path_is("/local/domain/0/backend/vbd/1/51712/feature-barrier"));
    vbd_back_free(&back);
}

/* A write of sector 3 from reference 9, and a read of sector 5 to the second sector of reference 10. */
static void two_requests(void) {
    static const uint32_t entries[56] = {
        [0] = 1 | 1 << 8, [2] = 71, [4] = 3, [6] = 9, [28] = 1 << 8, [30] = 72, [32] = 5, [34] = 10, [35] = 1 | 1 << 8};
    struct vbd_ask ask;
    while ((ask = asked(0)).kind == VBD_SET_KEY) HOLDS(answered(0, VBD_OK, 0) == VBD_DONE);
    HOLDS(ask.kind == VBD_READ && ask.word == 0 && answered(0, VBD_WORD, 2) == VBD_DONE);
    while ((ask = asked(0)).kind == VBD_READ && ask.word >= 16) HOLDS(answered(0, VBD_WORD, entries[ask.word - 16]) == VBD_DONE);
    HOLDS(vbd_back_next_job(&back, 0) == 1 && vbd_back_next_job(&back, 1) == 2 && vbd_back_next_job(&back, 2) == 0);
}

static struct vbd_part part_of(uint64_t job) {
    struct vbd_part part;
    memset(&part, 255, sizeof part);
    HOLDS(vbd_back_part(&back, job, &part));
    return part;
}

static void words_of_a_sector_that_is_written(void) {
    struct vbd_part part = {.count = 99};
    struct vbd_told told;
    uint32_t words[129], sector[128];
    for (uint32_t i = 0; i < 129; i++) words[i] = 1000 + i;
    HOLDS(asked(1).kind == VBD_MAP && !vbd_back_part(&back, 1, &part) && part.count == 99 && !vbd_back_part(&back, 0, &part));
    HOLDS(vbd_back_part_read(&back, 1, words, 1) == VBD_NOT_ALLOWED && vbd_back_mapped(&back, 1, 42) == VBD_DONE);
    part = part_of(1);
    HOLDS(part.mapping == 42 && part.gref == 9 && part.word == 0 && part.count == 128 && !part.writes);
    HOLDS(vbd_back_part_read(&back, 1, words, 129) == VBD_NOT_ALLOWED && vbd_back_part_written(&back, 1, 1) == VBD_NOT_ALLOWED);
    HOLDS(vbd_back_part_words(&back, 1, sector, 128) == 0 && vbd_back_part_read(&back, 0, words, 1) == VBD_NOT_ALLOWED);
    HOLDS(vbd_back_part_read(&back, 1, words, 0) == VBD_DONE && vbd_back_part_read(&back, 1, words, 100) == VBD_DONE);
    HOLDS(asked(1).kind == VBD_READ && asked(1).word == 100 && answered(1, VBD_WORD, words[100]) == VBD_DONE);
    part = part_of(1);
    HOLDS(part.word == 101 && part.count == 27 && vbd_back_part_read(&back, 1, words + 101, 27) == VBD_DONE);
    HOLDS(asked(1).kind == VBD_DISK_WRITE && vbd_back_words(&back, 1, sector, 128) && !memcmp(sector, words, sizeof sector));
    HOLDS(!vbd_back_part(&back, 1, &part) && answered(1, VBD_OK, 0) == VBD_TOLD);
    HOLDS(vbd_back_part_read(&back, 1, words, 0) == VBD_UNTOLD && vbd_back_part_written(&back, 1, 0) == VBD_UNTOLD);
    HOLDS(vbd_back_told(&back, &told) && told.kind == VBD_EFFECT && told.id == 71 && asked(1).kind == VBD_UNMAP);
}

static void words_of_a_sector_that_is_read(void) {
    struct vbd_part part;
    struct vbd_told told;
    uint32_t words[128], copied[129] = {0};
    for (uint32_t i = 0; i < 128; i++) words[i] = 2000 + i;
    HOLDS(asked(2).kind == VBD_MAP && asked(2).writes && vbd_back_mapped(&back, 2, 43) == VBD_DONE && asked(2).kind == VBD_DISK_READ);
    HOLDS(vbd_back_sector(&back, 2, words, 128) == VBD_TOLD && vbd_back_told(&back, &told) && told.id == 72);
    part = part_of(2);
    HOLDS(part.mapping == 43 && part.gref == 10 && part.word == 128 && part.count == 128 && part.writes);
    HOLDS(vbd_back_part_words(&back, 2, copied, 129) == 128 && !memcmp(copied, words, sizeof words) && copied[128] == 0);
    HOLDS(vbd_back_part_read(&back, 2, words, 1) == VBD_NOT_ALLOWED && vbd_back_part_written(&back, 2, 129) == VBD_NOT_ALLOWED);
    HOLDS(vbd_back_part_written(&back, 2, 100) == VBD_DONE && asked(2).kind == VBD_WRITE && asked(2).value == words[100]);
    HOLDS(vbd_back_part_words(&back, 2, copied, 20) == 20 && !memcmp(copied, words + 100, 20 * sizeof *words));
    HOLDS(vbd_back_part_written(&back, 2, 28) == VBD_DONE && asked(2).kind == VBD_UNMAP && asked(2).mapping == 43);
}

/* Moves the back alone, of a ring in which so many writes from reference 9 are made; false once it waits. */
static int moved(uint32_t made) {
    static const uint32_t entry[28] = {[0] = 1 | 1 << 8, [2] = 71, [4] = 3, [6] = 9};
    struct vbd_ask ask = asked(0);
    struct vbd_told told;
    uint32_t word = ask.word >= 16 ? entry[(ask.word - 16) % 28] : ask.word == 0 ? made : 0;
    if (ask.kind == VBD_WAIT) return 0;
    uint32_t status = answered(0, ask.kind == VBD_READ ? VBD_WORD : VBD_OK, word);
    HOLDS(status == VBD_DONE || (status == VBD_TOLD && vbd_back_told(&back, &told) && told.kind == VBD_REPLY));
    return 1;
}

/* The mapping of the first write serves the second, and is unmapped as the front is gone. */
static void a_mapping_that_is_kept(void) {
    static const char path[] = "/local/domain/1/device/vbd/51712/state";
    struct vbd_told told;
    uint32_t words[128] = {0};
    for (uint32_t made = 1; made <= 2; made++) {
        for (int i = 0; i < 200 && vbd_back_next_job(&back, made - 1) != made; i++) HOLDS(moved(made));
        if (made == 1) HOLDS(asked(1).kind == VBD_MAP && asked(1).gref == 9 && asked(1).writes && vbd_back_mapped(&back, 1, 42) == VBD_DONE);
        HOLDS(part_of(made).mapping == 42 && vbd_back_part_read(&back, made, words, 128) == VBD_DONE && asked(made).kind == VBD_DISK_WRITE);
        HOLDS(answered(made, VBD_OK, 0) == VBD_TOLD && vbd_back_told(&back, &told) && asked(made).kind == VBD_WAIT);
    }
    for (int i = 0; i < 200 && moved(2); i++) {}
    HOLDS(vbd_back_watched(&back, (const uint8_t *)path, strlen(path)) == VBD_DONE && path_is(path) && key("6") == VBD_DONE);
    HOLDS(asked(0).kind == VBD_UNMAP && asked(0).mapping == 42 && answered(0, VBD_OK, 0) == VBD_DONE);
    HOLDS(asked(0).kind == VBD_UNMAP && asked(0).mapping == 41 && answered(0, VBD_OK, 0) == VBD_DONE && asked(0).kind == VBD_CLOSE_PORT);
}

int main(void) {
    struct vbd_options options = {.sectors = 8};
    a_handle_without_a_back();
    HOLDS(vbd_back_new(&back, &options) == VBD_DONE && vbd_back_new(&back, &options) == VBD_IN_USE);
    what_a_back_publishes();
    a_front_that_connects();
    it_halts_where_the_front_overruns_its_ring();
    suspends_and_the_end();
    HOLDS(vbd_back_new(&back, &options) == VBD_DONE);
    what_a_back_publishes();
    a_front_that_connects();
    two_requests();
    words_of_a_sector_that_is_written();
    words_of_a_sector_that_is_read();
    vbd_back_free(&back);
    options.persistent = 1000;
    HOLDS(vbd_back_new(&back, &options) == VBD_DONE);
    what_a_back_publishes();
    a_front_that_connects();
    a_mapping_that_is_kept();
    vbd_back_free(&back);
    return wrong != 0;
}
