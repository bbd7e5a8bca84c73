/* Each call of vbd_front.h by itself: what it answers, and that what is refused changes nothing. Prints what is wrong. */
#include "vbd_front.h"
#include <stdio.h>
#include <string.h>

#define BACK "/local/domain/0/backend/vbd/1/51712"
#define FRONT "/local/domain/1/device/vbd/51712"
static int wrong;
#define HOLDS(what) ((what) ? (void)0 : (void)(wrong++, printf("front_calls: line %d: %s doesn't hold\n", __LINE__, #what)))

static struct vbd_front front;
static struct vbd_front_ask asked(void) {
    struct vbd_front_ask ask = {.kind = 99};
    HOLDS(vbd_front_ask(&front, &ask) == VBD_DONE);
    return ask;
}
static uint32_t answered(uint32_t kind, uint32_t word) {
    struct vbd_answer answer = {kind, word, 0};
    return vbd_front_complete(&front, &answer);
}
static int path_is(const char *path) {
    uint8_t bytes[80];
    return vbd_front_path(&front, bytes, 80) == strlen(path) && !memcmp(bytes, path, strlen(path));
}
static int text_is(const char *text) {
    uint8_t bytes[64];
    return vbd_front_text(&front, bytes, 64) == strlen(text) && !memcmp(bytes, text, strlen(text));
}
static uint32_t key(const char *text) { return vbd_front_key(&front, (const uint8_t *)text, strlen(text)); }
static uint32_t submitted(uint32_t op, uint32_t count, uint64_t sector, uint32_t *id) {
    struct vbd_submission submission = {op, count, 7, sector};
    return vbd_front_submit(&front, &submission, id);
}
static uint32_t unfinished(void) {
    struct vbd_owed owed = {99, 99};
    return vbd_front_owed(&front, &owed) == VBD_DONE ? owed.requests : 99;
}

static void a_handle_without_a_front(void) {
    struct vbd_front_ask ask = {.kind = 99};
    struct vbd_front_told told = {.kind = 99};
    struct vbd_front_options wide = {.order = 5};
    struct vbd_front_part part = {.count = 99};
    uint8_t bytes[80];
    uint32_t id = 99;
    HOLDS(vbd_front_ask(&front, &ask) == VBD_EMPTY && ask.kind == 99 && answered(VBD_OK, 0) == VBD_EMPTY && key("4") == VBD_EMPTY);
    HOLDS(vbd_front_path(&front, bytes, 80) == 0 && vbd_front_text(&front, bytes, 80) == 0 && !vbd_front_told(&front, &told) && told.kind == 99);
    HOLDS(submitted(VBD_OP_FLUSH, 0, 0, &id) == VBD_EMPTY && id == 99 && unfinished() == 99);
    HOLDS(!vbd_front_part(&front, &part) && part.count == 99 && vbd_front_part_written(&front, 0) == VBD_EMPTY);
    HOLDS(vbd_front_part_read(&front, &id, 1) == VBD_EMPTY);
    HOLDS(vbd_front_close(&front) == VBD_EMPTY && vbd_front_suspend(&front) == VBD_EMPTY && vbd_front_new(&front, &wide) == VBD_OUT_OF_RANGE);
    vbd_front_free(&front);
}

/* It watches the back's state, and reads it until it is InitWait (2); meanwhile nothing but the answer of an ask's kind is taken. */
static void it_waits_for_its_back(void) {
    static const uint8_t no_text[] = {0xff, 0xfe};
    char long_text[65];
    uint32_t id = 99;
    memset(long_text, '4', sizeof long_text);
    HOLDS(asked().kind == VBD_WATCH && path_is(BACK "/state") && text_is(""));
    HOLDS(answered(VBD_EVENT, 0) == VBD_NOT_ALLOWED && answered(VBD_WORD, 7) == VBD_NOT_ALLOWED && answered(77, 0) == VBD_NOT_ALLOWED);
    HOLDS(key("1") == VBD_NOT_ALLOWED && vbd_front_watched(&front, no_text, 2) == VBD_OUT_OF_RANGE && asked().kind == VBD_WATCH);
    HOLDS(submitted(VBD_OP_READ, 1, 0, &id) == VBD_NOT_READY && id == 99 && submitted(VBD_OP_READ, 0, 0, &id) == VBD_OUT_OF_RANGE);
    HOLDS(submitted(4, 1, 0, &id) == VBD_OUT_OF_RANGE && unfinished() == 0 && asked().kind == VBD_WATCH && answered(VBD_OK, 0) == VBD_DONE);
    if (asked().kind == VBD_WAIT) HOLDS(vbd_front_watched(&front, (const uint8_t *)BACK "/state", strlen(BACK "/state")) == VBD_DONE);
    HOLDS(asked().kind == VBD_GET_KEY && path_is(BACK "/state"));
    HOLDS(vbd_front_key(&front, (uint8_t *)long_text, 65) == VBD_OUT_OF_RANGE && key("2") == VBD_DONE);
}

/* It makes its ring from frame 2 on, whose reference is 8, says so in its keys, and connects as its back has (4), which publishes
 * that it keeps mappings. */
static void it_connects(const char *keeps) {
    static const char *const offered[][2] = {{BACK "/sectors", "100"}, {BACK "/sector-size", "512"}, {BACK "/info", "0"}, {BACK "/state", "4"}, {BACK "/feature-persistent", "1"}};
    struct vbd_front_told told = {.kind = 99};
    uint32_t status = VBD_DONE, writes = 0;
    for (int i = 0; i < 200 && status != VBD_TOLD; i++) {
        struct vbd_front_ask ask = asked();
        const char *text = 0;
        for (int k = 0; k < 5; k++) if (path_is(offered[k][0])) text = offered[k][1];
        if (ask.kind == VBD_WRITE) HOLDS(ask.frame == 2 || (ask.frame == 0 && ask.word / 2 == 8)), writes++;
        if (path_is(FRONT "/ring-ref")) HOLDS(text_is("8"));
        if (path_is(FRONT "/event-channel")) HOLDS(text_is("5"));
        if (path_is(FRONT "/feature-persistent")) HOLDS(text_is(keeps));
        if (ask.kind == VBD_GET_KEY) status = text ? key(text) : answered(VBD_NO_KEY, 0);
        else if (ask.kind == VBD_WAIT) status = vbd_front_watched(&front, (const uint8_t *)BACK "/state", strlen(BACK "/state"));
        else if (ask.kind != VBD_NEW_PORT) status = answered(VBD_OK, 0);
        else status = answered(VBD_OK, 0) == VBD_NOT_ALLOWED ? answered(VBD_PORT, 5) : VBD_NOT_ALLOWED;
    }
    HOLDS(status == VBD_TOLD && writes == 18); /* the ring's first 16 words, and the grant's two */
    HOLDS(answered(VBD_OK, 0) == VBD_UNTOLD && vbd_front_close(&front) == VBD_UNTOLD);
    HOLDS(vbd_front_told(&front, &told) && told.kind == VBD_READY && !vbd_front_told(&front, &told));
}

static void it_takes_and_refuses_requests(void) {
    uint32_t id = 99;
    HOLDS(submitted(VBD_OP_FLUSH, 0, 0, &id) == VBD_UNSUPPORTED && submitted(VBD_OP_DISCARD, 1, 0, &id) == VBD_UNSUPPORTED);
    HOLDS(submitted(VBD_OP_READ, 1, 100, &id) == VBD_RANGE && submitted(VBD_OP_WRITE, 89, 0, &id) == VBD_LONG && id == 99 && unfinished() == 0);
    for (uint32_t i = 1; i <= 32; i++) HOLDS(submitted(VBD_OP_WRITE, 1, i, &id) == VBD_DONE && id == i && unfinished() == i);
    HOLDS(submitted(VBD_OP_READ, 1, 0, &id) == VBD_FULL && id == 32 && unfinished() == 32);
    struct vbd_front_ask ask;
    do ask = asked(); while (ask.kind != VBD_WRITE && answered(ask.kind == VBD_READ ? VBD_WORD : VBD_OK, 0) == VBD_DONE);
    HOLDS(ask.frame == 18 && ask.word == 0 && ask.value == 7); /* the first word of the first write's data */
    HOLDS(vbd_front_suspend(&front) == VBD_DONE && unfinished() == 32 && submitted(VBD_OP_READ, 1, 0, &id) == VBD_NOT_READY);
}

static struct vbd_front_part part_asked(void) {
    struct vbd_front_part part = {.count = 99};
    HOLDS(vbd_front_part(&front, &part));
    return part;
}

/* Carries out what is asked on a memory of its own, until it waits or tells something. */
static uint32_t memory[1018][1024], grant_words, exchanges;
static uint32_t moved(void) {
    uint32_t status = VBD_DONE;
    for (int i = 0; i < 1000 && status == VBD_DONE; i++) {
        struct vbd_front_ask ask = asked();
        uint32_t *word = &memory[ask.frame][ask.word], seen = *word;
        if (ask.kind == VBD_WAIT) break;
        grant_words += ask.kind == VBD_WRITE && ask.frame < 2, exchanges += ask.kind == VBD_CAS;
        if (ask.kind == VBD_WRITE || (ask.kind == VBD_CAS && seen == ask.expected)) *word = ask.value;
        status = answered(ask.kind == VBD_READ || ask.kind == VBD_CAS ? VBD_WORD : VBD_OK, seen);
    }
    return status;
}

/* The words of a sector that is written, and of one that is read, by two calls each. The back answers both by its ring. */
static void it_moves_many_words_at_once(void) {
    static const uint32_t responses[][3] = {{1, 0, VBD_OP_WRITE}, {2, 0, VBD_OP_READ}};
    struct vbd_front_part none = {.count = 99}, part;
    struct vbd_front_told told;
    uint32_t id, words[129] = {0};
    HOLDS(!vbd_front_part(&front, &none) && none.count == 99);
    HOLDS(vbd_front_part_written(&front, 0) == VBD_NOT_ALLOWED && vbd_front_part_read(&front, words, 1) == VBD_NOT_ALLOWED);
    HOLDS(submitted(VBD_OP_WRITE, 1, 5, &id) == VBD_DONE && submitted(VBD_OP_READ, 1, 6, &id) == VBD_DONE);
    part = part_asked();
    HOLDS(part.id == 1 && part.index == 0 && part.frame == 18 && part.word == 0 && part.count == 128 && part.value == 7 && part.writes == 1);
    HOLDS(vbd_front_part_written(&front, 129) == VBD_NOT_ALLOWED && vbd_front_part_read(&front, words, 1) == VBD_NOT_ALLOWED);
    HOLDS(vbd_front_part_written(&front, 127) == VBD_DONE && asked().word == 127 && part_asked().word == 127 && part_asked().count == 1);
    HOLDS(vbd_front_part_written(&front, 1) == VBD_DONE && !vbd_front_part(&front, &none) && none.count == 99);
    HOLDS(moved() == VBD_DONE && asked().kind == VBD_WAIT);
    for (int i = 0; i < 2; i++) memcpy(&memory[2][16 + 28 * i], responses[i], sizeof responses[i]);
    memory[2][2] = 2;
    HOLDS(answered(VBD_EVENT, 0) == VBD_DONE && moved() == VBD_TOLD && vbd_front_told(&front, &told) && told.kind == VBD_ANSWER && told.id == 1);
    HOLDS(moved() == VBD_TOLD && vbd_front_part_read(&front, words, 1) == VBD_UNTOLD);
    HOLDS(vbd_front_told(&front, &told) && told.kind == VBD_ANSWER && told.id == 2 && told.status == 0);
    part = part_asked();
    HOLDS(part.id == 2 && part.index == 0 && part.frame == 19 && part.word == 0 && part.count == 128 && part.value == 0 && part.writes == 0);
    for (uint32_t i = 0; i < 129; i++) words[i] = 3 * i + 1;
    HOLDS(vbd_front_part_written(&front, 1) == VBD_NOT_ALLOWED && vbd_front_part_read(&front, words, 129) == VBD_NOT_ALLOWED);
    HOLDS(vbd_front_part_read(&front, words, 100) == VBD_DONE && asked().word == 100 && part_asked().word == 100 && part_asked().count == 28);
    HOLDS(vbd_front_part_read(&front, words + 100, 28) == VBD_TOLD && vbd_front_told(&front, &told));
    HOLDS(told.kind == VBD_SECTOR && told.id == 2 && told.index == 0 && !memcmp(told.words, words, sizeof told.words) && unfinished() == 0);
}

/* Two writes of a sector, one after another: the frame is granted once, by the two words of its entry, and stays so until it leaves. */
static void it_keeps_its_grants(void) {
    struct vbd_front_told told;
    uint32_t id;
    memset(memory, 0, sizeof memory);
    grant_words = exchanges = 0;
    for (uint32_t i = 1; i <= 2; i++) {
        const uint32_t response[] = {i, 0, VBD_OP_WRITE};
        HOLDS(submitted(VBD_OP_WRITE, 1, 5, &id) == VBD_DONE && id == i && moved() == VBD_DONE && asked().kind == VBD_WAIT);
        memcpy(&memory[2][16 + 28 * (i - 1)], response, sizeof response);
        memory[2][2] = i;
        HOLDS(answered(VBD_EVENT, 0) == VBD_DONE && moved() == VBD_TOLD && vbd_front_told(&front, &told) && told.kind == VBD_ANSWER && told.id == i);
        HOLDS(moved() == VBD_DONE && grant_words == 2 && exchanges == 0);
    }
}

int main(void) {
    struct vbd_front_options options = {.order = 0};
    a_handle_without_a_front();
    HOLDS(vbd_front_new(&front, &options) == VBD_DONE && vbd_front_new(&front, &options) == VBD_IN_USE);
    it_waits_for_its_back();
    it_connects("0");
    it_takes_and_refuses_requests();
    HOLDS(vbd_front_close(&front) == VBD_TOLD);
    vbd_front_free(&front);
    HOLDS(vbd_front_new(&front, &options) == VBD_DONE);
    it_waits_for_its_back();
    it_connects("0");
    it_moves_many_words_at_once();
    vbd_front_free(&front);
    options.persistent = true;
    HOLDS(vbd_front_new(&front, &options) == VBD_DONE);
    it_waits_for_its_back();
    it_connects("1");
    it_keeps_its_grants();
    vbd_front_free(&front);
    return wrong != 0;
}
