/*
 * EDK2's own front of a Xen disk in a guest, by turns: the machine around it (edk2.h) is a conversation, and so is what it does.
 *
 *     edk2-front
 *
 * The guest's memory is 1024 frames of 4096 bytes, with its grant table in frames 0 and 1 and EDK2's ring in frame 3; the frames of data
 * are 18 and on. Its event channel is the one that was made before it began, port 1. Standard input and output are a conversation with
 * whoever holds the machine, line by line. It tells each word that it changed, each key that it wrote and each event that it sent, in
 * order, and at each memory barrier, and wherever else the front waits, it gives the turn away:
 *
 *     word FRAME WORD VALUE       a word that the front changed
 *     key NAME TEXT               it wrote this key of its own directory
 *     event                       it sent an event
 *     turn                        and now others move
 *
 * It is answered by words that others changed and keys that the back wrote, in the same form, and `go`. After `next` it is given an
 * operation:
 *
 *     write SECTOR COUNT OFFSET TAG    so many sectors are written from a buffer that begins at this sector of its first frame, 0 to 7;
 *                                      word i of sector s of the request is TAG + 131 s + i
 *     read SECTOR COUNT OFFSET         and read
 *     issue write .. or issue read ..  the same without waiting for the answer, up to 88 sectors
 *     wait                             until all that was issued is answered
 *     flush                            its block device is flushed: EDK2 pushes the operations for it that the keys offer, and waits
 *                                      for all answers
 *     shutdown                         the front closes
 *
 * After each it says `done` with EDK2's status, 0 where it went well, and with the data of a read as hexadecimal digits; after `wait` so
 * for each request that was issued, in order.
 */
#include <stdio.h>
#include <stdlib.h>
#include <string.h>
#include <sys/mman.h>
#include "edk2.h"

#define FRAMES EDK2_FRAMES
#define WORDS EDK2_WORDS
#define MOST_KEYS 32
#define KEY_ROOM 64

static uint32_t *guest, seen[FRAMES * WORDS];
/* The keys that the back published, with their texts. */
static char keys[MOST_KEYS][2][KEY_ROOM];
static unsigned key_count;

/* A line of the conversation. */
static int next_line(char *line, int room)
{
    if (!fgets(line, room, stdin)) {
        return 0;
    }
    line[strcspn(line, "\n")] = 0;
    return 1;
}

/* Tells each word that was changed since the last time. */
static void tell_words(void)
{
    for (unsigned frame = 0; frame < FRAMES; frame++) {
        uint32_t *now = guest + frame * WORDS, *was = seen + frame * WORDS;
        if (!memcmp(now, was, 4 * WORDS)) {
            continue;
        }
        for (unsigned word = 0; word < WORDS; word++) {
            if (now[word] != was[word]) {
                printf("word %u %u %u\n", frame, word, now[word]);
                was[word] = now[word];
            }
        }
    }
}

/* Takes in a key that the back published, for the first time or anew. */
static void keep_key(const char *name, const char *text)
{
    unsigned place = 0;
    while (place < key_count && strcmp(keys[place][0], name)) {
        place++;
    }
    if (place == MOST_KEYS) {
        edk2_dies("too many keys");
    }
    key_count += place == key_count;
    strcpy(keys[place][0], name);
    strcpy(keys[place][1], text);
}

/* Gives the turn away, and takes in what others changed. */
static void give_turn(void)
{
    char line[2 * KEY_ROOM + 8], name[KEY_ROOM], text[KEY_ROOM];
    unsigned frame, word, value;
    tell_words();
    printf("turn\n");
    fflush(stdout);
    while (next_line(line, sizeof line)) {
        if (!strcmp(line, "go")) {
            return;
        }
        if (sscanf(line, "key %63s %63s", name, text) == 2) {
            keep_key(name, text);
        } else if (sscanf(line, "word %u %u %u", &frame, &word, &value) == 3 && frame < FRAMES && word < WORDS) {
            guest[frame * WORDS + word] = seen[frame * WORDS + word] = value;
        } else {
            edk2_dies("a line that is none of the conversation");
        }
    }
    exit(0);
}

/* The machine. */

void machine_fence(void)
{
    __sync_synchronize();
    give_turn();
}

void machine_event(void)
{
    tell_words();
    printf("event\n");
}

void machine_wait(void)
{
    give_turn();
}

bool machine_key(const char *name, char text[EDK2_KEY_ROOM])
{
    for (unsigned place = 0; place < key_count; place++) {
        if (!strcmp(keys[place][0], name)) {
            strcpy(text, keys[place][1]);
            return true;
        }
    }
    return false;
}

void machine_set_key(const char *name, const char *text)
{
    tell_words();
    printf("key %s %s\n", name, text);
}

/* Whoever holds the machine looks at what the back answers. */
void machine_told(const char *format)
{
    (void)format;
}

/* Operations. */

struct operation {
    bool is_write;
    unsigned long long sector;
    unsigned count, offset, tag;
    uint32_t *buffer;
};

static struct operation issued[EDK2_MOST_ISSUED];
static unsigned issued_count;

static struct operation operation_of(const char *line)
{
    struct operation it = { 0 };
    char name[8];
    if (sscanf(line, "%7s %llu %u %u %u", name, &it.sector, &it.count, &it.offset, &it.tag) < 4 || it.offset > 7) {
        edk2_dies("an operation that is none");
    }
    it.is_write = !strcmp(name, "write");
    it.buffer = edk2_buffer(it.count, it.offset);
    uint32_t *word = it.buffer;
    for (unsigned sector = 0; sector < it.count; sector++) {
        for (unsigned i = 0; i < 128; i++) {
            *word++ = it.is_write ? it.tag + 131 * sector + i : 0xDEADBEEF;
        }
    }
    return it;
}

static void say_done(const struct operation *it, uint64_t status)
{
    printf("done %llu", (unsigned long long)status);
    if (it && !it->is_write && status == 0) {
        const unsigned char *bytes = (const unsigned char *)it->buffer;
        printf(" ");
        for (unsigned i = 0; i < 512 * it->count; i++) {
            printf("%02x", bytes[i]);
        }
    }
    printf("\n");
}

static void do_now(const char *line)
{
    struct operation it = operation_of(line);
    say_done(&it, edk2_transfer(it.is_write, it.sector, it.count, it.buffer));
}

static void issue(const char *line)
{
    if (issued_count == EDK2_MOST_ISSUED) {
        edk2_dies("too many were issued");
    }
    struct operation *it = issued + issued_count;
    *it = operation_of(line);
    edk2_issue(issued_count++, it->is_write, it->sector, it->count, it->buffer);
    say_done(NULL, 0);
}

static void wait_for_all(void)
{
    uint64_t status;
    for (unsigned i = 0; i < issued_count; i++) {
        while (!edk2_is_answered(i, &status)) {
            edk2_poll();
        }
        say_done(issued + i, status);
    }
    issued_count = 0;
}

static void obey(const char *line)
{
    if (!strncmp(line, "issue ", 6)) {
        issue(line + 6);
    } else if (!strcmp(line, "wait")) {
        wait_for_all();
    } else if (!strcmp(line, "flush")) {
        edk2_flush();
        say_done(NULL, 0);
    } else if (!strcmp(line, "shutdown")) {
        edk2_shut_down();
        say_done(NULL, 0);
    } else {
        do_now(line);
    }
}

int main(void)
{
    char line[128];
    guest = mmap(NULL, 4 * FRAMES * WORDS, PROT_READ | PROT_WRITE, MAP_PRIVATE | MAP_ANONYMOUS, -1, 0);
    if (guest == MAP_FAILED) {
        edk2_dies("there is no memory");
    }
    give_turn();
    edk2_begin(guest);
    say_done(NULL, 0);
    do {
        give_turn();
        printf("next\n");
        fflush(stdout);
    } while (next_line(line, sizeof line) && (obey(line), 1));
    return 0;
}
