/* Keys: a small file of lines `path=text`, which each call opens and locks for itself. */
#define _GNU_SOURCE
#include "live.h"
#include <fcntl.h>
#include <stdlib.h>
#include <string.h>
#include <sys/file.h>
#include <unistd.h>

enum { ROOM = 1 << 14 };

static int open_keys(int lock, char lines[ROOM]) {
    char name[96];
    snprintf(name, sizeof name, "%s/keys", outside.folder);
    int file = open(name, O_RDWR | O_CREAT | O_CLOEXEC, 0600);
    if (file < 0 || flock(file, lock)) die("the keys can't be opened");
    ssize_t length = pread(file, lines, ROOM - 1, 0);
    if (length < 0) die("the keys can't be read");
    lines[length] = 0;
    return file;
}

/* Where the text of a path begins in the lines; null where it has none. */
static char *text_at(char *lines, const char *path) {
    size_t length = strlen(path);
    for (char *line = lines; *line; line = strchr(line, '\n') + 1)
        if (!strncmp(line, path, length) && line[length] == '=') return line + length + 1;
    return 0;
}

bool get_key(const char *path, char text[TEXT_ROOM]) {
    char lines[ROOM];
    long_delay();
    int file = open_keys(LOCK_SH, lines);
    char *at = text_at(lines, path);
    size_t length = at ? strcspn(at, "\n") : 0;
    bool found = at && length < TEXT_ROOM;
    if (found) memcpy(text, at, length), text[length] = 0;
    close(file);
    return found;
}

void set_key(const char *path, const char *text) {
    char lines[ROOM], after[ROOM];
    long_delay();
    int file = open_keys(LOCK_EX, lines);
    char *at = text_at(lines, path);
    int length = at ? snprintf(after, ROOM, "%.*s%s%s", (int)(at - lines), lines, text, at + strcspn(at, "\n"))
                    : snprintf(after, ROOM, "%s%s=%s\n", lines, path, text);
    if (length >= ROOM || pwrite(file, after, (size_t)length, 0) != length || ftruncate(file, length)) die("the keys can't be written");
    close(file);
    for (int end = 0; end < ENDS; end++) wake(outside.watch[end]);
}

uint64_t get_number(const char *folder, const char *name, uint64_t otherwise) {
    char path[TEXT_ROOM + 32], text[TEXT_ROOM];
    snprintf(path, sizeof path, "%s/%s", folder, name);
    return get_key(path, text) ? strtoull(text, 0, 10) : otherwise;
}

void make_keys(void) {
    static const char states[] = FRONT_KEYS "/state=1\n" BACK_KEYS "/state=1\n";
    char lines[ROOM];
    int file = open_keys(LOCK_EX, lines);
    if (pwrite(file, states, sizeof states - 1, 0) != sizeof states - 1 || ftruncate(file, sizeof states - 1)) die("the keys can't be made");
    close(file);
}
