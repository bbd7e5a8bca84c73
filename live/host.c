/* The host: it gives both ends their memory, events, keys and image, and runs each in a process of its own. */
#define _GNU_SOURCE
#include "live.h"
#include <errno.h>
#include <fcntl.h>
#include <poll.h>
#include <pthread.h>
#include <sched.h>
#include <signal.h>
#include <stdarg.h>
#include <stdlib.h>
#include <string.h>
#include <sys/eventfd.h>
#include <sys/mman.h>
#include <sys/resource.h>
#include <sys/wait.h>
#include <time.h>
#include <unistd.h>

struct options options = {.requests = 20000, .depth = 32, .sectors_each = 8, .seed = 1};
struct outside outside;

static const char usage[] =
    "host: the proved front and the proved back of a Xen block device on real shared memory\n"
    "\n"
    "    host [--requests N] [--depth N] [--sectors N] [--order N] [--indirect N] [--abi 32|64] [--persistent N]\n"
    "         [--suspends N] [--start N] [--seed N] [--image FILE] [--read-only] [--data-only] [--delays] [--hostile]\n"
    "         [--threads]\n"
    "\n"
    "    --requests N   so many requests are served (20000)\n"
    "    --depth N      up to so many at once, 1 to 512 (32); what the ring has no entry for waits\n"
    "    --sectors N    of up to so many sectors, 1 to 88, or to 8 times the segments of --indirect (8)\n"
    "    --order N      the ring has 2^N pages, 0 to 4 (0)\n"
    "    --indirect N   an indirect request may have so many segments, 0 to 960; 0 turns them off (0)\n"
    "    --persistent N the back keeps up to so many mappings, 0 to 1000, and the front its grants; 0 turns both off (0)\n"
    "    --abi N        the layout of the ring's entries: 64, of x86_64, or 32, of x86_32 (64)\n"
    "    --suspends N   the guest's domain is suspended so many times meanwhile (0)\n"
    "    --start N      the ring's first index, 0 to 4294967295 (0)\n"
    "    --seed N       what is asked for, and the delays (1)\n"
    "    --image FILE   the disk, which is made anew; else a file that is gone at the end\n"
    "    --read-only    the disk is for reading alone\n"
    "    --data-only    reads and writes alone: no barriers, flushes and discards\n"
    "    --delays       each word, key and call comes after a random delay\n"
    "    --hostile      a third process overwrites words of grants, ring and data; the front may break then\n"
    "    --threads      threads in place of processes\n"
    "\n"
    "It ends with status 0 where every request was answered, the data and the image are as they should be, and the back holds\n"
    "no mapping; with --hostile where the back touched nothing that it didn't hold and holds nothing; and else with 1.\n";

void die(const char *format, ...) {
    va_list rest;
    va_start(rest, format);
    fputs("host: ", stderr);
    vfprintf(stderr, format, rest);
    fputs("\n", stderr);
    fflush(0);
    _exit(1);
}

/* What is asked for is drawn by itself: it is the same for one seed, whoever is faster. */
static _Thread_local uint64_t random_state, asked_state;
void seed_of_thread(uint64_t who) {
    random_state = (options.seed * 4 + who + 1) * 0x9e3779b97f4a7c15u;
    asked_state = random_state * 0xbf58476d1ce4e5b9u;
}
static uint64_t drawn(uint64_t *state, uint64_t below) {
    *state ^= *state << 13, *state ^= *state >> 7, *state ^= *state << 17;
    return (*state >> 11) % below;
}
uint64_t any(uint64_t below) { return drawn(&random_state, below); }
uint64_t any_asked(uint64_t below) { return drawn(&asked_state, below); }
void delay(void) {
    if (!options.delays) return;
    uint64_t kind = any(4096);
    struct timespec time = {0, (long)any(50000)};
    if (kind == 0) nanosleep(&time, 0);
    else if (kind % 256 == 1) sched_yield();
    else if (kind % 16 == 2) for (volatile uint64_t i = any(128); i > 0; i--) {}
}

/* Of keys, which are few, every second one is late. */
void long_delay(void) {
    struct timespec time = {0, (long)any(200000)};
    if (options.delays && any(2)) nanosleep(&time, 0);
}

void wake(int descriptor) {
    uint64_t one = 1;
    if (write(descriptor, &one, sizeof one) != sizeof one) die("an event can't be sent");
}
bool woken(int descriptor) {
    uint64_t count;
    return read(descriptor, &count, sizeof count) == sizeof count;
}

static void *hostile_thread(void *none) {
    (void)none;
    seed_of_thread(ENDS);
    map_memory();
    struct pollfd until = {outside.stopped, POLLIN, 0};
    uint64_t count = 0;
    for (; poll(&until, 1, 0) == 0; count++) {
        struct timespec time = {0, (long)any(200000)};
        nanosleep(&time, 0);
        overwrite_memory();
        if (any(8) == 0) wake(outside.event[BACK]);
    }
    printf("hostile hand: %" PRIu64 " words overwritten\n", count);
    return 0;
}
static void *back_thread(void *none) { return run_back() ? &outside : none; }
static void *front_thread(void *none) { return run_front() ? &outside : none; }

/* The back and the hostile hand in threads or processes, and the front beside them; how many failed. */
static int run_threads(void) {
    void *(*const runs[])(void *) = {back_thread, front_thread, hostile_thread};
    pthread_t threads[3];
    int failed = 0, count = options.hostile ? 3 : 2;
    map_memory();
    for (int i = 0; i < count; i++)
        if (pthread_create(&threads[i], 0, runs[i], 0)) die("a thread can't be started");
    for (int i = 0; i < count; i++) {
        void *answer = 0;
        pthread_join(threads[i], &answer);
        failed += answer != 0;
    }
    return failed;
}
static void say_used(const char *name, const struct rusage *used) {
    double user = (double)used->ru_utime.tv_sec + (double)used->ru_utime.tv_usec / 1e6;
    double kernel = (double)used->ru_stime.tv_sec + (double)used->ru_stime.tv_usec / 1e6;
    printf("%s: %.3f seconds of a processor, %.3f of them in the kernel\n", name, user + kernel, kernel);
}
/* Where a process fails the others are ended, since they would wait for it. */
static int run_processes(void) {
    static const char *const names[] = {"back", "front", "hostile hand"};
    void *(*const runs[])(void *) = {back_thread, front_thread, hostile_thread};
    pid_t children[3];
    int failed = 0, count = options.hostile ? 3 : 2;
    for (int i = 0; i < count; i++) {
        children[i] = fork();
        if (children[i] < 0) die("a process can't be started");
        if (children[i] == 0) exit(runs[i](0) ? 1 : 0);
    }
    for (int left = count; left > 0; left--) {
        int status = 0;
        struct rusage used;
        pid_t gone = wait4(-1, &status, 0, &used);
        bool well = WIFEXITED(status) && WEXITSTATUS(status) == 0;
        failed += !well;
        for (int i = 0; i < count; i++)
            if (children[i] == gone) children[i] = 0, say_used(names[i], &used);
            else if (children[i] && !well) kill(children[i], SIGKILL);
    }
    return failed;
}

static void open_outside(void) {
    snprintf(outside.folder, sizeof outside.folder, "%s/vbd-host-XXXXXX", access("/dev/shm", W_OK) ? "/tmp" : "/dev/shm");
    if (!mkdtemp(outside.folder)) die("there is no room for the keys");
    outside.memory = memfd_create("guest", MFD_CLOEXEC);
    if (outside.memory < 0 || ftruncate(outside.memory, sizeof(uint32_t) * FRAMES * FRAME_WORDS)) die("there is no memory to share");
    for (int end = 0; end < ENDS; end++) {
        outside.event[end] = eventfd(0, EFD_NONBLOCK | EFD_CLOEXEC);
        outside.watch[end] = eventfd(0, EFD_NONBLOCK | EFD_CLOEXEC);
    }
    outside.suspend = eventfd(0, EFD_NONBLOCK | EFD_CLOEXEC);
    outside.resumed = eventfd(0, EFD_NONBLOCK | EFD_CLOEXEC);
    outside.stopped = eventfd(0, EFD_NONBLOCK | EFD_CLOEXEC);
    outside.image = memfd_create("image", MFD_CLOEXEC);
    if (options.image) outside.image = open(options.image, O_RDWR | O_CREAT | O_TRUNC | O_CLOEXEC, 0644);
    uint64_t bytes = disk_sectors() * SECTOR_BYTES;
    if (outside.stopped < 0 || outside.image < 0 || ftruncate(outside.image, (off_t)bytes)) die("the image can't be made");
    make_keys();
}
static void close_outside(void) {
    char name[96];
    snprintf(name, sizeof name, "%s/keys", outside.folder);
    unlink(name);
    rmdir(outside.folder);
}

static uint64_t number(const char *word, const char *text, uint64_t least, uint64_t most) {
    char *end = 0;
    errno = 0;
    uint64_t value = text && *text >= '0' && *text <= '9' ? strtoull(text, &end, 10) : 0;
    if (!end || *end || errno || value < least || value > most) {
        fprintf(stderr, "host: %s wants a number from %" PRIu64 " to %" PRIu64 "\n", word, least, most);
        exit(2);
    }
    return value;
}

int main(int count, char **words) {
    for (int i = 1; i < count; i++) {
        const char *word = words[i], *next = i + 1 < count ? words[i + 1] : 0;
        if (!strcmp(word, "--help")) return fputs(usage, stdout), 0;
        else if (!strcmp(word, "--read-only")) options.read_only = true;
        else if (!strcmp(word, "--data-only")) options.data_only = true;
        else if (!strcmp(word, "--delays")) options.delays = true;
        else if (!strcmp(word, "--hostile")) options.hostile = true;
        else if (!strcmp(word, "--threads")) options.threads = true;
        else if (!strcmp(word, "--requests")) options.requests = number(word, next, 0, 1000000000), i++;
        else if (!strcmp(word, "--depth")) options.depth = number(word, next, 1, 512), i++;
        else if (!strcmp(word, "--sectors")) options.sectors_each = number(word, next, 1, 7680), i++;
        else if (!strcmp(word, "--order")) options.order = (uint32_t)number(word, next, 0, 4), i++;
        else if (!strcmp(word, "--indirect")) options.indirect = (uint32_t)number(word, next, 0, 960), i++;
        else if (!strcmp(word, "--persistent")) options.persistent = (uint32_t)number(word, next, 0, 1000), i++;
        else if (!strcmp(word, "--abi") && next && (!strcmp(next, "32") || !strcmp(next, "64"))) options.x86_32 = *next == '3', i++;
        else if (!strcmp(word, "--suspends")) options.suspends = number(word, next, 0, 1000000), i++;
        else if (!strcmp(word, "--start")) options.start = (uint32_t)number(word, next, 0, UINT32_MAX), i++;
        else if (!strcmp(word, "--seed")) options.seed = number(word, next, 0, UINT32_MAX), i++;
        else if (!strcmp(word, "--image") && next) options.image = next, i++;
        else return fprintf(stderr, "host: %s is no word of it; host --help says which are\n", word), 2;
    }
    if (options.sectors_each > (options.indirect > 11 ? 8 * options.indirect : 88))
        return fputs("host: --sectors wants more segments of --indirect\n", stderr), 2;
    seed_of_thread(ENDS);
    open_outside();
    fflush(0);
    int failed = options.threads ? run_threads() : run_processes();
    close_outside();
    return failed ? 1 : 0;
}
