/* A preloaded library that refuses a program memory, or the start of threads. bench/memory.py builds and drives it:
 *
 * cc -O2 -shared -fPIC -o hostile.so hostile.c -ldl
 * LD_PRELOAD=./hostile.so HOSTILE_NTH=12 HOSTILE_BOARD=board ./moos play script.txt
 *
 * Only requests that the program itself makes are counted (by their return address), not those of the C library and of the loader.
 * All counts begin at 1. There is no allocator here: what isn't refused goes to the C library's own.
 *
 *   HOSTILE_NTH=N      the Nth request for memory is refused
 *   HOSTILE_FROM=N     the Nth and all behind it are refused
 *   HOSTILE_SEED=N     one in HOSTILE_CHANCE requests is refused, by a draw of this seed over the request's number
 *   HOSTILE_THREADS=N  the Nth start of a thread and all behind it are refused (EAGAIN)
 *   HOSTILE_HOLD=N     in one of N requests for memory, by a draw of the thread's own, the thread is held for up to 200 microseconds
 *   HOSTILE_BOARD=FILE counts go into this file, as four u64: requests, refused, starts of threads, refused
 */
#define _GNU_SOURCE
#include <dlfcn.h>
#include <errno.h>
#include <fcntl.h>
#include <link.h>
#include <pthread.h>
#include <stdatomic.h>
#include <stdint.h>
#include <stdlib.h>
#include <sys/mman.h>
#include <time.h>
#include <unistd.h>

extern void *__libc_malloc(size_t);
extern void *__libc_realloc(void *, size_t);
extern void *__libc_calloc(size_t, size_t);
extern void *__libc_memalign(size_t, size_t);

struct board { _Atomic uint64_t asked, refused, threads, unthreaded; };
static struct board own, *board = &own;
static uint64_t nth, from, seed, chance, threads_from, hold_in;
static uintptr_t low, high;
static _Atomic int ready;

static uint64_t number(const char *name) {
    const char *text = getenv(name);
    return text ? strtoull(text, 0, 10) : 0;
}

/* The program is the first object that the loader lists. */
static int first(struct dl_phdr_info *info, size_t size, void *data) {
    (void)size, (void)data;
    for (int i = 0; i < info->dlpi_phnum; i++) {
        const ElfW(Phdr) *p = &info->dlpi_phdr[i];
        if (p->p_type == PT_LOAD && (p->p_flags & PF_X)) {
            uintptr_t at = info->dlpi_addr + p->p_vaddr;
            if (!low || at < low) low = at;
            if (at + p->p_memsz > high) high = at + p->p_memsz;
        }
    }
    return 1;
}

__attribute__((constructor)) static void begin(void) {
    dl_iterate_phdr(first, 0);
    nth = number("HOSTILE_NTH"), from = number("HOSTILE_FROM");
    seed = number("HOSTILE_SEED"), chance = number("HOSTILE_CHANCE");
    threads_from = number("HOSTILE_THREADS"), hold_in = number("HOSTILE_HOLD");
    const char *name = getenv("HOSTILE_BOARD");
    int file = name ? open(name, O_RDWR | O_CREAT, 0600) : -1;
    if (file >= 0 && ftruncate(file, 4096) == 0) {
        void *page = mmap(0, 4096, PROT_READ | PROT_WRITE, MAP_SHARED, file, 0);
        if (page != MAP_FAILED) board = page;
    }
    if (file >= 0) close(file);
    ready = 1;
}

static void hold(void) {
    static _Thread_local uint64_t state;
    if (!state) state = (uintptr_t)&state ^ ((uint64_t)getpid() << 32) ^ (uint64_t)clock();
    state ^= state << 13, state ^= state >> 7, state ^= state << 17;
    if (state % hold_in) return;
    struct timespec span = { 0, (long)(state >> 20) % 200000 };
    nanosleep(&span, 0);
}

/* By the draw of the seed the request with this number is refused. */
static int drawn(uint64_t now) {
    uint64_t x = now * 0x9E3779B97F4A7C15u ^ seed * 0xD1B54A32D192ED03u;
    x ^= x >> 31, x *= 0xBF58476D1CE4E5B9u, x ^= x >> 29;
    return x % chance == 0;
}

/* This request is refused. */
static int refuse(void *back) {
    if (!ready || (uintptr_t)back < low || (uintptr_t)back >= high) return 0;
    if (hold_in) hold();
    uint64_t now = ++board->asked;
    if (!(nth && now == nth) && !(from && now >= from) && !(chance && drawn(now))) return 0;
    board->refused++;
    errno = ENOMEM;
    return 1;
}

#define BACK __builtin_return_address(0)

void *malloc(size_t size) { return refuse(BACK) ? 0 : __libc_malloc(size); }
void *calloc(size_t count, size_t size) { return refuse(BACK) ? 0 : __libc_calloc(count, size); }
void *realloc(void *block, size_t size) { return size && refuse(BACK) ? 0 : __libc_realloc(block, size); }
void *aligned_alloc(size_t align, size_t size) { return refuse(BACK) ? 0 : __libc_memalign(align, size); }
void *memalign(size_t align, size_t size) { return refuse(BACK) ? 0 : __libc_memalign(align, size); }

int posix_memalign(void **into, size_t align, size_t size) {
    if (refuse(BACK)) return ENOMEM;
    void *block = __libc_memalign(align, size);
    if (!block) return ENOMEM;
    *into = block;
    return 0;
}

int pthread_create(pthread_t *thread, const pthread_attr_t *attr, void *(*start)(void *), void *arg) {
    static int (*real)(pthread_t *, const pthread_attr_t *, void *(*)(void *), void *);
    if (!real) *(void **)&real = dlsym(RTLD_NEXT, "pthread_create");
    uint64_t now = ++board->threads;
    if (threads_from && now >= threads_from) {
        board->unthreaded++;
        return EAGAIN;
    }
    return real(thread, attr, start, arg);
}
