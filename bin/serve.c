/* Loaded into a host by bin/campaign (LD_PRELOAD), so that one start of it serves many runs: its main is called for each line on
   standard input, which is `REFUSED WORD..`, with the words of the run. The allocation of that number is refused (0: none; -N: the
   Nth and all behind it). A run reads and writes the files in, out and err of this folder, and has twenty seconds. The answer is the
   line `STATUS ALLOCATIONS MOST OVER LEFT FILE`: the status, how many allocations there were, how many bytes were held at most, by how
   many one allocation was larger than 64 times all that had been read till then, how many are still held, and the next number of a
   file. */
#define _GNU_SOURCE
#include <dlfcn.h>
#include <errno.h>
#include <fcntl.h>
#include <link.h>
#include <malloc.h>
#include <setjmp.h>
#include <stdio.h>
#include <stdlib.h>
#include <string.h>
#include <sys/syscall.h>
#include <unistd.h>

extern void *__libc_malloc(size_t), *__libc_calloc(size_t, size_t), *__libc_realloc(void *, size_t), __libc_free(void *);

typedef int Main(int, char **, char **);
typedef void First(int, char **, char **);

static struct {
    long allocations, read, held, most, over;
} counts;
static long refused;
static int runs, ended, word_count;
static char **words;
static Main *host;
static jmp_buf end;

static long add(long *count, long by) { return __atomic_add_fetch(count, by, __ATOMIC_RELAXED); }

static void at_least(long *most, long to) {
    long was = add(most, 0);
    while (to > was && !__atomic_compare_exchange_n(most, &was, to, 0, __ATOMIC_RELAXED, __ATOMIC_RELAXED)) {
    }
}

static int is_refused(size_t size) {
    if (!runs) return 0;
    at_least(&counts.over, (long)size - 64 * add(&counts.read, 0));
    long number = add(&counts.allocations, 1);
    if (number != refused && (refused >= 0 || number < -refused)) return 0;
    errno = ENOMEM;
    return 1;
}

static void *held(void *place, long before) {
    if (runs) at_least(&counts.most, add(&counts.held, (long)malloc_usable_size(place) - before));
    return place;
}

void *malloc(size_t size) { return is_refused(size) ? NULL : held(__libc_malloc(size), 0); }

void *calloc(size_t count, size_t size) { return is_refused(count * size) ? NULL : held(__libc_calloc(count, size), 0); }

void *realloc(void *place, size_t size) {
    long before = malloc_usable_size(place);
    return is_refused(size) ? NULL : held(__libc_realloc(place, size), before);
}

void free(void *place) {
    if (runs) add(&counts.held, -(long)malloc_usable_size(place));
    __libc_free(place);
}

static ssize_t seen(ssize_t length) {
    if (runs && length > 0) add(&counts.read, length);
    return length;
}

ssize_t read(int file, void *place, size_t length) { return seen(syscall(SYS_read, file, place, length)); }

ssize_t pread(int file, void *place, size_t length, off_t at) { return seen(syscall(SYS_pread64, file, place, length, at)); }

void _exit(int status) {
    ended = status;
    if (runs) longjmp(end, 1);
    for (;;) syscall(SYS_exit_group, status);
}

static void put(const char *name, int flags, int as) {
    int file = open(name, flags, 0600);
    if (file < 0 || dup2(file, as) < 0) abort();
    close(file);
}

/* Calls what the host wants called before its main, with these words. */
static int prepare(struct dl_phdr_info *program, size_t size, void *environment) {
    (void)size;
    const ElfW(Dyn) *entry = NULL;
    for (int k = 0; k < program->dlpi_phnum; k++)
        if (program->dlpi_phdr[k].p_type == PT_DYNAMIC) entry = (void *)(program->dlpi_addr + program->dlpi_phdr[k].p_vaddr);
    First **first = NULL;
    size_t count = 0;
    for (; entry && entry->d_tag != DT_NULL; entry++) {
        if (entry->d_tag == DT_INIT_ARRAY) first = (void *)(program->dlpi_addr + entry->d_un.d_ptr);
        if (entry->d_tag == DT_INIT_ARRAYSZ) count = entry->d_un.d_val / sizeof *first;
    }
    for (size_t k = 0; k < count; k++) first[k](word_count, words, environment);
    return 1;
}

static int serve(int count, char **arguments, char **environment) {
    static char line[4096], *all[64];
    int from = dup(0), to = dup(1);
    words = all;
    words[0] = count ? arguments[0] : "host";
    for (;;) {
        ssize_t length = syscall(SYS_read, from, line, sizeof line);
        if (length <= 0) return 0;
        line[length - 1] = 0;
        memset(&counts, 0, sizeof counts);
        refused = atol(strtok(line, " "));
        for (word_count = 1; word_count < 63 && (words[word_count] = strtok(NULL, " ")); word_count++) {
        }
        words[word_count] = NULL;
        put("in", O_RDONLY, 0);
        put("out", O_WRONLY | O_CREAT | O_TRUNC, 1);
        put("err", O_WRONLY | O_CREAT | O_TRUNC, 2);
        dl_iterate_phdr(prepare, environment);
        alarm(20);
        runs = 1;
        if (!setjmp(end)) ended = host(word_count, words, environment);
        runs = 0;
        alarm(0);
        int file = dup(0);
        close(file);
        dprintf(to, "%d %ld %ld %ld %ld %d\n", ended & 255, counts.allocations, counts.most, counts.over, counts.held, file);
    }
}

int __libc_start_main(Main *main, int count, char **arguments, void (*init)(void), void (*fini)(void), void (*loader)(void), void *stack) {
    int (*start)(Main *, int, char **, void (*)(void), void (*)(void), void (*)(void), void *) = dlsym(RTLD_NEXT, "__libc_start_main");
    host = main;
    return start(serve, count, arguments, init, fini, loader, stack);
}
