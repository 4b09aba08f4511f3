// Hostile surroundings for a program, loaded before it (LD_PRELOAD): an allocation is refused, a read of standard input or a
// write of standard output fails or moves few bytes. What is wanted stands in the environment; 0 is as none.
//
//   HOSTILE_REFUSE=N       the Nth allocation is refused; with HOSTILE_ONWARD=1 each later one as well
//   HOSTILE_FAIL_READ=N    the Nth read fails       HOSTILE_SHORT_READ=K    a read moves at most K bytes
//   HOSTILE_FAIL_WRITE=N   the Nth write fails      HOSTILE_SHORT_WRITE=K   a write moves at most K bytes
//   HOSTILE_ERROR=E        errno of a call that fails; 0: it moves nothing, and is no error
//   HOSTILE_TALLY=FILE     a file as long as `struct tally`, into which the calls are counted as they come
//
// Only what the program does is counted and refused, not what the loader and the C library do before and after it: the C
// library starts a program by __libc_start_main, which is handed the program's main. It is handed ours in its place, so all
// counts begin with the first call of main, and end when main returns. For glibc, and for programs of one thread.
#define _GNU_SOURCE
#include <dlfcn.h>
#include <errno.h>
#include <fcntl.h>
#include <stdlib.h>
#include <sys/mman.h>
#include <sys/syscall.h>
#include <unistd.h>

// The C library's own allocations, under names that nothing here replaces.
extern void *__libc_malloc(size_t);
extern void *__libc_calloc(size_t, size_t);
extern void *__libc_realloc(void *, size_t);
extern void *__libc_memalign(size_t, size_t);

// Calls since main began, and how many of them were refused or failed. trials.py reads it as five numbers.
struct tally {
    long allocations, reads, writes, refused, failed;
};

static struct {
    long refuse, onward, fail_read, fail_write, error, short_read, short_write;
} asked;

static struct tally unshared, *tally = &unshared;
static int is_main_running;

static long number(const char *name) {
    const char *text = getenv(name);
    return text ? atol(text) : 0;
}

// The file is mapped, so that the counts stay in it however the program ends.
static void share_tally(const char *path) {
    int file = open(path, O_RDWR | O_CLOEXEC);
    if (file < 0) return;
    void *at = mmap(NULL, sizeof(struct tally), PROT_READ | PROT_WRITE, MAP_SHARED, file, 0);
    if (at != MAP_FAILED) tally = at;
    close(file);
}

static void begin(void) {
    asked.refuse = number("HOSTILE_REFUSE");
    asked.onward = number("HOSTILE_ONWARD");
    asked.fail_read = number("HOSTILE_FAIL_READ");
    asked.fail_write = number("HOSTILE_FAIL_WRITE");
    asked.error = number("HOSTILE_ERROR");
    asked.short_read = number("HOSTILE_SHORT_READ");
    asked.short_write = number("HOSTILE_SHORT_WRITE");
    const char *path = getenv("HOSTILE_TALLY");
    if (path) share_tally(path);
    is_main_running = 1;
}

typedef int Main(int, char **, char **);
typedef int Start(Main *, int, char **, void (*)(void), void (*)(void), void (*)(void), void *);

static Main *program_main;

static int main_watched(int argc, char **argv, char **envp) {
    begin();
    int status = program_main(argc, argv, envp);
    is_main_running = 0;
    return status;
}

int __libc_start_main(Main *main, int argc, char **argv, void (*init)(void), void (*fini)(void),
                      void (*loader_fini)(void), void *stack_end) {
    Start *start = (Start *)dlsym(RTLD_NEXT, "__libc_start_main");
    program_main = main;
    return start(main_watched, argc, argv, init, fini, loader_fini, stack_end);
}

// ---- allocations

static int is_refused(void) {
    if (!is_main_running) return 0;
    long n = ++tally->allocations;
    int refused = asked.refuse && (n == asked.refuse || (asked.onward && n > asked.refuse));
    if (refused) {
        tally->refused++;
        errno = ENOMEM;
    }
    return refused;
}

void *malloc(size_t size) { return is_refused() ? NULL : __libc_malloc(size); }

void *calloc(size_t count, size_t size) { return is_refused() ? NULL : __libc_calloc(count, size); }

void *realloc(void *old, size_t size) { return is_refused() ? NULL : __libc_realloc(old, size); }

void *reallocarray(void *old, size_t count, size_t size) {
    size_t whole;
    if (__builtin_mul_overflow(count, size, &whole)) {
        errno = ENOMEM;
        return NULL;
    }
    return realloc(old, whole);
}

void *memalign(size_t align, size_t size) { return is_refused() ? NULL : __libc_memalign(align, size); }

void *aligned_alloc(size_t align, size_t size) { return memalign(align, size); }

int posix_memalign(void **block, size_t align, size_t size) {
    int before = errno;
    void *got = memalign(align, size);
    errno = before;
    if (!got) return ENOMEM;
    *block = got;
    return 0;
}

// ---- reads and writes

// What a call that was asked to fail returns.
static ssize_t failure(void) {
    tally->failed++;
    if (asked.error == 0) return 0;
    errno = (int)asked.error;
    return -1;
}

static size_t shortened(size_t size, long most) { return most && size > (size_t)most ? (size_t)most : size; }

ssize_t read(int file, void *to, size_t size) {
    if (is_main_running && file == STDIN_FILENO) {
        if (++tally->reads == asked.fail_read) return failure();
        size = shortened(size, asked.short_read);
    }
    return syscall(SYS_read, file, to, size);
}

ssize_t write(int file, const void *from, size_t size) {
    if (is_main_running && file == STDOUT_FILENO) {
        if (++tally->writes == asked.fail_write) return failure();
        size = shortened(size, asked.short_write);
    }
    return syscall(SYS_write, file, from, size);
}

// The same under the C library's other names.
ssize_t __read(int file, void *to, size_t size) { return read(file, to, size); }

ssize_t __write(int file, const void *from, size_t size) { return write(file, from, size); }
