/* Logs the calls of malloc and free that a program makes, for from-malloc. It is loaded before the C library, which has to be
   glibc:

       cc -O2 -shared -fPIC -o malloc_log.so machines/malloc_log.c
       MALLOC_LOG=sort.log LD_PRELOAD=$PWD/malloc_log.so sort FILE

   machines/malloc_log does both.

   Each process, and each program that it becomes by exec, has its own log: sort.log.PID, then sort.log.PID-2 and so on. The name
   is malloc.log if MALLOC_LOG is not set. A relative name is made absolute in the first process, for its children too. If the
   name is empty, nothing is logged.

   The first line is "# program NAME", with the name by which the program was called. Then each call has a line,
   "SECONDS malloc POINTER BYTES" or "SECONDS free POINTER", with POINTER in hex digits. A realloc is logged as a free and a
   malloc. The lines are written to a shared mapping of the file, so none is lost however the process ends. The file ends in
   zeroes.

   If MALLOC_LOG_CALLERS is set and not empty, a malloc line ends in " FILE+OFFSET", the address to which its call returns: FILE
   is the number of a loaded file, in decimal, and OFFSET is the offset from where it is loaded, in hex digits. The line
   "# file FILE is PATH" comes before the first line with that file. Callers are logged only with glibc 2.35 or newer.

   If a log cannot be written, the library says so on standard error, and the program runs on without a log. */
#define _GNU_SOURCE
#include <dlfcn.h>
#include <errno.h>
#include <fcntl.h>
#include <inttypes.h>
#include <link.h>
#include <malloc.h>
#include <pthread.h>
#include <signal.h>
#include <stdbool.h>
#include <stdio.h>
#include <stdlib.h>
#include <string.h>
#include <sys/mman.h>
#include <sys/uio.h>
#include <time.h>
#include <unistd.h>

void *__libc_malloc(size_t bytes);
void *__libc_calloc(size_t count, size_t bytes);
void *__libc_realloc(void *old, size_t bytes);
void *__libc_memalign(size_t alignment, size_t bytes);
void __libc_free(void *old);

#define VARIABLE "MALLOC_LOG"
enum { WINDOW_BYTES = 1 << 16, PAGE_BYTES = 1 << 12, PATH_BYTES = 4096, NAME_BYTES = 200, MAX_FILES = 1000 };

/* A fork handler of another library may allocate while this is held, so it is recursive. */
static pthread_mutex_t lock = PTHREAD_RECURSIVE_MUTEX_INITIALIZER_NP;
static char entry[sizeof VARIABLE "=" + PATH_BYTES] = VARIABLE "="; /* the variable in the environment of children */
static char *const name = entry + sizeof VARIABLE;                  /* an absolute path; nothing is logged while it is empty */
static char path[PATH_BYTES + 32];
static char head[NAME_BYTES + 32]; /* the first line of each log */
static bool has_callers;
static char own_file[PATH_BYTES]; /* the path of the program's file */
static struct {
    uintptr_t load;
    uint64_t name; /* a hash of the path */
} files[MAX_FILES]; /* the loaded files that this log has named */
static int file_count;
static char *window;       /* the part of the log that is being written, or NULL before the first line */
static off_t window_start; /* its offset in the file */
static size_t window_used;

static int open_log(void)
{
    if (window)
        return open(path, O_RDWR | O_CLOEXEC);
    snprintf(path, sizeof path, "%s.%d", name, (int)getpid());
    for (int number = 2;; number++) {
        int file = open(path, O_RDWR | O_CREAT | O_EXCL | O_CLOEXEC, 0666);
        if (file >= 0 || errno != EEXIST)
            return file;
        snprintf(path, sizeof path, "%s.%d-%d", name, (int)getpid(), number);
    }
}

/* Maps the next part of the file. Returns 0, or the number of the error. */
static int map_window(int file)
{
    int error = posix_fallocate(file, window_start, WINDOW_BYTES);
    if (error)
        return error;
    void *mapped = mmap(NULL, WINDOW_BYTES, PROT_READ | PROT_WRITE, MAP_SHARED, file, window_start);
    if (mapped == MAP_FAILED)
        return errno;
    window = mapped;
    return 0;
}

/* Makes space for at least one more line. Returns 0, or the number of the error. The file is open only here, since some programs
   close files that they did not open. */
static int next_window(void)
{
    int file = open_log(), error = file < 0 ? errno : 0;
    if (window) {
        munmap(window, WINDOW_BYTES);
        window = NULL;
        window_start += window_used / PAGE_BYTES * PAGE_BYTES;
        window_used %= PAGE_BYTES;
    }
    if (!error)
        error = map_window(file);
    if (file >= 0)
        close(file);
    return error;
}

/* Blocks SIGXFSZ, which is sent if the log may not grow, and SIGPIPE, which is sent if nobody reads standard error. Stores these
   two in `held`, and the mask of signals from before in `before`. */
static void hold_signals(sigset_t *held, sigset_t *before)
{
    sigemptyset(held);
    sigaddset(held, SIGXFSZ);
    sigaddset(held, SIGPIPE);
    pthread_sigmask(SIG_BLOCK, held, before);
}

/* Drops the signals of `held` that came meanwhile, and restores the mask `before`. */
static void drop_signals(const sigset_t *held, const sigset_t *before)
{
    static const struct timespec at_once;
    while (sigtimedwait(held, NULL, &at_once) > 0)
        ;
    pthread_sigmask(SIG_SETMASK, before, NULL);
}

/* Reports that `what` cannot be written, and why. From now on nothing is logged, neither by this process nor by programs that it
   starts. */
static void give_up(const char *what, int error)
{
    const char *texts[] = {"malloc_log: cannot write ", what, ": ", strerrordesc_np(error), "; the program runs on without a log\n"};
    struct iovec parts[5];
    for (int i = 0; i < 5; i++)
        parts[i] = (struct iovec){(char *)texts[i], strlen(texts[i])};
    sigset_t held, before;
    hold_signals(&held, &before);
    (void)!writev(STDERR_FILENO, parts, 5);
    drop_signals(&held, &before);
    name[0] = 0;
}

/* Goes to the next window, or gives up. The first window begins with the head of the log. */
static void begin_window(void)
{
    bool is_first = !window;
    sigset_t held, before;
    hold_signals(&held, &before);
    int error = next_window();
    drop_signals(&held, &before);
    if (error) {
        give_up(path, error);
    } else if (is_first) {
        window_used = strlen(head);
        memcpy(window, head, window_used);
    }
}

/* Appends a line, which must be shorter than a window, to the log. Does nothing if logging has stopped. */
static void put(const char *line, size_t length)
{
    if (name[0] && (!window || window_used + length > WINDOW_BYTES))
        begin_window();
    if (name[0]) {
        memcpy(window + window_used, line, length);
        window_used += length;
    }
}

/* Replaces each control character of a line by a question mark, and appends a newline. Returns the new length. */
static size_t end_line(char *line)
{
    size_t length = strlen(line);
    for (size_t at = 0; at < length; at++)
        if ((unsigned char)line[at] < ' ' || line[at] == 127)
            line[at] = '?';
    line[length] = '\n';
    line[length + 1] = 0;
    return length + 1;
}

/* Returns the number of the file that is loaded at `load`, or -1 if it has none and MAX_FILES files have one. When a file gets
   its number, a line of the log says so. */
static int file_of(uintptr_t load, const char *loaded)
{
    static char line[PATH_BYTES + 32];
    uint64_t sum = 14695981039346656037u; /* Fowler, Noll and Vo's hash */
    for (const char *at = loaded; *at; at++)
        sum = (sum ^ (unsigned char)*at) * 1099511628211u;
    for (int file = 0; file < file_count; file++)
        if (files[file].load == load && files[file].name == sum)
            return file;
    if (file_count == MAX_FILES)
        return -1;
    files[file_count].load = load;
    files[file_count].name = sum;
    snprintf(line, sizeof line, "# file %d is %.*s", file_count, PATH_BYTES, loaded[0] ? loaded : own_file);
    put(line, end_line(line));
    return file_count++;
}

/* Writes " FILE+OFFSET" for a caller. Returns the number of characters: 0 if callers are not logged, or if the caller is in no
   file with a number. This function takes no lock of the loader, since another thread may hold that lock and wait for `lock`. */
static int write_caller(char *to, size_t size, void *caller)
{
#if __GLIBC_PREREQ(2, 35)
    struct dl_find_object found;
    if (has_callers && !_dl_find_object(caller, &found)) {
        const struct link_map *loaded = found.dlfo_link_map;
        int file = file_of(loaded->l_addr, loaded->l_name);
        return file < 0 ? 0 : snprintf(to, size, " %d+%" PRIxPTR, file, (uintptr_t)caller - loaded->l_addr);
    }
#endif
    (void)to, (void)size, (void)caller;
    return 0;
}

static void add_line(const char *what, const void *at, const size_t *bytes, void *caller)
{
    if (!name[0])
        return;
    int error = errno;
    char line[160];
    struct timespec now;
    pthread_mutex_lock(&lock);
    clock_gettime(CLOCK_MONOTONIC, &now);
    int length = snprintf(line, sizeof line, "%lld.%09ld %s %" PRIxPTR, (long long)now.tv_sec, now.tv_nsec, what, (uintptr_t)at);
    if (bytes) {
        length += snprintf(line + length, sizeof line - (size_t)length, " %zu", *bytes);
        length += write_caller(line + length, sizeof line - (size_t)length, caller);
    }
    line[length++] = '\n';
    put(line, (size_t)length);
    pthread_mutex_unlock(&lock);
    errno = error;
}

/* A malloc is logged after the C library's call, and a free before it. So if another thread gets the freed bytes, its malloc
   comes after the free in the log. */
static void *log_malloc(void *at, size_t bytes, void *caller)
{
    if (at)
        add_line("malloc", at, &bytes, caller);
    return at;
}

static void log_free(void *old)
{
    if (old)
        add_line("free", old, NULL, NULL);
}

static void before_fork(void) { pthread_mutex_lock(&lock); }
static void after_fork_in_parent(void) { pthread_mutex_unlock(&lock); }

static void after_fork_in_child(void)
{
    if (window)
        munmap(window, WINDOW_BYTES);
    window = NULL;
    window_start = 0;
    window_used = 0;
    file_count = 0;
    lock = (pthread_mutex_t)PTHREAD_RECURSIVE_MUTEX_INITIALIZER_NP;
}

/* Stores the absolute path of the given name in `path`, and tests that its folder can be written. Returns 0, or the number of the
   error. */
static int make_path(const char *given)
{
    size_t folder = 0;
    if (given[0] != '/') {
        if (!getcwd(path, PATH_BYTES))
            return errno;
        folder = strlen(path);
        path[folder++] = '/';
    }
    if (folder + strlen(given) >= PATH_BYTES)
        return ENAMETOOLONG;
    strcpy(path + folder, given);
    char *end = strrchr(path, '/') + 1, first = *end;
    *end = 0;
    int error = access(path, W_OK | X_OK) ? errno : 0;
    *end = first;
    return error;
}

/* Puts `entry` into the environment. Does not call putenv: a shell may define its own putenv, which does not put it there. */
static void put_entry(void)
{
    size_t count = 0;
    for (; environ && environ[count]; count++) {
        if (strncmp(environ[count], entry, sizeof VARIABLE) == 0) {
            environ[count] = entry;
            return;
        }
    }
    char **more = __libc_calloc(count + 2, sizeof *more);
    if (!more)
        return;
    if (count)
        memcpy(more, environ, count * sizeof *more);
    more[count] = entry;
    environ = more;
}

/* Makes the first line of a log in `head`. Sets `has_callers` and, if callers are logged, the path `own_file`. */
static void make_head(void)
{
    const char *called = program_invocation_short_name, *wanted = getenv("MALLOC_LOG_CALLERS");
    snprintf(head, sizeof head, "# program %.*s", NAME_BYTES, called && called[0] ? called : "without a name");
    end_line(head);
    has_callers = wanted && wanted[0];
    ssize_t length = has_callers ? readlink("/proc/self/exe", own_file, sizeof own_file - 1) : 0;
    if (length <= 0)
        strcpy(own_file, "unknown");
}

/* `name` is set last, so that nothing is logged before all else is ready. */
__attribute__((constructor)) static void begin(void)
{
    pthread_atfork(before_fork, after_fork_in_parent, after_fork_in_child);
    const char *found = getenv(VARIABLE), *given = found ? found : "malloc.log";
    int error = given[0] ? make_path(given) : 0;
    make_head();
    put_entry();
    if (error)
        give_up(given, error);
    else if (given[0])
        strcpy(name, path);
}

/* In a function that a program calls, the address in the program to which the call returns. */
#define CALLER __builtin_return_address(0)

static void *resize(void *old, size_t bytes, void *caller)
{
    log_free(old);
    void *at = __libc_realloc(old, bytes);
    if (!at && old && bytes)
        log_malloc(old, malloc_usable_size(old), caller); /* the realloc failed: the old memory stays live */
    return log_malloc(at, bytes, caller);
}

/* Allocates aligned memory. Logs its size rounded up to a multiple of the alignment. */
static void *align(size_t alignment, size_t bytes, void *caller)
{
    void *at = __libc_memalign(alignment, bytes);
    return log_malloc(at, alignment ? (bytes + alignment - 1) / alignment * alignment : bytes, caller);
}

void *malloc(size_t bytes) { return log_malloc(__libc_malloc(bytes), bytes, CALLER); }
void *calloc(size_t count, size_t bytes) { return log_malloc(__libc_calloc(count, bytes), count * bytes, CALLER); }

void free(void *old)
{
    log_free(old);
    __libc_free(old);
}

void *realloc(void *old, size_t bytes) { return resize(old, bytes, CALLER); }

void *reallocarray(void *old, size_t count, size_t bytes)
{
    if (bytes && count > SIZE_MAX / bytes) {
        errno = ENOMEM;
        return NULL;
    }
    return resize(old, count * bytes, CALLER);
}

void *memalign(size_t alignment, size_t bytes) { return align(alignment, bytes, CALLER); }
void *aligned_alloc(size_t alignment, size_t bytes) { return align(alignment, bytes, CALLER); }
void *valloc(size_t bytes) { return align(PAGE_BYTES, bytes, CALLER); }

int posix_memalign(void **at, size_t alignment, size_t bytes)
{
    if (alignment % sizeof(void *) || !alignment || alignment & (alignment - 1))
        return EINVAL;
    int error = errno;
    void *got = align(alignment, bytes, CALLER);
    errno = error;
    if (!got)
        return ENOMEM;
    *at = got;
    return 0;
}
