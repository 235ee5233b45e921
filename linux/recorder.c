/* /init of the virtual machine that linux/record boots. ftrace logs the events of kmem while five processes allocate pages and
 * objects. Then ftrace's own file is sent to port 0xe9. */
#define _GNU_SOURCE
#include <errno.h>
#include <fcntl.h>
#include <stdio.h>
#include <stdlib.h>
#include <string.h>
#include <sys/io.h>
#include <sys/mman.h>
#include <sys/mount.h>
#include <sys/prctl.h>
#include <sys/reboot.h>
#include <sys/socket.h>
#include <sys/stat.h>
#include <sys/wait.h>
#include <unistd.h>

#define TRACING "/sys/kernel/tracing/"
enum { ROUNDS = 20, PORT = 0xe9, PAGE = 4096, HUGE_PAGE = 1 << 21 };

static void die(const char *what)
{
    fprintf(stderr, "init: %s: %s\n", what, strerror(errno));
    _exit(1);
}

static void put(const char *path, const char *text)
{
    const int file = open(path, O_WRONLY);
    if (file < 0 || write(file, text, strlen(text)) < 0 || close(file)) die(path);
}

/* ---- The processes ------------------------------------------------------------------------------------------------------- */

static char bytes[256 << 10];

/* Writes a file in memory, of another size in each round, and removes the file that it wrote three rounds before. */
static void write_files(int round)
{
    char name[20];
    snprintf(name, sizeof name, "/files/%d", round);
    const int file = open(name, O_WRONLY | O_CREAT, 0600);
    if (file < 0 || write(file, bytes, (size_t)(round % 7 + 1) * sizeof bytes / 8) < 0 || close(file)) die("a file");
    snprintf(name, sizeof name, "/files/%d", round - 3);
    unlink(name);
}

/* Fills a pipe and a socket, which are emptied when they are closed. */
static void send_bytes(int round)
{
    int ends[2], sockets[2];
    if (pipe(ends) || socketpair(AF_UNIX, SOCK_STREAM, 0, sockets)) die("a pipe");
    if (write(ends[1], bytes, 60000) < 0 || write(sockets[1], bytes, (size_t)(round % 5 + 1) * 8000) < 0) die("a pipe");
    for (int i = 0; i < 2; i++) close(ends[i]), close(sockets[i]);
}

static char *mapped(size_t size)
{
    char *at = mmap(NULL, size, PROT_READ | PROT_WRITE, MAP_PRIVATE | MAP_ANONYMOUS, -1, 0);
    if (at == MAP_FAILED) die("a map");
    return at;
}

/* Maps memory, stores in each page of it, and unmaps it in two parts. */
static void map_memory(int round)
{
    const size_t size = (size_t)(round % 4 + 1) * 32 * PAGE;
    char *at = mapped(size);
    for (size_t i = 0; i < size; i += PAGE) at[i] = 1;
    if (munmap(at + size / 4, size / 2) || munmap(at, size)) die("a map");
}

/* In each tenth round maps a huge page, if Linux has one. Linux splits it and frees its pages one by one. */
static void map_huge(int round)
{
    if (round % 10) return;
    char *at = mapped(2 * HUGE_PAGE), *huge = at + (HUGE_PAGE - (size_t)at % HUGE_PAGE) % HUGE_PAGE;
    if (madvise(huge, HUGE_PAGE, MADV_HUGEPAGE)) die("a huge page");
    *huge = 1;
    put("/sys/kernel/debug/split_huge_pages", "1");
    if (munmap(at, 2 * HUGE_PAGE)) die("a huge page");
}

static void fork_child(int round)
{
    const pid_t child = fork();
    if (!child) _exit(bytes[round]++);
    if (child < 0 || waitpid(child, NULL, 0) != child) die("a child");
}

static const struct {
    const char *name;
    void (*run)(int round);
} processes[] = {{"files", write_files}, {"pipes", send_bytes}, {"maps", map_memory}, {"huge", map_huge}, {"forks", fork_child}};
enum { PROCESSES = sizeof processes / sizeof *processes };

static void run_processes(void)
{
    int status;
    for (unsigned i = 0; i < PROCESSES; i++) {
        const pid_t process = fork();
        if (process < 0) die("a process");
        if (process) continue;
        prctl(PR_SET_NAME, processes[i].name);
        for (int round = 0; round < ROUNDS; round++) processes[i].run(round), usleep(1000);
        _exit(0);
    }
    for (unsigned i = 0; i < PROCESSES; i++)
        if (wait(&status) < 0 || status) die("a process failed");
}

/* ---- The log ------------------------------------------------------------------------------------------------------------- */

static void log_events(const char *is_on)
{
    static const char *const events[] = {"mm_page_alloc", "mm_page_free", "kmem_cache_alloc", "kmem_cache_free", "kmalloc",
                                         "kfree"};
    char path[100];
    for (unsigned i = 0; i < sizeof events / sizeof *events; i++) {
        snprintf(path, sizeof path, TRACING "events/kmem/%s/enable", events[i]);
        put(path, is_on);
    }
}

static void send_log(void)
{
    static char text[1 << 16];
    ssize_t got;
    const int file = open(TRACING "trace", O_RDONLY);
    while ((got = read(file, text, sizeof text)) > 0) {
        const char *from = text;
        size_t left = (size_t)got;
        __asm__ volatile("rep outsb" : "+S"(from), "+c"(left) : "d"(PORT) : "memory");
    }
    if (file < 0 || got < 0) die("the log");
}

static void mount_at(const char *path, const char *kind)
{
    mkdir(path, 0755);
    if (mount(kind, path, kind, 0, NULL)) die(path);
}

int main(void)
{
    mkdir("/dev", 0755);
    mount("devtmpfs", "/dev", "devtmpfs", 0, NULL);
    dup2(open("/dev/console", O_RDWR), 2);
    if (getpid() != 1 || ioperm(PORT, 1, 1)) die("not the init of linux/record");
    mount_at("/sys", "sysfs"), mount_at("/sys/kernel/debug", "debugfs"), mount_at("/sys/kernel/tracing", "tracefs");
    mount_at("/files", "tmpfs");
    put("/sys/kernel/mm/transparent_hugepage/enabled", "madvise"); /* Linux disables it if there is little memory */
    put(TRACING "trace_clock", "global");
    put(TRACING "buffer_size_kb", "16384");
    log_events("1");
    run_processes();
    put(TRACING "tracing_on", "0");
    send_log();
    reboot(RB_POWER_OFF);
}
