/* Allocates memory by each function that machines/malloc_log.c logs, except memalign and valloc, in sizes that nothing else
 * requests. Then it kills itself. */
#define _GNU_SOURCE
#include <pthread.h>
#include <signal.h>
#include <stdlib.h>
#include <sys/wait.h>
#include <unistd.h>

static void *volatile passed;

static void *other_thread(void *unused)
{
    (void)unused;
    passed = malloc(1901);
    return NULL;
}

int main(int words, char **unused)
{
    (void)unused;
    if (words > 1) {
        free(malloc(1501));
        return 0;
    }
    void *at = malloc(1);
    void *zeroed = calloc(3, 617);
    at = realloc(at, 5003);
    at = reallocarray(at, 7, 907);
    void *aligned = NULL;
    if (posix_memalign(&aligned, 512, 2100) || posix_memalign(&aligned, 3, 1) == 0 || (size_t)aligned % 512)
        return 1;
    free(zeroed);
    free(NULL);
    free(aligned);
    free(aligned_alloc(1024, 3000));
    volatile size_t much = (size_t)-1 / 2;
    void *refused = realloc(at, much);
    if (refused || malloc(much) || calloc(much, 4))
        return 2;
    free(at);

    /* The child has its own log, and the program that it becomes by exec has another one. */
    pid_t child = fork();
    if (child == 0) {
        free(malloc(1801));
        execl("/proc/self/exe", "child", "alone", NULL);
        _exit(3);
    }
    int status;
    pthread_t thread;
    if (waitpid(child, &status, 0) != child || pthread_create(&thread, NULL, other_thread, NULL) || pthread_join(thread, NULL))
        return 4;
    free(passed);

    /* Fills more than one window of the log, after files 3 to 1023 are closed and the folder has changed. At last the process
     * kills itself, so that no code of the library runs at its end. */
    for (int file = 3; file < 1024; file++)
        close(file);
    if (chdir("/"))
        return 5;
    for (int some = 0; some < 4000; some++)
        free(malloc(1701));
    if (dup(STDERR_FILENO) != 3)
        return 6; /* a file of the log was left open */
    malloc(1601);
    raise(SIGKILL);
}
