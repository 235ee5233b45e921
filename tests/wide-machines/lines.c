/* Runs the lines of standard input on a machine, and writes the replies. The RAM is address space that is not backed yet. The
 * buffer has exactly as many bytes as partmem_line requires.
 *
 *     lines ORDER SUPERBLOCKS TENANTS
 */
#define _DEFAULT_SOURCE /* mmap without a file */
#include <stdio.h>
#include <stdlib.h>
#include <sys/mman.h>

#include "partmem.h"

static void check(int holds, const char *what)
{
    if (holds) return;
    fprintf(stderr, "lines: %s\n", what);
    exit(1);
}

static void *address_space(size_t bytes)
{
    void *at = mmap(NULL, bytes, PROT_READ | PROT_WRITE, MAP_PRIVATE | MAP_ANONYMOUS | MAP_NORESERVE, -1, 0);
    check(at != MAP_FAILED, "no address space");
    return at;
}

int main(int words, char **word)
{
    static partmem_machine machine;
    char line[4096];
    check(words == 4, "three numbers are needed");
    const partmem_config config = {(uint32_t)atoi(word[1]), (uint32_t)atoi(word[2]), (uint32_t)atoi(word[3])};
    const partmem_memory memory = {address_space(PARTMEM_RAM_BYTES(config.order, config.superblocks)),
                                   address_space(PARTMEM_TABLE_BYTES(config.order, config.superblocks, config.tenants))};
    const size_t bytes = config.superblocks > 256 ? ((size_t)config.superblocks + 1) * 256 : PARTMEM_LINE_BUFFER_BYTES;
    char *buffer = malloc(bytes);
    check(buffer && partmem_boot_in(&machine, &config, &memory) == PARTMEM_DONE, "no machine");
    for (size_t length = 0, written;;) {
        int byte = getchar();
        if (byte == EOF) break;
        check(length < sizeof line, "a line is too long");
        if (byte != '\n') {
            line[length++] = (char)byte;
            continue;
        }
        check(partmem_line(&machine, line, length, buffer, bytes, &written) == PARTMEM_DONE, "a line is refused");
        fwrite(buffer, 1, written, stdout);
        length = 0;
    }
    check(partmem_end(&machine) == PARTMEM_DONE, "the machine does not end");
    return 0;
}
