/* The sizes of the machine. The compiler's command line can have others: `demo-kernel/run --figures` compiles with several. */
#ifndef SIZES_H
#define SIZES_H

#ifndef ORDER
#define ORDER 4
#define SUPERBLOCKS 6
#define TENANTS 3
#endif

enum { FRAME = 4096, SUPERBLOCK = FRAME << ORDER };

#endif
