/* The calls of /dev/partmem. The administrator, a process with CAP_SYS_ADMIN, grants superblocks to partitions, and binds open
 * files of the device to them. A process with a bound file maps its partition's places with MAP_SHARED, place 0 at offset 0, and
 * allocates page blocks there. An access to a place outside the partition's page blocks raises SIGBUS.
 *
 * A map with PROT_EXEC fails with EPERM. A file that is open only for reading can be bound and mapped for reading. Its other calls
 * fail with EBADF, as all do on a file that is not bound, or no longer. The files of a partition can have 256 maps. One more fails
 * with ENOMEM. If a fork or a split makes more of them, FREE fails with EBUSY. */
#ifndef PARTMEM_DEVICE_H
#define PARTMEM_DEVICE_H

#include <linux/ioctl.h>
#include <linux/types.h>

struct partmem_call {
	__u32 partition;        /* in: the partition that a call of the administrator is about */
	__u32 number;           /* in: a slot, an order or a place, as each call says */
	__u32 status;           /* out: a partmem_status */
	__u32 place, bytes;     /* out: the page block of an ALLOC or a FREE */
	__u32 slot, superblock; /* out: the slot of a GRANT or a MOVE, and its superblock now */
};

/* Calls of the administrator. A reset also ends the bindings of all files to the partition. A file can be bound only once. */
#define PARTMEM_IOC_GRANT _IOWR('m', 1, struct partmem_call)
#define PARTMEM_IOC_TAKE_BACK _IOWR('m', 2, struct partmem_call) /* slot */
#define PARTMEM_IOC_MOVE _IOWR('m', 3, struct partmem_call)      /* slot */
#define PARTMEM_IOC_RESET _IOWR('m', 4, struct partmem_call)
#define PARTMEM_IOC_BIND _IOWR('m', 5, struct partmem_call)

/* Calls on a bound file. */
#define PARTMEM_IOC_ALLOC _IOWR('m', 6, struct partmem_call) /* order */
#define PARTMEM_IOC_FREE _IOWR('m', 7, struct partmem_call)  /* place */

#endif
