/* partmem.ko gives processes page blocks of isolated partitions, with libpartmem_linux.a. device.h says how processes use it. */
#include <linux/capability.h>
#include <linux/fs.h>
#include <linux/miscdevice.h>
#include <linux/mm.h>
#include <linux/module.h>
#include <linux/mount.h>
#include <linux/mutex.h>
#include <linux/pseudo_fs.h>
#include <linux/slab.h>
#include <linux/spinlock.h>
#include <linux/uaccess.h>
#include <linux/version.h>
#include <linux/vmalloc.h>

#include <partmem.h>

#include "device.h"

static unsigned int order = 4, superblocks = 12, partitions = 2;
module_param(order, uint, 0444);
module_param(superblocks, uint, 0444);
module_param(partitions, uint, 0444);

/* The mistakes that the parameter `mistake` plants. Only a module that linux/run builds to test itself has this parameter. */
enum { NO_UNMAP_AT_FREE = 1, NO_UNMAP_AT_MOVE, NO_UNMAP_AT_RESET, MAP_ADDRESS };
#ifdef PARTMEM_MISTAKES
static unsigned int mistake;
module_param(mistake, uint, 0444);
#else
static const unsigned int mistake;
#endif

/* How many mappings a client may have. A call that unmaps goes through all of them under the partition's mutex, and the others of
 * the partition wait meanwhile. If a fork or a split makes more of them, which cannot be refused, FREE is refused. */
enum { MAX_MAPS = 256 };

/* The mutexes of duty 8: one for each partition, which also protects its mappings, and one for the administrator, which is locked
 * first. A page is unmapped before the call that ends its lifetime, and page faults of the partition wait until the call is done
 * (duty 12). Calls and faults of other partitions do not wait. */
static DEFINE_MUTEX(administrator);
static struct mutex *locks; /* by partition */
static partmem_machine machine;
static u8 *ram, *tables;
static u32 unit;  /* bytes of a superblock */
static u32 pages; /* how many pages a partition can name */

/* Each reset of a partition gives it a new client, and ends the bindings of its files to the old one (duty 13). The number of a
 * client is changed under the mutex of its partition and this lock, and read under one of them. A handle is bound once, under the
 * administrator's mutex and this lock. Maps are counted under this lock only, since a process that ends counts them too, and must
 * not wait for a mutex. */
static DEFINE_SPINLOCK(client_lock);
static struct client {
	u64 number; /* at least 1; no client before had it */
	u32 maps;   /* the mappings of files that are bound to this client */
} *clients; /* by partition */

/* The inode of all mappings, by whatever path the device was opened, in a file system of its own. */
static struct inode *node;
static struct vfsmount *mount;
static int mounts;

struct handle {
	u32 partition;
	u64 client; /* the client's number, or 0 if the file is not bound */
};

static partmem_tenant tenant(u32 partition)
{
	return (partmem_tenant){&machine, partition};
}

static bool is_bound(const struct handle *handle)
{
	return handle->client == clients[handle->partition].number;
}

/* Returns a copy of a handle, which may be bound at any time. A copy that is bound stays as it is. */
static struct handle copy_of(const struct handle *handle)
{
	struct handle copy;

	spin_lock(&client_lock);
	copy = *handle;
	spin_unlock(&client_lock);
	return copy;
}

static void begin_client(u32 partition)
{
	static u64 last;

	spin_lock(&client_lock);
	clients[partition] = (struct client){++last, 0};
	spin_unlock(&client_lock);
}

/* Returns the page of the inode that is the client's place 0. Clients have different pages, so unmapping does not go through the
 * mappings that a client before has left. */
static u64 first_page(u64 client)
{
	return (u64)(u32)client * pages;
}

static void unmap(u32 partition, u64 place, u64 bytes, unsigned int unless)
{
	if (mistake != unless)
		unmap_mapping_range(node->i_mapping, (first_page(clients[partition].number) << PAGE_SHIFT) + place, bytes, 1);
}

/* ---- Calls, each under the mutex of its partition. Those of the administrator are under the administrator's mutex too ------ */

static void move(struct partmem_call *call, partmem_slot *moved)
{
	if (call->number < superblocks)
		unmap(call->partition, (u64)call->number * unit, unit, NO_UNMAP_AT_MOVE);
	call->status = partmem_move(tenant(call->partition), call->number, moved);
}

static void reset(struct partmem_call *call)
{
	unmap(call->partition, 0, (u64)pages << PAGE_SHIFT, NO_UNMAP_AT_RESET);
	begin_client(call->partition);
	call->status = partmem_reset(tenant(call->partition));
}

static long call_of_administrator(unsigned int kind, struct handle *handle, struct partmem_call *call)
{
	partmem_slot slot = {0};

	switch (kind) {
	case PARTMEM_IOC_GRANT:
		call->status = partmem_grant(tenant(call->partition), &slot);
		break;
	case PARTMEM_IOC_TAKE_BACK: /* refused if the slot has a page block, so nothing of it is mapped */
		call->status = partmem_take_back(tenant(call->partition), call->number);
		break;
	case PARTMEM_IOC_MOVE:
		move(call, &slot);
		break;
	case PARTMEM_IOC_RESET:
		reset(call);
		break;
	case PARTMEM_IOC_BIND:
		if (handle->client)
			return -EBUSY;
		spin_lock(&client_lock);
		*handle = (struct handle){call->partition, clients[call->partition].number};
		spin_unlock(&client_lock);
		break;
	}
	call->slot = slot.slot;
	call->superblock = slot.superblock;
	return 0;
}

static long call_of_partition(unsigned int kind, const struct handle *handle, struct partmem_call *call)
{
	partmem_lent block;

	if (!is_bound(handle))
		return -EBADF;
	if (kind == PARTMEM_IOC_ALLOC) {
		call->status = partmem_alloc(tenant(handle->partition), call->number, &block);
	} else if (READ_ONCE(clients[handle->partition].maps) > MAX_MAPS) {
		return -EBUSY;
	} else {
		if (!partmem_lend_block(tenant(handle->partition), call->number, &block) && block.place == call->number)
			unmap(handle->partition, block.place, block.bytes, NO_UNMAP_AT_FREE);
		call->status = partmem_free(tenant(handle->partition), call->number);
	}
	call->place = block.place; /* not the address (duty 6) */
	call->bytes = block.bytes;
	return 0;
}

static long locked_call_of_partition(unsigned int kind, struct handle *handle, struct partmem_call *call)
{
	const struct handle copy = copy_of(handle);
	long status;

	if (!copy.client)
		return -EBADF; /* a file that is not bound waits for no partition */
	if (mutex_lock_killable(&locks[copy.partition]))
		return -EINTR;
	status = call_of_partition(kind, &copy, call);
	mutex_unlock(&locks[copy.partition]);
	return status;
}

static long locked_call_of_administrator(unsigned int kind, struct handle *handle, struct partmem_call *call)
{
	long status = -EINTR;

	if (mutex_lock_killable(&administrator))
		return status;
	if (!mutex_lock_killable(&locks[call->partition])) {
		status = call_of_administrator(kind, handle, call);
		mutex_unlock(&locks[call->partition]);
	}
	mutex_unlock(&administrator);
	return status;
}

static long device_ioctl(struct file *file, unsigned int kind, unsigned long at)
{
	const bool is_own = kind == PARTMEM_IOC_ALLOC || kind == PARTMEM_IOC_FREE;
	struct partmem_call call;
	long status;

	if (kind < PARTMEM_IOC_GRANT || kind > PARTMEM_IOC_FREE) /* they are numbered in a row */
		return -ENOTTY;
	if (!is_own && !capable(CAP_SYS_ADMIN))
		return -EPERM;
	if (kind != PARTMEM_IOC_BIND && !(file->f_mode & FMODE_WRITE))
		return -EBADF;
	if (copy_from_user(&call, (void __user *)at, sizeof(call)))
		return -EFAULT;
	if (!is_own && call.partition >= partitions)
		return -EINVAL;
	status = is_own ? locked_call_of_partition(kind, file->private_data, &call)
			: locked_call_of_administrator(kind, file->private_data, &call);
	/* No mutex is locked during the copy, which may fault, and a fault locks the partition's. */
	return !status && copy_to_user((void __user *)at, &call, sizeof(call)) ? -EFAULT : status;
}

/* ---- Mappings have only frame numbers, so nobody (direct I/O, ptrace) can keep using a page after it is unmapped ----------- */

static u8 *address_of(u32 partition, u32 place)
{
	partmem_slot slot;
	partmem_lent block;

	if (mistake == MAP_ADDRESS)
		return partmem_find_slot(tenant(partition), place / unit, &slot)
			? NULL
			: (u8 *)partmem_superblock_address(&machine, slot.superblock) + place % unit;
	return partmem_lend_block(tenant(partition), place, &block) ? NULL : (u8 *)block.at + (place - block.place);
}

static vm_fault_t device_fault(struct vm_fault *fault)
{
	const struct handle handle = copy_of(fault->vma->vm_file->private_data);
	vm_fault_t status = VM_FAULT_SIGBUS;
	u8 *at;

	if (mutex_lock_killable(&locks[handle.partition]))
		return status; /* The process is being killed. If Linux copies for it, that has to end, so the fault is not tried again. */
	if (is_bound(&handle)) {
		at = address_of(handle.partition, (u32)(fault->pgoff - first_page(handle.client)) << PAGE_SHIFT);
		if (at)
			status = vmf_insert_pfn(fault->vma, fault->address, vmalloc_to_pfn(at));
	}
	mutex_unlock(&locks[handle.partition]);
	return status;
}

static int count_map(const struct handle *handle, int change, u32 most)
{
	int status = 0;

	spin_lock(&client_lock);
	if (!is_bound(handle))
		status = -EBADF;
	else if (clients[handle->partition].maps >= most)
		status = -ENOMEM;
	else
		clients[handle->partition].maps += change;
	spin_unlock(&client_lock);
	return status;
}

/* A mapping was copied, by fork or mremap, or a part of it was split off. */
static void map_was_added(struct vm_area_struct *vma)
{
	count_map(vma->vm_file->private_data, 1, U32_MAX);
}

static void map_was_removed(struct vm_area_struct *vma)
{
	count_map(vma->vm_file->private_data, -1, U32_MAX);
}

static const struct vm_operations_struct map_operations = {
	.open = map_was_added,
	.close = map_was_removed,
	.fault = device_fault,
};

static int device_mmap(struct file *file, struct vm_area_struct *vma)
{
	const struct handle *handle = file->private_data;
	int status;

	if (vma->vm_flags & VM_EXEC)
		return -EPERM;
	/* A shared mapping of a file that is open only for reading has VM_MAYSHARE, but not VM_SHARED. */
	if (!(vma->vm_flags & VM_MAYSHARE) || vma->vm_pgoff > pages || vma_pages(vma) > pages - vma->vm_pgoff)
		return -EINVAL;
	status = count_map(handle, 1, MAX_MAPS);
	if (status)
		return status;
	vma->vm_pgoff += first_page(handle->client);
#if LINUX_VERSION_CODE >= KERNEL_VERSION(6, 3, 0)
	vm_flags_mod(vma, VM_PFNMAP | VM_IO | VM_DONTEXPAND | VM_DONTDUMP, VM_MAYEXEC);
#else
	vma->vm_flags = (vma->vm_flags | VM_PFNMAP | VM_IO | VM_DONTEXPAND | VM_DONTDUMP) & ~VM_MAYEXEC;
#endif
	vma->vm_ops = &map_operations;
	return 0;
}

static int device_open(struct inode *inode, struct file *file)
{
	file->private_data = kzalloc(sizeof(struct handle), GFP_KERNEL);
	if (!file->private_data)
		return -ENOMEM;
	file->f_mapping = node->i_mapping;
	return 0;
}

static int device_release(struct inode *inode, struct file *file)
{
	kfree(file->private_data);
	return 0;
}

static const struct file_operations operations = {
	.owner = THIS_MODULE,
	.open = device_open,
	.release = device_release,
	.unlocked_ioctl = device_ioctl,
	.mmap = device_mmap,
};
static struct miscdevice device = {.minor = MISC_DYNAMIC_MINOR, .name = "partmem", .mode = 0600, .fops = &operations};

/* ---- The module ----------------------------------------------------------------------------------------------------------- */

static int begin_file_system(struct fs_context *context)
{
	return init_pseudo(context, 0x70617274) ? 0 : -ENOMEM;
}

/* It has no owner: the module would hold itself. */
static struct file_system_type file_system = {
	.name = "partmem",
	.init_fs_context = begin_file_system,
	.kill_sb = kill_anon_super,
};

static int make_node(void)
{
	const int status = simple_pin_fs(&file_system, &mount, &mounts);

	if (status)
		return status;
	node = alloc_anon_inode(mount->mnt_sb);
	if (!IS_ERR(node))
		return 0;
	simple_release_fs(&mount, &mounts);
	return PTR_ERR(node);
}

static void free_node(void)
{
	iput(node);
	simple_release_fs(&mount, &mounts);
}

static void free_memory(void)
{
	if (ram)
		memset(ram, 0, (size_t)superblocks * unit); /* duty 10 */
	vfree(ram);
	vfree(tables);
	kfree(clients);
	kfree(locks);
}

static int boot(void)
{
	const partmem_config config = {order, superblocks, partitions};
	partmem_memory memory;
	u32 partition;

	memory.ram = ram = vmalloc(PARTMEM_RAM_BYTES(order, superblocks));
	memory.tables = tables = vmalloc(PARTMEM_TABLE_BYTES(order, superblocks, partitions));
	clients = kcalloc(partitions, sizeof(*clients), GFP_KERNEL);
	locks = kcalloc(partitions, sizeof(*locks), GFP_KERNEL);
	if (!ram || !tables || !clients || !locks)
		return -ENOMEM;
	for (partition = 0; partition < partitions; partition++) {
		mutex_init(&locks[partition]);
		begin_client(partition);
	}
	memset(ram, 0xa5, (size_t)superblocks * unit); /* only for the test: the library does not need cleared RAM */
	return partmem_boot_in(&machine, &config, &memory) ? -EINVAL : 0;
}

static int __init start(void)
{
	int status;

	if (partmem_version() / 10000 != PARTMEM_VERSION / 10000 || !boot_cpu_has(X86_FEATURE_POPCNT))
		return -ENODEV; /* the library requires x86-64-v2 */
	if (order < PARTMEM_MIN_ORDER || order > PARTMEM_MAX_ORDER || superblocks < 1 || superblocks > PARTMEM_MAX_SUPERBLOCKS ||
	    superblocks > PARTMEM_MAX_FRAMES >> order || partitions < 1 || partitions > PARTMEM_MAX_TENANTS)
		return -EINVAL;
	unit = PARTMEM_RAM_BYTES(order, 1);
	pages = superblocks << order;
	status = boot();
	if (status)
		goto not_booted;
	status = make_node();
	if (status)
		goto no_node;
	status = misc_register(&device);
	if (!status)
		return 0;
	free_node();
no_node:
	partmem_end(&machine);
not_booted:
	free_memory();
	return status;
}

/* Linux calls this only if no file of the device is open: an open file holds the module. */
static void __exit stop(void)
{
	misc_deregister(&device);
	free_node();
	partmem_end(&machine);
	free_memory();
}

module_init(start);
module_exit(stop);
MODULE_LICENSE("Proprietary"); /* COPYING grants no licence */
MODULE_DESCRIPTION("page blocks of isolated partitions, by partmem");
