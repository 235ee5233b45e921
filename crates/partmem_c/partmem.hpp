/* partmem.hpp: machines, tenants, typed objects and heaps of partmem for C++17, over partmem.h and partmem_heap.h.
 *
 *     partmem::machine machine({5, 8, 2});                 8 superblocks of 128 KiB, 2 tenants; its destructor ends it
 *     partmem::tenant guest(machine, 0, 4);                gets 4 superblocks; its destructor resets it
 *     partmem::heap heap(guest);                           is a std::pmr::memory_resource
 *     std::pmr::map<int, std::pmr::string> names(&heap);   throws std::bad_alloc if the guest has too few frames
 *     partmem::cache<session> sessions(guest);
 *     auto ada = sessions.make("ada").value();             a std::unique_ptr that gives its object back
 *
 * STATUS. partmem::status has the statuses of partmem.h. It converts to a std::error_code, whose message is partmem_strerror's.
 *
 * ERRORS. There are two forms, and both work with and without exceptions:
 * - A function returns a status, or a result<T>, which has a value or a status. It throws only what a constructor of T throws.
 * - A constructor of a machine, tenant, cache or heap that has arguments, result<T>::value() and partmem::check() throw a
 *   partmem::error, which is a std::system_error. For each such constructor there is a function with the same arguments, boot()
 *   or open(), that returns a status instead.
 * With -fno-exceptions, everything that would throw calls std::abort. So does a std::pmr container that gets no memory. Of a
 * heap, only try_allocate and make return if there is no memory.
 *
 * ORDER. Declare a machine before its tenants, a tenant before its caches and heaps, and these before what is made in them,
 * since destructors run in the reverse order. Before tenant::reset() destroy what was made for the tenant, its containers too.
 * Otherwise a destructor that runs after the reset frees memory that belongs to another object by then. After tenant::reset()
 * call open() for the tenant's caches and heaps again.
 *
 * A machine and a heap can be neither copied nor moved. Tenants, caches, page blocks and pointers can be moved, but not copied.
 * After tenant::move() the addresses of objects, pieces and blocks in that slot are stale; page_block::data() lends again.
 *
 * DUTIES. The duties of partmem.h and partmem_heap.h apply. A container stores addresses in its tenant's memory; partmem_heap.h
 * says what is lost by that. For what is not here, pass get() to the functions in C. If you use partmem_watched.h, include it
 * first.
 *
 * THREADS. A machine has a mutex of yours for each tenant, and one for its administrator. What is called of a tenant, or of its
 * page blocks, objects, caches and heaps, needs the tenant's mutex; destructors and containers call too. With partmem::locked a
 * container locks a mutex for each of its calls. A tenant's constructor, destructor, open(), grant(), take_back(), move() and
 * reset() need the administrator's mutex and the tenant's: lock the administrator's first. A machine's constructor, destructor,
 * boot() and end() need all. */
#ifndef PARTMEM_HPP
#define PARTMEM_HPP

#if __cplusplus < 201703L
#error "partmem.hpp is for C++17 and later: compile with -std=c++17"
#endif

#include <cstddef>
#include <cstdint>
#include <cstdlib>
#include <memory>
#include <memory_resource>
#include <mutex>
#include <new>
#include <optional>
#include <string>
#include <system_error>
#include <type_traits>
#include <utility>

#include "partmem_heap.h"

namespace partmem {

/* ---- Status -------------------------------------------------------------------------------------------------------------- */

enum class [[nodiscard]] status : std::uint32_t {
    done = PARTMEM_DONE,
    no_frames = PARTMEM_NO_FRAMES,
    bad_order = PARTMEM_BAD_ORDER,
    not_a_block = PARTMEM_NOT_A_BLOCK,
    out_of_reach = PARTMEM_OUT_OF_REACH,
    bad_length = PARTMEM_BAD_LENGTH,
    bad_size = PARTMEM_BAD_SIZE,
    bad_align = PARTMEM_BAD_ALIGN,
    no_cache_slot = PARTMEM_NO_CACHE_SLOT,
    no_cache = PARTMEM_NO_CACHE,
    cache_in_use = PARTMEM_CACHE_IN_USE,
    not_an_object = PARTMEM_NOT_AN_OBJECT,
    no_tenant = PARTMEM_NO_TENANT,
    pool_empty = PARTMEM_POOL_EMPTY,
    no_slot = PARTMEM_NO_SLOT,
    slot_busy = PARTMEM_SLOT_BUSY,
    no_machine = PARTMEM_NO_MACHINE,
    has_machine = PARTMEM_HAS_MACHINE,
    bad_config = PARTMEM_BAD_CONFIG,
    bad_memory = PARTMEM_BAD_MEMORY,
    no_memory = PARTMEM_NO_MEMORY,
    no_superblock = PARTMEM_NO_SUPERBLOCK,
    not_held = PARTMEM_NOT_HELD,
    not_a_line = PARTMEM_NOT_A_LINE,
    not_an_event = PARTMEM_NOT_AN_EVENT,
    buffer_too_small = PARTMEM_BUFFER_TOO_SMALL
};

/* Returns the status that a function in C has returned. */
constexpr status status_of(partmem_status returned) noexcept
{
    return static_cast<status>(returned);
}

/* Returns the category of error codes that are statuses. */
inline const std::error_category &category() noexcept
{
    class statuses final : public std::error_category {
        const char *name() const noexcept override { return "partmem"; }
        std::string message(int code) const override { return partmem_strerror(static_cast<partmem_status>(code)); }
    };
    static const statuses instance;
    return instance;
}

inline std::error_code make_error_code(status code) noexcept
{
    return {static_cast<int>(code), category()};
}

/* Thrown for a call that was not done; code() has the status. */
class error final : public std::system_error {
public:
    explicit error(status code) : std::system_error(make_error_code(code)) {}
};

/* Throws an error unless the status is done. */
inline void check(status code)
{
    if (code == status::done) return;
#ifdef __cpp_exceptions
    throw error(code);
#else
    std::abort();
#endif
}

/* A value, or the status of a call that was not done. */
template <typename T>
class [[nodiscard]] result {
public:
    result(T value) : value_(std::move(value)) {}
    result(status code) noexcept : code_(code) {}

    bool has_value() const noexcept { return value_.has_value(); }
    explicit operator bool() const noexcept { return has_value(); }

    /* Returns the status, which is done if there is a value. */
    status code() const noexcept { return code_; }

    /* Returns the value, or throws an error if there is none. */
    T &value() &
    {
        check(code_);
        return *value_;
    }
    T value() &&
    {
        check(code_);
        return std::move(*value_);
    }

    /* Returns the value. There has to be one. */
    T &operator*() noexcept { return *value_; }
    T *operator->() noexcept { return &*value_; }
    const T &operator*() const noexcept { return *value_; }
    const T *operator->() const noexcept { return &*value_; }

private:
    std::optional<T> value_;
    status code_ = status::done;
};

/* ---- Machines ------------------------------------------------------------------------------------------------------------ */

class machine {
public:
    constexpr machine() noexcept = default;
    explicit machine(const partmem_config &config) { check(boot(config)); }
    machine(const partmem_config &config, const partmem_memory &memory) { check(boot(config, memory)); }
    machine(const machine &) = delete;
    machine &operator=(const machine &) = delete;
    ~machine() { static_cast<void>(end()); }

    /* Boots in memory from aligned_alloc and malloc. Returns has_machine, bad_config, no_memory. */
    status boot(const partmem_config &config) noexcept { return status_of(partmem_boot(&machine_, &config)); }

    /* Boots in memory of the caller. Returns has_machine, bad_config, bad_memory, no_memory. */
    status boot(const partmem_config &config, const partmem_memory &memory) noexcept
    {
        return status_of(partmem_boot_in(&machine_, &config, &memory));
    }

    /* Ends the machine, which can be booted again. Returns no_machine. */
    status end() noexcept { return status_of(partmem_end(&machine_)); }

    /* Returns the machine for functions in C. */
    partmem_machine *get() noexcept { return &machine_; }

private:
    partmem_machine machine_ = {};
};

/* ---- Page blocks and tenants --------------------------------------------------------------------------------------------- */

/* A page block. Its destructor frees it. */
class page_block {
public:
    page_block(partmem_tenant tenant, const partmem_lent &lent) noexcept
        : tenant_(tenant), place_(lent.place), bytes_(lent.bytes) {}
    page_block(page_block &&other) noexcept
        : tenant_(other.tenant_), place_(other.place_), bytes_(std::exchange(other.bytes_, 0)) {}
    page_block &operator=(page_block &&other) noexcept
    {
        std::swap(tenant_, other.tenant_);
        std::swap(place_, other.place_);
        std::swap(bytes_, other.bytes_);
        return *this;
    }
    ~page_block()
    {
        if (bytes_ > 0) static_cast<void>(!partmem_free(tenant_, place_));
    }

    /* Lends the block and returns its address, which changes if its slot is moved. Do not call data() after a reset of the
     * tenant: it would return nullptr, or the address of memory that was allocated at the same place since the reset. */
    void *data() const noexcept { return partmem_at(tenant_, place_, bytes_); }
    std::size_t size() const noexcept { return bytes_; }
    std::uint32_t place() const noexcept { return place_; }

private:
    partmem_tenant tenant_;
    std::uint32_t place_;
    std::uint32_t bytes_; /* 0 if the block was moved to another page_block */
};

/* A tenant of a machine. Its destructor resets it. Make only one object for a tenant's number at a time. On an object that is no
 * tenant (default, moved from, or after a refused open()), call only open(), reset() and get(). */
class tenant {
public:
    constexpr tenant() noexcept = default;
    tenant(machine &machine, std::uint32_t number, std::uint32_t superblocks = 0) { check(open(machine, number, superblocks)); }
    tenant(tenant &&other) noexcept : tenant_(std::exchange(other.tenant_, partmem_tenant{})) {}
    tenant &operator=(tenant &&other) noexcept
    {
        std::swap(tenant_, other.tenant_);
        return *this;
    }
    ~tenant() { static_cast<void>(reset()); }

    /* Makes this object the tenant with this number, and grants it `superblocks` more superblocks. If the pool has too few, the
     * tenant is reset, and this object is no tenant afterwards. Returns has_machine if this object is a tenant already,
     * no_machine, no_tenant, pool_empty. */
    status open(machine &machine, std::uint32_t number, std::uint32_t superblocks = 0) noexcept
    {
        if (tenant_.machine) return status::has_machine;
        tenant_ = {machine.get(), number};
        partmem_slot slot;
        partmem_status found = partmem_find_slot(tenant_, 0, &slot);
        if (found == PARTMEM_NO_SLOT) found = PARTMEM_DONE;
        for (; superblocks > 0 && found == PARTMEM_DONE; superblocks--) found = partmem_grant(tenant_, &slot);
        if (found != PARTMEM_DONE) {
            static_cast<void>(reset());
            tenant_ = {};
        }
        return status_of(found);
    }

    /* Grants one more superblock. Returns pool_empty. */
    result<partmem_slot> grant() noexcept
    {
        partmem_slot slot;
        return done_with(partmem_grant(tenant_, &slot), slot);
    }

    /* Takes back an unused slot. Returns no_slot, slot_busy. */
    status take_back(std::uint32_t slot) noexcept { return status_of(partmem_take_back(tenant_, slot)); }

    /* Moves a slot to another superblock. All bytes of the slot then have other addresses. Returns no_slot, pool_empty. */
    result<partmem_slot> move(std::uint32_t slot) noexcept
    {
        partmem_slot moved;
        return done_with(partmem_move(tenant_, slot, &moved), moved);
    }

    /* Takes back all that the tenant has. */
    status reset() noexcept { return tenant_.machine ? status_of(partmem_reset(tenant_)) : status::no_machine; }

    /* Allocates a page block of 2^order frames. Returns bad_order, no_frames. */
    result<page_block> alloc(std::uint32_t order) noexcept
    {
        partmem_lent block;
        const partmem_status allocated = partmem_alloc(tenant_, order, &block);
        if (allocated != PARTMEM_DONE) return status_of(allocated);
        return page_block(tenant_, block);
    }

    /* Gives back the object or frees the page block that begins at a place, and returns what it was. An object is given back only
     * if its cache has its size in `sizes`. Nothing else may give it back or free it, such as a page_block or a unique_ptr.
     * Returns out_of_reach, not_a_block, not_an_object. */
    result<partmem_object> release(std::uint32_t place, const partmem_sizes &sizes) noexcept
    {
        partmem_object freed;
        return done_with(partmem_release(tenant_, place, &sizes, &freed), freed);
    }

    /* Frees the empty slabs of all caches. Returns how many frames they had. */
    result<std::uint32_t> reap() noexcept
    {
        std::uint32_t frames;
        return done_with(partmem_reap(tenant_, &frames), frames);
    }

    /* Reports the figures of the tenant's memory. */
    result<partmem_figures> report() const noexcept
    {
        partmem_figures figures;
        return done_with(partmem_report(tenant_, &figures), figures);
    }

    /* Returns the tenant for functions in C. */
    partmem_tenant get() const noexcept { return tenant_; }

private:
    template <typename T>
    static result<T> done_with(partmem_status returned, const T &value) noexcept
    {
        return returned == PARTMEM_DONE ? result<T>(value) : result<T>(status_of(returned));
    }

    partmem_tenant tenant_ = {};
};

/* ---- Typed objects ------------------------------------------------------------------------------------------------------- */

/* Destroys an object, and gives it back to its cache: a deleter for unique_ptr. Aborts if the cache has no such object. */
template <typename T>
class giver {
public:
    giver() noexcept = default;
    giver(partmem_tenant tenant, std::uint32_t cache, std::uint32_t place) noexcept
        : tenant_(tenant), cache_(cache), place_(place) {}

    void operator()(T *object) const noexcept
    {
        object->~T();
        if (partmem_give(tenant_, cache_, place_) != PARTMEM_DONE) std::abort();
    }

    /* Returns the place of the object, which stays through moves. */
    std::uint32_t place() const noexcept { return place_; }

private:
    partmem_tenant tenant_ = {};
    std::uint32_t cache_ = 0, place_ = 0;
};

/* A cache of objects of type T. Its destructor destroys it, unless objects are live: then it stays until its tenant is reset. */
template <typename T>
class cache {
    static_assert(sizeof(T) <= 4096, "an object of a cache has at most 4096 bytes");
    static_assert(alignof(T) <= 256, "an object of a cache is aligned to at most 256");

public:
    using pointer = std::unique_ptr<T, giver<T>>;

    cache() noexcept = default;
    explicit cache(const tenant &tenant) { check(open(tenant)); }
    cache(cache &&other) noexcept : tenant_(std::exchange(other.tenant_, partmem_tenant{})), cache_(other.cache_) {}
    cache &operator=(cache &&) = delete;
    ~cache()
    {
        if (tenant_.machine) static_cast<void>(!partmem_destroy_cache(tenant_, cache_));
    }

    /* Makes this object a new cache of the tenant. If this object was a cache before, the old cache is not destroyed: it stays
     * until its tenant is reset. Returns no_machine, no_cache_slot; this object is then still the old cache. */
    status open(const tenant &tenant) noexcept
    {
        partmem_cache made;
        if (!tenant.get().machine) return status::no_machine;
        constexpr std::uint32_t align = alignof(T) < 8 ? 8 : alignof(T);
        const partmem_status returned = partmem_make_cache(tenant.get(), sizeof(T), align, "", 1, &made);
        if (returned == PARTMEM_DONE) {
            tenant_ = tenant.get();
            cache_ = made.cache;
        }
        return status_of(returned);
    }

    /* Makes an object, T(args..), which is given back if the constructor throws. Returns no_machine, no_cache, no_frames. */
    template <typename... Args>
    result<pointer> make(Args &&...args)
    {
        partmem_lent lent;
        if (!tenant_.machine) return status::no_machine;
        const partmem_status taken = partmem_take(tenant_, cache_, &lent);
        if (taken != PARTMEM_DONE) return status_of(taken);
        unfinished object{tenant_, cache_, lent.place};
        T *made = ::new (lent.at) T(std::forward<Args>(args)...);
        object.tenant.machine = nullptr;
        return pointer(made, giver<T>(tenant_, cache_, lent.place));
    }

    /* Returns the number of the cache. */
    std::uint32_t number() const noexcept { return cache_; }

private:
    /* Gives an object back if its constructor throws. */
    struct unfinished {
        partmem_tenant tenant;
        std::uint32_t cache, place;
        ~unfinished()
        {
            if (tenant.machine) static_cast<void>(!partmem_give(tenant, cache, place));
        }
    };

    partmem_tenant tenant_ = {};
    std::uint32_t cache_ = 0;
};

/* ---- Heaps --------------------------------------------------------------------------------------------------------------- */

class heap;

/* Destroys an object, and frees its piece of a heap: a deleter for unique_ptr. Aborts if the heap has no such piece. */
template <typename T>
class deleter {
public:
    deleter() noexcept = default;
    explicit deleter(heap &heap) noexcept : heap_(&heap) {}
    void operator()(T *object) const noexcept;

private:
    heap *heap_ = nullptr;
};

/* The heap of a tenant. Its pieces stay until they are freed or the tenant is reset: its destructor frees none. */
class heap final : public std::pmr::memory_resource {
public:
    template <typename T>
    using pointer = std::unique_ptr<T, deleter<T>>;

    heap() noexcept = default;
    explicit heap(const tenant &tenant, const partmem_heap_config &config = {}) { check(open(tenant, config)); }
    heap(const heap &) = delete;
    heap &operator=(const heap &) = delete;

    /* Makes this object the heap of a tenant. If it was a heap before, the old heap is forgotten, even if bad_config or
     * bad_memory is returned. The pieces of the old heap stay. Returns no_machine, bad_config, bad_memory. */
    status open(const tenant &tenant, const partmem_heap_config &config = {}) noexcept
    {
        if (!tenant.get().machine) return status::no_machine;
        return status_of(partmem_heap_init(&heap_, tenant.get(), &config));
    }

    /* Allocates as allocate() does, but returns nullptr if there is no memory, or if the alignment is above 4096. */
    void *try_allocate(std::size_t bytes, std::size_t align = alignof(std::max_align_t)) noexcept
    {
        if (align <= PARTMEM_HEAP_STEP) return partmem_heap_malloc(&heap_, bytes);
        return partmem_heap_aligned_alloc(&heap_, align, bytes);
    }

    /* Frees a piece. Returns what partmem_heap_free returns for a wrong address; then nothing has changed. */
    status free(void *at) noexcept { return status_of(partmem_heap_free(&heap_, at)); }

    /* Makes an object, T(args..). Returns no_frames. If the constructor throws, the piece is freed. */
    template <typename T, typename... Args>
    result<pointer<T>> make(Args &&...args)
    {
        unfinished piece{*this, try_allocate(sizeof(T), alignof(T))};
        if (!piece.at) return status::no_frames;
        T *made = ::new (piece.at) T(std::forward<Args>(args)...);
        piece.at = nullptr;
        return pointer<T>(made, deleter<T>(*this));
    }

    /* Returns the place of an address, or PARTMEM_NO_PLACE if it is not the tenant's. The tenant may store and see the place. */
    std::uint32_t place(const void *at) const noexcept { return partmem_heap_place(&heap_, at); }

    /* Returns the heap for functions in C. */
    partmem_heap *get() noexcept { return &heap_; }

private:
    struct unfinished {
        heap &from;
        void *at;
        ~unfinished() { static_cast<void>(from.free(at)); }
    };

    void *do_allocate(std::size_t bytes, std::size_t align) override
    {
        if (void *at = try_allocate(bytes, align)) return at;
#ifdef __cpp_exceptions
        throw std::bad_alloc();
#else
        std::abort();
#endif
    }

    void do_deallocate(void *at, std::size_t, std::size_t) noexcept override
    {
        if (free(at) != status::done) std::abort();
    }

    bool do_is_equal(const std::pmr::memory_resource &other) const noexcept override { return this == &other; }

    partmem_heap heap_ = {};
};

template <typename T>
void deleter<T>::operator()(T *object) const noexcept
{
    object->~T();
    if (heap_->free(object) != status::done) std::abort();
}

/* A heap that locks a mutex for each call. All users of one tenant have to lock the same mutex. */
template <typename Mutex>
class locked final : public std::pmr::memory_resource {
public:
    locked(std::pmr::memory_resource &heap, Mutex &mutex) noexcept : heap_(heap), mutex_(mutex) {}

private:
    void *do_allocate(std::size_t bytes, std::size_t align) override
    {
        const std::lock_guard<Mutex> guard(mutex_);
        return heap_.allocate(bytes, align);
    }

    void do_deallocate(void *at, std::size_t bytes, std::size_t align) override
    {
        const std::lock_guard<Mutex> guard(mutex_);
        heap_.deallocate(at, bytes, align);
    }

    bool do_is_equal(const std::pmr::memory_resource &other) const noexcept override { return this == &other; }

    std::pmr::memory_resource &heap_;
    Mutex &mutex_;
};

} // namespace partmem

template <>
struct std::is_error_code_enum<partmem::status> : std::true_type {};

#endif
