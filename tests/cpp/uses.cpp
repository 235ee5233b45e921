// Uses all of partmem.hpp. It compiles with and without exceptions. With the argument "abort", the program makes a container too
// large for its heap.
#include "partmem.hpp"

#include <array>
#include <cstdio>
#include <cstring>
#include <list>
#include <map>
#include <thread>
#include <unordered_map>
#include <vector>

#define MUST(...)                                                                                                               \
    ((__VA_ARGS__) ? (void)0 : (std::fprintf(stderr, "%s:%d: not so: %s\n", __FILE__, __LINE__, #__VA_ARGS__), std::exit(1)))

using partmem::status;

namespace {

constexpr partmem_config sizes = {4, 32, 3};
int living; // the number of live objects of type counted

struct counted {
    explicit counted(int number) : value(number)
    {
#ifdef __cpp_exceptions
        if (number < 0) throw number;
#endif
        living++;
    }
    counted(const counted &) = delete;
    ~counted() { living--; }
    int value;
    char text[40] = {};
};

struct alignas(128) wide {
    unsigned char bytes[128];
};

bool is_aligned(const void *at, std::size_t align)
{
    return reinterpret_cast<std::uintptr_t>(at) % align == 0;
}

std::uint32_t live_frames(partmem::tenant &tenant)
{
    MUST(tenant.reap());
    return tenant.report()->live;
}

void check_statuses()
{
    static_assert(partmem::status_of(PARTMEM_BUFFER_TOO_SMALL) == status::buffer_too_small);
    static_assert(std::is_error_code_enum<status>::value);
    const std::error_code code = status::no_frames;
    MUST(code && code.category() == partmem::category() && code.value() == 1 && code == status::no_frames);
    MUST(code.message() == partmem_strerror(PARTMEM_NO_FRAMES) && !std::strcmp(code.category().name(), "partmem"));
    MUST(!std::error_code(status::done));
    partmem::result<int> none = status::bad_size, one = 7;
    MUST(!none && none.code() == status::bad_size && one && one.code() == status::done && *one == 7 && one.value() == 7);
}

void check_machine()
{
    alignas(4096) static unsigned char ram[PARTMEM_RAM_BYTES(3, 2)];
    alignas(16) static unsigned char tables[PARTMEM_TABLE_BYTES(3, 2, 1)];
    const partmem_memory memory = {ram, tables};
    for (int i = 0; i < 2; i++) { // the destructor ends the machine, so the next can boot in the same memory
        partmem::machine machine;
        MUST(machine.boot({3, 2, 256}, memory) == status::bad_config && machine.end() == status::no_machine);
        MUST(machine.boot({3, 2, 1}, memory) == status::done && machine.boot({3, 2, 1}) == status::has_machine);
        partmem::tenant tenant(machine, 0, 1);
        auto block = tenant.alloc(0);
        MUST(block && block->data() == ram && block->size() == 4096);
    }
    MUST(ram[0] == 0);
}

void check_tenants()
{
    partmem::machine machine(sizes);
    partmem_owner owner;
    partmem::tenant none, other;
    MUST(none.reset() == status::no_machine && none.open(machine, 3) == status::no_tenant);
    MUST(none.open(machine, 2, 33) == status::pool_empty && none.open(machine, 2, 32) == status::done);
    MUST(none.open(machine, 1) == status::has_machine && other.open(machine, 1, 1) == status::pool_empty);
    MUST(none.take_back(31) == status::done && none.move(99).code() == status::no_slot && none.move(0)->superblock == 31);
    other = std::move(none); // the tenant is reset once, when the last object that has it ends
    MUST(none.reset() == status::no_machine && other.grant()->slot == 31 && other.grant().code() == status::pool_empty);
    {
        const partmem::tenant last(std::move(other));
        MUST(last.report()->frames == 32 * 16);
    }
    for (std::uint32_t i = 0; i < 32; i++) {
        MUST(partmem_find_superblock(machine.get(), i, &owner) == PARTMEM_DONE && !owner.is_owned);
    }
}

void check_blocks()
{
    partmem::machine machine(sizes);
    partmem::tenant tenant(machine, 0, 1);
    {
        auto first = tenant.alloc(1), second = tenant.alloc(2);
        MUST(first && second && tenant.alloc(5).code() == status::bad_order && tenant.alloc(4).code() == status::no_frames);
        void *before = first->data();
        std::memcpy(before, "kept", 5);
        MUST(tenant.move(0) && first->data() != before && !std::strcmp(static_cast<char *>(first->data()), "kept"));
        *second = std::move(*first); // swaps the blocks, and frees none
        MUST(second->place() == 0 && second->size() == 8192 && live_frames(tenant) == 6);
        const partmem::page_block taken(std::move(*second));
        MUST(taken.data() != before);
    }
    MUST(live_frames(tenant) == 0);
}

void check_releases()
{
    partmem::machine machine(sizes);
    partmem::tenant tenant(machine, 0, 1);
    partmem_lent block, object;
    partmem_cache cache;
    partmem_sizes own = {};
    MUST(partmem_make_cache(tenant.get(), 96, 8, "", 1, &cache) == PARTMEM_DONE);
    MUST(partmem_alloc(tenant.get(), 1, &block) == PARTMEM_DONE && partmem_take(tenant.get(), cache.cache, &object) == PARTMEM_DONE);
    MUST(tenant.release(block.place + 4096, own).code() == status::not_a_block);
    MUST(tenant.release(block.place, own)->bytes == 8192 && tenant.release(block.place, own).code() == status::out_of_reach);
    MUST(tenant.release(object.place, own).code() == status::not_an_object);
    own.bytes[cache.cache] = 96;
    MUST(tenant.release(object.place, own)->cache == cache.cache && live_frames(tenant) == 0);
}

void check_objects()
{
    partmem::machine machine(sizes);
    partmem::tenant tenant(machine, 1, 2);
    partmem::cache<counted> cache(tenant), none;
    partmem::cache<wide> wides(tenant);
    MUST(none.make(1).code() == status::no_machine && none.open(partmem::tenant()) == status::no_machine && wides.number() == 1);
    {
        auto first = cache.make(5).value();
        const auto second = cache.make(6).value();
        partmem::cache<counted>::pointer third;
        MUST(living == 2 && first->value == 5 && second->value == 6 && second.get_deleter().place() == 48);
        third = std::move(first);
        third.reset();
        MUST(living == 1 && is_aligned(wides.make()->get(), 128));
    }
    MUST(living == 0);
    std::vector<partmem::cache<wide>::pointer> all;
    for (auto made = wides.make(); made; made = wides.make()) all.push_back(std::move(*made));
    MUST(wides.make().code() == status::no_frames && all.size() > 900);
    all.clear();
    {
        partmem::cache<counted> moved(std::move(cache));
        MUST(moved.make(1) && !cache.make(1));
    }
    MUST(living == 0 && live_frames(tenant) == 0 && tenant.report()->caches == 1);
    MUST(tenant.reset() == status::done && tenant.grant() && wides.open(tenant) == status::done && wides.make());
    while (none.open(tenant) == status::done) {}
    MUST(none.open(tenant) == status::no_cache_slot && none.number() == 31);
}

/* Fills a map until the heap has no memory left, and returns the number of its keys. Without exceptions, allocates pieces of 100
 * bytes instead, and returns their number. */
std::size_t fill(partmem::heap &heap)
{
    std::size_t keys = 0;
#ifdef __cpp_exceptions
    std::pmr::map<std::pmr::string, std::pmr::vector<std::size_t>> map(&heap);
    try {
        for (;; keys++) {
            std::pmr::string key("a key that is longer than any small string: ", &heap);
            map[key + std::to_string(keys).c_str()].push_back(keys);
        }
    } catch (const std::bad_alloc &) {
        for (const auto &[key, values] : map) MUST(values.empty() || key.substr(44) == std::to_string(values[0]).c_str());
    }
#else
    std::pmr::list<void *> all(std::pmr::new_delete_resource());
    for (void *at = heap.try_allocate(100); at; at = heap.try_allocate(100)) all.push_back(at);
    for (void *at : all) MUST(heap.free(at) == status::done);
    keys = all.size();
#endif
    return keys;
}

void check_heap()
{
    partmem::machine machine(sizes);
    partmem::tenant tenant(machine, 0, 8), other(machine, 1, 1);
    partmem::heap heap(tenant), second(other), none;
    std::size_t keys = fill(heap);
    MUST(keys > 2000 && live_frames(tenant) == 0);
    void *of_another = second.try_allocate(3000); // changes nothing for the first heap
    MUST(of_another && fill(heap) == keys && heap.free(of_another) == status::not_held);
    {
        std::pmr::unordered_map<int, std::pmr::string> map(&heap);
        for (int i = 0; i < 500; i++) map[i] = std::pmr::string(static_cast<std::size_t>(i), 'x');
        MUST(map[499].size() == 499 && map[999].get_allocator().resource() == &heap);
        std::pmr::vector<std::array<double, 4>> array(500, &heap);
        std::pmr::vector<wide> wides(20, &heap);
        MUST(is_aligned(wides.data(), 128) && heap.place(array.data()) != PARTMEM_NO_PLACE);
        MUST(heap.place(&map) == PARTMEM_NO_PLACE);
    }
    std::pmr::memory_resource &resource = heap;
    for (std::size_t align = 1; align <= 4096; align *= 2) {
        for (std::size_t bytes : {0u, 1u, 100u, 3000u, 5000u}) {
            void *at = resource.allocate(bytes, align);
            MUST(is_aligned(at, align));
            std::memset(at, 1, bytes);
            resource.deallocate(at, bytes, align);
        }
    }
    MUST(!heap.try_allocate(1, 8192) && !heap.try_allocate(65537) && heap.free(nullptr) == status::done);
    MUST(resource.is_equal(heap) && !resource.is_equal(second) && !none.try_allocate(1) && none.open(tenant) == status::done);
    {
        auto made = heap.make<counted>(4).value();
        MUST(made->value == 4 && living == 1 && is_aligned(heap.make<wide>()->get(), 128));
    }
    MUST(living == 0 && heap.make<std::array<char, 70000>>().code() == status::no_frames && live_frames(tenant) == 0);
    const std::uint16_t classes[] = {64, 2048};
    std::uint16_t runs[8];
    MUST(heap.open(tenant, {classes, 2, 7, runs}) == status::bad_memory);
    MUST(heap.open(tenant, {classes, 2, 8, runs}) == status::done && heap.try_allocate(70000));
    MUST(heap.open(tenant, {classes, 25, 0, nullptr}) == status::bad_config);
    MUST(partmem_heap_malloc(none.get(), 10) && none.open(partmem::tenant()) == status::no_machine);
}

void check_threads()
{
    partmem::machine machine(sizes);
    partmem::tenant first(machine, 0, 2), second(machine, 1, 2);
    partmem::heap heaps[2];
    std::mutex mutexes[3], of_administrator; // one for each tenant
    MUST(heaps[0].open(first) == status::done && heaps[1].open(second) == status::done);
    const auto work = [](partmem::heap &heap, std::mutex &mutex) {
        partmem::locked<std::mutex> resource(heap, mutex);
        for (int round = 0; round < 50; round++) {
            std::pmr::list<std::pmr::string> list(&resource);
            for (std::size_t i = 0; i < 100; i++) list.emplace_back(i, 'a');
            for (std::size_t i = 0; i < 100; i++, list.pop_front()) MUST(list.front().size() == i);
        }
    };
    std::thread beside(work, std::ref(heaps[0]), std::ref(mutexes[0]));
    std::thread above(work, std::ref(heaps[1]), std::ref(mutexes[1]));
    for (std::uint32_t round = 0; round < 200; round++) {
        const std::lock_guard<std::mutex> administers(of_administrator), of_third(mutexes[2]);
        partmem::tenant third(machine, 2, 3);
        MUST(third.move(round % 3) && third.alloc(round % 5));
    }
    beside.join();
    above.join();
    MUST(live_frames(first) == 0 && live_frames(second) == 0);
}

#ifdef __cpp_exceptions
template <typename Function>
bool throws(status code, Function function)
{
    try {
        function();
    } catch (const partmem::error &error) {
        return error.code() == code && !std::strcmp(error.what(), partmem_strerror(static_cast<partmem_status>(code)));
    }
    return false;
}

void check_exceptions()
{
    partmem::machine machine(sizes);
    partmem::tenant tenant(machine, 0, 1);
    partmem::cache<counted> cache(tenant);
    partmem::heap heap(tenant);
    MUST(throws(status::bad_config, [] { partmem::machine({11, 1, 1}); }));
    MUST(throws(status::pool_empty, [&] { partmem::tenant(machine, 1, 32); }));
    MUST(throws(status::bad_order, [&] { tenant.alloc(9).value(); }));
    MUST(throws(status::no_slot, [&] { partmem::check(tenant.take_back(9)); }));
    for (int i = 0; i < 1000; i++) { // an object whose constructor throws is given back
        int thrown = 0;
        try {
            (i % 2 ? static_cast<void>(cache.make(-1)) : static_cast<void>(heap.make<counted>(-2)));
        } catch (int number) {
            thrown = number;
        }
        MUST(thrown == (i % 2 ? -1 : -2) && living == 0);
    }
    MUST(live_frames(tenant) == 0);
    std::pmr::vector<char> large(&heap);
    bool is_refused = false;
    try {
        large.resize(65537);
    } catch (const std::bad_alloc &) {
        is_refused = true;
    }
    MUST(is_refused);
}
#else
void check_exceptions() {}
#endif

/* Makes a container too large for its heap. If there are no exceptions, this ends the program. */
void abort_at_exhaustion()
{
    partmem::machine machine(sizes);
    partmem::tenant tenant(machine, 0, 1);
    partmem::heap heap(tenant);
    std::pmr::vector<char> large(&heap);
    large.resize(65537);
}

} // namespace

int main(int count, char **words)
{
    if (count > 1 && !std::strcmp(words[1], "abort")) abort_at_exhaustion();
    check_statuses();
    check_machine();
    check_tenants();
    check_blocks();
    check_releases();
    check_objects();
    check_heap();
    check_threads();
    check_exceptions();
}
