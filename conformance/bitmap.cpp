// An allocator with one pool, in C++. It keeps a bit for each frame, and returns the first aligned block whose frames are free.
#include "pool.h"

#include <algorithm>
#include <cstddef>
#include <new>
#include <vector>

namespace {
constexpr std::size_t FRAME = 4096;
}

struct pool {
    char *memory;
    std::vector<bool> taken;
};

pool *pool_init(void *memory, unsigned order) {
    return new (std::nothrow) pool{static_cast<char *>(memory), std::vector<bool>(std::size_t{1} << order)};
}

void *pool_alloc(pool *of, unsigned order) {
    const auto length = std::ptrdiff_t{1} << order;
    for (auto at = of->taken.begin(); at != of->taken.end(); at += length)
        if (std::find(at, at + length, true) == at + length) {
            std::fill(at, at + length, true);
            return of->memory + FRAME * static_cast<std::size_t>(at - of->taken.begin());
        }
    return nullptr;
}

void pool_free(pool *of, void *block, unsigned order) {
    const auto at = of->taken.begin() + (static_cast<char *>(block) - of->memory) / static_cast<std::ptrdiff_t>(FRAME);
    std::fill(at, at + (std::ptrdiff_t{1} << order), false);
}

void pool_end(pool *of) { delete of; }
