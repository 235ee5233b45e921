// Two machines side by side as in two_machines.c, in C++, where the destructor of a machine ends it.
#include <cstdio>
#include <cstring>
#include <fstream>
#include <stdexcept>
#include <string>
#include <vector>

#include "partmem.h"

static void must(partmem_status status) {
    if (status != PARTMEM_DONE) throw std::runtime_error(partmem_strerror(status));
}

// A booted machine, which cannot be copied or moved.
class Booted {
public:
    explicit Booted(partmem_config config) { must(partmem_boot(&machine, &config)); }
    ~Booted() { partmem_end(&machine); }
    Booted(const Booted &) = delete;
    Booted &operator=(const Booted &) = delete;

    partmem_tenant tenant(uint32_t number) { return {&machine, number}; }

    std::string line(const std::string &text) {
        std::size_t written = 0;
        must(partmem_line(&machine, text.data(), text.size(), buffer.data(), buffer.size(), &written));
        return std::string(buffer.data(), written);
    }

private:
    partmem_machine machine = {};
    std::vector<char> buffer = std::vector<char>(PARTMEM_LINE_BUFFER_BYTES);
};

// An object of a cache, of type T. The destructor gives it back.
template <typename T>
class Object {
public:
    Object(partmem_tenant tenant, uint32_t cache) : tenant(tenant), cache(cache) { must(partmem_take(tenant, cache, &object)); }
    ~Object() {
        if (partmem_give(tenant, cache, object.place) != PARTMEM_DONE) std::terminate();
    }
    Object(const Object &) = delete;
    Object &operator=(const Object &) = delete;

    T *operator->() const { return static_cast<T *>(object.at); }

private:
    partmem_tenant tenant;
    uint32_t cache;
    partmem_lent object;
};

struct Message {
    uint32_t number;
    char text[60];
};

int main(int argc, char **argv) {
    std::ifstream trace(argc > 1 ? argv[1] : "", std::ios::binary);
    if (!trace) throw std::runtime_error("usage: two_machines TRACE");
    Booted first({3, 2, 2}), second({8, 256, 64});
    partmem_slot slot;
    partmem_cache messages;
    must(partmem_grant(second.tenant(63), &slot));
    must(partmem_make_cache(second.tenant(63), sizeof(Message), 8, "m", 1, &messages));
    Object<Message> message(second.tenant(63), messages.cache);
    if (message->text[59] != 'm') throw std::runtime_error("the pattern");
    std::strcpy(message->text, "hello");
    for (std::string text; std::getline(trace, text);) {
        std::string replies = first.line(text);
        std::fwrite(replies.data(), 1, replies.size(), stdout);
    }
    if (std::strcmp(message->text, "hello") != 0) throw std::runtime_error("the message");
}
