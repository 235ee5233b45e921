/* zlib: compresses streams at random levels, window sizes and memory levels. */
#include <zlib.h>

#include "guests.h"

static void *allocate(void *guest, unsigned count, unsigned bytes) { return guest_malloc(guest, (size_t)count * bytes); }
static void release(void *guest, void *at) { guest_free(guest, at); }

static z_stream *new_stream(struct guest *guest)
{
    z_stream *stream = guest_malloc(guest, sizeof *stream);
    if (!stream) return NULL;
    *stream = (z_stream){.zalloc = allocate, .zfree = release, .opaque = guest};
    const int level = (int)any_of(guest, 10), window = 9 + (int)any_of(guest, 7), memory = 1 + (int)any_of(guest, 9);
    if (deflateInit2(stream, level, Z_DEFLATED, window, memory, Z_DEFAULT_STRATEGY) == Z_OK) return stream;
    guest_free(guest, stream);
    return NULL;
}

static void step(struct guest *guest)
{
    static unsigned char in[40000], out[50000];
    const uint32_t number = any_of(guest, STATES), count = 1 + any_of(guest, sizeof in);
    z_stream *stream = guest->state[number];
    if (stream && any_of(guest, 3) == 0) {
        deflateEnd(stream);
        guest_free(guest, stream);
        stream = NULL;
    }
    if (!stream) guest->state[number] = stream = new_stream(guest);
    guest->failed += !stream;
    if (!stream) return;
    for (uint32_t i = 0; i < count; i++) in[i] = (unsigned char)('a' + any_of(guest, 4) * (i % 3));
    stream->next_in = in, stream->avail_in = count, stream->next_out = out, stream->avail_out = sizeof out;
    const int status = deflate(stream, Z_SYNC_FLUSH);
    note(guest, &status, sizeof status);
    note(guest, out, sizeof out - stream->avail_out);
}

const struct program zlib = {"zlib", 6, step, NULL, NULL};
