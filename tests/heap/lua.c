/* Lua: uses tables, strings, coroutines, and lists that do not fit into the heap. */
#include <lua5.4/lua.h>
#include <lua5.4/lauxlib.h>
#include <lua5.4/lualib.h>

#include "guests.h"

/* The result of a step does not depend on the order of a table's keys. That order depends on addresses and the time. */
static const char source[] =
    "local kept, count = {}, 0\n"
    "local function work(i)\n"
    "  for j = 1, 40 do\n"
    "    local key = 'key '..(i * 7919 + j * 104729) % 997\n"
    "    kept[key] = (kept[key] or '')..string.rep('x', (i + j) % 90)\n"
    "    if #kept[key] > 4000 then kept[key] = kept[key]:sub(1, 100):upper() end\n"
    "    count = count + 1\n"
    "  end\n"
    "  if i % 37 == 0 then kept = {} end\n"
    "  if i % 11 == 0 then\n"
    "    local large = {}\n"
    "    for j = 1, 100000 do large[j] = {j, tostring(j)} end\n"
    "  end\n"
    "  local words = coroutine.wrap(function()\n"
    "    for word in string.gmatch('a b c', '%a') do coroutine.yield(word) end\n"
    "  end)\n"
    "  return words()..words()\n"
    "end\n"
    "function step(i)\n"
    "  local is_done, words = pcall(work, i)\n"
    "  if not is_done then kept = {} collectgarbage() end\n"
    "  local keys, sum = 0, 0\n"
    "  for key, text in pairs(kept) do keys = keys + 1 sum = (sum + #key * 31 + #text) % 1000003 end\n"
    "  return (is_done and 'done ' or 'no memory ')..count..' '..keys..' '..sum..' '..words\n"
    "end\n";

static void *allocate(void *guest, void *old, size_t had, size_t bytes)
{
    (void)had;
    if (bytes) return guest_realloc(guest, old, bytes);
    guest_free(guest, old);
    return NULL;
}

static lua_State *state_of(struct guest *guest)
{
    lua_State *state = guest->state[0];
    if (state) return state;
    MUST(state = guest->state[0] = lua_newstate(allocate, guest));
    luaL_openlibs(state);
    MUST(luaL_dostring(state, source) == LUA_OK);
    return state;
}

static void note_text(struct guest *guest, lua_State *state)
{
    size_t count;
    const char *text = luaL_tolstring(state, -1, &count);
    note(guest, text, count);
    lua_pop(state, 2);
}

static void step(struct guest *guest)
{
    lua_State *state = state_of(guest);
    lua_getglobal(state, "step");
    lua_pushinteger(state, (lua_Integer)any_of(guest, 1000));
    const bool is_done = lua_pcall(state, 1, 1, 0) == LUA_OK && !strncmp(lua_tostring(state, -1), "done", 4);
    guest->failed += !is_done;
    note_text(guest, state);
    if (!shows_addresses) return;
    lua_newtable(state);
    note_text(guest, state); /* "table: 0x.." */
}

const struct program lua = {"Lua", 16, step, NULL, NULL};
