# Writes a random trace. The own list of tenant 0 depends only on `seed`, `order` and `lines`. The other lines depend on `world`
# and the other variables too. So two worlds with the same seed, order and lines have the same own list of tenant 0.
#
#   awk -v seed=1 -v world=1 -v lines=1000000 -v order=3 -v superblocks=256 -v tenants=64 -v broken=10 -f tests/soak/traces.awk
#
# `lines` is the number of lines in the own list of tenant 0. On average `others` other lines (3 by default) come before each of
# them. On average `broken` of a hundred other lines are no command, or a command with a number that is hardly ever in use.
#
# Tenant 0 never holds more than 4 superblocks, and the others together never more than all but 4, so that no grant to tenant 0 is
# refused. The machine has to have more than 4.

# Returns a number from 0 to n - 1, by Park and Miller's generator. There are two generators: `whose` is 0 for the one of the own
# list, and 1 for the one of the other lines.
function draw(n) {
    state[whose] = (state[whose] * 16807) % 2147483647
    return int(state[whose] / 2147483647 * n)
}

function pick(words,    n, all) {
    n = split(words, all, " ")
    return all[draw(n) + 1]
}

# Returns a character of a text, also a blank or a tab, at which `pick` would split.
function letter(text) {
    return substr(text, draw(length(text)) + 1, 1)
}

function hex(bytes,    text) {
    while (bytes-- > 0) text = text letter("0123456789abcdefABCDEF") letter("0123456789abcdef")
    return text
}

# Returns a frame that the tenant may hold, at which a block of order k can begin.
function frame(t, k) {
    return int(draw((held[t] ? held[t] : 1) * 2 ^ order) / 2 ^ k) * 2 ^ k
}

# Returns the size of the objects in a cache with this number, if the tenant has made its caches in the order of `sizes`.
function size(c) {
    return sizes[c % size_count + 1]
}

# Returns a place at which an object of the cache may begin.
function object(t, c,    chunk, count) {
    chunk = size(c) < 16 ? 16 : 8 * int((size(c) + 7) / 8)
    count = chunk < 512 ? int(4064 / chunk) : int(4096 / chunk)
    return 4096 * int(frame(t, 0) / (1 + draw(4))) + chunk * draw(1 + draw(count > 12 ? 12 : count))
}

function make_cache(t, c) {
    return t " cache " size(c) " 8 " hex(1 + draw(16))
}

# Returns a command of the tenant.
function command(t,    word, c) {
    word = pick("alloc alloc alloc alloc free free free free take take take take take give give give give give read read write " \
        "write cache destroy reap report")
    if (!made[t] && word ~ /take|give|destroy/) return make_cache(t, made[t]++)
    # Mostly the first caches, so that there are full slabs too.
    c = draw(20) ? draw(1 + draw(made[t] < 6 ? made[t] : 6)) : draw(33)
    if (word == "alloc") return t " alloc " (draw(20) ? int(draw(4) * draw(4) / 3) : draw(order + 2))
    if (word == "free") return t " free " frame(t, draw(3))
    if (word == "take") return t " take " c
    if (word == "give") return t " give " c " " object(t, c)
    if (word == "read") return t " read " (4096 * frame(t, 0) + draw(2) * draw(4096)) " " 1 + draw(64)
    if (word == "write") return t " write " (4096 * frame(t, 0) + draw(2) * draw(4096)) " " hex(1 + draw(64))
    if (word == "cache" && made[t] < 40) return make_cache(t, made[t]++)
    if (word == "destroy") return t " destroy " c
    if (word == "report" && draw(8)) return t " reap"
    return t " " (word == "cache" ? "reap" : word)
}

# Returns a command of the administrator about the tenant, which never gets more than `most` superblocks.
function administer(t, most,    word) {
    word = pick("grant grant grant grant takeback takeback reset")
    if (word == "grant" && held[t] < most) { held[t]++; all_held++; return "admin grant " t }
    if (word == "reset" && draw(12) == 0) { all_held -= held[t]; held[t] = 0; made[t] = 0; return "admin reset " t }
    return "admin takeback " t " " draw(held[t] + 1)
}

# Returns a number that is hardly ever in use: the end of a range, or one that would wrap to a small number. Or returns a word
# that is no number.
function far() {
    return pick("31 32 63 64 255 256 65535 65536 1048576 16777216 536870912 2147483647 2147483648 4294963200 4294967232 4294967295 " \
        "4294967296 9999999999 00000000000 18446744073709551616 -1 +1 0x1 1e3 x")
}

# Returns a line that is no command, or a command with a number that is hardly ever in use.
function broken_line(    kind, text, n) {
    kind = draw(8)
    if (kind == 0) { n = draw(300); while (n-- > 0) text = text sprintf("%c", 11 + draw(245)); return (text ~ /^[ 0a]/ ? "~" : "") text }
    if (kind == 1) { n = draw(300); text = "0 alloc"; while (n-- > 0) text = text letter("01#\tx") " "; return "\377" text }
    if (kind == 2) return pick("frob # #0 admin 0 \r") letter("\t\r")
    if (kind == 3) return "admin " pick("grant reset takeback move pool") " " far() " x"
    if (kind == 4) return 64 + draw(9) " " pick("alloc free take destroy") " " far()
    if (kind == 5) return "admin takeback 0 " 256 + draw(2147480000)
    if (kind == 6) return "admin move " pick("0 0 1 64 4294967295") " " far()
    return 1 + draw(tenants - 1) " " pick("alloc free take destroy read write cache give") " " far() " " far()
}

# Returns a line that is not in the own list of tenant 0.
function between(    t) {
    if (draw(100) < broken) return broken_line()
    if (draw(40) == 0) return "admin move 0 " draw(held[0] + 1)
    if (draw(2000) == 0) return "admin pool"
    if (tenants == 1) return "# nobody else"
    t = 1 + (draw(3) ? draw(tenants - 1 < 4 ? tenants - 1 : 4) : draw(tenants - 1))
    if (draw(8)) return command(t)
    if (draw(6) == 0) return "admin move " t " " draw(held[t] + 1)
    return administer(t, all_held - held[0] < superblocks - own_most ? held[t] + 1 : 0)
}

BEGIN {
    size_count = split("1024 512 4096 2048 16 200 100 3000 64", sizes, " ")
    own_most = 4
    if (others == "") others = 3
    state[0] = seed * 7919 + 1
    state[1] = seed * 104729 + world * 611953 + 1
    for (whose = 0; whose < 2; whose++) for (n = 0; n < 9; n++) draw(2)
    for (done = 0; done < lines; ) {
        whose = 1
        if (draw(others + 1)) { print between(); continue }
        whose = 0
        done++
        print draw(60) ? command(0) : administer(0, own_most)
    }
}
