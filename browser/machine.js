'use strict'

// Machines of partmem, and the comparison of tenant 1's replies with those of a private machine. This file knows no document.

const SIZES = { order: 3, superblocks: 6, tenants: 2 }
const TENANT = 1 // whose replies are compared
const GRANTS = ['admin grant 0', 'admin grant 1', 'admin grant 0', 'admin grant 1'] // run before all other lines
const FRAME_BYTES = 4096
const MAX_LINE_BYTES = 65536 // browser/machine.c has no more for a line
const USES = ['not held', 'free', 'page block', 'slab'] // partmem_use of partmem.h

/** The module has trapped, and its instance was dropped. */
class Trapped extends Error {}

/** Compiles a module that is given as text in base64. */
function compiled(text) {
  return WebAssembly.compile(Uint8Array.from(atob(text), (it) => it.charCodeAt(0)))
}

/** A machine: an instance of the module. After a trap its memory may be inconsistent, so the instance is dropped. */
class Machine {
  constructor(module, { order, superblocks, tenants } = SIZES) {
    this.exports = new WebAssembly.Instance(module, {}).exports
    this.frames = 1 << order // of a superblock
    this.superblocks = superblocks
    this.call('boot', order, superblocks, tenants)
  }

  /** Calls a function of the module. Returns its result; throws if that is a status other than done. */
  call(name, ...numbers) {
    if (!this.exports) throw new Trapped('the instance was dropped')
    let result
    try {
      result = this.exports[name](...numbers)
    } catch (why) {
      this.exports = null
      throw new Trapped(why.message)
    }
    const status = name === 'run' ? -result : result
    if (status > 0) throw new Error(`${name} returned status ${status}`)
    return result
  }

  /** Returns the bytes of a variable of browser/machine.c. */
  bytesOf(name, count) {
    return new Uint8Array(this.exports.memory.buffer, Number(this.exports[`${name}_address`]()), count)
  }

  numbersOf(name, count) {
    return new Uint32Array(this.bytesOf(name, 4 * count).slice().buffer)
  }

  /** Runs a line, as bytes without a line feed. Returns the bytes of its replies. */
  runBytes(line) {
    if (line.length > MAX_LINE_BYTES) throw new RangeError(`a line has more than ${MAX_LINE_BYTES} bytes`)
    if (this.exports) this.bytesOf('line', line.length).set(line)
    const count = this.call('run', line.length)
    return this.bytesOf('replies', count).slice()
  }

  run(line) {
    return new TextDecoder().decode(this.runBytes(new TextEncoder().encode(line)))
  }

  /** Returns the owner of each superblock, { tenant, slot }, or null if it has none. */
  owners() {
    return Array.from({ length: this.superblocks }, (_, superblock) => {
      this.call('find_owner', superblock)
      const [isOwned, tenant, slot] = this.numbersOf('owner', 3)
      return isOwned ? { tenant, slot } : null
    })
  }

  /** Returns the page blocks, slabs and free frames of a slot, by place: { use, first, frames } in frames of the tenant. */
  blocks(tenant, slot) {
    const found = []
    const end = (slot + 1) * this.frames
    for (let frame = slot * this.frames; frame < end; frame = found.at(-1).first + found.at(-1).frames) {
      this.call('find_block', tenant, frame * FRAME_BYTES)
      const [use, place, bytes] = this.numbersOf('block', 3)
      found.push({ use: USES[use], first: place / FRAME_BYTES, frames: bytes / FRAME_BYTES })
    }
    return found
  }
}

/** Returns whether a line is in tenant 1's own list: its commands, also refused ones; grants and take-backs that name it and were
 * not refused; and its resets. The replies show which command it was. */
function isOwn(line, replies) {
  const named = Number(line.trim().split(/[ \t]+/)[2])
  return replies.startsWith(`${TENANT}> `) || (/^admin> (granted|taken|reset) /.test(replies) && named === TENANT)
}

/** Returns the reply lines for tenant 1. */
function ownReplies(replies) {
  return replies.split(/(?<=\n)/).filter((it) => it.startsWith(`${TENANT}> `)).join('')
}

/** Runs lines, { side, line }, on a machine, and tenant 1's own list on a private machine. What the left side does to tenant 1
 * runs on the private machine only if `isShared`. A line is an event afterwards, with `replies`, whether it is in the own list
 * (`isOwn`), and `alone`, the replies of the private machine, or null if it did not run there. */
function compare(module, lines, isShared = false) {
  const here = new Machine(module)
  const alone = new Machine(module)
  const events = []
  for (const { side, line } of [...GRANTS.map((line) => ({ side: 'start', line })), ...lines]) {
    const isLong = new TextEncoder().encode(line).length > MAX_LINE_BYTES
    const replies = isLong ? '' : here.run(line)
    const own = isOwn(line, replies)
    events.push({ side, line, isLong, replies, isOwn: own, alone: own && (side !== 'left' || isShared) ? alone.run(line) : null })
  }
  const text = {
    here: events.map((it) => ownReplies(it.replies)).join(''),
    alone: events.map((it) => ownReplies(it.alone ?? '')).join('')
  }
  const causes = events.filter((it) => it.isOwn && it.alone === null)
  return { here, alone, events, text, isSame: text.here === text.alone, causes }
}

/** Returns a function that returns random numbers from 0 on and below its argument: the same for the same seed (mulberry32). */
function randomFrom(seed) {
  return (below) => {
    seed = (seed + 0x6d2b79f5) | 0
    let mixed = Math.imul(seed ^ (seed >>> 15), 1 | seed)
    mixed = (mixed + Math.imul(mixed ^ (mixed >>> 7), 61 | mixed)) ^ mixed
    return ((mixed ^ (mixed >>> 14)) >>> 0) % below
  }
}

/** Puts the lines of both sides into one order: the left side first, the right side first, in turns, or at random. */
function interleaved(left, right, order, random) {
  const rest = { left: [...left], right: [...right] }
  const all = []
  const isLeftNext = {
    left: () => true,
    right: () => false,
    turns: () => all.length % 2 === 0,
    random: () => random(rest.left.length + rest.right.length) < rest.left.length
  }[order]
  while (rest.left.length || rest.right.length) {
    const side = !rest.right.length || (rest.left.length && isLeftNext()) ? 'left' : 'right'
    all.push({ side, line: rest[side].shift() })
  }
  return all
}

/** Returns random lines of tenant 0 and the administrator. None is in tenant 1's own list. */
function otherLines(random) {
  const pick = (...from) => from[random(from.length)]
  const frames = 1 << SIZES.order
  const kinds = [
    () => `0 alloc ${random(SIZES.order + 1)}`,
    () => `0 alloc ${random(2)}`,
    () => `0 free ${random(3 * frames)}`,
    () => `0 cache ${pick(16, 200, 1000, 4096)} 8 ${pick('00', 'a5', '5ec4e7')}`,
    () => `0 take ${random(3)}`,
    () => '0 take 0',
    () => `0 give ${random(2)} ${random(40) * 200}`,
    () => `0 write ${random(frames) * FRAME_BYTES} ${pick('ff', '5ec4e7', '00112233')}`,
    () => `0 read ${random(frames * FRAME_BYTES)} ${1 + random(16)}`,
    () => `0 destroy ${random(3)}`,
    () => '0 reap',
    () => '0 report',
    () => `admin move ${random(2)} ${random(3)}`,
    () => 'admin grant 0',
    () => `admin takeback 0 ${random(4)}`,
    () => 'admin reset 0',
    () => 'admin pool',
    () => pick('0 frobnicate', '0 alloc', 'admin grant 2', '2 alloc 0', '0 free 4294967296', 'admin move 1 one')
  ]
  return Array.from({ length: 6 + random(20) }, () => kinds[random(kinds.length)]())
}
