'use strict'

// The document: it shows what browser/machine.js finds. Each edit runs all lines on two new machines.

const LEFT = ['0 cache 200 8 a5', '0 take 0', '0 take 0', '0 alloc 2', '0 alloc 0', 'admin move 1 0', '0 write 0 5ec4e7',
  '0 free 4', 'admin grant 0', '0 alloc 3', '0 take 7', 'admin pool']
const RIGHT = ['1 alloc 1', '1 cache 1000 8 00', '1 take 0', '1 take 0', '1 write 0 c0ffee', '1 read 0 4', '1 alloc 2',
  '1 give 0 8192', '1 report']
const TAKE_BACK = 'admin takeback 1 1'
const RUNS = 1000
const RUNS_AT_A_TIME = 50 // between two moments in which the page can be drawn

const by = (id) => document.getElementById(id)
const left = by('left')
const right = by('right')
const order = by('order')
const shared = by('shared')
const step = by('step')
const verdict = by('verdict')
let loaded = null // the compiled module
let seed = Math.floor(Math.random() * 2 ** 32)
let lines = [] // of both sides, in the order in which they run

/** Returns a new element with properties and children. Text becomes text, never markup. */
function made(name, properties, ...children) {
  const element = Object.assign(document.createElement(name), properties)
  element.append(...children)
  return element
}

function linesOf(text) {
  return text.split('\n').filter((it) => it.trim())
}

/** Returns at most 60 characters of a line, for a sentence. */
function short(line) {
  return made('code', {}, line.length > 60 ? `${line.slice(0, 60)}…` : line)
}

/** Returns lines as children for `append`, with commas between them. */
function listed(events) {
  const shown = events.slice(0, 3).flatMap((it, at) => (at ? [', ', short(it.line)] : [short(it.line)]))
  return events.length > 3 ? [...shown, ` and ${events.length - 3} more`] : shown
}

function say(kind, title, ...paragraphs) {
  verdict.className = kind
  verdict.replaceChildren(made('p', {}, made('b', {}, title)), ...paragraphs.map((it) => made('p', {}, ...it)))
}

function showVerdict({ isSame, text, causes, events }) {
  const long = events.filter((it) => it.isLong).length
  const notes = long ? [[`Lines of more than ${MAX_LINE_BYTES} bytes are not run. Such lines here: ${long}.`]] : []
  const rule = 'What the administrator grants to a tenant and takes from it is part of what the tenant sees, and so are the '
    + 'tenant’s own commands. The proof is about tenants that get the same of these.'
  if (isSame && !causes.length) {
    say('same', `Same: tenant 1’s ${text.here.length} bytes of replies are those of its private machine.`, ...notes)
  } else if (isSame) {
    say('same', `Same so far: tenant 1’s ${text.here.length} bytes of replies are those of its private machine.`,
      ['But the private machine did not get ', ...listed(causes), ', which is about tenant 1 itself. Later replies may differ.'],
      ...notes)
  } else if (causes.length) {
    say('other', 'Different, because the private machine did not get the same.',
      ['The left side has ', ...listed(causes), '. This is about tenant 1 itself, and only the shared memory got it. ', rule],
      ['Check “Tell the private machine what the left side does to tenant 1”, and the replies are the same again.'], ...notes)
  } else {
    say('other', 'Different, and nothing on this page explains it.',
      ['Tenant 1 got the same on both machines. So this page, or partmem, is wrong: please report the lines of both sides.'],
      ...notes)
  }
}

/** Returns a row of a table. A cell without text shows a dash. */
function row(isOther, ...cells) {
  return made('tr', { className: isOther ? 'other' : '' },
    ...cells.map((it) => made('td', { className: it ? '' : 'quiet' }, it ? it.replace(/\n$/, '') : '–')))
}

function showReplies(events) {
  const shown = events.filter((it) => it.side !== 'start')
  by('left-replies').replaceChildren(...shown.filter((it) => it.side === 'left').map((it) => row(false, it.line, it.replies)))
  by('right-replies').replaceChildren(...shown.filter((it) => it.side === 'right' || it.isOwn).map((it) => {
    const isOther = it.isOwn && (it.alone === null || ownReplies(it.alone) !== ownReplies(it.replies))
    return row(isOther, it.line, it.replies, it.isOwn && it.alone === null ? 'not run' : it.alone)
  }))
}

/** Returns the picture of a superblock: of tenant `owner.tenant` under slot `owner.slot`, or without an owner. */
function picture(machine, owner, label) {
  const blocks = owner ? machine.blocks(owner.tenant, owner.slot) : [{ use: 'none', first: 0, frames: machine.frames }]
  const shown = blocks.map(({ use, first, frames }) => {
    const name = owner ? `${use}, ${frames === 1 ? `frame ${first}` : `frames ${first} to ${first + frames - 1}`}` : 'no owner'
    const block = made('i', { className: 'block', title: name })
    Object.assign(block.dataset, owner ? { tenant: owner.tenant, use, frames } : { use, frames })
    block.style.flexGrow = frames
    return block
  })
  const frames = made('div', { className: 'frames' }, ...shown)
  frames.setAttribute('role', 'img')
  frames.setAttribute('aria-label', `${label}: ${shown.map((it) => it.title).join('; ')}`)
  return made('div', { className: 'superblock' }, label, frames)
}

function showMemory(here, alone) {
  by('memory').replaceChildren(...here.owners().map((owner, number) =>
    picture(here, owner, `${number}: ${owner ? `tenant ${owner.tenant}, slot ${owner.slot}` : 'no owner'}`)))
  for (const [id, machine] of [['slots', here], ['alone', alone]]) {
    const slots = machine.owners().filter((it) => it?.tenant === TENANT).sort((a, b) => a.slot - b.slot)
    by(id).replaceChildren(...slots.map((owner) => picture(machine, owner, `slot ${owner.slot}`)))
  }
}

/** Shows that the module has trapped, or that the page itself failed. The next edit runs on new machines. */
function showStop(why) {
  say('stopped', why instanceof Trapped ? 'Stopped: the module has trapped.' : 'Stopped: the page has failed.',
    [`The browser says: ${why.message}. The machines were dropped, and the next edit runs on new ones. Please report the lines.`])
  for (const id of ['left-replies', 'right-replies', 'memory', 'slots', 'alone']) by(id).replaceChildren()
}

function show() {
  const until = Number(step.value)
  by('here').textContent = `${until} of ${lines.length}${until ? `: ${lines[until - 1].line.slice(0, 60)}` : ''}`
  by('take').textContent = linesOf(left.value).includes(TAKE_BACK) ? 'Undo the take-back' : 'Take memory from tenant 1'
  try {
    const found = compare(loaded, lines.slice(0, until), shared.checked)
    showVerdict(found)
    showReplies(found.events)
    showMemory(found.here, found.alone)
  } catch (why) {
    showStop(why)
  }
}

/** Takes lines of both sides in their order, and shows the state after the last. */
function showLines(its) {
  lines = its
  step.max = lines.length
  step.value = lines.length
  show()
}

function edited() {
  showLines(interleaved(linesOf(left.value), linesOf(right.value), order.value, randomFrom(seed)))
}

function setLeft(its) {
  left.value = its.join('\n')
  edited()
}

function useOtherLines() {
  seed += 1
  setLeft(otherLines(randomFrom(seed)))
}

function takeOrUndo() {
  const its = linesOf(left.value)
  setLeft(its.includes(TAKE_BACK) ? its.filter((it) => it !== TAKE_BACK) : [TAKE_BACK, ...its])
}

function startOver() {
  right.value = RIGHT.join('\n')
  order.value = 'turns'
  shared.checked = false
  by('count').textContent = ''
  setLeft(LEFT)
}

/** Runs tenant 1's lines beside many random left sides, each in a random order. Ends at the first that changes a reply, and shows
 * it. Returns what it found. */
async function runMany() {
  const its = linesOf(right.value)
  const texts = new Set()
  for (let run = 1; run <= RUNS; run++) {
    seed += 1
    const random = randomFrom(seed)
    const others = otherLines(random)
    const mixed = interleaved(others, its, 'random', random)
    const found = compare(loaded, mixed)
    texts.add(found.text.here)
    if (!found.isSame) {
      left.value = others.join('\n')
      order.value = 'random'
      showLines(mixed)
      return `Run ${run} has other replies than the private machine. It is shown below.`
    }
    if (run % RUNS_AT_A_TIME === 0) {
      by('count').textContent = `${run} runs`
      await new Promise((done) => setTimeout(done))
    }
  }
  const always = texts.size === 1 ? `, and always the same ${[...texts][0].length} bytes` : ''
  return `${RUNS} runs beside other lines: tenant 1’s replies were always those of its private machine${always}.`
}

async function pressMany() {
  by('many').disabled = true
  try {
    by('count').textContent = await runMany()
  } catch (why) {
    showStop(why)
  }
  by('many').disabled = false
}

async function begin() {
  try {
    loaded = await compiled(by('module').textContent)
  } catch (why) {
    say('stopped', 'This browser cannot run the page.', ['It needs 64-bit memories in WebAssembly, which Chrome and Edge have since '
      + `version 133 and Firefox since version 134. The browser says: ${why.message}`])
    return
  }
  for (const it of [left, right, order]) it.addEventListener('input', edited)
  for (const it of [shared, step]) it.addEventListener('input', show)
  for (const [id, does] of [['other', useOtherLines], ['many', pressMany], ['take', takeOrUndo], ['again', startOver]])
    by(id).addEventListener('click', does)
  startOver()
}

const ready = begin()
