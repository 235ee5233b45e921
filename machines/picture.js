// What the page shows of the trace, and what the mouse and the keys do.

const MIN_DRAG = 4 // pixels of the picture: less is a click
const MAX_COLUMNS = 1200 // that are drawn at a time
const MAX_TICKS = 10
const PLAY_SECONDS = 12
const WHEEL_DOUBLES = 300 // pixels that the wheel turns until twice as much or half as much is shown
const PINCH = 10 // a pinch is a wheel that turns this much less
const TINY = 1e-6
// Pixels from the foot of a band up to the top of the words above its free frames, and down to the numbers of its lines.
const ABOVE_FOOT = 73
const BELOW_FOOT = 18

const byId = (name) => document.getElementById(name)
const picture = document.querySelector('svg.picture')
const bands = [...picture.querySelectorAll('g.band')].map(readBand)
const head = bands[0].top + bands[0].group.transform.baseVal[0].matrix.f // where the first band begins
const times = facts.times && valuesOf(facts.times)
const slider = byId('column')

let view = { from: 0, to: WIDTH } // the part of the picture that is shown, in pixels of the whole
let level = levelOf(0) // the columns in which it is drawn
let cursor = { column: 0, place: 0 } // the column of framemap, and the place in pixels of the whole
let onScreen = [] // the bands that are in the window
let scale = 1 // pixels of the window in one of the picture
let drag = null // what a drag does, and where it began; null if there is no drag
let playing = null // when playing began, and at which place; null if it does not play

function create(parent, name, attributes) {
  const made = document.createElementNS('http://www.w3.org/2000/svg', name)
  for (const [key, value] of Object.entries(attributes)) made.setAttribute(key, value)
  return parent.appendChild(made)
}

/** Returns the elements, the sizes and the figures of a band. Adds what is drawn over it. */
function readBand(group, index) {
  const pane = group.querySelector('svg.window')
  const [y, height] = [pane.y.baseVal.value, pane.height.baseVal.value]
  const { tenant, top, bottom, row, frames } = group.dataset
  const { tones, figures, peak } = facts.bands[index]
  return {
    group, y, height, peak,
    row: Number(row), // the height of a row, in pixels
    frames: Number(frames), // how many frames a row has
    tenant: Number(tenant),
    name: group.querySelector('.tenant').firstChild.data,
    top: Number(top),
    bottom: Number(bottom),
    rows: pane.querySelector('.free').height.baseVal.value,
    figures: figuresOf(figures),
    tones: [...pane.querySelectorAll('g.cells > path')].map((path, at) => ({ path, cells: rectanglesOf(tones[at]) })),
    layers: [...pane.querySelectorAll('path.layer')], // by order, the least first
    marks: pane.querySelector('.refused'),
    mark: group.querySelector('path.peak'),
    ticks: group.querySelector('.ticks'),
    reach: create(group, 'rect', { class: 'reach', x: LEFT, y: y + height, width: WIDTH, height: 28 }),
    // The figures at the cursor. If they were a part of the picture, each move would paint the picture anew.
    readout: byId('readouts').appendChild(document.createElement('div')),
    isShown: true,
    isDrawn: false, // as the view is now
    column: null // the column of framemap whose figures it shows
  }
}

/** Converts a place in the whole picture to where it is shown now. Both are in pixels from the left of the columns. */
const shownAt = (place) => (place - view.from) / (view.to - view.from) * WIDTH
/** Converts where a place is shown now back to the place. */
const placeAt = (x) => view.from + x / WIDTH * (view.to - view.from)
const inside = (x) => Math.min(Math.max(x, 0), WIDTH)
/** Returns where a place is shown, or the nearer end of what is shown, in hundredths of a pixel at most. */
const drawnAt = (place) => Math.round(inside(shownAt(place)) * 100) / 100

/** Returns the path of what is shown of these rectangles. One unit to the right is a pixel, and one upwards is a row. */
function rowsPath(cells) {
  let path = ''
  for (let at = 0; at < cells.length; at += 4) {
    const left = drawnAt(level.edges[level.first(cells[at])])
    const right = drawnAt(level.edges[level.first(cells[at] + cells[at + 2])])
    if (left < right) path += `M${left} ${cells[at + 1]}H${right}v${cells[at + 3]}H${left}z`
  }
  return path
}

/** Returns the outline of what is shown of a layer of free frames. Each column in which it changes begins with a step. */
function layerPath(frames) {
  let [path, before] = ['M0 0', 0]
  for (let at = level.at(view.from); at <= level.at(view.to); at += 1) {
    const now = frames[level.shows(at)]
    if (now !== before) path += `H${drawnAt(level.edges[at])}V${now}`
    before = now
  }
  return `${path}H${WIDTH}V0z`
}

/** Returns a mark for each column in which requests were refused: in its middle, or if the axis is time, at its beginning. */
function marksPath({ figures: { refused }, y, rows }) {
  let path = ''
  for (let at = level.at(view.from); at <= level.at(view.to); at += 1) {
    const before = at ? refused[level.shows(at - 1)] : 0
    const place = facts.edges ? level.edges[at] : level.middle(at)
    if (refused[level.shows(at)] > before && place >= view.from && place <= view.to) {
      path += `M${LEFT + drawnAt(place)} ${y + rows + facts.marks}v${facts.mark}`
    }
  }
  return path
}

/** Returns the least number of the form 1, 2 or 5 times a power of ten that fits at most MAX_TICKS times into a length. */
function stepOf(length) {
  const power = 10 ** Math.floor(Math.log10(length / MAX_TICKS))
  return [1, 2, 5, 10].map((round) => round * power).find((step) => length <= MAX_TICKS * step)
}

function drawTicks(band) {
  const { from, to, name } = facts.axis
  const valueAt = (place) => from + place / WIDTH * (to - from)
  const [begin, end] = [valueAt(view.from), valueAt(view.to)]
  const step = name === 'line' ? Math.max(1, stepOf(end - begin)) : stepOf(end - begin)
  const foot = band.y + band.height
  band.ticks.replaceChildren()
  create(band.ticks, 'text', { class: 'right', x: LEFT - 9, y: foot + BELOW_FOOT }).textContent = name
  for (let count = Math.ceil(begin / step); count * step <= end; count += 1) {
    const x = LEFT + (count * step - begin) / (end - begin) * WIDTH
    create(band.ticks, 'path', { class: 'axis', d: `M${x} ${foot}v5` })
    create(band.ticks, 'text', { class: 'middle', x, y: foot + BELOW_FOOT }).textContent = String(+(count * step).toPrecision(12))
  }
}

/** Draws the part of a band that is shown. */
function drawBand(band) {
  band.isDrawn = true
  for (const { path, cells } of band.tones) path.setAttribute('d', rowsPath(cells))
  band.layers.forEach((path, order) => path.setAttribute('d', layerPath(band.figures.free[order])))
  band.marks.setAttribute('d', marksPath(band))
  drawTicks(band)
  if (!band.mark) return
  const x = shownAt(placeOf(band.peak))
  band.mark.setAttribute('transform', `translate(${LEFT + x} ${band.y})`)
  band.mark.classList.toggle('hidden', x !== inside(x))
}

const bytesOf = (frames) => Math.round(frames * facts.frame / facts.unit.bytes * 10) / 10

function figuresText({ held, taken, refused, free }, column) {
  const top = free.findLastIndex((frames) => frames[column] > 0)
  const largest = top < 0 ? 'no free block' : `largest free block: order ${top}`
  const bytes = `${bytesOf(taken[column])} of ${bytesOf(held[column])} ${facts.unit.name}`
  return `${taken[column]} of ${held[column]} frames taken (${bytes}) · ${largest} · refused: ${refused[column]}`
}

/** Draws what has changed in the bands that are in the window. The others are drawn when they come into it. */
function drawOnScreen() {
  if (!COUNT) return
  for (const band of onScreen) {
    if (!band.isDrawn) drawBand(band)
    if (band.column !== cursor.column) band.readout.textContent = figuresText(band.figures, cursor.column)
    band.column = cursor.column
  }
}

function showCursor() {
  if (!COUNT) return
  const x = shownAt(cursor.place)
  byId('cursor').style.transform = `translateX(${(LEFT - picture.viewBox.baseVal.x + x) * scale}px)`
  byId('cursor').classList.toggle('hidden', x < -TINY || x > WIDTH + TINY)
  drawOnScreen()
  const time = times ? `, ${times[cursor.column]} s` : ''
  byId('here').textContent = `after line ${lineOf(cursor.column)}${time}`
  slider.value = cursor.column
  slider.setAttribute('aria-valuetext', byId('here').textContent)
}

/** Moves the cursor to a place, and shows the figures of the column that is drawn there. */
function moveCursor(place) {
  cursor = { column: level.shows(level.at(place)), place }
  showCursor()
}

/** Moves the cursor to a column of framemap. If it is not shown, the view moves until it is in its middle. */
function showColumn(column) {
  cursor = { column, place: levelOf(0).middle(column) }
  if (cursor.place < view.from || cursor.place > view.to) {
    const half = (view.to - view.from) / 2
    showView(cursor.place - half, cursor.place + half)
  } else showCursor()
}

const columnOf = (line) => Math.min(Math.ceil(line / facts.columns.lines), COUNT) - 1
const placeOf = (line) => levelOf(0).middle(columnOf(line))

/** Shows the part of the picture between two places: at least one column of framemap, and at most the whole. */
function showView(from, to) {
  const span = Math.min(Math.max(to - from, WIDTH / Math.max(COUNT, 1)), WIDTH)
  const begin = Math.min(Math.max((from + to - span) / 2, 0), WIDTH - span)
  view = { from: begin, to: begin + span }
  level = levelBetween(view.from, view.to, MAX_COLUMNS)
  byId('lines').textContent = level.size * facts.columns.lines
  for (const band of bands) band.isDrawn = false
  showCursor()
}

const showWhole = () => showView(0, WIDTH)

/** Shows `factor` times as much as now. What is at `place` stays where it is. */
function zoom(factor, place) {
  const least = WIDTH / Math.max(COUNT, 1) / (view.to - view.from)
  const by = Math.min(Math.max(factor, least), WIDTH / (view.to - view.from))
  showView(place - (place - view.from) * by, place + (view.to - place) * by)
}

/** Moves what is shown by a share of its width. */
function pan(share) {
  const by = share * (view.to - view.from)
  showView(view.from + by, view.to + by)
}

/** Finds out which bands are in the window, and where the cursor is then. */
function measure() {
  const box = picture.getBoundingClientRect()
  scale = box.width / picture.viewBox.baseVal.width
  const isIn = (it) => box.top + it.at * scale < innerHeight && box.top + (it.at + it.bottom - it.top) * scale > 0
  onScreen = bands.filter((it) => it.isShown && isIn(it))
  for (const part of ['cursor', 'chosen']) byId(part).style.top = `${head * scale}px`
  byId('readouts').style.fontSize = `${12 * scale}px`
  byId('readouts').style.width = `${(LEFT - picture.viewBox.baseVal.x + WIDTH) * scale}px`
  for (const band of bands) {
    band.readout.classList.toggle('hidden', !onScreen.includes(band))
    band.readout.style.top = `${(band.at + band.y + band.height - ABOVE_FOOT - band.top) * scale}px`
  }
  showCursor()
}

/** Shows the bands of the tenants that are selected, one below the other. */
function showTenants() {
  const boxes = [...document.querySelectorAll('#tenants input')]
  const shown = new Set(boxes.filter((box) => box.checked).map((box) => Number(box.value)))
  byId('shown').textContent = `${shown.size} of ${boxes.length} shown`
  let at = head
  for (const band of bands) {
    band.isShown = shown.has(band.tenant)
    band.at = at
    band.group.classList.toggle('hidden', !band.isShown)
    band.group.setAttribute('transform', `translate(0 ${at - band.top})`)
    if (band.isShown) at += band.bottom - band.top
  }
  const { x, width } = picture.viewBox.baseVal
  picture.setAttribute('viewBox', `${x} 0 ${width} ${at}`)
  picture.setAttribute('height', at)
  measure()
}

function selectTenants(isShown) {
  for (const box of document.querySelectorAll('#tenants input')) box.checked = isShown
  showTenants()
}

/** Returns where the pointer is, in pixels of the picture or of a part of it. */
function pointOf(event, part = picture) {
  return new DOMPoint(event.clientX, event.clientY).matrixTransform(part.getScreenCTM().inverse())
}

/** Returns how far the pointer is from the left of the columns, in pixels of the picture. */
const pointedAt = (event) => inside(pointOf(event).x - LEFT)

/** Returns what lies under the pointer: the tenant, its frames and what they are. */
function describe(event) {
  const target = event.target.closest('svg.window > *, svg.window g.cells > *')
  const band = bands.find((it) => it.group.contains(target))
  if (!target || !band) return ''
  const [kind, shade] = target.classList
  const above = band.y + band.rows - pointOf(event, band.group).y
  if (above > 0 && kind in facts.kinds) return `${band.name}: ${describeRow(band, Math.floor(above / band.row), kind, shade)}`
  return kind === 'layer' ? `${band.name}: free blocks of order ${band.layers.indexOf(target)}` : ''
}

function describeRow({ rows, row: height, frames }, row, kind, shade) {
  const what = facts.kinds[kind]
  if (frames === 1) return `frame ${row}, ${what}`
  const last = (row + 1) * height < rows ? `to ${(row + 1) * frames - 1}` : 'and above' // the last row may have fewer frames
  const share = ['none', 'free'].includes(kind) ? '' : `${facts.shares[shade ?? '']} taken, most in `
  return `frames ${row * frames} ${last}, ${share}${what}`
}

/** Marks what a drag encloses, in pixels from the left of the columns. */
function showChosen(from, to) {
  const { style } = byId('chosen')
  style.left = `${(LEFT - picture.viewBox.baseVal.x + Math.min(from, to)) * scale}px`
  style.width = `${Math.abs(to - from) * scale}px`
}

picture.addEventListener('pointerdown', (event) => {
  if (event.button !== 0 || !event.target.closest('svg.window, .reach')) return
  const isChoice = event.shiftKey || event.target.matches('.reach')
  drag = { isChoice, from: pointedAt(event), view }
  picture.classList.toggle('panned', !isChoice)
  picture.setPointerCapture(event.pointerId)
})

picture.addEventListener('pointermove', (event) => {
  const x = pointedAt(event)
  if (drag?.isChoice) showChosen(drag.from, x)
  else if (drag) {
    const by = (drag.from - (pointOf(event).x - LEFT)) / WIDTH * (view.to - view.from)
    showView(drag.view.from + by, drag.view.to + by)
  } else if (event.target.closest('g.band')) {
    moveCursor(placeAt(x))
    byId('under').textContent = describe(event)
  }
})

function endDrag() {
  drag = null
  picture.classList.remove('panned')
  showChosen(0, 0)
}

picture.addEventListener('pointerup', (event) => {
  if (!drag) return
  const [from, to] = [drag.from, pointedAt(event)].sort((a, b) => a - b)
  if (drag.isChoice && to - from >= MIN_DRAG) showView(placeAt(from), placeAt(to))
  endDrag()
})

picture.addEventListener('pointercancel', endDrag)
picture.addEventListener('dblclick', showWhole)

picture.addEventListener('wheel', (event) => {
  if (!event.target.closest('svg.window, .reach')) return
  const pixels = event.deltaMode ? BELOW_FOOT : 1 // other modes count lines
  const { from, to } = view
  if (event.shiftKey || Math.abs(event.deltaX) > Math.abs(event.deltaY)) pan((event.deltaX || event.deltaY) * pixels / WIDTH)
  else zoom(2 ** (event.deltaY * pixels * (event.ctrlKey ? PINCH : 1) / WHEEL_DOUBLES), placeAt(pointedAt(event)))
  // If nothing is left to do, the wheel scrolls the page.
  if (event.ctrlKey || from !== view.from || to !== view.to) event.preventDefault()
}, { passive: false })

/** Moves the cursor by a number of the columns that are drawn. */
function stepCursor(columns) {
  const at = Math.min(Math.max(level.first(cursor.column) + columns, 0), level.count - 1)
  showColumn(level.shows(at))
}

/** Returns the place of the cursor, or if it is not shown, the middle of what is shown. */
function middleOfZoom() {
  const isShown = cursor.place >= view.from && cursor.place <= view.to
  return isShown ? cursor.place : (view.from + view.to) / 2
}

const keys = {
  ArrowLeft: () => stepCursor(-1),
  ArrowRight: () => stepCursor(1),
  'shift ArrowLeft': () => pan(-1 / 4),
  'shift ArrowRight': () => pan(1 / 4),
  Home: () => moveCursor(view.from),
  End: () => moveCursor(view.to - TINY),
  '+': () => zoom(1 / 2, middleOfZoom()),
  '-': () => zoom(2, middleOfZoom()),
  0: showWhole,
  ' ': play
}

picture.addEventListener('keydown', (event) => {
  const isArrow = event.key.startsWith('Arrow')
  const act = keys[event.shiftKey && isArrow ? `shift ${event.key}` : event.key === '=' ? '+' : event.key]
  if (!act || !COUNT || event.ctrlKey || event.altKey || event.metaKey) return
  event.preventDefault()
  act()
})

function step(now) {
  if (playing === null) return
  const place = playing.from + (now - playing.since) / (1000 * PLAY_SECONDS) * (view.to - view.from)
  moveCursor(Math.min(place, view.to))
  if (place < view.to) requestAnimationFrame(step)
  else stop()
}

function stop() {
  playing = null
  byId('play').textContent = 'Play'
}

function play() {
  if (playing !== null) return stop()
  const isBetween = cursor.place >= view.from && cursor.column < level.shows(level.at(view.to - TINY))
  playing = { since: performance.now(), from: isBetween ? cursor.place : view.from }
  byId('play').textContent = 'Pause'
  requestAnimationFrame(step)
}

byId('play').addEventListener('click', play)
byId('in').addEventListener('click', keys['+'])
byId('out').addEventListener('click', keys['-'])
byId('whole').addEventListener('click', showWhole)
byId('tenants').addEventListener('change', showTenants)
byId('all').addEventListener('click', () => selectTenants(true))
byId('none').addEventListener('click', () => selectTenants(false))
byId('callers')?.addEventListener('click', ({ target }) => {
  if (target.matches('button')) showColumn(columnOf(Number(target.value)))
})
slider.addEventListener('input', () => showColumn(Number(slider.value)))
addEventListener('scroll', measure, { passive: true })
addEventListener('beforeprint', () => { onScreen = bands; showCursor() })
new ResizeObserver(measure).observe(picture)

slider.max = Math.max(COUNT - 1, 0)
cursor = { column: Math.max(COUNT - 1, 0), place: WIDTH }
showWhole()
showTenants()
