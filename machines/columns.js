'use strict'

// What the page knows of the trace: the columns, as fine as framemap has written them, and what each band shows in them.

const facts = JSON.parse(document.getElementById('facts').textContent)
const { left: LEFT, width: WIDTH } = facts // where the columns begin, and how wide they are together, in pixels of the picture
const COUNT = facts.columns.count // of framemap's columns

/** Returns the values of a list of runs: each is a value and how often it comes. */
function valuesOf(runs) {
  const values = new Float64Array(COUNT)
  for (let run = 0, at = 0; run < runs.length; run += 2) {
    values.fill(runs[run], at, at + runs[run + 1])
    at += runs[run + 1]
  }
  return values
}

/** Returns rectangles as column, row, columns and rows of each. They come in order, with the distance from the column before. */
function rectanglesOf(steps) {
  const cells = Int32Array.from(steps)
  for (let at = 4; at < cells.length; at += 4) cells[at] += cells[at - 4]
  return cells
}

/** Returns the figures of a tenant by column. `free[k]` is the number of frames in free blocks of order k or more. */
function figuresOf({ held, taken, refused, free }) {
  return { held: valuesOf(held), taken: valuesOf(taken), refused: valuesOf(refused), free: free.map(valuesOf) }
}

/** Returns the last line of a column of framemap. */
const lineOf = (column) => Math.min((column + 1) * facts.columns.lines, facts.columns.last)

/**
 * The columns in which the picture is drawn: each shows what the last of 2 ** number columns of framemap shows. Places are in
 * pixels of the whole picture, from the left of its columns.
 */
class Level {
  constructor(number) {
    this.size = 2 ** number
    this.count = Math.ceil(COUNT / this.size)
    this.edges = Float64Array.from({ length: this.count + 1 }, (_, at) => this.edge(at))
  }

  /** Returns which column of framemap a column shows. */
  shows(at) {
    return Math.min((at + 1) * this.size, COUNT) - 1
  }

  /** Returns the first column that shows this column of framemap or a later one. */
  first(column) {
    return column < COUNT ? Math.floor(column / this.size) : this.count
  }

  /** Returns the place where a column begins: if the axis is time, halfway between two columns of framemap that are shown. */
  edge(at) {
    if (at === 0 || at === this.count) return at && WIDTH
    if (!facts.edges) return at * this.size * WIDTH / COUNT
    const halfway = (this.shows(at - 1) + this.shows(at) + 1) / 2
    return (facts.edges[Math.floor(halfway)] + facts.edges[Math.ceil(halfway)]) / 2
  }

  /** Returns the column at a place. */
  at(place) {
    let [low, high] = [0, this.count - 1]
    while (low < high) {
      const middle = (low + high) >> 1
      if (this.edges[middle + 1] <= place) low = middle + 1
      else high = middle
    }
    return low
  }

  middle(at) {
    return (this.edges[at] + this.edges[at + 1]) / 2
  }
}

const levels = []
const levelOf = (number) => levels[number] ??= new Level(number)

/** Returns the finest level that has at most this many columns between two places. */
function levelBetween(from, to, most) {
  const columns = levelOf(0).at(to) - levelOf(0).at(from)
  return levelOf(Math.max(Math.ceil(Math.log2(columns / most)), 0))
}
