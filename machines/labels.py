"""Adds labels to a picture of framemap: names, bytes, times, and titles that appear under the pointer. Moves each band down, to
make space for a line with its name. If the axis is time, also changes where each column begins and ends."""
import bisect
import html
import re

import drawn
import scales
import summary
from scales import WIDTH

LEFT, RIGHT, MARGIN = 72, 36, 16        # the space left and right of framemap's columns; the space that is added on the left
WIDE, SVG_WIDE = MARGIN + LEFT + WIDTH + RIGHT, 1264    # the width of the picture, and how wide an SVG is shown
NAME_LINE = 18                          # the height of the line with a band's name, and of the one with its callers
BELOW, FREE_BELOW = 18, 40              # from the foot of a band down to the numbers of its lines, and to its end
MARKS_BELOW, MARK_HEIGHT = 4, 9         # how far below the rows the marks of refusals are, and their height
INDENT = 12                             # the indent of a band's figures, which are right of the word above the band's axis
BYTES_RIGHT = 22                        # where the numbers of bytes end
MAX_NAME, MAX_CALLERS = 64, 190        # characters of a name, and of a line of callers; what is longer is cut
MARK = 'M-5 -6h10l-5 6z'                # the mark of a peak, above the rows
MAX_TITLES, MIN_WIDTH, MIN_HEIGHT = 1500, 3, 3     # the most rectangles with a title; their least size in pixels
KINDS = {'page': 'page blocks', 'full': 'full slabs', 'partial': 'partial slabs', 'empty': 'empty slabs', 'free': 'free',
         'none': 'not held'}
SHARES = {'one': 'up to a quarter', 'two': 'up to half', 'three': 'up to three quarters', '': 'more than three quarters'}


def escaped(text):
    return html.escape(text, quote=False)


def cut(words, most):
    return words if len(words) <= most else words[:most] + '…'


def text(words, y, x, kind=None):
    kind = f' class="{kind}"' if kind else ''
    return f'<text{kind} x="{x}" y="{y}">{words}</text>'


class Labels:
    """What the labels of a picture are made of: the figures, the names, the axis and the unit of bytes."""

    def __init__(self, table, remarks, width, by_time=False, is_page=False):
        self.lines, self.figures = drawn.read_table(table)
        self.names, self.width, self.is_page = remarks.names, width, is_page
        self.axis = scales.Axis(self.lines, width, remarks.clock if by_time else None)
        self.unit = scales.Unit(max((max(own.held, default=0) for own in self.figures.values()), default=0))
        self.peaks = {tenant: peak for tenant, peak in remarks.peaks.items() if tenant in self.figures and self.lines}

    def name_of(self, tenant):
        return self.names.get(tenant, f'Tenant {tenant}')

    def short(self, tenant):
        return cut(self.name_of(tenant), MAX_NAME)


class Band:
    """The band of one tenant."""

    def __init__(self, found, labels):
        self.found, self.labels, self.tenant = found, labels, int(found['tenant'])
        self.figures, self.peak = labels.figures[self.tenant], labels.peaks.get(self.tenant)
        self.added = 2 * NAME_LINE if self.peak else NAME_LINE      # the height that is added above what framemap draws
        self.y, self.top, self.height = int(found['y']), int(found['top']), int(found['height'])
        self.row_height, self.per_row = int(found['row']), int(found['per_row'] or 1)
        self.foot = int(found['below']) - BELOW
        paths = [(it['kind'], it['shade'] or '', [tuple(map(int, its)) for its in drawn.RECTANGLE.findall(it['path'])])
                 for it in drawn.PATH.finditer(found['cells'])]
        self.paths = [it for it in paths if it[2]]

    def area(self, rectangle):
        """Returns the area of a rectangle in pixels, or 0 if it is too small to point at."""
        column, _, columns, rows = rectangle
        width = self.labels.axis.edges[column + columns] - self.labels.axis.edges[column]
        height = rows * self.row_height
        return width * height if width >= MIN_WIDTH and height >= MIN_HEIGHT else 0

    def title(self, kind, shade, rectangle):
        """Returns the title of a rectangle: the tenant, the frames and the lines, and the kind of the frames."""
        column, row, columns, rows = rectangle
        first, end, lines = row * self.per_row, (row + rows) * self.per_row, self.labels.lines
        frames = f'frames {first} to {end - 1}' if end > first + 1 else f'frame {first}'
        if row + rows == self.height // self.row_height and self.per_row > 1:
            frames = f'frames {first} and above'    # the last row may have fewer frames
        what = KINDS[kind]
        if kind != 'none' and self.per_row > 1:
            what = f'{SHARES[shade]} of each {self.per_row} frames taken, most in {what}'
        begin = lines[column - 1] + 1 if column else 1
        return f'{self.labels.name_of(self.tenant)}: {frames}, lines {begin} to {lines[column + columns - 1]}: {what}'

    def draw_rectangle(self, rectangle):
        column, row, columns, rows = rectangle
        x = self.labels.axis.place(column)
        width = self.labels.axis.place(column + columns) - x
        return f'M{x} {row}h{width}v{rows}h-{width}z' if width else ''

    def draw_cells(self, titled):
        """Yields the paths of the cells. Rectangles in `titled` have their own path, with a title. In a page, the script draws
        all rectangles."""
        for kind, shade, rectangles in self.paths:
            classes = f'{kind} {shade}'.rstrip()
            if self.labels.is_page:
                yield f'<path class="{classes}"/>'
                continue
            plain_ones = ''.join(self.draw_rectangle(it) for it in rectangles if (self.tenant, it) not in titled)
            yield f'<path class="{classes}" d="{plain_ones}"/>'
            for it in rectangles:
                if (self.tenant, it) in titled:
                    title = escaped(self.title(kind, shade, it))
                    yield f'<path class="{classes}" d="{self.draw_rectangle(it)}"><title>{title}</title></path>'

    def draw_layers(self, order):
        """Yields a path for each order that has free blocks, with the frames in them. In a page, the script draws them."""
        axis = self.labels.axis
        for it in drawn.LAYER.finditer(self.found['layers']):
            if self.labels.is_page:
                yield f'<path class="layer {it["classes"]}" transform="translate({LEFT} {it["foot"]}) scale(1 -{it["scale"]})"/>'
                continue
            path = re.sub(r'H(\d+)', lambda turn: f'H{axis.place(int(turn[1]))}', it['path'])
            title = f'{self.labels.name_of(self.tenant)}: frames in free blocks of order {order - int(it["depth"])}'
            title = f'<title>{escaped(title)}</title>'
            scale = axis.scale(f'{WIDTH / max(len(self.labels.lines), 1):.8f}')
            yield (f'<path class="{it["classes"]}" transform="translate({LEFT} {it["foot"]}) scale({scale} -{it["scale"]})" '
                   f'd="{path}">{title}</path>')

    def draw_refused(self):
        """Returns the marks of refusals. If the axis is time, they are where their column begins; if not, they stay where
        framemap has drawn them. In a page, the script draws them."""
        axis = self.labels.axis
        if self.labels.is_page:
            return '<path class="refused"/>'
        if not axis.by_time:
            return self.found['refused'].rstrip()
        marks = ''.join(f'M{LEFT + axis.edges[column]:.2f} {self.top + self.height + MARKS_BELOW}v{MARK_HEIGHT}'
                        for column in self.figures.refusing())
        return f'<path class="refused" d="{marks}"/>'

    def draw_window(self, titled, order):
        """Yields the part of the band that shows the trace. A page shows a part of the trace here."""
        height, is_page = self.foot - self.top, self.labels.is_page
        yield (f'<svg class="window" x="{LEFT}" y="{self.top}" width="{WIDTH}" height="{height}" '
               f'viewBox="{LEFT} {self.top} {WIDTH} {height}">')
        title = f'<title>{escaped(self.labels.name_of(self.tenant))}: free frames</title>'
        yield self.found['ground'] if is_page else self.found['ground'].replace('/>', f'>{title}</rect>')
        scale = '1' if is_page else self.labels.axis.scale(self.found['scale'])
        yield f'<g class="cells" transform="translate({LEFT} {self.top + self.height}) scale({scale} -{self.row_height})">'
        yield from self.draw_cells(titled)
        yield '</g>'
        yield self.draw_refused()
        yield from self.draw_layers(order)
        yield '</svg>'

    def draw_axes(self):
        """Returns the axes beside the rows, with a number of bytes beside each number of frames."""
        unit, bytes_at = self.labels.unit, f'class="right" x="{BYTES_RIGHT}" y='
        axes = re.sub(r'<text class="right" x="66" y=("\d+")>frame</text>', rf'\g<0><text {bytes_at}\1>{unit.name}</text>',
                      self.found['axes'])
        return re.sub(r'<text class="right" x="63" y=("\d+")>(\d+)</text>',
                      lambda it: f'{it[0]}<text {bytes_at}{it[1]}>{unit.of(int(it[2]))}</text>', axes).rstrip()

    def draw_ticks(self):
        """Yields the numbers below the band. In a page, the script draws them."""
        if self.labels.is_page:
            return
        if not self.labels.axis.by_time:
            yield self.found['ticks'].rstrip()
            return
        for at, number in self.labels.axis.ticks():
            x = f'{LEFT + at:.2f}'
            yield f'<path class="axis" d="M{x} {self.foot}v5"/>{text(number, self.foot + BELOW, x, "middle")}'
        yield text('seconds', self.foot + BELOW, LEFT - 9, 'right')

    def draw_peak(self):
        """Yields the callers of malloc when most bytes are live, and a mark above the column of this peak."""
        if not self.peak:
            return
        labels, (line, most, callers) = self.labels, self.peak
        size = f'{scales.plain(round(most / labels.unit.bytes, 1))} {labels.unit.name}'
        shares = ', '.join(f'{100 * size // max(most, 1)} % {name}' for size, _, name in callers)
        rows = '\n'.join(f'{size} bytes in {blocks} {summary.plural("block", blocks)}: {name}' for size, blocks, name in callers)
        words = escaped(cut(f'most bytes live, {size}, after line {line}: {shares}', MAX_CALLERS))
        yield text(f'<tspan class="peak">▼</tspan> {words}<title>{escaped(rows)}</title>', self.y, LEFT + INDENT)
        column = min(bisect.bisect_left(labels.lines, line), len(labels.lines) - 1)
        x = LEFT + sum(labels.axis.edges[column:column + 2]) / 2
        yield f'<path class="peak" d="{MARK}" transform="translate({x:.2f} {self.top})"><title>{words}</title></path>'

    def draw(self, titled, order, moved):
        """Yields the band, moved down by `moved` pixels."""
        labels, unit, y = self.labels, self.labels.unit, self.y + NAME_LINE - self.added
        name, full = (escaped(it) for it in (labels.short(self.tenant), labels.name_of(self.tenant)))
        yield (f'<g class="band" data-tenant="{self.tenant}" data-top="{y - 2 * NAME_LINE}" '
               f'data-bottom="{self.foot + FREE_BELOW}" data-row="{self.row_height}" data-frames="{self.per_row}" '
               f'transform="translate(0 {moved})">')
        yield text(f'{name}<title>tenant {self.tenant}: {full}</title>', y - NAME_LINE, LEFT, 'tenant')
        note = (self.found['note'] or '').replace(f' y="{self.y}"', f' y="{y - NAME_LINE}"').rstrip()
        # On a dark page, what is taken is lighter.
        yield note.replace('darker where more', 'stronger where more') if labels.is_page else note
        peak, at_end = self.figures.peak(), ' of '.join(map(unit.rounded, self.figures.at_end()))
        # framemap draws the most of the last lines of all columns: less than the peak if that lies between them.
        figures = re.sub(r'at most \d+ taken', f'at most {peak} taken', self.found['figures'])
        yield text(f'{figures} · {unit.rounded(peak)} {unit.name} at most, {at_end} {unit.name} at the end', y, LEFT + INDENT)
        yield from self.draw_peak()
        yield from self.draw_window(titled, order)
        yield self.draw_axes()
        yield self.found['word'].rstrip()
        most = int(re.search(r'(\d+)$', self.found['free'])[1])
        yield f'<text x="{LEFT}" {self.found["free"]} ({unit.of(most)} {unit.name})</text>'
        yield self.found['frame'].rstrip()
        yield '<g class="ticks">'
        yield from self.draw_ticks()
        yield '</g></g>'


def titled_in(bands):
    """Returns the rectangles that get titles, each with its tenant: the MAX_TITLES largest ones of all bands."""
    found = [(band.area(it), band.tenant, it) for band in bands for _, _, rectangles in band.paths for it in rectangles]
    largest = sorted((it for it in found if it[0]), reverse=True)[:MAX_TITLES]
    return {(tenant, it) for _, tenant, it in largest}


def add(head, bands, labels):
    """Returns the picture with this head and these bands, with its labels."""
    order, height = int(head['frames']).bit_length() - 1, int(head['height']) + sum(band.added for band in bands)
    titled = set() if labels.is_page else titled_in(bands)
    words = head['words'].rstrip()
    if labels.is_page:      # the script keeps the number of lines, and the picture takes the keys
        words = words.replace(f' column: {labels.width};', f' column: <tspan id="lines">{labels.width}</tspan>;')
        shown = 'class="picture" tabindex="0" role="group" aria-label="Frames over the trace" aria-describedby="help"'
    else:                   # only the width is less, so rows that are a pixel high stay so
        shown = f'class="picture" preserveAspectRatio="none" width="{SVG_WIDE}" height="{height}"'
    lines = [f'<svg xmlns="http://www.w3.org/2000/svg" {shown} viewBox="{-MARGIN} 0 {WIDE} {height}">',
             f'<style>{head["style"]}.peak{{fill:#b0003a}}</style>',
             f'<rect class="paper" x="{-MARGIN}" width="{WIDE}" height="{height}" fill="#fff"/>', words]
    moved = 0
    for band in bands:
        moved += band.added
        lines += band.draw(titled, order, moved)
    return '\n'.join(it for it in [*lines, '</svg>'] if it) + '\n'
