"""Makes the page of a trace: one HTML file with a picture whose columns a script draws, as fine as framemap has written them."""
import html
import itertools
import json
import os

import built
import labels
import remarks
import summary

OPEN = range(2, 9)  # with this many tenants, their list is not folded at the beginning


def part(name):
    """Returns the text of the file with this name in machines/."""
    with open(os.path.join(built.TOP, 'machines', name), encoding='utf-8') as file:
        return file.read()


def runs(values):
    """Returns a list in which each value is followed by how often it comes one after the other."""
    return [it for value, same in itertools.groupby(values) for it in (value, len(list(same)))]


def steps(rectangles):
    """Returns rectangles in order, as column, row, columns and rows of each. Instead of its column it has the distance from the
    column of the one before."""
    ordered = sorted(rectangles)
    before = [0, *(column for column, *_ in ordered)]
    return [it for (column, *rest), last in zip(ordered, before) for it in (column - last, *rest)]


def figures_of(figures):
    """Returns the figures of a tenant by column. The free frames are those in blocks of order 0 or more, 1 or more, and so on."""
    frames = [[count << order for order, count in enumerate(blocks)] for blocks in figures.free]
    free = [list(itertools.accumulate(reversed(by_order))) for by_order in frames]
    return {'held': runs(figures.held), 'taken': runs(figures.taken), 'refused': runs(figures.refused),
            'free': [runs(series) for series in reversed(list(zip(*free)))]}


def facts_of(own, bands, found):
    """Returns what the script knows of the trace."""
    axis, last = own.axis, own.lines[-1] if own.lines else 0
    return {'columns': {'count': len(own.lines), 'lines': own.width, 'last': last},
            'edges': [round(it, 3) for it in axis.edges] if axis.by_time else None,
            'axis': {'name': axis.name, 'from': axis.begin, 'to': axis.end},
            'times': runs([found.clock.read(line) for line in own.lines]) if found.clock.times else None,
            'unit': {'name': own.unit.name, 'bytes': own.unit.bytes}, 'frame': summary.FRAME, 'left': labels.LEFT,
            'width': labels.WIDTH, 'marks': labels.MARKS_BELOW, 'mark': labels.MARK_HEIGHT, 'kinds': labels.KINDS,
            'shares': labels.SHARES,
            'bands': [{'tones': [steps(rectangles) for _, _, rectangles in band.paths], 'figures': figures_of(band.figures),
                       'peak': band.peak and band.peak.line} for band in bands]}


def boxes(own):
    """Returns a box for each tenant."""
    return '\n'.join(f'<label title="{html.escape(own.name_of(it))}"><input type="checkbox" checked value="{it}">'
                     f'{html.escape(own.short(it))}</label>' for it in sorted(own.figures))


def callers(own):
    """Returns a table of the callers of malloc for each tenant that has them."""
    if not own.peaks:
        return ''
    tables = ''
    for tenant, peak in sorted(own.peaks.items()):
        rows = '\n'.join(f'<tr><td>{size:,}<td>{count:,}<td>{html.escape(name)}' for size, count, name in peak.callers)
        tables += (f'<table><caption>{html.escape(own.short(tenant))}: most bytes live, {peak.bytes:,}, '
                   f'<button type="button" value="{peak.line}">after line {peak.line}</button></caption>\n'
                   f'<tr><th>Bytes<th>Blocks<th>Caller of malloc\n{rows}\n</table>\n')
    return f'<details id="callers"><summary>Callers at the peak</summary>\n<div class="list">\n{tables}</div></details>\n'


def page(picture, own, bands, found, path):
    """Returns the page of a picture with its labels."""
    name = html.escape(remarks.printable(os.path.basename(path)))
    facts = json.dumps(facts_of(own, bands, found), separators=(',', ':'))
    filled = {'TITLE': name, 'STYLE': part('picture.css'), 'PICTURE': picture, 'FACTS': facts, 'TENANTS': boxes(own),
              'OPEN': ' open' if len(own.figures) in OPEN else '', 'CALLERS': callers(own),
              'SCRIPT': part('columns.js') + '\n' + part('picture.js')}
    shell = part('picture.html').split('@')
    return ''.join(filled[it] if at % 2 else it for at, it in enumerate(shell))
