"""Reads what framemap has written: the parts of a picture, and the table of --figures."""
import collections
import re

import tenants

HEAD = re.compile(r'<svg xmlns="[^"]*" viewBox="0 0 1308 (?P<height>\d+)" width="1308" height="\d+">\n'
                  r'<style>(?P<style>.*)</style>\n<rect .*/>\n'
                  r'(?P<words><text class="head" .*\n<text x="72" y="50">Superblocks: \d+, of (?P<frames>\d+) frames each\. '
                  r'Lines to a column: (?P<width>\d+);.*\n(?:(?!<text class="tenant").*\n)*)')
BAND = re.compile(
    r'<text class="tenant" x="72" y="(?P<y>\d+)">Tenant (?P<tenant>\d+)</text>\n'
    r'(?P<note><text class="right" x="1272" y="\d+">a row is (?P<per_row>\d+) frames.*\n)?'
    r'<text x="162" y="\d+">(?P<figures>.*)</text>\n'
    r'(?P<ground><rect class="free" x="72" y="(?P<top>\d+)" width="1200" height="(?P<height>\d+)"/>)\n'
    r'<g class="cells" transform="translate\(72 \d+\) scale\((?P<scale>[\d.]+) -(?P<row>\d+)\)">\n'
    r'(?P<cells>(?:<path .*\n)*)</g>\n'
    r'(?P<axes><rect class="frame" .*\n(?:<(?:text|path class="(?:axis|slot)").*\n)*)'
    r'(?P<word><text class="right" x="63" y="\d+">refused</text>\n)'
    r'(?P<refused><path class="refused" d=".*"/>\n)'
    r'<text x="72" (?P<free>.*)</text>\n'
    r'(?P<layers>(?:<path class="cells d\d" .*\n)*)'
    r'(?P<frame><rect class="frame" .*\n(?:<text class="right" x="63" y="\d+">\d+</text>\n)*)'
    r'(?P<ticks>(?:<path class="axis" .*\n)*<text class="right" x="63" y="(?P<below>\d+)">line</text>\n)')
PATH = re.compile(r'<path class="(?P<kind>\w+)(?: (?P<shade>\w+))?" d="(?P<path>.*)"/>\n')
RECTANGLE = re.compile(r'M(\d+) (\d+)h(\d+)v(\d+)h-\d+z')
LAYER = re.compile(r'<path class="(?P<classes>cells d(?P<depth>\d))" transform="translate\(72 (?P<foot>\d+)\) '
                   r'scale\([\d.]+ -(?P<scale>[\d.]+)\)" d="(?P<path>.*)"/>\n')


class Figures:
    """The figures of a tenant, in lists by column: the frames that it holds after the column, how many of these are taken, the
    most that were taken in the column, how often it has been refused frames up to the column, and how many blocks of each order
    are free."""

    def __init__(self):
        self.held, self.taken, self.most, self.refused, self.free = [], [], [], [], []

    def peak(self):
        """Returns the most frames that are taken after any line. It does not depend on the number of columns."""
        return max(self.most, default=0)

    def refusing(self):
        """Returns the numbers of the columns in whose lines the tenant was refused frames."""
        return [at for at, (before, count) in enumerate(zip([0, *self.refused], self.refused)) if count > before]

    def at_end(self):
        return (self.taken[-1], self.held[-1]) if self.taken else (0, 0)


def read_table(table):
    """Returns the last line of each column, and the figures by tenant."""
    lines, figures = [], collections.defaultdict(Figures)
    for row in table.splitlines()[1:]:
        line, tenant, held, taken, most, refused, *free = map(int, row.split(','))
        figures[tenant].held.append(held)
        figures[tenant].taken.append(taken)
        figures[tenant].most.append(most)
        figures[tenant].refused.append(refused)
        figures[tenant].free.append(free)
        if not lines or line != lines[-1]:
            lines.append(line)
    return lines, figures


def parts_of(picture):
    """Returns the matches of HEAD and of each BAND in a picture of framemap. Fails if the picture has other parts."""
    head = HEAD.match(picture)
    at, bands = head.end() if head else 0, []
    while head and (band := BAND.match(picture, at)):
        bands.append(band)
        at = band.end()
    if not head or picture[at:] != '</svg>\n':
        tenants.fail(f'framemap has drawn something else than expected, at {picture[at:at + 80]!r}')
    return head, bands
