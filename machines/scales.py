"""The numbers beside a picture: bytes, and the lines or the times of its columns."""
import tenants
from summary import FRAME

WIDTH = 1200        # how wide all columns are together, in pixels
MAX_TICKS = 10     # the most steps from one number to the next on an axis
PARTS = 100         # places on an axis of time are rounded to 1/PARTS pixel


def plain(number):
    """Returns a number as text, with at most three decimals and no zeroes at the end of them."""
    return f'{number:.3f}'.rstrip('0').rstrip('.')


class Unit:
    """The unit in which bytes are shown: MiB if `frames`, the most that a tenant ever holds, are 2 MiB or more, or else KiB."""

    def __init__(self, frames):
        self.name, self.bytes = ('MiB', 1 << 20) if frames * FRAME >= 2 << 20 else ('KiB', 1 << 10)

    def of(self, frames):
        return plain(frames * FRAME / self.bytes)

    def rounded(self, frames):
        """Returns the bytes of these frames, rounded to a tenth of the unit."""
        return plain(round(frames * FRAME / self.bytes, 1))


def step_of(whole):
    """Returns the least number of the form 1, 2 or 5 times a power of ten that fits at most MAX_TICKS times into `whole`."""
    power = -9
    while True:
        for step in (1, 2, 5):
            if whole <= MAX_TICKS * step * 10.0**power:
                return step * 10.0**power
        power += 1


class Axis:
    """The horizontal axis. Column c is between `edges[c]` and `edges[c + 1]`, in pixels from the left of the columns. The numbers
    below the columns go from `begin` to `end`, and `name` says what they count."""

    def __init__(self, lines, width, clock=None):
        count, self.by_time = len(lines), clock is not None
        if self.by_time:
            begin, end = clock.times[0], clock.place(lines[-1], lines[-1]) if lines else 0
            if not end > begin:
                tenants.fail('no time passes in the trace: draw it by lines')
            # A column shows the state after its last line. Two columns meet at the time of the line halfway between their last
            # lines, so a pause is not drawn only with the state after it.
            places = [clock.place((line + after) / 2, lines[-1]) for line, after in zip(lines, lines[1:])]
            self.edges = [0, *((place - begin) / (end - begin) * WIDTH for place in places), WIDTH]
            self.name, self.begin, self.end = 'seconds', begin, end
        else:
            self.edges = [at * WIDTH / count for at in range(count + 1)] if count else [0]
            self.name, self.begin, self.end = 'line', 0, width * count

    def place(self, column):
        """Returns where a column begins, in the units of the paths: columns, or 1/PARTS pixels if the axis is time."""
        return round(self.edges[column] * PARTS) if self.by_time else column

    def scale(self, plain_scale):
        return f'{1 / PARTS}' if self.by_time else plain_scale

    def ticks(self):
        """Yields the numbers of the axis, each with its distance from the left."""
        step = step_of(self.end - self.begin)
        at = -(-self.begin // step)
        while at * step <= self.end:
            yield (at * step - self.begin) / (self.end - self.begin) * WIDTH, f'{at * step:.9f}'.rstrip('0').rstrip('.')
            at += 1
