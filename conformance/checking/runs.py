"""Runs of the program: sends lines and keeps the replies, and runs the lines of an earlier run again."""
import bisect
import copy
import functools
import itertools
import operator

from .talk import ProgramFailed
from .words import FRAME_BYTES, MAX_BYTES, MAX_NUMBER, is_number, number_in, order_in, told_in
from .world import BY_STEP, MAX_LINE, MOVE, OTHER_STEP, PLAIN, REPORT, UNREAD, WORDS, World, said_in

# The most lines that are sent at once if none of them needs the reply to another.
MAX_AT_ONCE = 256
# If a wrong number has one of these distances from a name, it keeps the distance when the name changes. The distances are powers
# of two, since blocks and slots have such sizes, and since a program may drop the high bits of a number.
POWERS = [1 << power for power in range(32)]
UPWARDS = [0, *reversed(POWERS)]
DISTANCES = [*UPWARDS, *(-power for power in POWERS)]
# How lines begin that do not change how many rows a report has. Other superblocks may be named in the replies to them.
WITHOUT_ROWS = 'admin grant', 'admin takeback', 'admin move'
# The commands that change which caches there are.
OF_CACHES = ['cache'], ['destroy'], ['reset']
# How many lines, and how many replies, are kept with their parts.
KNOWN_TEXTS = 1 << 13


class Run:
    """A trace that is being made: its lines so far, with their steps and their replies. A reply is one text, with a newline
    between two of its lines, or None if it has no line. If `is_known`, no line is made from the replies."""

    def __init__(self, programs, sizes, is_known=False):
        self.talk, self.world = programs.start(sizes), World(sizes, is_known)
        self.sizes, self.failure, self.rest = sizes, None, ''
        self.lines, self.steps, self.answers, self.built = [], [], [], []
        self.slowest, self.known, self.own, self.at_once = 0.0, {}, {}, {}

    @property
    def exchanges(self):
        """The lines, each with the list of the lines of its reply."""
        if len(self.built) < len(self.lines):
            self.built = list(zip(self.lines, map(rows_of, self.answers)))
        return self.built

    def say(self, lines, steps=None):
        """Sends lines all at once, and then takes the reply to each. Without steps, all that is noted is seen in their words."""
        if not self.failure and lines:
            self.talk.send(lines)
            self.take(lines, steps or [OTHER_STEP] * len(lines))

    def take(self, lines, steps):
        """Takes the replies to lines that are sent."""
        talk, world, answers = self.talk, self.world, self.answers
        ready, first, refused = talk.ready, len(answers), world.refused
        pop, add, by_step = ready.popleft, answers.append, BY_STEP
        try:
            for line, step in zip(lines, steps):
                kind = step[0]
                if kind < REPORT:
                    if not ready:
                        talk.wait(1, len(answers))
                    reply = pop()
                    add(reply)
                    if kind > MOVE:
                        said, told = said_in(reply)
                        if said == 'refused':
                            refused[told] += 1
                        elif not (by_step[kind] and by_step[kind](world, step, said, told)):
                            world.note(line.split(), [reply])
                    elif 'refused' in reply and said_in(reply)[0] == 'refused':
                        refused[said_in(reply)[1]] += 1
                else:
                    words = line.split()
                    replies = talk.reply(world.rows(step, line, words), len(answers))
                    add('\n'.join(replies) if replies else None)
                    world.note(words, replies)
        except ProgramFailed as failed:
            self.fail_at(lines[len(answers) - first], failed)
        said = len(answers) - first
        talk.answered = len(answers)
        self.lines += lines[:said]
        self.steps += steps[:said]

    def fail_at(self, line, failed):
        """Notes how the program failed at a line, and what it printed of the reply."""
        replies = [part for part in self.talk.rest() if part]
        self.failure = failed.args[0]
        self.answers.append('\n'.join(replies) if replies else None)
        self.world.note(line.split(), replies)

    def say_again(self, lines, before):
        """Sends known lines as they are, all at once. `before` has their replies in another run. As long as the replies to a
        tenant are the same, each has as many lines as then."""
        if lines:
            self.talk.send(lines)
        try:
            is_same = self.take_again(lines, before)
        except ProgramFailed as failed:
            is_same = True
            self.fail_at(lines[len(self.answers)], failed)
        said = len(self.answers)
        self.lines, self.steps = lines[:said], [OTHER_STEP] * said
        if not is_same:
            for line, answer in zip(self.lines, self.answers):
                self.world.note(line.split(), rows_of(answer))
            self.take(lines[said:], [OTHER_STEP] * (len(lines) - said))

    def take_again(self, lines, before):
        """Takes replies as long as they are the same as before. Returns false after the first other one, even if it is the
        last."""
        answers, talk, at = self.answers, self.talk, 0
        for many in [*(at for at, known in enumerate(before) if known is None or '\n' in known), len(before)]:
            # the replies of one line each before the next one of many lines, or of none
            while at < many:
                ready = talk.some(many - at, at)
                known = before[at:at + len(ready)]
                if ready != known:
                    others = itertools.compress(itertools.count(), map(operator.ne, ready, known))
                    other = next((other for other in others if not lines[at + other].startswith(WITHOUT_ROWS)), None)
                    if other is not None:
                        talk.give_back(ready[other + 1:])
                        answers += ready[:other + 1]
                        return False
                answers += ready
                at += len(ready)
            if many < len(before):
                known = rows_of(before[many])
                replies = talk.reply(len(known), many)
                answers.append('\n'.join(replies) if replies else None)
                if replies != known and not lines[many].startswith(WITHOUT_ROWS):
                    return False
                at += 1
        talk.answered = len(answers)
        return True

    def end(self):
        if not self.failure:
            try:
                self.rest = self.talk.end()
            except ProgramFailed as failed:
                self.failure = failed.args[0]
        # A worker sends the run to the first process, but a talk cannot be sent to another process.
        self.slowest, self.talk = self.talk.slowest, None
        return self

    def trace(self):
        return '\n'.join([*self.lines, ''])

    def text(self):
        return '\n'.join([*self.told_lines(), self.rest])

    def up_to(self, count):
        """Returns this run with its first `count` lines alone."""
        cut = copy.copy(self)
        cut.lines, cut.steps, cut.answers = self.lines[:count], self.steps[:count], self.answers[:count]
        cut.rest, cut.known, cut.own, cut.at_once, cut.built = '', {}, {}, {}, []
        return cut

    def told_lines(self):
        """Returns the replies, some of which have more than one line."""
        return [answer for answer in self.answers if answer is not None] if None in self.answers else self.answers

    def told_at_once(self, tenant):
        """Returns the replies to the tenant's lines. These are all replies that name it, if no promise is broken."""
        if tenant not in self.at_once:
            begin = f'{tenant}> '
            self.at_once[tenant] = [answer for step, answer in zip(self.steps, self.answers)
                                    if step[1] == tenant or step[1] == UNREAD and answer and answer.startswith(begin)]
        return self.at_once[tenant]

    def told(self, tenant):
        """Returns the reply lines that name the tenant. May be called only after the run."""
        if tenant not in self.known:
            begin, answers = f'{tenant}> ', self.told_lines()
            rows = '\n'.join(answers).split('\n') if answers else []
            self.known[tenant] = [row for row in rows if row.startswith(begin)]
        return self.known[tenant]

    def own_list(self, tenant):
        """Returns the tenant's commands and its resets, and those of its grants and take-backs that were not refused: the lines,
        their steps and their replies. May be called only after the run."""
        if tenant not in self.own:
            lines, steps, answers, wanted = self.lines, self.steps, self.answers, {tenant, ~tenant, UNREAD}
            at = [at for at, step in enumerate(steps) if step[1] in wanted]
            at = [at for at in at if steps[at][1] == tenant or self.is_own(tenant, at)]
            self.own[tenant] = [lines[one] for one in at], [steps[one] for one in at], [answers[one] for one in at]
        return self.own[tenant]

    def is_own(self, tenant, at):
        """Returns whether a line that is no made command of the tenant is in its own list."""
        (kind, names, *_), rows = self.steps[at], rows_of(self.answers[at])
        return is_own(tenant, self.lines[at], rows) if names == UNREAD else kind != MOVE and has_done(rows)

    def speakers(self):
        """Returns those tenants of the machine that are named in at least one line."""
        steps = set(map(operator.itemgetter(1), self.steps))
        named = {str(max(number, ~number)) for number in steps - {UNREAD}}
        if UNREAD in steps:
            named |= {tenant_of(line) for line, step in zip(self.lines, self.steps) if step[1] == UNREAD}
        return [tenant for tenant in range(self.sizes.tenants) if str(tenant) in named]


def rows_of(answer):
    """Returns the lines of a reply."""
    return [] if answer is None else answer.split('\n')


def is_own(tenant, line, replies):
    """Returns whether a line is in a tenant's own list."""
    words = line.split()
    if words[:1] == ['admin'] and len(words) > 2 and is_number(words[2]) and int(words[2]) == tenant:
        return words[1] in ('grant', 'takeback', 'reset') and has_done(replies)
    return bool(words) and is_number(words[0]) and int(words[0]) == tenant


def has_done(replies):
    """Returns whether a line got a reply and was neither refused nor faulty."""
    return bool(replies) and not replies[0].startswith('!') and ' refused ' not in replies[0]


def tenant_of(line):
    """Returns the word that names a line's tenant, or an empty text if there is none."""
    words = line.split(None, 3)
    at = 2 if words[:1] == ['admin'] else 0
    return words[at] if at < len(words) else ''


class Places:
    """The blocks and objects that one run returned, by first place. Each has a value, mostly its first place in another run."""

    def __init__(self):
        self.begins, self.known = [], {}                        # first places, rising; by first place the size and the value

    def add(self, begin, size, now):
        """Adds a block or an object. An older one that shares a place with it has been given back, and is dropped."""
        at = bisect.bisect_left(self.begins, begin + size)
        while at and self.begins[at - 1] + self.known[self.begins[at - 1]][0] > begin:
            at -= 1
            del self.known[self.begins.pop(at)]
        self.begins.insert(at, begin)
        self.known[begin] = size, now

    def around(self, place):
        """Returns the first place of the block or object that contains a place, ends right before it, or begins at most
        MAX_BYTES after it. Returns None if there is none."""
        at = bisect.bisect_right(self.begins, place) - 1
        before = self.begins[at] if at >= 0 else None
        if before is not None and place <= before + self.known[before][0]:
            return before
        behind = self.begins[at + 1] if at + 1 < len(self.begins) else None
        return behind if behind is not None and behind - place <= MAX_BYTES else None


class Renamed:
    """Maps a tenant's frames, objects, caches and slots in one run to those in another run, which may have fewer lines and
    another order."""

    def __init__(self, before, now):
        self.before, self.now = FRAME_BYTES << before, FRAME_BYTES << now
        self.names = {'frame': {}, 'object': {}, 'cache': {}, 'slot': {}}
        self.places, self.sizes = Places(), {}                  # sizes of objects by cache
        self.awaited = set()                                    # names whose reply is not yet known, and their kinds
        # As long as all names stay the same, each line does too, and blocks and objects are kept in a list.
        self.is_changed, self.later = before != now, []

    def awaits(self, kind, old):
        """Notes that a line is sent and not yet answered. Its reply in the first run gave the name `old`."""
        self.awaited.add(kind)
        self.awaited.add((kind, old))

    def needs(self, words, named):
        """Returns whether a line with these words has a name that an awaited reply gives. `named` is names_in(words)."""
        if self.awaited:
            for at, kind in named:
                if self.is_awaited(kind, words[at]):
                    return True
        return False

    def is_awaited(self, kind, word):
        """Returns whether an awaited reply may decide what a word becomes in the other run."""
        if kind in self.names and int(word) in self.names[kind] or not self.awaited:
            return (kind, word) in self.awaited
        return bool(self.awaited & ({'frame', 'object', 'slot'} if kind in ('frame', 'place') else {kind}))

    def note(self, words, kind, old, new):
        """Notes that the reply to these words gave the name `old` in the first run, and gives `new` in the other."""
        try:
            self.rename(words, kind, known_number(old), known_number(new))
        except (IndexError, ValueError):
            pass

    def rename(self, words, kind, before, now):
        if kind != 'slot':
            size = order_in(words[2]) if kind == 'frame' else known_number(words[2])
            self.later.append((kind, before, size, now))
        self.names[kind][before] = now
        self.is_changed = self.is_changed or before != now

    def note_places(self):
        """Notes where the blocks and objects of the list are."""
        for kind, before, size, now in self.later:
            if kind == 'frame':
                self.places.add(FRAME_BYTES * before, FRAME_BYTES << size, FRAME_BYTES * now)
            elif kind == 'cache':
                self.sizes[before] = size
            else:
                self.places.add(before, self.sizes.get(size, 1), now)
        self.later.clear()

    def line(self, words, plain, named):
        """Returns a line with the names of the other run. `plain` is the line with the names as they are."""
        if not self.is_changed:
            return plain
        self.note_places()
        renamed = None
        for at, kind in named:
            now = str(self.place(int(words[at])) if kind == 'place' else self.number(kind, words[at]))
            if now != words[at]:
                renamed = renamed or list(words)
                renamed[at] = now
        return ' '.join(renamed) if renamed else plain

    def number(self, kind, word):
        """Returns what a number becomes in the other run: a name, or a number at the same distance from a name."""
        names, number = self.names[kind], int(word)
        now = names.get(number)
        if now is not None and now <= MAX_NUMBER:
            return word if now == number else now
        if kind == 'frame' and number not in names:
            return self.place(number * FRAME_BYTES, FRAME_BYTES) // FRAME_BYTES
        for distance in DISTANCES if names else ():
            now = names.get(number - distance)
            if now is not None and 0 <= now + distance <= MAX_NUMBER:
                return word if now + distance == number else now + distance
        return word

    def place(self, place, unit=1):
        """Returns what a place becomes in the other run. It keeps its distance, in units, from a block, an object or a slot."""
        for distance in UPWARDS if self.places.begins or self.names['slot'] else ():
            distance *= unit
            now = self.known_place(place - distance) if distance <= place else None
            if now is not None:
                return now + distance
        return place

    def known_place(self, place):
        """Returns what a place becomes if it is in or beside a block or an object, or in a slot; or else None."""
        begin = self.places.around(place)
        if begin is not None:
            now = self.places.known[begin][1] + place - begin
            return now if now >= 0 else place
        slot, offset = divmod(place, self.before)
        if slot in self.names['slot']:
            # at the same distance from the end, if the slot is too small now
            inside = offset if offset < self.now else max(offset - self.before + self.now, 0)
            return self.names['slot'][slot] * self.now + inside
        return None


def name_in(told):
    """Returns which kind of name a reply gives, and which of the reply's words the name is."""
    kind = told[0] if told else ''
    return (kind, 1) if kind in ('frame', 'object', 'cache') else ('slot', 3) if kind == 'granted' else ('', 0)


NAMES = {'free': ['frame'], 'read': ['place'], 'write': ['place'], 'destroy': ['cache'], 'take': ['cache'],
         'give': ['cache', 'object'], 'takeback': ['', 'slot'], 'move': ['', 'slot']}


def names_in(words):
    """Returns which words of a line are names from replies, each with its kind."""
    return [(at, kind) for at, kind in enumerate(NAMES.get(words[1], []), 2) if kind and at < len(words) and is_number(words[at])]


# The lines and the replies of a load come again and again while it is shortened.
@functools.lru_cache(KNOWN_TEXTS)
def parts_of(line):
    """Returns the words of a line, with one space between two, and its names."""
    words = line.split()
    return words, ' '.join(words), names_in(words) if len(words) > 1 else []


@functools.lru_cache(KNOWN_TEXTS)
def step_of(line):
    """Returns the step of a line in a run whose lines are known."""
    words = line.split()
    if not words or words[0][0] == '#' or len(words) == 2 or len(line) > MAX_LINE:
        return OTHER_STEP
    return (WORDS, UNREAD) if words[1:2] in OF_CACHES else (PLAIN, UNREAD)


known_number = functools.lru_cache(KNOWN_TEXTS)(number_in)


@functools.lru_cache(KNOWN_TEXTS)
def name_from(reply):
    """Returns which kind of name a reply line gives, and the word that is the name. Both are empty texts if it gives none. The
    kind is `fault` if the reply says that the line is faulty."""
    told = told_in([reply])
    kind, at = name_in(told)
    if kind and at < len(told):
        return kind, told[at]
    return 'fault' if told[:1] == ['fault'] else '', ''


def name_given(answer):
    """Returns what `name_from` returns for the first line of a reply."""
    return ('', '') if answer is None else name_from(answer.partition('\n')[0] if '\n' in answer else answer)


def said_again(programs, sizes, lines, before):
    """Runs the lines of a tenant's own list as they are, on a machine of these sizes. `before` has their replies in another
    run."""
    run = Run(programs, sizes, is_known=True)
    run.say_again(lines, before)
    return run.end()


def replayed(programs, sizes, exchanges, order=None):
    """Runs the lines of these exchanges again, on a machine of these sizes. Their old replies are from a machine of order
    `order`, or of the same order if that is None. Names from the old replies are replaced by those from the new ones, also in a
    line that got no reply since the program failed. Lines are sent together until one needs a reply that is still missing."""
    before = sizes.order if order is None else order
    run, renamed, sent = Run(programs, sizes, is_known=True), {}, []

    def answered():
        count = len(run.answers)
        run.say([line for line, *_ in sent], [step_of(line) for line, *_ in sent])
        for names in renamed.values():
            names.awaited.clear()
        for (_, words, names, kind, old), answer in zip(sent, run.answers[count:]):
            if kind and name_given(answer)[0] == kind:
                names.note(words, kind, old, name_given(answer)[1])
        sent.clear()

    for line, replies in exchanges:
        words, plain, named = parts_of(line)
        kind, old = name_from(replies[0]) if replies else ('', '')
        if kind == 'fault' or len(words) < 3:
            names, kind = None, ''
        else:
            line, who = plain, words[2] if words[0] == 'admin' else words[0]
            names = renamed.get(who)
            if names is None:
                names = renamed[who] = Renamed(before, sizes.order)
        if len(sent) >= MAX_AT_ONCE or named and names and names.needs(words, named):
            answered()
        if kind:
            names.awaits(kind, old)
        sent.append((names.line(words, line, named) if named and names else line, words, names, kind, old))
        if run.failure:
            break
    answered()
    return run.end()
