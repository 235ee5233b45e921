"""Makes a load by talking to the program, and tests it."""
import collections
from typing import NamedTuple, Optional

from .heavy import Planner
from .judge import Case, Judge
from .maker import OF_CACHES, Maker, Phase
from .plans import ALL
from .runs import Run, is_own
from .talk import Programs
from .words import Sizes
from .world import GRANT, MOVE, UNREAD

# Everything counts as full if, of the lines sent at once, more than one in FULL is refused with NoFrames or PoolEmpty.
FULL = 3
# Noise is lines of other tenants. OWN_AT_ONCE lines of a tenant's own list are sent at once, with at most MAX_NOISE lines of
# noise before each of them.
OWN_AT_ONCE, MAX_NOISE = 16, 3


class Reached(NamedTuple):
    """What the runs reached: how many lines they had, how often each refusal came, and how large the machines were."""
    lines: int = 0
    refused: collections.Counter = collections.Counter()
    most: collections.Counter = collections.Counter()           # by noun, such as `slots`: the most that one tenant had at a time
    orders: frozenset = frozenset()
    tenants: int = 0
    widest: Sizes = Sizes(0, 0, 0)

    def and_also(self, other):
        return Reached(self.lines + other.lines, self.refused + other.refused, self.most | other.most, self.orders | other.orders,
                       max(self.tenants, other.tenants),
                       max(self.widest, other.widest, key=lambda sizes: (sizes.superblocks << sizes.order, sizes.tenants)))


def reached_by(run):
    sizes = run.sizes
    return Reached(len(run.lines), run.world.refused, run.world.most, frozenset([sizes.order]), sizes.tenants, sizes)


class Load(NamedTuple):
    """A load that was run: its number or the name of its trace, what its runs reached, and the case if something was found."""
    name: object
    reached: Reached
    case: Optional[Case]
    seconds: float = 0.0                                        # how long it took


def load(options, number):
    """Makes and tests a load."""
    fixed = Sizes(options.order, options.superblocks, options.tenants)
    planner = Planner(options.seed, number, fixed, not set(OF_CACHES) <= set(options.without))
    plan, judge = planner.plan(options.long), Judge(options, Programs(options.command))
    maker, run = Maker(planner.rng, options.without), Run(judge.programs, plan.sizes)
    for phase in plan.phases:
        say_phase(run, maker, phase, plan.at_once)
    case = judge.judged(run.end())
    reached = reached_by(run)
    if case:
        return Load(number, reached, case)
    tenant, *others = dict.fromkeys(plan.compared) or [planner.rng.choice(run.speakers() or [0])]
    case = next(filter(None, (judge.alone(run, each) for each in (tenant, *others))), None)
    if case:
        return Load(number, reached, judge.steady(case))
    noisy = between_noise(judge.programs, run, tenant, maker)
    reached = reached.and_also(reached_by(noisy))
    case = judge.judged(noisy)
    if not case:
        case = judge.compared(noisy, run, tenant, 'when its own list is run between other noise')
        case = case and judge.steady(judge.alone(noisy, tenant) or case)
    return Load(number, reached, case)


def say_phase(run, maker, phase, at_once):
    """Sends the lines of a phase. Stops when all are sent, when the goal is reached, when the program fails, or when everything
    is full or empty, or the goal gets no nearer, as `phase.until` says."""
    left, world = phase.lines, run.world
    phase = phase._replace(slot=world.tenants[phase.tenants[0]].slot_of_rank(phase.rank))
    while left > 0 and not run.failure and maker.commands(phase):
        most = most_lines(world, phase)
        count = min(left, at_once, most)
        if count == 0:
            return
        before = refused_for_want(world)
        run.say(*maker.lines(world, phase, count))
        left -= count
        is_full = phase.until == 'full' and FULL * (refused_for_want(world) - before) > count
        if is_full or phase.until == 'stuck' and most_lines(world, phase) >= most:
            return


def most_lines(world, phase):
    """Returns how many lines of a phase may be sent at once without passing its goal. Returns 0 if the goal is reached, or if
    nothing is held and the phase is to last until everything is empty."""
    tenants, most = [world.tenants[tenant] for tenant in phase.tenants], phase.lines
    if phase.until == 'empty' and not any(tenant.held() for tenant in tenants):
        return 0
    if phase.goal:
        most = phase.goal.away(tenants[0], world.sizes.order, phase.slot)
        # the goal is in frames, and each line allocates or frees a whole block
        most >>= max(phase.orders) if phase.goal.noun == 'frames' else 0
    return most


def refused_for_want(world):
    return world.refused['NoFrames'] + world.refused['PoolEmpty']


def most_held(lines):
    """Returns the most slots that a tenant holds at a time while the lines of its own list run."""
    held = most = 0
    for words in (line.split() for line in lines if line.lstrip().startswith('admin')):
        step = words[1] if words[0] == 'admin' else ''
        held = held + (step == 'grant') - (step == 'takeback') if step != 'reset' else 0
        most = max(most, held)
    return most


def between_noise(programs, before, tenant, maker):
    """Runs a tenant's own list from an earlier run again, between new lines of the other tenants. The other tenants leave enough
    superblocks for the grants of the own list."""
    sizes, (lines, steps, _) = before.sizes, before.own_list(tenant)
    others = [number for number in range(sizes.tenants) if number != tenant]
    noise = Phase(0, ALL, others, [0, 0, 0, 1, 1, 2, sizes.order])
    run, left = Run(programs, sizes), sizes.superblocks - most_held(lines)
    world, begin = run.world, 'admin grant'
    for at in range(0, len(lines), OWN_AT_ONCE):
        held, said, of_said = sum(len(world.tenants[other].slots.keys) for other in others), [], []
        for line, step in zip(lines[at:at + OWN_AT_ONCE], steps[at:at + OWN_AT_ONCE]):
            for _ in range(maker.below(MAX_NOISE + 1) if others else 0):
                other, of_other = maker.line(world, noise)
                is_grant = of_other[0] == GRANT or of_other[1] == UNREAD and other.startswith(begin)
                if not may_be_own(tenant, other, of_other) and (not is_grant or held < left):
                    said.append(other)
                    of_said.append(of_other)
                    held += is_grant
            said.append(line)
            of_said.append(step)
        run.say(said, of_said)
    return run.end()


def may_be_own(tenant, line, step):
    """Returns whether a line that was made is in a tenant's own list unless it is refused."""
    if step[1] == UNREAD:
        return is_own(tenant, line, [''])
    return step[1] == tenant or step[1] == ~tenant and step[0] != MOVE
