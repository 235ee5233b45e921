"""Reads the events of pages and objects in the logs of Linux machines. docs/machines.md says how to record a log, and in which
three forms."""
import re

import tenants

EVENT = re.compile(r' (\d+(?:\.\d+)?): +(?:kmem:)?'
                   r'(mm_page_alloc|mm_page_free|kmem_cache_alloc(?:_node)?|kmem_cache_free|kmalloc(?:_node)?|kfree): (.*)',
                   re.ASCII)
FIELD = re.compile(r'\b(\w+)=(\S*)', re.ASCII)
LOST = re.compile(r'LOST \d+ EVENTS|EVENTS DROPPED|PERF_RECORD_LOST')
WRITTEN = re.compile(r'# entries-in-buffer/entries-written: (\d+)/(\d+)')
GREATEST_KMALLOC_IN_SLABS = 8192
DECIMAL, HEX = re.compile('[0-9]{1,20}'), re.compile('(0x)?[0-9a-fA-F]{1,16}')
MAX_ORDER = 13             # Linux has page blocks up to order 10, and up to order 13 with frames of 64 KiB
MAX_NUMBER = 2**64 - 1     # the greatest pointer, number of a frame, or bytes of an object
MAX_TIME_CHARACTERS = 40
# What is before the time of an event: the name of the process that ran, its number, and the processor. ftrace and trace-cmd write
# a hyphen before the number, and perf a space.
RAN = re.compile(r'\s*(?:(.*)-(\d{1,10})\s+(?:\([ \d-]*\)\s+)?|(.*\S)\s+(\d{1,10})(?:/\d{1,10})?\s+)\[\d+\]')
CGROUP = re.compile(r' (/.*|unknown)$')     # behind the fields of an event


def number(fields, name, least, most, base=10):
    """Returns the number in a field. It is hex if it begins with 0x, or if `base` is 16. Raises ValueError if the field has no
    number, or one that is not from `least` to `most`."""
    text = fields[name]
    base = 16 if text.startswith('0x') else base
    value = int(text, base) if (HEX if base == 16 else DECIMAL).fullmatch(text) else None
    if value is None or not least <= value <= most:
        raise ValueError(f'{name}={text:.40} is no number from {least} to {most}')
    return value


def pointer_of(fields):
    """Returns the pointer in the field `ptr`, which is in hex digits with or without 0x. Returns 0 for (nil) and (null)."""
    return 0 if fields['ptr'] in ('(nil)', '(null)') else number(fields, 'ptr', 0, MAX_NUMBER, 16)


def time_of(text):
    if len(text) > MAX_TIME_CHARACTERS:
        raise ValueError(f'the time {text:.40} has more than {MAX_TIME_CHARACTERS} characters')
    return float(text)


def is_of_slabs(frames, flags):
    """Returns whether these pages are for a slab. For a slab, the slab allocator adds __GFP_NORETRY and __GFP_NOWARN to the flags
    of its caller, and __GFP_COMP if the slab has more than one page. In Linux 6.12 GFP_NOWAIT contains __GFP_NOWARN."""
    flags = set(flags.split('|'))
    is_silent = '__GFP_NOWARN' in flags or 'GFP_NOWAIT' in flags
    return is_silent and '__GFP_NORETRY' in flags and (frames == 1 or '__GFP_COMP' in flags)


def pages(fields):
    """Returns the first frame of a block, and how many frames it has."""
    return number(fields, 'pfn', 0, MAX_NUMBER), 2**number(fields, 'order', 0, MAX_ORDER)


def event_of(event, fields):
    """Returns the event as (what, name, amount, asked). For pages, `name` is the number of the first frame, `amount` is how many
    frames there are, and `asked` is 0. For an object, `name` is its pointer, `amount` is its size in bytes, and `asked` is how
    many bytes were requested. When an object is freed, `amount` and `asked` are 0."""
    if event == 'mm_page_alloc':
        first, frames = pages(fields)
        return 'slab pages' if is_of_slabs(frames, fields['gfp_flags']) else 'pages', first, frames, 0
    if event == 'mm_page_free':
        return 'pages freed', *pages(fields), 0
    pointer = pointer_of(fields)
    if event in ('kfree', 'kmem_cache_free'):
        return 'freed', pointer, 0, 0
    size = number(fields, 'bytes_alloc', 1, MAX_NUMBER)
    asked = min(number(fields, 'bytes_req', 0, MAX_NUMBER), size) if 'bytes_req' in fields else size
    return 'large' if event.startswith('kmalloc') and size > GREATEST_KMALLOC_IN_SLABS else 'object', pointer, size, asked


def owner_of(line, found, by, where):
    """Returns who caused the event `found` in this line: (key, name). With `by` comm, both are the name of the process. With pid,
    the key is its number, and the name is both. With cgroup, both are the path of the control group."""
    if by == 'cgroup':
        cgroup = CGROUP.search(found[3])
        return (cgroup[1], cgroup[1]) if cgroup else tenants.fail(f'{where}: the line ends in no control group')
    ran = RAN.match(line[:found.start()])
    if not ran:
        tenants.fail(f'{where}: the line begins with no process, number and processor')
    comm, pid = ran[1] or ran[3] or '', ran[2] or ran[4]
    return (comm, comm) if by == 'comm' else (pid, f'{comm} {pid}')


def check_line(line, where):
    """Fails if the line says that events are missing in the log."""
    written = WRITTEN.match(line)
    if LOST.search(line) or written and written[1] != written[2]:
        tenants.fail(f'{where}: events were lost. Record again with a greater buffer (trace-cmd record -b, perf record -m, '
                     'buffer_size_kb of ftrace), or for a shorter time')


def check_fields(fields, where):
    """Fails if the kernel hid the pointer, or if the flags or the name are empty, or if the flags are a number."""
    if 'ptrval' in fields.get('ptr', ''):
        tenants.fail(f'{where}: pointers are all printed alike. Record with trace-cmd or perf, or boot with no_hash_pointers')
    if '' in (fields.get('gfp_flags'), fields.get('name')):
        tenants.fail(f'{where}: flags or names are empty. Record with trace-cmd or perf, or leave options/hash-ptr as it is '
                     'and boot with no_hash_pointers')
    if fields.get('gfp_flags', '-')[0].isdigit():
        tenants.fail(f'{where}: flags are numbers, and their bits are not the same in all kernels. Use one of the three forms')


def parsed(where, function, *words):
    """Returns what a function returns for these arguments. If it raises KeyError or ValueError, reports what is wrong with the
    line at `where`, and ends the program."""
    try:
        return function(*words)
    except KeyError as problem:
        return tenants.fail(f'{where}: the event lacks the field {problem.args[0]}')
    except ValueError as problem:
        return tenants.fail(f'{where}: {problem}')


def fields_of(found):
    return dict(FIELD.findall(found[3]))


def fail_without_events(path):
    tenants.fail(f'{path} has no event of kmem: it has to be the text of trace-cmd report, of perf script or of ftrace')


def read(path, by=None):
    """Yields the events of a log: time, what, name, amount and asked. With `by`, (key, name) of `owner_of` follows."""
    none = True
    for at, line in tenants.lines_of(path):
        where = f'{path} line {at}'
        found = EVENT.search(line)
        if not found:
            check_line(line, where)
            continue
        none, fields = False, fields_of(found)
        check_fields(fields, where)
        owner = (owner_of(line, found, by, where),) if by else ()
        yield parsed(where, time_of, found[1]), *parsed(where, event_of, found[2], fields), *owner
    if none:
        fail_without_events(path)
