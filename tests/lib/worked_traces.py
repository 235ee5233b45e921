"""Writes the worked traces of crates/integration_tests to files.

    worked_traces.py FOLDER [OTHERS]

If a table has the replies to all tenants, its traces are written to FOLDER/NAME-NN, and their replies to FOLDER/NAME-NN.stdout.
These traces run on the machine SMALL. If a table has the replies to only one tenant, its traces are written to OTHERS/other-NN,
their replies to OTHERS/other-NN.stdout, and their command lines to OTHERS/other-NN.words. The traces that built_traces.rt builds
are written there in the same way."""
import codecs
import os
import re
import sys

SMALL = "--order 3 --superblocks 2 --tenants 2"
WIDER = "--order 3 --superblocks 3 --tenants 3"
WIDEST = "--order 3 --superblocks 256 --tenants 64"
LITERAL = r'b"((?:[^"\\]|\\.)*)"'


def rows_of(name, table="ROWS"):
    """Yields the traces of a table of crates/integration_tests/src/tables/NAME.rt, each with its replies."""
    source = open(f"crates/integration_tests/src/tables/{name}.rt", encoding="utf-8").read()
    constants = dict(re.findall(rf'const (\w+): &\[u8\] =\s*{LITERAL};', source, re.S))
    number, body = re.search(rf"static {table}: \[Row; (\d+)\] = \[(.*?)\n?\}}?\];\n", source, re.S).groups()
    rows = re.findall(rf"trace: (?:{LITERAL}|(\w+)),\s*output: (?:{LITERAL}|(\w+))", body, re.S)
    assert len(rows) == int(number), (name, table)
    for trace, trace_name, output, output_name in rows:
        yield [codecs.decode(re.sub(r"\\\n\s*", "", text), "unicode_escape")
               for text in (constants.get(trace_name, trace), constants.get(output_name, output))]


def built():
    """Yields the traces that crates/integration_tests/src/built_traces.rt builds, each with its command line and its replies."""
    cache = "0> cache {} chunk 16 order 0 objects 254 colours 1\n"
    yield SMALL, ["admin grant 0\n0 cache 1 8 00\n" + 255 * "0 take 0\n",
                  "admin> granted 0 slot 0 superblock 0\n" + cache.format(0)
                  + "".join(f"0> object {16 * number}\n" for number in range(254)) + "0> object 4096\n"]
    yield SMALL, [33 * "0 cache 16 8 00\n" + "0 destroy 3\n0 cache 16 8 00\n",
                  "".join(map(cache.format, range(32))) + "0> refused 8 NoCacheSlot\n0> destroyed 0\n" + cache.format(3)]
    yield WIDEST, ["admin pool\n",
                   "admin> pool free 256 of 256\n" + "".join(f"admin> superblock {number} free\n" for number in range(256))]


def others():
    for table, words in (("ROWS", SMALL + " --only 0"), ("OTHER_ROWS", SMALL + " --only 1"), ("THREE_ROWS", WIDER + " --only 0")):
        for row in rows_of("own", table):
            yield words, row
    yield from built()


def write(path, text):
    with open(path, "w", encoding="latin-1", newline="") as file:
        file.write(text)


for name in ("lines", "pages", "slots", "caches", "reaping", "moves"):
    for number, (trace, output) in enumerate(rows_of(name)):
        path = os.path.join(sys.argv[1], f"{name}-{number:02}")
        write(path, trace)
        write(path + ".stdout", output)
if len(sys.argv) > 2:
    for number, (words, (trace, output)) in enumerate(others()):
        path = os.path.join(sys.argv[2], f"other-{number:02}")
        write(path, trace)
        write(path + ".stdout", output)
        write(path + ".words", words)
