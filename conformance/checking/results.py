"""Writes the result of a test for other programs: as JSON, and as XML in the form of JUnit."""
import json
import xml.etree.ElementTree as ElementTree
from typing import Any, NamedTuple, Optional

from .judge import Case
from .loads import Reached
from .talk import Failure
from .words import visible


class CannotWrite(Exception):
    """Raised if a file cannot be written."""


class Result(NamedTuple):
    """What a test found: the exit status, the report, the names of the loads or traces that were run, the last of which has the
    case if there is one, what they reached, and the command that runs the case again."""
    status: int
    report: str
    names: list
    reached: Reached
    case: Optional[Case] = None
    again: str = ''


def as_json(options, result):
    """Returns the result as a JSON object. It has a `finding`, and what comes behind it, only if there is a case."""
    made: dict[str, Any] = {
        'status': result.status, 'program': options.command, 'seed': options.seed, 'run': result.names,
        'lines': result.reached.lines, 'refused': dict(result.reached.refused)}
    if result.case:
        run, finding = result.case
        made |= {'finding': {'kind': finding.kind, 'words': finding.words, 'line': getattr(finding, 'line', None),
                             'tenant': getattr(finding, 'tenant', None), 'errors': getattr(finding, 'errors', None)},
                 'machine': run.sizes._asdict(), 'again': result.again,
                 'exchanges': [{'line': line, 'replies': replies} for line, replies in run.exchanges]}
    return json.dumps(made, indent=1)


def as_junit(options, result):
    """Returns XML with a test case for each load or trace that was run. A broken promise is a failure. It is an error if the
    program fails."""
    kind = 'error' if result.case and isinstance(result.case.finding, Failure) else 'failure'
    counts = {'tests': str(len(result.names)), 'failures': '0', 'errors': '0'}
    counts[f'{kind}s'] = str(int(result.case is not None))
    suite = ElementTree.Element('testsuite', {'name': 'conformance/check', **counts})
    cases = [ElementTree.SubElement(suite, 'testcase', {'classname': visible(options.program), 'name': name_of(name)})
             for name in result.names]
    if result.case:
        finding = result.case.finding
        about = {'type': finding.kind, 'message': visible(finding.words)}
        ElementTree.SubElement(cases[-1], kind, about).text = result.report
    return '<?xml version="1.0"?>\n' + ElementTree.tostring(suite, encoding='us-ascii', xml_declaration=False).decode('ascii')


def name_of(name):
    return f'load {name}' if isinstance(name, int) else visible(name)


def write(options, result):
    """Writes the files of --json and --junit. Raises CannotWrite if it cannot."""
    for name, text_of in (options.json, as_json), (options.junit, as_junit):
        if name:
            try:
                with open(name, 'w', encoding='ascii') as file:
                    file.write(text_of(options, result) + '\n')
            except OSError as error:
                raise CannotWrite(f'cannot write {name}: {error.strerror}') from None
