"""model_rows.py: what the model places.py answers to the cases of the tables in tests/. It is a module: tests/run.py and check_rows.py import it."""
import os
import sys
from typing import Callable, Iterator, Optional

TOOLS = os.path.dirname(os.path.abspath(__file__))
sys.path[:0] = [TOOLS, os.path.join(os.path.dirname(TOOLS), 'tests')]
import places
import tables
from places import Annotation, Handler

# the readers of the model, by the words of the tables
READERS = {**places.WORDS, 'zone-name': 'parse_iana_identifier'}


def another() -> Handler:
    """A handler. Its first reply is the calendar `a`, its second the calendar `b` with the flag of the annotation, and its third None.
    After these, it replies the annotation."""
    calls = []

    def reply(pair: Annotation) -> Optional[Annotation]:
        calls.append(pair)
        replies = [Annotation(False, 'u-ca', 'a'), Annotation(pair.critical, 'u-ca', 'b'), None]
        return replies[len(calls) - 1] if len(calls) <= len(replies) else pair
    return reply


def always(reply: Callable[[Annotation], Optional[Annotation]]) -> Callable[[], Handler]:
    """A function that makes a handler without a state."""
    return lambda: reply


DROP = always(lambda pair: None)
# by their names in tests/replies.tsv; the empty name is that of the readers without a handler
HANDLERS = {'': always(places.each_replies_for_itself), 'keep': always(lambda pair: pair), 'drop': DROP, 'make-critical': always(lambda pair: pair._replace(critical=True)),
            'turn-critical': always(lambda pair: pair._replace(critical=not pair.critical)), 'another': another}


class Listener:
    """A handler that notes its calls, as tests/replies.tsv writes them."""

    def __init__(self, handler: Handler):
        self.handler, self.calls = handler, ''

    def __call__(self, pair: Annotation) -> Optional[Annotation]:
        self.calls += f'[{"!" if pair.critical else ""}{pair.key}={pair.value}]'
        return self.handler(pair)


def answer(case: tables.Case) -> dict:
    """The columns that the model tells of a case. If it accepts the text, these are only the calls of the handler."""
    reader, wide, listener = READERS[case.reader], case.width == 16, Listener(HANDLERS[case.handler]())
    found = places.refusal(reader, case.units, wide, case.is_strict, listener)
    told = {'calls': listener.calls}
    if found is None:
        return told
    error, reason = found.fault.error, found.reason
    hints = places.hints_of(reader, found, case.units, wide, case.is_strict)
    return {**told, 'error': ' '.join(it for it in error if it), 'at': str(found.fault.place), 'part': f'{reason.begin}..{reason.end}', 'reason': reason.name,
            'message': places.reason_text(reason, case.units, wide, case.is_strict), 'hint': hints[0] if hints else 'none'}


def differences(case: tables.Case) -> Iterator[tuple[str, str, str]]:
    """The columns in which the model differs from the row of a case, each with what the row has and what the model has."""
    yield from tables.differences(case, answer(case))
