"""A line of racereplay put beside the job and the recorded order: what it speaks of, and whether the steps here come to it."""
from dataclasses import dataclass, field
from functools import lru_cache

from common.files import TRACE
from interpreter.machine import Machine
from interpreter.program import Steps

from . import causes, forms, trace_lines
from .disagreement import require
from .findings import explained, place_in
from .formatting import grouped, shown
from .sheets import counts_of, steps_of
from .texts import job_fault, program_lines_fault

NUMERALS = [forms.Range("a number", 0, 10**forms.DIGITS)] * 2


@dataclass
class Order:
    """A recorded order, done as far as it goes."""

    steps: int = 0
    told: list = field(default_factory=list)  # each line as cells of the walk, if that was asked for
    race: tuple = None  # the first state with a race, its two threads, and what each is about to do
    stopped: tuple = None  # the number of the refusal, and why

    def line(self):
        """What racereplay should have written."""
        race = ",".join(map(str, self.race[:3])) if self.race else ""
        if self.stopped is None:
            return f"RACE,{self.steps},{race}" if race else f"RAN,{self.steps}"
        return f"REFUSE,{self.stopped[0]},{self.steps + 1},0,0,{self.steps}" + f",RACE,{race}" * bool(race)


def order_of(program, trace, names, walks=False):
    """Does the lines of a trace one by one on a well-formed program."""
    machine = Machine(Steps(steps_of(program)))
    state, naming, order = machine.start(), trace_lines.Numbered(machine.steps, names), Order()
    for line in trace.lines:
        fault = _line_fault(line)
        if fault:
            order.stopped = 46, fault.why
            break
        one, order.stopped = trace_lines.tried(machine, state, *map(int, line.text.split(b",")), naming)
        if one is None:
            break
        naming.learn(one)
        state, order.steps = one.after, order.steps + 1
        if walks:
            order.told.append(_cells(order.steps, line, one, machine.steps, naming))
        if order.race is None:
            order.race = _race(machine, state, order.steps, naming)
    return order


# Most lines of an order are alike.
@lru_cache(maxsize=1 << 10)
def _line_fault(line):
    return forms.fault(line, NUMERALS)


def _cells(number, line, one, steps, naming):
    """A line of the walk: its number, the line, the thread, the job's line, the word, and in words."""
    thread = f"{one.thread} {naming.given(one.thread) or ''}".strip()
    return str(number), shown(line.text), thread, str(one.point.line), one.point.word, trace_lines.in_words(one, steps, naming)


def _race(machine, state, number, naming):
    pair = machine.race(state)
    return pair and (number, *pair, *(trace_lines.about_to(machine, state, thread, naming) for thread in pair))


def explain(run, folder, walks=False):
    """The explanation of racereplay's line in a folder, with the order as far as it was done."""
    return explained(run, folder, lambda explanation, program, trace: _compare(explanation, program, trace, walks))


def _compare(explanation, program, trace, walks):
    """Works the line out again, and fills the explanation if it is the same."""
    fault = program_lines_fault(program) or job_fault(steps_of(program), counts_of(program).procedures)
    if fault:
        return _tell_fault(explanation, program, fault)
    if trace.length > forms.TRACE_BYTES:
        explanation.unseen.append(f"{TRACE} has {grouped(trace.length)} bytes; an order is worked out again here up to {grouped(forms.TRACE_BYTES)}")
        return None
    order = explanation.order = order_of(program, trace, explanation.names, walks)
    require(explanation.answer == order.line(), f"the steps taken here come to {order.line()}")
    if order.stopped:
        line = order.steps + 1
        explanation.place.append(f"{TRACE} line {grouped(line)}: {shown(trace.line(line))}")
        explanation.causes += causes.line_causes(trace, line) if explanation.number == 46 else []
        explanation.numbers.append(order.stopped[1])
    explanation.numbers.append(f"{grouped(order.steps)} step{'s' * (order.steps != 1)} done")
    if order.race:
        state, _, _, one, other = order.race
        where = f"the first state with a race is state {grouped(state)}, the one after line {grouped(state)}:"
        explanation.numbers += [where, one, other]


def _tell_fault(explanation, program, fault):
    """A program sheet that is refused, before any line of the order."""
    found = f"REFUSE,{fault.number},{fault.line},0,0,0"
    require(explanation.answer == found, f"by the numbers here the answer is {found} ({fault.why})")
    explanation.place += place_in(program, fault.line, explanation.names)
    explanation.causes += causes.line_causes(program, fault.line)
    explanation.numbers.append(fault.why)


# ---- As text


def told(explanation):
    """The order as lines of text, or why there are none."""
    return text(explanation.order) if explanation.order else ["There is no walk: no line of the order was looked at."]


def text(order):
    """Each line with its thread, the job's line, and what it does."""
    table = [("line", "order", "thread", "job", "word", "in words")]
    for cells in order.told:
        table.append(cells)
        if order.race and str(order.race[0]) == cells[0]:
            table += [("", "", "", "", "", f"-> {sentence}") for sentence in order.race[3:]]
    if order.stopped:
        table.append((f">{order.steps + 1}", "", "", "", "", order.stopped[1]))
    widths = [max(len(row[column]) for row in table) for column in range(len(table[0]) - 1)]
    return ["  ".join([row[0].rjust(widths[0]), *map(str.ljust, row[1:-1], widths[1:]), row[-1]]) for row in table]
