"""Having racereplay, which is proved, run an order: the search is a guess, the replay is the witness."""
import tempfile
from pathlib import Path

from explanation.refusals import PROGRAM, TRACE
from explanation.running import REPLAYING, find_program, run_in

from .orders import trace_text


class Replay:
    """racereplay on one program sheet: the one that is given, else the one that is found."""

    def __init__(self, program, binary=None):
        self._binary, self._program = binary or find_program(REPLAYING), program

    def answer(self, order):
        """Its line after an order, or why there is none."""
        return self.answer_to(trace_text(order).encode("ascii"))

    def answer_to(self, trace):
        """Its line after a trace of any bytes, or why there is none."""
        with tempfile.TemporaryDirectory() as scratch:
            Path(scratch, PROGRAM).write_bytes(self._program)
            Path(scratch, TRACE).write_bytes(trace)
            run = run_in(self._binary, scratch, REPLAYING)
        return run.answer if run.answer != "FAILED" else f"nothing ({run.failure})"

    def objection(self, expected):
        """Empty if it gives each of these orders the line beside it, else what it says instead."""
        for order, line in expected:
            answer = self.answer(order)
            if answer != line:
                return f"racereplay says {answer}, and the search {line}"
        return ""


def race_lines(shown):
    """That the two threads race after the last step, and no two before."""
    steps, (first, second) = len(shown.order), shown.machine.race(shown.state)
    return [(shown.order, f"RACE,{steps},{steps},{first},{second}")]


def halt_lines(shown):
    """That each thread that is halted after the last step has no step then."""
    steps = len(shown.order)
    return [([*shown.order, (number, 0)], f"REFUSE,47,{steps + 1},0,0,{steps}") for number in shown.unable()]
