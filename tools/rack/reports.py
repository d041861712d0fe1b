"""What annotate and count print."""

from rack.answers import SETS, refusal_text
from rack.records import TICK
from rack.text import COUNTED_WORD

WIDEST_CALL = 60        # a longer call shifts its own row only


# ---------------------------------------------------------------- annotate

def annotate(pairing):
    """The lines of the table: instant, call, number, running task, sets."""
    head = ("instant", "call", "number", "running", "sets")
    rows = [head, *_rows(pairing)]
    widths = [max(len(row[column]) for row in rows) for column in range(4)]
    widths[1] = min(widths[1], WIDEST_CALL)
    for instant, call, number, running, sets in rows:
        yield (f"{instant:>{widths[0]}}  {call:<{widths[1]}}  {number:<{widths[2]}}  "
               f"{running:<{widths[3]}}  {sets}").rstrip()


def _rows(pairing):
    quiet, running, last = 0, None, 0   # quiet ticks not yet written, who runs in them, the last
    for item, answer, declared, instant in pairing:
        quiet_tick = item.record == TICK and answer.quiet
        if quiet and not (quiet_tick and answer.running == running):
            yield _quiet_row(last, quiet, running)
            quiet = 0
        if quiet_tick:
            quiet, running, last = quiet + 1, answer.running, instant
        elif answer is None:
            yield str(instant), item.words, declared, "", ""
        else:
            yield _row(instant, item, answer)
    if quiet:
        yield _quiet_row(last, quiet, running)


def _quiet_row(instant, count, running):
    call = "TICK" if count == 1 else f"TICK x{count}"
    return str(instant), call, "0", _task(running), ""


def _row(instant, item, answer):
    call = COUNTED_WORD.get(item.record, item.words)
    number = f"{answer.number} {refusal_text(answer.number, item.record)}".rstrip()
    sets = [f"{name} {_members(value)}" for name, value in zip(SETS, answer.sets) if value]
    return str(instant), call, number, _task(answer.running), "  ".join(sets)


def _task(running):
    return "-" if running is None else str(running)


def _members(value):
    return ",".join(str(task) for task in range(value.bit_length()) if value >> task & 1)


# ---------------------------------------------------------------- count

class Life:
    """What the lines say of one task."""

    def __init__(self):
        self.due = self.made = self.ends = self.lost = 0
        self.kept = self.alive = False

    def follow(self, due, started, ended, lost):
        """One answer, as four yes or no."""
        self.due += due
        self.made += started
        self.ends += ended
        self.lost += lost
        if due and started:
            self.alive = True
        elif due and not lost:
            self.kept = self.alive  # only a living task's start is kept back
        elif ended and started:
            self.kept = False       # the start kept back was made, the task lives on
        elif ended:
            self.alive = False
        elif lost and not due:
            self.kept = False       # PREVENT took it

    def failures(self):
        """The equations that do not hold, in words."""
        if self.due != self.made + self.lost + self.kept:
            yield ("due = made + lost + kept back",
                   f"{self.due} is not {self.made} + {self.lost} + {self.kept:d}")
        if self.made != self.ends + self.alive:
            yield "made = ends + alive", f"{self.made} is not {self.ends} + {self.alive:d}"


def follow_all(pairing):
    """A Life for each declared task."""
    lives = []
    for _, answer, _, _ in pairing:
        while len(lives) < pairing.tasks:
            lives.append(Life())
        if answer is None or answer.quiet:
            continue
        for task, life in enumerate(lives):
            life.follow(*(value >> task & 1 for value in answer.sets[:4]))
    return lives


def count(pairing):
    """(lines of the table, whether the balance holds)."""
    lives = follow_all(pairing)
    head = ("task", "starts fallen due", "starts made", "ends", "starts lost",
            "kept back now", "alive now")
    rows = [(task, life.due, life.made, life.ends, life.lost, int(life.kept), int(life.alive))
            for task, life in enumerate(lives)]
    lines = ["a run is a start made; one kept back is none yet", "  ".join(head)]
    for row in rows:
        lines.append("  ".join(f"{value:>{len(name)}}" for name, value in zip(head, row)))
    failed = [f"balance: {equation} fails for task {task}: {numbers}"
              for task, life in enumerate(lives) for equation, numbers in life.failures()]
    held = ("balance: due = made + lost + kept back and made = ends + alive "
            f"hold for all {len(lives)} tasks")
    return lines + (failed or [held]), not failed
