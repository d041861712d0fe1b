"""The present instant along a script, for which what is to come is followed."""

from rack import records

DAY = records.DAY_END + 1
LAST_TICK = 2**40


class Timer:
    """A start schedule or a continuation; f are the fields of the call that made it."""

    def __init__(self, f):
        self.f = f
        self.next = None        # the instant at which it comes due, None before a trigger
        self.last = None        # the last at which it may come due, None without an end

    @property
    def by_trigger(self):
        return self.f.kind in (records.WHEN, records.WHEN_AFTER)

    def after_due(self, now):
        """Go on after a due; False if the timer is gone then."""
        again = now + self.f.period
        if self.f.period and (self.last is None or again <= self.last):
            self.next = again
            return True
        self.next = None
        return self.by_trigger and self.f.mark != "RE"


class Clock:
    """Follows the accepted records; of a task it knows only what that has to come."""

    def __init__(self):
        self.now = 0
        self.at_zero = 0
        self.enabled = set()
        self.delays = {}            # the end of each delayed task's delay
        self.starts = {}            # Timers by task
        self.continuations = {}
        self.to_come = None         # the earliest instant later than now

    @property
    def can_sleep(self):
        return self.to_come is not None and self.to_come <= LAST_TICK

    def follow(self, record, runner):
        """One accepted record; runner is the task that ran before it."""
        if record == records.TICK:
            self._arrive(self.now + 1)
        elif record == records.SLEEP:
            self._arrive(self.to_come)
        else:
            self._call(records.unpack(record), runner)

    def _arrive(self, now):
        self.now = now
        if now == self.to_come:
            self._come_due()
            self._look_ahead()

    def _call(self, f, runner):
        if f.mark == "DC":
            self.at_zero = f.first
        elif f.mark in ("EI", "XI"):
            (self.enabled.add if f.mark == "EI" else self.enabled.discard)(f.number)
        elif f.mark == "RE":
            self._change(f, runner)
        elif f.mark in ("AC", "CO", "TE", "SU", "PR", "TG"):
            self._change(f, f.number)

    def _change(self, f, number):
        """A call about this task or interrupt that may change what is to come."""
        self._carry_out(f, number)
        self._come_due()
        self._look_ahead()

    def _carry_out(self, f, task):
        if f.mark == "TG":
            self._trigger(f.number)
        elif f.mark == "PR":
            self.starts.pop(task, None)
            self.continuations.pop(task, None)
        elif f.mark == "RE" and f.kind == 0:
            self.delays[task] = self.now + f.first
        elif f.kind:
            timers = self.starts if f.mark == "AC" else self.continuations
            timers[task] = Timer(f)
            self._set_going(timers[task], self._first(f))
        elif f.mark != "AC":
            self.delays.pop(task, None)     # TE, SU and CO

    def _first(self, f):
        if f.kind == records.AT:
            return self._next_showing(self.now, f.first)
        if f.kind == records.AFTER:
            return self.now + f.first
        return self.now if f.kind == records.ALL else None

    def _next_showing(self, instant, time):
        """The first instant from this one on at which it is this time of day."""
        return instant + (time - self.at_zero - instant) % DAY

    def _set_going(self, timer, first):
        timer.next = timer.last = None
        if first is None:
            return
        timer.next = first
        if timer.f.end_kind == records.UNTIL:
            timer.last = self._next_showing(first, timer.f.end)
        if timer.f.end_kind == records.DURING:
            timer.last = first + timer.f.end

    def _trigger(self, interrupt):
        if interrupt not in self.enabled:
            return
        for timer in [*self.starts.values(), *self.continuations.values()]:
            if timer.by_trigger and timer.f.interrupt == interrupt:
                self._set_going(timer, self.now + timer.f.first)

    def _come_due(self):
        """All that falls on this instant; a continuation that comes due ends its task's delay."""
        for task in [task for task, end in self.delays.items() if end == self.now]:
            del self.delays[task]
        for timers in (self.continuations, self.starts):
            for task in [task for task, timer in timers.items() if timer.next == self.now]:
                if timers is self.continuations:
                    self.delays.pop(task, None)
                if not timers[task].after_due(self.now):
                    del timers[task]

    def _look_ahead(self):
        timers = [*self.starts.values(), *self.continuations.values()]
        instants = [*self.delays.values(), *(timer.next for timer in timers if timer.next is not None)]
        self.to_come = min(instants, default=None)
