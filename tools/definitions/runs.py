"""Runs an image and a script by the definitions of a model, and prints what they say.

The definitions read the image and the script, make of each event what it does, and say the report and the blocks of a trace."""

from functools import reduce
from itertools import compress, count
from operator import is_not

from paged_bytes import PagedBytes
from translation import Model, Program

DEVICES = 16


class Refused(Exception):
    """The definitions refuse the image or the script; the text is the line that says so."""


class Left(Exception):
    """The run is not made; the text says why."""


class Definitions:
    """The definitions of a model, ready to be called."""

    def __init__(self, folder):
        self.model = Model(folder)
        self.program = Program(self.model)
        self.words = {}

    def word(self, name):
        """The function of a definition; a definition without arguments is a function of none."""
        if name not in self.words:
            self.words[name] = self.program.word(name)
        return self.words[name]

    def __getattr__(self, name):
        """A definition by its name, as `definitions.plain_event(world, bus, event)`."""
        return self.word(name)

    def variant(self, name, *arguments):
        """A value of the enum Event."""
        for file in self.model.sources.files.values():
            if "Event" in file.enums:
                return (file.enums["Event"][name].name, *arguments)
        raise SystemExit("the model has no enum Event")


def variant_name(value):
    return value[0].rsplit(".", 1)[-1]


# The input.


def image_said(definitions, data):
    found = definitions.image_of(PagedBytes.of(data))
    if variant_name(found) == "Err":
        raise Refused(f"refused image place={found[1]['place']} reason={variant_name(found[1]['reason'])}\n")
    return found[1]


def script_said(definitions, data, image):
    """The events of a script, in order."""
    found = definitions.script_of(list(data), image)
    if variant_name(found) == "Err":
        line, reason = found[1]["line"], variant_name(found[1]["reason"])
        raise Refused(f"refused script line={line} reason={reason}\n")
    return definitions.events_of(image["cpus"], found[1])


# The run.


class Step:
    """An event with what it made of the world and the bus."""

    def __init__(self, definitions, world, bus, event):
        self.definitions = definitions
        self.before = world
        self.event = event
        happened = definitions.plain_event(world, bus, event)
        self.world = happened["world"]
        self.bus = happened["bus"]
        self.effect = happened["effect"]
        self.told = happened["told"]
        self.sent_before = len(bus["output"])

    def dump(self):
        """The line of a dump; nothing of another event."""
        return text(self.definitions.shown_line(self.before, self.event))

    def block(self):
        """What the event prints in a trace. Its pages that are the same object before and behind it are the same bytes, so that
        no line comes of them; each other one is compared by the definitions."""
        ran, ended = self.effect["vcpu"], self.effect["ended"]
        lines = self.definitions.event_line(self.before["event"], self.event, ran) + self.definitions.ran_line(self.world, ran)
        for number, (old, new) in enumerate(zip(self.before["guests"], self.world["guests"])):
            for page in changed_pages(old["memory"], new["memory"]):
                lines += self.definitions.page_lines(number, old["memory"], new["memory"], page)
        lines += self.definitions.sent_lines(self.sent_before, self.bus) + self.definitions.end_line(ran, ended)
        return text(lines) + self.dump()


def text(codes):
    """A text of the definitions, which is a list of bytes."""
    return bytes(codes).decode("latin-1")


def changed_pages(old, new):
    """The numbers of the pages that are not the same object."""
    return () if old is new else compress(count(), map(is_not, old.pages, new.pages))


class Run:
    """A run of the events of a script over an image, as the definitions say it."""

    def __init__(self, definitions, image, script, most_events=None):
        self.definitions = definitions
        said = image_said(definitions, image)
        self.events = script_said(definitions, script, said)
        if most_events is not None and len(self.events) > most_events:
            raise Left(f"it has {len(self.events)} events")
        self.world = definitions.world_of(said)
        self.bus = {"devices": [("Some", {"queue": [], "sent": []})] * DEVICES, "output": []}

    def steps(self):
        for event in self.events:
            step = Step(self.definitions, self.world, self.bus, event)
            self.world, self.bus = step.world, step.bus
            yield step

    def report(self):
        return text(self.definitions.report(self.world, self.bus))

    def run(self):
        return "".join(step.dump() for step in self.steps()) + self.report()

    def trace(self):
        return "".join(step.block() for step in self.steps()) + self.report()

    def audit(self):
        """The line of the verdict; the run ends behind the event of its first breach."""
        rules = Rules(self.definitions)
        breaches = (rules.breach_of(step) for step in self.steps())
        first = next((breach for breach in breaches if breach is not None), None)
        said = self.definitions.keeps_line(self.world["event"]) if first is None else self.definitions.breach_line(first)
        return text(said)


# The rules of maintenance.


class Rules:
    """What may have been kept of each vcpu, by the definitions."""

    def __init__(self, definitions):
        self.definitions = definitions
        self.known = {}

    def breach_of(self, step):
        """The first breach of an event, or None; what is known is then that behind it."""
        turn = self.definitions.turn_in(step.before, step.event, step.effect["vcpu"])
        if variant_name(turn) == "None":
            return None
        vcpu = turn[1]["vcpu"]["guest"]["0"], turn[1]["vcpu"]["index"]
        known = self.known.get(vcpu) or self.definitions.nothing_known()
        stale = self.definitions.first_in(step.told, known)
        self.known[vcpu] = written_out(reduce(self.known_after, step.told, known), known, step.told)
        return None if variant_name(stale) == "None" else self.definitions.breach_in(turn[1], stale[1])

    def known_after(self, known, told):
        return self.definitions.known_after(told, known)


def written_out(known, before, told):
    """The same, with each record but once, the oldest of equal ones, and with what is held as a table. An equal record is dropped
    with the other, and the one that was added first counts, so that nothing is lost."""
    records = known["records"] if known["records"] is before["records"] else oldest_of_equal(known["records"])
    vmcbs = getattr(before["held"], "vmcbs", {}).keys() | {thing[1] for thing in told if variant_name(thing) in ("Found", "Left")}
    return {"records": records, "held": HeldTable({vmcb: known["held"](vmcb) for vmcb in vmcbs})}


def oldest_of_equal(records):
    kept = {repr(record): record for record in reversed(records)}
    return list(reversed(kept.values()))


class HeldTable:
    """What is held of each VMCB, by its address."""

    def __init__(self, vmcbs):
        self.vmcbs = vmcbs

    def __call__(self, vmcb):
        return self.vmcbs.get(vmcb, ("None",))


JOBS = {"run": Run.run, "trace": Run.trace, "audit": Run.audit}


def printed(definitions, word, image, script):
    """What `run`, `trace` or `audit` prints."""
    try:
        return JOBS[word](Run(definitions, image, script))
    except Refused as refusal:
        return str(refusal)
