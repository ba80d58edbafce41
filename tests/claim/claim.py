"""What is claimed, and in which order it is read."""
from __future__ import annotations

from dataclasses import dataclass
from functools import cached_property

from claim.house import Contract, House, key_of, reach
from claim.sources import Declared, Definition, Item, Module

# The theorem.
RUN = ("office_run/src/running.rt", "run")
# The files whose public functions are the laws that docs/promises.md names.
LAWS = [
    "history_laws/src/laws.rt",
    "export_laws/src/laws.rt",
    "export_heard/src/laws.rt",
    "counter_laws/src/laws.rt",
    "counter_laws/src/counting.rt",
    "follow_laws/src/laws.rt",
    "office_run/src/laws.rt",
    "own_counter/src/laws.rt",
    "turn_counter/src/laws.rt",
    "office_counter/src/laws.rt",
    "office_session/src/laws.rt",
    "office_keep/src/laws.rt",
    "budget_command/src/laws.rt",
    "check_command/src/laws.rt",
    "counters_command/src/laws.rt",
    "office_report/src/laws.rt",
]
# What is assumed of the outside: the traits over which `run` is proved.
TRAITS = [
    ("office_outside/src/source.rt", "Source"),
    ("office_outside/src/sink.rt", "Sink"),
    ("office_outside/src/disk.rt", "Disk"),
    ("office_outside/src/clock.rt", "Clock"),
    ("office_doors/src/door.rt", "Door"),
    ("office_doors/src/doors.rt", "Doors"),
]
# What one reads to judge one promise by itself.
PROMISES = [
    ("the budget that `budget` prints", ["budget_command.Answer.IsBudgetAnswer"]),
    ("what `check` answers", ["check_command.Answer.IsCheckAnswer"]),
    ("the rows that `counters` writes", ["counters_command.Answer.EndsCounters"]),
    ("which request a message stands for", ["wire_routes.Requests.StandsFor"]),
    ("the bytes of an answer", ["wire_replies.Outcomes.answer_of", "wire_replies.Heads.reply_bytes"]),
    ("which file stands for which history", ["office_keep.Files.StandsFor"]),
    ("which history is legal", ["office_history.Legal.IsLegal"]),
    ("what each query answers", ["office_history.Answers.Answers"]),
    ("what an export makes", ["export_laws.Replay.IsEqualOffice"]),
    ("where following leads", ["follow_laws.Laws.LeadsToTheHistory"]),
    ("all of `pipe`", ["journal_commands.Serving.EndsServing"]),
    ("all of `serve`", ["office_serving.Serving.IsServed"]),
]


@dataclass(frozen=True)
class Chapter:
    """Crates that are read together. Words stand before what is said with them."""

    title: str
    crates: tuple[str, ...]
    about: str


def _chapter(title: str, crates: str, about: str) -> Chapter:
    return Chapter(title, tuple(crates.split()), about)


CHAPTERS = [
    _chapter("Numbers and texts", "exact_fraction csv_records slo_terms", "Decimals, fractions, labels; the records of a CSV text; what becomes of records that are judged one after another."),
    _chapter("Documents", "yaml_terms", "Which text stands for which nodes, and the first fault of a text that stands for none."),
    _chapter("Time", "slo_duration zone_calendar", "Durations, zones, the starts of calendar windows."),
    _chapter("Objects", "object_terms catalog_terms", "The seven kinds of objects, how each field is read and written, and what definitions and removals make of a catalog."),
    _chapter("Samples, sums, budgets, alerts", "slice_method cell_index sample_book window_sums burn_core notice_box", "Which row of a cell is current, what it counts for, the sum of a range, rates, the condition of an alert."),
    _chapter("Requests and records", "record_form entry_records", "What can be asked and answered, and the bytes of an entry."),
    _chapter("Histories", "office_history office_derived sample_changes", "What a list of accepted entries means: verdicts, outcomes, answers."),
    _chapter("The outside", "office_outside office_doors", "What is seen of sources, sinks, disks, clocks and doors."),
    _chapter("The journal", "slo_journal", "Which bytes of a file stand for which records, and where a file is damaged."),
    _chapter("Messages and answers", "message_heads message_session wire_routes wire_replies", "Where a message ends, for which request it stands, and the bytes of its answer."),
    _chapter("Asking an office", "office_counter office_session office_keep own_counter", "One request over an office with its file: how it ends, and what a stop leaves; a session of requests."),
    _chapter("Many sessions", "turn_desk turn_counter visit_workers office_serving", "Turns of many threads over one office, workers at doors, a serving."),
    _chapter("Commands on bytes", "event_fields budget_command check_command counter_book counters_command", "The answers of `budget`, `check`, `counters` on the bytes of their input."),
    _chapter(
        "Commands over an office",
        "request_texts sample_stream generate_command office_report export_terms office_export follow_terms follow_laws office_follow journal_commands",
        "`generate`, `report`, `export`, `follow`, `init`, `migrate`, `pipe`, `serve`.",
    ),
    _chapter("A run", "command_words office_run", "What words ask for, statuses and their lines, and what a run does to all that it speaks to."),
    _chapter("Laws", "history_laws export_laws export_heard counter_laws", "What holds of every history, export, reading and feed."),
]


@dataclass(frozen=True)
class Part:
    """A file of `specs/`, with those of its definitions that the claim rests on."""

    module: Module
    definitions: list[Definition]


class Claim:
    """The definitions on which the theorem, the laws and the traits of the outside rest."""

    def __init__(self, house: House) -> None:
        self.house = house
        self.run = house.contract(*RUN)
        self.laws = [house.contract(path, name) for path in LAWS for name in house.functions(path)]
        self.traits = [house.trait(path, name) for path, name in TRAITS]
        self.came = _reached([self.run, *self.laws, *self.traits])
        self.of_run = set(_reached([self.run]))

    @cached_property
    def definitions(self) -> list[Definition]:
        return [it for it in self.came if isinstance(it, Definition)]

    @cached_property
    def types(self) -> list[Declared]:
        return [it for it in self.came if isinstance(it, Declared)]

    @cached_property
    def modules(self) -> list[Module]:
        """All files of `specs/`, each behind those whose words its part of the claim needs."""
        place = {crate: at for at, crate in enumerate(self.house.crates)}
        order: dict[tuple[str, str], Module] = {}
        seen: set[tuple[str, str]] = set()

        def visit(key: tuple[str, str]) -> None:
            if key in seen:
                return
            seen.add(key)
            module = self.house.modules[key]
            used = (it for one in module.definitions if one in self.came for it in one.uses)
            for other in sorted({(it.crate, it.module) for it in used if isinstance(it, Definition)}):
                if other[0] == key[0]:
                    visit(other)
            order[key] = module

        for key in sorted(self.house.modules, key=lambda it: (place[it[0]], it[1])):
            visit(key)
        return list(order.values())

    @cached_property
    def chapters(self) -> list[tuple[Chapter, list[Part]]]:
        return [(it, [part for crate in it.crates for part in self._parts(crate)]) for it in CHAPTERS]

    def _parts(self, crate: str) -> list[Part]:
        parts = (Part(it, [one for one in it.definitions if one in self.came]) for it in self.modules if it.crate == crate)
        return [part for part in parts if part.definitions]

    def faults(self) -> list[str]:
        """Where the order of reading breaks: a word is cited before it is defined, or a file is in no chapter."""
        listed = [one for _, parts in self.chapters for part in parts for one in part.definitions]
        place = {one: at for at, one in enumerate(listed)}
        late = [
            f"{one.at}:{one.line}: {one.name} stands before {other.name}, which it cites"
            for one in listed
            for other in sorted(one.uses, key=key_of)
            if isinstance(other, Definition) and place.get(other, 0) > place[one]
        ]
        return late + [f"no chapter has {it}" for it in sorted({one.crate for one in self.definitions if one not in place})]

    def way_to(self, name: str) -> list[list[Item]]:
        """For each definition of this name a way from a contract to it."""
        ways = []
        for one in self.came:
            if name != one.name and not (isinstance(one, Definition) and name in one.names):
                continue
            way: list[Item] = []
            step: Item | None = one
            while step is not None:
                way.append(step)
                step = self.came[step]
            ways.append(way[::-1])
        return ways


def _reached(contracts: list[Contract]) -> dict[Item, Item | None]:
    return reach(sorted({it for one in contracts for it in one.uses}, key=key_of))
