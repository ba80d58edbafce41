"""The command `slo-apply`: a folder of OpenSLO files as the truth of an office."""

from __future__ import annotations

import argparse
import io
import os
import sys
from pathlib import Path
from typing import Optional

from slo_tools.apply.folder import Folder, Told, read_folder
from slo_tools.apply.judging import Base, Name, calendar_zones, judge
from slo_tools.apply.past import Past, effects_of
from slo_tools.apply.planning import (
    Plan,
    carry_out,
    differences_of,
    lines_of,
    plan_of,
    refused_readings,
    running_of,
    sampled_by,
)
from slo_tools.apply.queries import query_faults
from slo_tools.apply.slices import sights_of
from slo_tools.apply.telling import fault_line, in_order, shown, tell, warning_line
from slo_tools.office import Office, Pauses
from slo_tools.office_options import add_office_options, office_of
from slo_tools.past.scratch import ScratchFault
from slo_tools.refusals import OfficeError

DONE, DIFFERENT, FAULTY = 0, 1, 2


def parser() -> argparse.ArgumentParser:
    made = argparse.ArgumentParser(
        prog="slo-apply",
        description="Make an office hold what a folder of OpenSLO files says.",
        epilog="Exit status: 0 done or nothing to do, 1 there are differences (--plan), 2 faults.",
    )
    made.add_argument("folder", metavar="FOLDER", type=Path, help="its .yaml, .yml and .json files")
    what = made.add_mutually_exclusive_group()
    what.add_argument(
        "--check", action="store_true", help="judge the folder alone, and ask no office"
    )
    what.add_argument("--plan", action="store_true", help="print what would be changed")
    made.add_argument("--prune", action="store_true", help="remove what the folder lacks")
    made.add_argument(
        "--with-office",
        action="store_true",
        help="let the folder refer to objects that the running office alone has",
    )
    made.add_argument(
        "--past-changes",
        action="store_true",
        help="do what changes windows that are over, exclusions, or rows that count",
    )
    made.add_argument(
        "--allow-silent-policies",
        action="store_true",
        help="take policies whose shortest window never sees a whole slice of an SLO",
    )
    made.add_argument(
        "--allow-unread-queries",
        action="store_true",
        help="take queries that slo-feed won't read",
    )
    made.add_argument(
        "--program",
        metavar="SLO_OFFICE",
        default=os.environ.get("SLO_OFFICE_PROGRAM", "slo_office"),
        help="the office's program, which judges the folder (default: slo_office)",
    )
    add_office_options(made)
    return made


def main(words: Optional[list[str]] = None) -> int:
    """Judges, plans or does it, and returns the exit status."""
    made = parser()
    options = made.parse_args(words)
    if options.prune and options.with_office:
        made.error("--prune removes what --with-office would keep")
    if isinstance(sys.stdout, io.TextIOWrapper):
        sys.stdout.reconfigure(errors="backslashreplace")
    try:
        status = _run(options)
        sys.stdout.flush()
        return status
    except (OfficeError, OSError, ScratchFault, ValueError) as fault:
        print(f"slo-apply: {shown(str(fault))}", file=sys.stderr)
        return FAULTY
    except Exception as fault:
        # A traceback ends with the status that says that there is something to do.
        why = shown(f"{type(fault).__name__}: {fault}")
        print(f"slo-apply: a fault of this program, nothing more is done: {why}", file=sys.stderr)
        return FAULTY


def _run(options: argparse.Namespace) -> int:
    folder = read_folder(options.folder)
    if not folder.documents and not folder.faults:
        raise ValueError(f"{options.folder}: no documents")
    base = Base({}, frozenset())
    office = office_of(options, Pauses(tries=4, first=0.5, longest=4.0))
    if options.with_office:
        with office.kept_link():
            running = running_of(office)
        base = Base(running.texts, running.zones)
    judged = judge(options.program, folder, base)
    if _tell_faults(options, folder, base, judged.faults):
        return FAULTY
    if options.check:
        print(f"{_count(len(judged.texts), 'object')}, no fault")
        return DONE
    with office.kept_link():
        return _apply(options, office, folder, judged.texts)


def _apply(
    options: argparse.Namespace, office: Office, folder: Folder, wanted: dict[Name, str]
) -> int:
    """Plans what the office lacks, and does it where that is asked for."""
    running = running_of(office)
    named = calendar_zones(document.node for document in folder.documents)
    zones = [zone for zone in folder.zones if zone.name in named]

    def has_samples(sli: str) -> bool:
        return sampled_by(office, running, sli)

    plan = plan_of(wanted, zones, running, options.prune, has_samples)
    refused = refused_readings(plan, has_samples)
    for name in refused:
        why = "has samples, and another reading of them is refused"
        print(f"slo-apply: SLI {name} {why}", file=sys.stderr)
    if refused:
        return FAULTY
    past = Past(options.program, office, running, wanted, folder.zones, has_samples)
    effects = effects_of(past, plan)
    if options.plan:
        return _tell(plan, effects)
    if effects and not options.past_changes:
        tell([f"past: {line}" for line in effects], sys.stderr)
        print("slo-apply: this changes the past, so it wants --past-changes", file=sys.stderr)
        return FAULTY
    return _carry_out(office, plan)


def _carry_out(office: Office, plan: Plan) -> int:
    done = carry_out(office, plan)
    for line in done.lines:
        print(shown(line))
    _tell_sampled(plan)
    for fault in done.faults:
        print(f"slo-apply: {shown(fault)}", file=sys.stderr)
    _sum_up(plan, "done")
    return FAULTY if done.faults else DONE


def _tell_faults(
    options: argparse.Namespace, folder: Folder, base: Base, found: list[Told]
) -> bool:
    """Tells the faults of a folder, and what is no fault but has to be known; whether there are
    faults."""
    sights = sights_of(folder.documents, base.texts)
    faults, warnings = list(found), list(sights.warnings)
    (warnings if options.allow_silent_policies else faults).extend(sights.faults)
    unread = query_faults(folder.documents, base.texts)
    (warnings if options.allow_unread_queries else faults).extend(unread)
    tell(map(warning_line, in_order(folder.let_out(warnings))), sys.stderr)
    tell(map(fault_line, in_order(folder.let_out(faults))), sys.stderr)
    if faults:
        print(f"slo-apply: {_count(len(faults), 'fault')}", file=sys.stderr)
    return bool(faults)


def _tell(plan: Plan, effects: list[str]) -> int:
    details = {line: definition for line, definition in zip(_names(plan), plan.definitions)}
    for line in lines_of(plan):
        print(shown(line))
        if line in details:
            for difference in differences_of(details[line]):
                print(shown(difference))
    for name in plan.beside:
        print(f"  {' '.join(name)} isn't in the folder (--prune removes it)")
    _tell_sampled(plan)
    tell([f"  past: {shown(line)}" for line in effects], sys.stdout)
    _sum_up(plan, "plan")
    return DONE if plan.is_empty else DIFFERENT


def _tell_sampled(plan: Plan) -> None:
    for name in plan.sampled:
        print(f"  {' '.join(name)} has samples and stays")


def _names(plan: Plan) -> list[str]:
    lines = list(lines_of(plan))
    return lines[len(plan.zones) : len(plan.zones) + len(plan.definitions)]


def _sum_up(plan: Plan, word: str) -> None:
    new = sum(definition.before is None for definition in plan.definitions)
    changed = len(plan.definitions) - new
    print(
        f"{word}: {new} defined, {changed} changed, {len(plan.removals)} removed,"
        f" {len(plan.zones)} zones kept, {plan.same} the same"
    )


def _count(number: int, word: str) -> str:
    return f"{number} {word}" if number == 1 else f"{number} {word}s"
