"""The office's objects as the feed's configuration: SLIs with their queries, and DataSources."""

from __future__ import annotations

from collections.abc import Mapping
from dataclasses import dataclass, field
from typing import Any, Optional

from slo_tools.answers import ObjectName
from slo_tools.feed.config import Config, IndicatorConfig
from slo_tools.feed.engine import Form, Indicator
from slo_tools.feed.promql import fault_of
from slo_tools.objects import Document, map_of, object_of
from slo_tools.office import Office
from slo_tools.refusals import Foreign, NotFound

ENGINES = ("Prometheus", "ClickHouse")
# The source of the rows of all sources together.
SUM = "all"


class FrozenDetails(dict[str, str]):
    """Details that can be a part of a key."""

    def __hash__(self) -> int:  # type: ignore[override]
        return hash(frozenset(self.items()))


@dataclass(frozen=True)
class DataSource:
    """Where events are: the words of a DataSource's `type` and `connectionDetails`."""

    name: str
    type: str
    details: FrozenDetails


@dataclass
class Catalog:
    """What is fed from where, and what isn't and why."""

    entries: int = 0
    sources: dict[str, DataSource] = field(default_factory=dict)
    indicators: list[Indicator] = field(default_factory=list)
    left_out: dict[str, str] = field(default_factory=dict)
    # Objects that can't be read.
    odd: dict[str, str] = field(default_factory=dict)
    slos: list[str] = field(default_factory=list)


class LeftOut(Exception):
    """Why an SLI isn't fed."""


def read_catalog(office: Office, config: Config) -> Catalog:
    """Ask the office for its DataSources and SLIs. An object that can't be read is left out, and no
    other. Raises OfficeError where the office doesn't answer."""
    catalog = Catalog()
    with office.kept_link():
        catalog.entries, names = office.objects()
        for name in names:
            if name.kind == "DataSource":
                document = _read(office, name, catalog)
                if document is not None:
                    catalog.sources[name.name] = data_source(document)
            elif name.kind == "SLO":
                catalog.slos.append(name.name)
        for name in names:
            if name.kind == "SLI" and not config.indicator(name.name).skip:
                document = _read(office, name, catalog)
                if document is not None:
                    _add_indicator(document, config, catalog)
    return catalog


def _read(office: Office, name: ObjectName, catalog: Catalog) -> Optional[Document]:
    try:
        return object_of(office, name.kind, name.name)
    except (Foreign, NotFound) as fault:
        catalog.odd[f"{name.kind} {name.name}"] = f"its object can't be read ({fault})"
        return None


def _add_indicator(document: Document, config: Config, catalog: Catalog) -> None:
    name = document.name
    try:
        made = indicator_of(document, config.indicator(name), catalog.sources)
        catalog.indicators.append(made)
    except LeftOut as why:
        catalog.left_out[name] = str(why)
    except (AttributeError, KeyError, TypeError, ValueError) as fault:
        catalog.odd[f"SLI {name}"] = f"its object can't be read ({type(fault).__name__})"


def data_source(document: Document) -> DataSource:
    details = map_of(document.spec.get("connectionDetails"))
    texts = {key: value for key, value in details.items() if isinstance(value, str)}
    kind = str(document.spec.get("type", ""))
    return DataSource(document.name, kind, FrozenDetails(texts))


def indicator_of(
    document: Document, config: IndicatorConfig, sources: Mapping[str, DataSource]
) -> Indicator:
    """An SLI's queries with what the configuration says of its rows. Raises LeftOut."""
    spec = document.spec
    ratio = map_of(spec.get("ratioMetric"))
    if not ratio:
        metrics, form = [_metric(spec.get("thresholdMetric"))], Form.VALUE
    elif "raw" in ratio:
        metrics, form = [_metric(ratio["raw"])], Form.VALUE
    else:
        part = ratio["good"] if "good" in ratio else ratio.get("bad")
        metrics = [_metric(part), _metric(ratio.get("total"))]
        is_counter = str(ratio.get("counter", "true")).lower() == "true"
        form = Form.COUNTERS if is_counter else Form.COUNTS
    source = _source(metrics, config, sources)
    if any(metric.query is None for metric in metrics):
        raise LeftOut("a metricSource has no spec.query")
    label, name = _rows_source(config, source)
    return Indicator(
        sli=document.name,
        engine=source.name,
        form=form,
        part=metrics[0].query or "",
        total=metrics[1].query if form is not Form.VALUE else metrics[0].where,
        label=label,
        name=name,
        every=config.every or 1,
        look_back=config.look_back,
        gap=config.gap,
        ratio="raw" in ratio,
    )


def query_faults(document: Document, sources: Mapping[str, DataSource]) -> list[str]:
    """Why the feed won't count by an SLI's queries: those of counters of a Prometheus. What only
    the feed's configuration or the engine itself can tell isn't looked at."""
    try:
        indicator = indicator_of(document, IndicatorConfig(), sources)
    except LeftOut:
        return []
    is_read = sources[indicator.engine].type == "Prometheus" and indicator.form is Form.COUNTERS
    queries = (indicator.part, indicator.total or "") if is_read else ()
    found = (fault_of(query) for query in dict.fromkeys(queries))
    return [why for why in found if why is not None]


@dataclass(frozen=True)
class _Metric:
    engine: Optional[str]
    query: Optional[str]
    where: Optional[str]


def _metric(node: Any) -> _Metric:
    source = map_of(map_of(node).get("metricSource"))
    spec = map_of(source.get("spec"))
    return _Metric(
        source.get("metricSourceRef") or None, _text(spec.get("query")), _text(spec.get("where"))
    )


def _text(node: Any) -> Optional[str]:
    return (node.strip() or None) if isinstance(node, str) else None


def _source(
    metrics: list[_Metric], config: IndicatorConfig, sources: Mapping[str, DataSource]
) -> DataSource:
    names = {metric.engine or config.engine for metric in metrics}
    if len(names) > 1:
        raise LeftOut("its queries are of several DataSources")
    name = names.pop()
    if name is None:
        raise LeftOut("its queries name no metricSourceRef")
    source = sources.get(name)
    if source is None:
        raise LeftOut(f"there is no DataSource {name}")
    if source.type not in ENGINES:
        raise LeftOut(f"DataSource {name} is of type {source.type}")
    return source


def _rows_source(config: IndicatorConfig, source: DataSource) -> tuple[Optional[str], str]:
    """The label whose values name the sources, None for the sum over all, and the sum's name."""
    if config.name is not None:
        return None, config.name
    return config.label or source.details.get("source"), SUM
