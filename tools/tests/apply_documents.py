"""Documents for the tests of slo-apply: one of each kind, and changes of them at random."""

from __future__ import annotations

import random
from collections.abc import Iterator

import support  # noqa: F401 - makes the tools' modules known

from slo_tools.nodes import Fields, Items, Node, Place, Scalar
from slo_tools.yaml_reading import read_yaml

WHOLE = """
apiVersion: openslo/v1
kind: DataSource
metadata:
  name: metrics
  labels: {team: shop}
spec:
  type: Prometheus
  connectionDetails:
    url: http://localhost:9090
---
apiVersion: openslo/v1
kind: Service
metadata: {name: shop, displayName: Shop}
spec: {description: The shop.}
---
apiVersion: openslo/v1
kind: SLI
metadata: {name: good}
spec:
  ratioMetric:
    counter: true
    good:
      metricSource: {metricSourceRef: metrics, type: Prometheus, spec: {query: good}}
    total:
      metricSource: {metricSourceRef: metrics, type: Prometheus, spec: {query: all}}
---
apiVersion: openslo/v1
kind: SLI
metadata: {name: raw}
spec:
  ratioMetric:
    rawType: success
    raw: {metricSource: {type: Prometheus}}
---
apiVersion: openslo/v1
kind: SLI
metadata: {name: delay}
spec:
  thresholdMetric: {metricSource: {type: Prometheus}}
---
apiVersion: openslo/v1
kind: AlertNotificationTarget
metadata: {name: desk}
spec: {target: mail}
---
apiVersion: openslo/v1
kind: AlertCondition
metadata: {name: burns}
spec:
  severity: page
  condition: {kind: burnrate, op: gt, threshold: 2, lookbackWindow: 1h, alertAfter: 5m}
---
apiVersion: openslo/v1
kind: AlertPolicy
metadata: {name: alerts}
spec:
  alertWhenBreaching: true
  conditions: [{conditionRef: burns}]
  notificationTargets: [{targetRef: desk}]
---
apiVersion: openslo/v1
kind: SLO
metadata: {name: answers}
spec:
  description: Answers
  service: shop
  indicatorRef: good
  timeWindow: [{duration: 30d, isRolling: true}]
  budgetingMethod: Timeslices
  objectives:
  - {displayName: Most, target: 0.99, timeSliceTarget: 0.9, timeSliceWindow: 5m}
  - {targetPercent: 99.9, op: lt, value: 5, timeSliceTarget: 1, timeSliceWindow: 5}
  alertPolicies: [alerts, {alertPolicyRef: workbook-page}]
---
apiVersion: openslo/v1
kind: SLO
metadata: {name: month}
spec:
  service: shop
  indicator:
    metadata: {name: inner}
    spec:
      ratioMetric:
        good: {metricSource: {type: Prometheus}}
        total: {metricSource: {type: Prometheus}}
  timeWindow:
  - duration: 1M
    calendar: {startTime: 2024-01-01 00:00:00, timeZone: UTC}
  budgetingMethod: RatioTimeslices
  objectives: [{target: 0.5, timeSliceWindow: 10}]
  alertPolicies:
  - kind: AlertPolicy
    metadata: {name: inner-alerts}
    spec:
      conditions:
      - kind: AlertCondition
        metadata: {name: inner-burns}
        spec:
          severity: ticket
          condition: {threshold: 1.5, lookbackWindow: 3d}
      notificationTargets:
      - metadata: {name: inner-desk}
        spec: {target: mail}
"""

TEXTS = (
    "x", "", "~", "a b", "Shop", "-x", "x" * 64, "0", "1", "5", "7", "61", "0.5", "1.0", "100",
    "99.99999999", "0.1234567891", "-1", "1e-3", "true", "False", "yes", "30d", "367d", "5m",
    "1h", "0m", "1y", "2024-02-30 00:00:00", "2024-02-29 12:00:00", "2099-01-01 00:00:00",
    "lte", "eq", "burnrate", "Timeslices", "Occurrences", "SLI", "openslo/v1", "openslo/v2",
    "workbook-page", "alerts", "UTC", "Etc/GMT+5", "é" * 1051, "1000000001", "10000.5", "success",
)  # fmt: skip
KEYS = (
    "name", "kind", "target", "value", "raw", "rawType", "good", "bad", "total", "calendar",
    "indicator", "indicatorRef", "weight", "isRolling", "conditionRef", "targetPercent", "labels",
    "alertPolicyRef", "timeSliceTarget", "description", "thresholdMetric", "spec", "metadata",
)  # fmt: skip
NOWHERE = Place(1, 1)


def documents() -> list[Node]:
    return read_yaml(WHOLE).documents


def changed_at_random(seed: int) -> Node:
    """One of the documents, with one to three of its nodes changed."""
    dice = random.Random(seed)
    node = dice.choice(documents())
    for _ in range(dice.choice((1, 1, 1, 2, 3))):
        node = _changed(dice, node, dice.randrange(_size(node)))
    return node


def _size(node: Node) -> int:
    return 1 + sum(_size(child) for child in _children(node))


def _children(node: Node) -> Iterator[Node]:
    if isinstance(node, Items):
        yield from node.items
    elif isinstance(node, Fields):
        for _, value in node.entries:
            yield value


def _changed(dice: random.Random, node: Node, number: int) -> Node:
    """The node with its descendant of this number changed."""
    if number == 0:
        return _other(dice, node)
    number -= 1
    children = []
    for child in _children(node):
        size = _size(child)
        children.append(_changed(dice, child, number) if 0 <= number < size else child)
        number -= size
    if isinstance(node, Items):
        return Items(node.place, tuple(children))
    assert isinstance(node, Fields)
    keys = [key for key, _ in node.entries]
    return Fields(node.place, tuple(zip(keys, children)))


def _other(dice: random.Random, node: Node) -> Node:
    what = dice.randrange(8)
    if isinstance(node, Fields) and node.entries and what < 5:
        entries = list(node.entries)
        if what < 2:
            entries.pop(dice.randrange(len(entries)))
        else:
            name = dice.choice(KEYS)
            value = _value(dice) if what < 4 else dice.choice(entries)[1]
            if all(key.text != name for key, _ in entries):
                entries.insert(
                    dice.randrange(len(entries) + 1), (Scalar(NOWHERE, name, True), value)
                )
        return Fields(node.place, tuple(entries))
    if isinstance(node, Items) and what < 5:
        items = list(node.items)
        if what < 2 and items:
            items.pop(dice.randrange(len(items)))
        else:
            items += [dice.choice(items) if items and what < 4 else _value(dice)] * what
        return Items(node.place, tuple(items))
    return _value(dice)


def _value(dice: random.Random) -> Node:
    what = dice.randrange(12)
    if what == 0:
        return Items(NOWHERE, (_value(dice),))
    if what == 1:
        return Fields(NOWHERE, ((Scalar(NOWHERE, dice.choice(KEYS), True), _value(dice)),))
    return Scalar(NOWHERE, dice.choice(TEXTS), dice.random() < 0.8)
