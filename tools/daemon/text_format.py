"""A strict parser of the text format of Prometheus, for the tests of the metrics."""

import math
import re

NAME = r"[a-zA-Z_:][a-zA-Z0-9_:]*"
HELP = re.compile(rf"# HELP ({NAME}) (\S.*)")
TYPE = re.compile(rf"# TYPE ({NAME}) (counter|gauge|histogram)")
LABEL = r'[a-zA-Z_][a-zA-Z0-9_]*="[^"\\\n]*"'
SAMPLE = re.compile(rf"({NAME})(?:\{{({LABEL}(?:,{LABEL})*)\}})? (\S+)")
PARTS = ("_bucket", "_sum", "_count")


def family_of(name, kinds):
    """Returns the family that a sample's name belongs to."""
    for part in PARTS:
        if name.endswith(part) and kinds.get(name.removesuffix(part)) == "histogram":
            return name.removesuffix(part)
    return name


def check_histogram(name, samples):
    """The buckets of each series rise with their bounds up to +Inf, which has the count."""
    series = {}
    for (sample, labels), value in samples.items():
        others = frozenset(it for it in labels if it[0] != "le")
        bounds = [float(text) for key, text in labels if key == "le"]
        series.setdefault(others, []).append((sample.removeprefix(name), bounds, value))
    for parts in series.values():
        buckets = [(bounds[0], value) for part, bounds, value in parts if part == "_bucket"]
        assert buckets == sorted(buckets) and buckets[-1][0] == math.inf, (name, buckets)
        assert [value for _, value in buckets] == sorted(value for _, value in buckets), (name, buckets)
        rest = {part: value for part, bounds, value in parts if not bounds}
        assert rest.keys() == {"_sum", "_count"} and rest["_count"] == buckets[-1][1], (name, rest)


def parse(text):
    """Returns the values of all samples by name and labels, and the kinds of the families by name. Fails on what the format
    does not allow, on a sample without its family above it, and on a family or a sample that is there twice."""
    assert text.endswith("\n"), "the last line does not end"
    kinds, samples, helped, current = {}, {}, None, None
    for line in text.splitlines():
        if found := HELP.fullmatch(line):
            helped = found[1]
        elif found := TYPE.fullmatch(line):
            assert found[1] == helped and found[1] not in kinds, line
            current, kinds[found[1]] = found[1], found[2]
        else:
            found = SAMPLE.fullmatch(line)
            assert found and family_of(found[1], kinds) == current, line
            assert (kinds[current] == "counter") == found[1].endswith("_total"), line
            labels = frozenset(tuple(it.split("=", 1)) for it in re.findall(LABEL, found[2] or ""))
            labels = frozenset((key, value[1:-1]) for key, value in labels)
            assert (found[1], labels) not in samples, line
            samples[found[1], labels] = float(found[3])
    for name in (it for it in kinds if kinds[it] == "histogram"):
        check_histogram(name, {key: value for key, value in samples.items() if family_of(key[0], kinds) == name})
    return samples, kinds
