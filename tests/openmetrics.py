"""Reads the texts of pools' metrics in the OpenMetrics format, by Prometheus's reader for Python, which is strict, and sees that they have all that a pool
has to tell, and nothing else."""

import sys

from playing import NAMED, has

PACKAGE = "python3-prometheus-client"
# Where Debian has its modules, for a Python that is not Debian's.
sys.path.append(NAMED[PACKAGE].sign.rpartition("/")[0])
END = "# EOF\n"
# The families of a pool, in their order, with their types and units.
NAMES = {"gauge": "idle_objects lent_objects waiting_borrows", "counter": "created_objects destroyed_objects borrows timeouts"}
NAMES["histogram"] = "wait_seconds loan_seconds"
FAMILIES = [(f"zuphinka_{name}", kind, name.split("_")[-1]) for kind, names in NAMES.items() for name in names.split()]
# The bounds of the buckets, in seconds.
BOUNDS = "0.0001 0.00025 0.0005 0.001 0.0025 0.005 0.01 0.025 0.05 0.1 0.25 0.5 1.0 2.5 5.0 10.0 25.0 50.0 100.0 +Inf".split()
# How the names of the samples of each type end, with the bounds of buckets.
SAMPLES = {"gauge": [""], "counter": ["_total"], "histogram": [*(f"_bucket {bound}" for bound in BOUNDS), "_count", "_sum"]}
WANTED = [name + ending for name, kind, _ in FAMILIES for ending in SAMPLES[kind]]


def is_read(what):
    """Returns whether the reader is there. If not, says that what needs it is skipped."""
    return has(what, PACKAGE)


def need(holds, fault):
    if not holds:
        raise ValueError(fault)


def pools_of(text):
    """The numbers of each pool in a text that has those of pools and nothing else: for each name of a pool the names of its samples, with the bounds
    of buckets behind them, and their numbers."""
    from prometheus_client.openmetrics.parser import text_string_to_metric_families

    families, pools = list(text_string_to_metric_families(text)), {}
    need([(family.name, family.type, family.unit) for family in families] == FAMILIES, f"other families: {families}")
    need(all(family.documentation for family in families), "families without a description")
    for sample in (sample for family in families for sample in family.samples):
        need({"pool"} <= sample.labels.keys() <= {"pool", "le"} and sample.timestamp is None, f"another sample: {sample}")
        pools.setdefault(sample.labels["pool"], {})[f"{sample.name} {sample.labels.get('le', '')}".strip()] = sample.value
    for pool, numbers in pools.items():
        need(list(numbers) == WANTED, f"{pool!r} has {list(numbers)}")
    # The reader passes over a sample that comes twice, and over what is not there at the end.
    need(text.endswith(END) and sum(line[:1] not in ("#", "") for line in text.split("\n")) == len(pools) * len(WANTED), "a sample comes twice")
    return pools


def check_course(texts, borrows):
    """That texts of one pool, in the order of time, have counts that never decrease, and agree with each other. At the end this number of borrows got
    an object, and nothing is lent or waits."""
    before = {}
    for text in texts:
        (numbers,) = pools_of(text).values()
        fallen = [name for name in before if "_total" in name or "_seconds" in name if numbers[name] < before[name]]
        need(not fallen, f"{fallen} decrease")
        need(numbers["zuphinka_borrows_total"] == numbers["zuphinka_wait_seconds_count"], "borrows are not those of the waits")
        present = numbers["zuphinka_created_objects_total"] - numbers["zuphinka_destroyed_objects_total"]
        need(present >= numbers["zuphinka_idle_objects"] + numbers["zuphinka_lent_objects"], "more objects than there are")
        need(numbers["zuphinka_borrows_total"] >= numbers["zuphinka_loan_seconds_count"] + numbers["zuphinka_lent_objects"], "loans that nobody borrowed")
        before = numbers
    need(before.get("zuphinka_borrows_total") == before.get("zuphinka_loan_seconds_count") == borrows, f"{before}: {borrows} borrows and loans")
    need(before["zuphinka_lent_objects"] == before["zuphinka_waiting_borrows"] == 0, f"{before}: lent objects or waits at the end")


def fault_of(read, *words):
    """Why a text is refused, or an empty text."""
    try:
        read(*words)
    except ValueError as error:
        return str(error)
    return ""


def fault_of_course(what, text, borrows):
    """Why a text is refused that consists of several of one pool, in the order of time, or an empty text, also without the reader."""
    texts = [part + END for part in text.split(END)[:-1]]
    return is_read(what) and (f"only {len(texts)} texts" * (len(texts) <= 2) or fault_of(check_course, texts, borrows)) or ""
