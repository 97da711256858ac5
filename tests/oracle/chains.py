"""The chains of a set: FORMATS.md, Chains."""

import math
from typing import NamedTuple, Optional

from refusals import Refused
from sets import are, is_name, is_number
from toml_tree import tree_of

# what has to stand at each key, and which of them have to be there
KINDS = {
    "name": lambda value: isinstance(value, str),
    "tasks": lambda value: are(value, str),
    "age": is_number,
    "reaction": is_number,
    "offsets": lambda value: isinstance(value, list) and all(map(is_number, value)),
    "writes": lambda value: isinstance(value, str),
}
WRITES = ("finish", "deadline")
NEEDED, LIMITS = ("name", "tasks"), ("age", "reaction")
CHAINS_MOST, TASKS_MOST, LIMIT_MOST, ARRIVALS_MOST = 16, 8, 1_000_000_000, 10_000


class Chain(NamedTuple):
    name: str
    tasks: tuple  # names, the first one first
    limit: Optional[int]
    writes: str  # when its tasks do
    offsets: tuple = ()  # of its tasks, or of none


def read_chain(table, place):
    """The chain that a table says; or its first fault."""
    if set(table) - set(KINDS):
        raise Refused(4, "ChainUnknownKey", place)
    for key in NEEDED:
        if key not in table:
            raise Refused(4, "ChainMissingKey", place, key)
    for key, is_right in KINDS.items():
        if key in table and not is_right(table[key]):
            raise Refused(4, "ChainWrongKind", place, key)
    tasks = tuple(table["tasks"])
    if not all(map(is_name, (table["name"], *tasks))):
        raise Refused(4, "BadChainName", place)
    if not 1 <= len(tasks) <= TASKS_MOST:
        raise Refused(4, "ChainLength", place)
    if len(set(tasks)) < len(tasks):
        raise Refused(4, "ChainTaskTwice", place)
    for key in LIMITS:
        if key in table and not 1 <= table[key] <= LIMIT_MOST:
            raise Refused(4, "BadLimit", place, key)
    if "offsets" in table and len(table["offsets"]) != len(tasks):
        raise Refused(4, "BadOffsets", place)
    writes = table.get("writes", WRITES[0])
    if writes not in WRITES:
        raise Refused(4, "BadWrites", place)
    limit = min((table[key] for key in LIMITS if key in table), default=None)
    return Chain(table["name"], tasks, limit, writes, tuple(table.get("offsets", ())))


def judge_offsets(chains, periods):
    """That the tasks of chains with offsets arrive on one clock, soon again as at first."""
    clock = {}
    for chain in chains:
        for task, offset in zip(chain.tasks, chain.offsets):
            if offset >= periods[task] or clock.setdefault(task, offset) != offset:
                raise Refused(4, "BadOffset", chain.name, task)
        if chain.offsets:
            first, *_ = own = [periods[task] for task in chain.tasks]
            if math.lcm(*own) > ARRIVALS_MOST * first:
                raise Refused(4, "TooManyArrivals", chain.name)


def document_chains(tree):
    """Those of a document's tree."""
    chains = [read_chain(table, place) for place, table in enumerate(tree.get("chain", []), 1)]
    if len(chains) > CHAINS_MOST:
        raise Refused(4, "TooManyChains")
    names = set()
    for place, chain in enumerate(chains, 1):
        if chain.name in names:
            raise Refused(4, "SameChain", place)
        names.add(chain.name)
    return chains


def read_written(documents):
    """Those that a set's documents say, each behind what stands for the document in place of a team. A document has the words
    that say whose it is, and that."""
    owned = []
    for words, team, text in documents:
        try:
            owned += [(team, chain) for chain in document_chains(tree_of(text))]
        except Refused as refusal:
            raise refusal.behind(*words) from None
    return owned


def read_chains(documents, tasks):
    """Those of a set's documents, which have to be of its tasks."""
    owned = read_written(documents)
    if len(owned) > CHAINS_MOST:
        raise Refused(4, "TooManyChains")
    holders = {}
    for team, chain in owned:
        if chain.name in holders:
            raise Refused(4, "TakenChain", team, chain.name, holders[chain.name])
        holders[chain.name] = team
    names = {task.name for task in tasks}
    for _, chain in owned:
        for task in chain.tasks:
            if task not in names:
                raise Refused(4, "ChainTask", chain.name, task)
    chains = tuple(chain for _, chain in owned)
    judge_offsets(chains, {task.name: task.period for task in tasks})
    return chains
