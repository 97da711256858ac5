"""Sets of one document or of several teams', the node's document and folders: FORMATS.md, Documents of several teams, The
node's document."""

import math
import re
from fractions import Fraction

import chains
from lines import Faulty, NUMBER
from refusals import Refused
from sets import by_chains, by_limits, by_rank, INTERRUPTS_MOST, is_name, padded, read_document, read_whole, sheet_fault, TASKS_MOST
from toml_tree import tree_of

MARK = b"#% "
NODE_HEAD = re.compile(rb"#% ([^ \n]*)\n")
NODE = "node"
# What a document may say for all, in the order of refusals.
OWN = ("prefer", "node", "interrupt")
LOCKS_MOST = 1024
HEAD = re.compile(rb"#% ([^ \n]*) ([^ \n]*)\n")
ENDING = ".toml"


class Ranked(tuple):
    """The tasks of a set by rank, what its own text prefers, if it says so, whether that asks for a set without doubts, the
    team of each name that has one, what the documents say without what the node takes, the team, if any, and the place of
    each interrupt, the documents, each with the words that say whose it is, and what stands for it in place of a team; and
    the chains, once they are read."""

    own, is_strict, owners, written, sources, documents, chains = None, False, {}, None, (), (), ()

    def beside(self, name):
        """The words that name the team of a task, behind the words of a line."""
        return f" team {self.owners[name]}" if name in self.owners else ""


def read_set(data, preference=None):
    """The set that a text says, by what the call prefers, else the text, else by weights; or the first refusal."""
    if data.startswith(MARK):
        own, is_strict, node, interrupts, sheets, owners, sources = read_teams(data)
    else:
        own, node, interrupts, sheets = read_document(data)
        is_strict, owners, sources = False, {}, [(None, place) for place, _ in enumerate(interrupts, 1)]
    written = sheets, node, interrupts
    sheets = padded(*written)
    documents = documents_of(data)
    tasks = Ranked(preferred(sheets, preference or own, documents))
    tasks.own, tasks.by, tasks.is_strict, tasks.owners = own, preference or own or "weight", is_strict, owners
    tasks.written, tasks.sources, tasks.documents = written, sources, documents
    return tasks


def preferred(sheets, preference, documents):
    """The tasks by a preference; by chains those that the documents say, none where one of these is refused for them."""
    if preference == "deadline":
        return by_limits(sheets)
    if preference != "chains":
        return by_rank(sheets)
    try:
        return by_chains(sheets, [chain.tasks for _, chain in chains.read_written(documents) if chain.writes == "finish"])
    except Refused:
        return by_chains(sheets, [])


def documents_of(data):
    """The documents of a set's text."""
    if not data.startswith(MARK):
        return [((), NODE, data)]
    document, data = node_document(data)
    out = [] if document is None else [((NODE,), NODE, document)]
    while data:
        team, text, data = next_document(data, len(out))
        out.append((("team", team), team, text))
    return out


def read_teams(data):
    """What the documents prefer, whether the node's asks for a set without doubts, their node, if one says so, the
    interrupts and sheets of all, document by document, the team of each sheet, and the team and place of each interrupt."""
    document, data = node_document(data)
    own, is_strict, locks, budgets = ((None, None, ()), False, None, {}) if document is None else read_node_document(document)
    teams, said_by, part = [], [], 0
    while data:
        part += 1
        team, text, data = next_document(data, part)
        try:
            *said, sheets = read_document(text)
        except Refused as refusal:
            raise refusal.behind("team", team) from None
        teams.append((team, by_rank(sheets), said[-1]))
        said_by.append((team, said))
    if document is not None:
        for team, said in said_by:
            keys = [key for key, it in zip(OWN, said) if it is not None and it != ()]
            if keys and not budgets.get(team, {}).get("node", False):
                raise Refused(4, "NodesOwn", team, keys[0])
    if locks is not None:
        teams = [(team, [named(locks, team, sheet) for sheet in sheets], more) for team, sheets, more in teams]
    said_by.insert(0, (NODE, own))
    preferring, overheads_of = ([(team, said[k]) for team, said in said_by if said[k] is not None] for k in (0, 1))
    interrupts = tuple(one for _, said in said_by for one in said[2])
    for said, refusal in (preferring, "OtherPreference"), (overheads_of, "OtherNode"):
        for team, it in said:
            if it != said[0][1]:
                raise Refused(4, refusal, team, said[0][0])
    if len(interrupts) > INTERRUPTS_MOST:
        raise Refused(4, "TooManyInterrupts")
    owner = {}
    for team, sheets, _ in teams:
        for sheet in sheets:
            if sheet.name in owner:
                raise Refused(4, "TakenName", team, sheet.name, owner[sheet.name])
            owner[sheet.name] = team
    if len(owner) > TASKS_MOST:
        raise Refused(4, "TooManyTasks")
    keep_budgets(budgets, teams)
    own, overheads = (said[0][1] if said else None for said in (preferring, overheads_of))
    hands = [team for team, said in said_by for _ in said[2]]
    sources = [(team, hands[: place + 1].count(team)) for place, team in enumerate(hands)]
    return own, is_strict, overheads, interrupts, [sheet for _, sheets, _ in teams for sheet in sheets], owner, sources


def node_document(data):
    """The node's document, or None, and what stands behind it."""
    head = NODE_HEAD.match(data)
    count = head[1].decode("latin-1") if head else ""
    if not NUMBER.fullmatch(count) or len(data) - head.end() < int(count):
        return None, data
    end = head.end() + int(count)
    return data[head.end() : end], data[end:]


def read_node_document(data):
    """What the node's document says for all, whether the set may have doubts, and what each team may take and say, by its
    name."""
    try:
        root = tree_of(data)
        if set(root) - {"team", "strict", "locks", "chain", *OWN}:
            raise Refused(4, "UnknownKey")
        own = read_whole(root)
        if type(root.get("strict", False)) is not bool:
            raise Refused(4, "WrongKind", 0, 0, "strict")
        locks = read_locks(root["locks"]) if "locks" in root else None
        read_teams_of(root.get("team", {}))
    except Refused as refusal:
        raise refusal.behind("node") from None
    return own, root.get("strict", False), locks, root.get("team", {})


def read_locks(table):
    """The lock that each listed name is of."""
    if not isinstance(table, dict):
        raise Refused(4, "WrongKind", 0, 0, "locks")
    locks = {}
    for name, value in sorted(table.items(), key=lambda it: it[0].encode()):
        if not is_name(name):
            raise Refused(4, "BadLock")
        if value is not True and (not isinstance(value, str) or table.get(value) is not True or not is_name(value)):
            raise Refused(4, "BadLock", name)
        locks[name] = name if value is True else value
    if len(locks) > LOCKS_MOST:
        raise Refused(4, "TooManyLocks")
    return locks


def named(locks, team, sheet):
    """A team's sheet, each lock in it by its own name."""
    for number, section in enumerate(sheet.sections, 1):
        for lock in section.locks:
            if lock not in locks:
                raise Refused(4, "UnknownLock", team, sheet.name, number, lock)
    sheet = sheet._replace(sections=tuple(it._replace(locks=tuple(map(locks.get, it.locks))) for it in sheet.sections))
    if sheet_fault(sheet):
        raise Refused(4, "team", team, "task", sheet.name, *sheet_fault(sheet))
    return sheet


def read_teams_of(budgets):
    """Refuses the first of a node's tables of teams that is none."""
    if not isinstance(budgets, dict):
        raise Refused(4, "WrongKind")
    for team, budget in sorted(budgets.items(), key=lambda it: it[0].encode()):
        if not is_name(team):
            raise Refused(4, "BadName")
        if not isinstance(budget, dict):
            raise Refused(4, "WrongKind", team)
        if set(budget) - {"load", "section", "node"}:
            raise Refused(4, "UnknownKey", team)
        for key in "load", "section":
            number = budget.get(key, 0)
            if type(number) is not int or number < 0:
                raise Refused(4, "WrongKind", team, key)
        if type(budget.get("node", False)) is not bool:
            raise Refused(4, "WrongKind", team, "node")


def keep_budgets(budgets, teams):
    """Refuses the first budget whose team has no document, or takes more."""
    for team, budget in sorted(budgets.items()):
        if team not in {name for name, *_ in teams}:
            raise Refused(4, "NoSuchTeam", team)
        own = [sheet for name, sheets, _ in teams if name == team for sheet in sheets]
        interrupts = [one for name, _, more in teams if name == team for one in more]
        load = 1000 * sum(Fraction(one.cost, one.period) for one in own + interrupts)
        if load > budget.get("load", load):
            raise Refused(4, "PastBudget", team, "load", math.ceil(load), budget["load"])
        others = [sheet for name, sheets, _ in teams if name != team for sheet in sheets]
        used = {lock for sheet in others for section in sheet.sections for lock in section.locks}
        section = max((part.len for sheet in own for part in sheet.sections if used & set(part.locks)), default=0)
        if section > budget.get("section", section):
            raise Refused(4, "PastBudget", team, "section", section, budget["section"])


def next_document(data, part):
    """A team and its document, and what stands behind it."""
    head = HEAD.match(data)
    team, count = (word.decode("latin-1") for word in head.groups()) if head else ("", "")
    if not is_name(team) or not NUMBER.fullmatch(count) or len(data) - head.end() < int(count):
        raise Refused(4, "BadHead", part)
    end = head.end() + int(count)
    return team, data[head.end() : end], data[end:]


def text_of(path, files):
    """What a path has, where `files` are the bytes of each by its path: a file's, or a folder's documents; or None.

    A path that ends with `/` is that of an empty folder. A folder without a document of a team has nothing.
    """
    inside = {file.removeprefix(path + "/"): data for file, data in files.items() if file.startswith(path + "/")}
    if path in files or not inside:
        return files.get(path)
    documents, node = {}, b""
    for name, data in inside.items():
        name, *below = name.split("/")
        if name.lower().endswith(ENDING) and not name.startswith("."):
            if below or not name.endswith(ENDING) or not is_name(name.removesuffix(ENDING)):
                return None
            if name == NODE + ENDING:
                node = b"#%% %d\n%s" % (len(data), data)
            else:
                documents[name.removesuffix(ENDING).encode()] = data
    if not documents:
        return None
    return node + b"".join(b"#%% %s %d\n%s" % (team, len(data), data) for team, data in sorted(documents.items()))
