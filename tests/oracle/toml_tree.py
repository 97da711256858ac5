"""What bytes say as TOML 1.1, by Python's tomllib, which reads TOML 1.0.

A text of 1.1 is first written anew as 1.0, and one that 1.1 refuses stays one that is refused: line breaks, comments and a
last comma leave inline tables, the escapes \\e and \\xHH become \\u00HH, and dates and times are as Python takes them.
"""

import math
import re
import tomllib

from refusals import Refused

NESTED_MOST = 80  # brackets of one value
NAMES_MOST = 80  # of one key
SYNTAX = (4, "Syntax")


def tree_of(data):
    """The root table; or Refused Syntax."""
    try:
        text = data.decode("utf-8").removeprefix("\ufeff")
        tokens = TOKEN.findall(text)
        if brackets_deep(tokens) > NESTED_MOST or longest_key(tokens) > NAMES_MOST:
            raise ValueError
        tree = tomllib.loads(as_toml_1_0(tokens), parse_float=finite)
    except ValueError:  # UnicodeDecodeError, TOMLDecodeError, an integer of too many digits, a float that overflows
        raise Refused(*SYNTAX) from None
    if not has_small_integers(tree):
        raise Refused(*SYNTAX)
    return tree


def finite(word):
    """A float, where it is infinite by its own word alone."""
    if math.isinf(float(word)) and "inf" not in word:
        raise ValueError
    return float(word)


def has_small_integers(tree):
    """Whether all integers are of 64 bits."""
    rest = [tree]
    while rest:
        value = rest.pop()
        if isinstance(value, (dict, list)):
            rest += value.values() if isinstance(value, dict) else value
        elif isinstance(value, int) and not -(2**63) <= value < 2**63:
            return False
    return True


DAY = r"[0-9]{4}-[0-9]{2}-[0-9]{2}"
HOUR = r"[0-9]{2}:[0-9]{2}(?::[0-9]{2}(?:\.[0-9]+)?|(?![.:]))"
MOMENT = rf"(?<![\w.+-])(?:{DAY}(?:[Tt ]{HOUR}(?:[Zz]|[+-][0-9]{{2}}:[0-9]{{2}})?)?|{HOUR})"
TOKEN = re.compile(
    r'"""(?:[^\\]|\\.)*?"{3,5}|"(?:[^"\\\n]|\\.)*"'  # basic strings, of several lines and of one
    r"|'''.*?'{3,5}|'[^'\n]*'"  # literal strings
    rf"|\#[^\n]*|\r?\n|[ \t]+|{MOMENT}|[\w+-]+|.",  # comment, line break, space, date or time, word, any other character
    re.DOTALL | re.ASCII,
)


def brackets_deep(tokens):
    """How deep brackets stand in each other."""
    deep = most = 0
    for token in tokens:
        if token in "[{":
            deep += 1
            most = max(most, deep)
        elif token in "]}":
            deep = max(0, deep - 1)
    return most


def longest_key(tokens):
    """How many names have dots between them."""
    names = most = 1
    for token in tokens:
        if token == ".":
            names += 1
            most = max(most, names)
        elif not (token[0].isalnum() or token[0] in "_-+\"' \t"):
            names = 1
    return most


def as_toml_1_0(tokens):
    out, opened = [], []  # what is written; the brackets that are open
    for place, token in enumerate(tokens):
        if token[0] == '"' and len(token) > 1:
            token = re.sub(r"\\(x[0-9A-Fa-f]{2}|.)", plain_escape, token, flags=re.DOTALL)
        elif token[0].isdigit() and re.fullmatch(MOMENT, token):
            token = plain_moment(token)
        elif token in "[{":
            opened.append(token)
        elif opened and opened[-1] == "{":
            if token[0] in "#\r\n" and is_gap(token) and may_break(out, tokens, place):
                token = " "
            elif token == "}" and ends_in_comma(out):
                out.pop(last_word(out, len(out)))
        if token in "]}" and opened:
            opened.pop()
        out.append(token)
    return "".join(out)


def plain_escape(match):
    said = match[1]
    if said == "e":
        return "\\u001B"
    return "\\u00" + said[1:] if len(said) == 3 else match[0]


def plain_moment(token):
    """A date or time of a year that Python has, with seconds, of which it has 59, and a great Z."""
    day, minute, second, fraction, zone = re.fullmatch(
        rf"(?:({DAY})[Tt ]?)?([0-9]{{2}}:[0-9]{{2}})?(?::([0-9]{{2}}))?(\.[0-9]+)?(.*)", token
    ).groups(default="")
    if not minute:
        return re.sub(r"^0000-", "2000-", token)  # both are leap years
    time = f"{minute}:{'59' if second == '60' else second or '00'}{fraction}{zone.upper()}"
    return re.sub(r"^0000-", "2000-", f"{day}T{time}") if day else time


def is_gap(token):
    """Space, a line break or a comment that is allowed."""
    if token[0] == "#":
        return not re.search(r"[\0-\x08\x0b-\x1f\x7f]", token.removesuffix("\r"))
    return re.fullmatch(r"[ \t]+|\r?\n", token) is not None


def last_word(tokens, end):
    """The place of the last token before `end` that isn't a gap."""
    return next((k for k in reversed(range(end)) if not is_gap(tokens[k])), None)


def may_break(out, tokens, place):
    """Whether TOML 1.1 allows line breaks here in an inline table: beside a comma or brace."""
    before = last_word(out, len(out))
    after = next((token for token in tokens[place:] if not is_gap(token)), "")
    return (before is not None and out[before] in ("{", ",")) or after in (",", "}")


def ends_in_comma(out):
    """Whether the table that closes here ends in a comma behind a value."""
    comma = last_word(out, len(out))
    if comma is None or out[comma] != ",":
        return False
    return out[last_word(out, comma)] not in ("{", ",")
