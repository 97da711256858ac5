"""What the words of a call name: FORMATS.md, Wrong words."""

import re
from typing import Callable, NamedTuple


class Wrong(Exception):
    """No call has these words."""


class Command(NamedTuple):
    run: Callable  # of what its inputs say, then its number where it takes one, then its options by name
    readers: tuple  # of each input
    number: tuple = ()  # the least and the greatest number of a last word
    options: dict = {}  # for each what its word says; of a flag, which has no word, FLAG
    by_file: tuple = ()  # the option that names a second input, and the command that it then is
    may_lack: bool = False  # whether the number may be left out


FLAG = None


class Call(NamedTuple):
    command: Command
    paths: list
    numbers: list  # none or one
    options: dict


def call_of(words, commands):
    """The call that words name. No words are `admit -`."""
    first, *words = list(words) or ["admit", "-"]
    if first not in commands:
        raise Wrong
    command = commands[first]
    plain, options = told_apart(words, command.options)
    most = len(command.readers) + bool(command.number)
    if not most - command.may_lack <= len(plain) <= most:
        raise Wrong
    paths, numbers = plain[: len(command.readers)], plain[len(command.readers) :]
    if command.by_file and command.by_file[0] in options:
        paths.append(options.pop(command.by_file[0]))
        command = command.by_file[1]
    if paths.count("-") > 1:
        raise Wrong
    return Call(command, paths, [number_of(word, *command.number) for word in numbers], options)


def told_apart(words, known):
    """The words that are no options, and the options. Behind `--` no word is one."""
    words, plain, options = list(words), [], {}
    while words:
        word = words.pop(0)
        if word == "--":
            return plain + words, options
        if word == "-" or not word.startswith("-"):
            plain.append(word)
            continue
        name, has_value, value = word.removeprefix("--").partition("=")
        if not word.startswith("--") or name not in known or name in options:
            raise Wrong
        if known[name] is FLAG:
            if has_value:
                raise Wrong
            options[name] = True
            continue
        if not has_value:
            if not words or (words[0].startswith("-") and words[0] != "-"):
                raise Wrong
            value = words.pop(0)
        options[name] = known[name](value)
    return plain, options


def number_of(word, least, most):
    """As Rust reads one: digits, which a plus may stand before, and zeros."""
    if not re.fullmatch(r"\+?[0-9]+", word) or not least <= int(word) <= most:
        raise Wrong
    return int(word)


def any_word(word):
    return word


def number_within(least, most):
    return lambda word: number_of(word, least, most)


def one_of(*words):
    """An option's word that is one of these."""

    def read(word):
        if word not in words:
            raise Wrong
        return word

    return read
