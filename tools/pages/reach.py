"""Which definitions of the specs a promise comes to: those that it names, those that these name, and so on."""

import re

from .sources import own

BROUGHT = re.compile(r"Rattle\.(\w+)\.specs\.(\w+)\.(\S+)$")
WORD = re.compile(r"(?<![.\w])[^\s(){}.;,@]+")


def brought(uses):
    """The definitions of the repository that `use` lines bring: (crate, file, name) of each word."""
    return {word: found.groups() for word, found in ((word, BROUGHT.match(path)) for word, path in uses.items() if own(path)) if found}


class Reach:
    """From each definition of the specs to those that it names."""

    def __init__(self, sources):
        self.named, self.called = {}, {}
        for (crate, folder, file), source in sources.files.items():
            scope = {**brought(source.uses), **{name: (crate, file, name) for name in source.heads}}
            for name in source.heads if folder == "specs" else ():
                said = WORD.findall(source.heads[name] + source.bodies[name])
                self.named[crate, file, name] = {scope[word] for word in said if word in scope}
                self.called.setdefault(name, set()).add((crate, file, name))

    def cited(self, function):
        """The definitions that a function's promise names."""
        said = set(" ".join(function.ensures).split())
        return {place for word, place in brought(function.uses).items() if word in said}

    def all(self, start):
        """Some definitions, and all that they come to."""
        found, left = set(), set(start)
        while left:
            found |= left
            left = set().union(*(self.named.get(place, ()) for place in left)) - found
        return found

    def meets(self, function, definitions):
        """Whether a promise comes to one of the definitions, or one of them to what it names. One that names none is not compared."""
        cited = self.cited(function)
        return not cited or bool(self.all(cited) & definitions) or bool(self.all(definitions) & cited)
