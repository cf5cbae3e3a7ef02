"""An edit as a file: a change of a crate's text that makes a wrong body.

A file has a line 'file: PATH' before the pairs of lines 'old: TEXT' and 'new: TEXT' of that file, each old TEXT
standing in it once by then, and may have a line 'only: FUNCTION' or 'error: NAME'. No other line is read, as the kit
does it.
"""

import re

FUNCTION = re.compile(r'(\s*)(?:pub(?:\([^)]*\))? )?(?:const )?(?:unsafe )?(?:extern "C" )?fn (\w+)')
IMPL = re.compile(
    r"impl\b(?:<(?P<own>.*?)>)?\s+(?:(?P<trait>[\w:]+)(?:<(?P<given>.*?)>)?\s+for\s+)?&?(?:mut )?(?P<type>[\w:]+)"
)
TRAIT = re.compile(r"(?:pub(?:\([^)]*\))? )?trait (\w+)")


class BadEdit(Exception):
    """Why an edit can't be read or applied."""


class Function:
    """A function in whose text an edit changes something: its file, the rows of its text and of its body, its name."""

    def __init__(self, file, lines, first, last):
        self.file, self.first, self.last = file, first, last
        indent, name = FUNCTION.match(lines[first]).groups()
        # The clauses of a contract are indented more than the function.
        opens = re.compile(rf"{indent}(\S.*)?\{{(.*\}})?")
        self.body = next(row for row in range(first, last + 1) if opens.fullmatch(lines[row]))
        owner = owner_of(lines, first) if indent else module_of(file)
        self.name = f"{owner}{name}"

    def has_in_body(self, line, row):
        return row > self.body or row == self.body and line.endswith("}")


class Edit:
    """An edit of a crate, and the functions that it changes."""

    def __init__(self, path, crate):
        self.path, self.name, self.pairs, words, old = path, path.stem, [], {}, None
        for line in path.read_text().split("\n"):
            word, _, text = line.partition(": ")
            if word == "old":
                old = text
            elif line.startswith("new:") and old and "file" in words:
                self.pairs.append((words["file"], old, line.removeprefix("new:").removeprefix(" ")))
                old = None
            elif word in ("file", "only", "error"):
                words[word] = text.strip()
        if not self.pairs or old:
            raise BadEdit("it needs a line 'file', and pairs of lines 'old' and 'new'")
        self.only, self.error = words.get("only"), words.get("error")
        self.functions, self.is_of_bodies = functions_of(self.pairs, crate)

    def named(self):
        """The names of the functions that are to be refused."""
        return {self.only} if self.only else {function.name for function in self.functions}

    def texts(self, crate):
        """The texts of the files that it changes, as they are in this folder of the crate."""
        return {file: (crate / file).read_text() for file, _, _ in self.pairs}

    def change(self, texts):
        """Changes these texts of files."""
        for file, old, new in self.pairs:
            if texts[file].count(old) != 1:
                raise BadEdit(f"an 'old' text is in {file} {texts[file].count(old)} times, and not once")
            if old == new:
                raise BadEdit(f"it changes nothing in {file}")
            texts[file] = texts[file].replace(old, new)


def functions_of(pairs, crate):
    """The functions in which the old texts stand, and whether each stands in the body of one."""
    found, are_bodies = [], True
    for file, old, _ in pairs:
        lines = (crate / file).read_text().split("\n")
        row = next((at for at, line in enumerate(lines) if old in line), 0)
        function = function_around(file, lines, row)
        are_bodies = are_bodies and function is not None and function.has_in_body(lines[row], row)
        found += [function] * (function is not None)
    return found, are_bodies


def function_around(file, lines, row):
    """The function whose text has this row, or None."""
    for first in range(row, -1, -1):
        found = FUNCTION.match(lines[first])
        if found:
            ends = (at for at in range(first, len(lines)) if re.fullmatch(rf"{found[1]}(\S.*)?\}}\s*", lines[at]))
            last = next(ends, -1)
            if last >= row:
                return Function(file, lines, first, last)
    return None


def module_of(file):
    """The module that a file holds, before the name of a function of its own."""
    parts = file.removesuffix(".rt").split("/")[1:]
    return "" if parts in (["lib"], ["main"]) else "::".join([*parts, ""])


def owner_of(lines, row):
    """The type in whose block this row is, as the kit names a method: after it the trait, and types given to that."""
    for line in reversed(lines[:row]):
        impl, trait = IMPL.match(line), TRAIT.match(line)
        if impl:
            names = [(impl[it] or "").split("::")[-1] for it in ("type", "trait")]
            own = re.findall(r"(?:^|, )(\w+)", impl["own"] or "")
            names += [name for name in re.findall(r"\b[A-Z]\w*", impl["given"] or "") if name not in own]
            return f"{''.join(names)}::"
        if trait:
            return f"{trait[1]}::"
    return ""
