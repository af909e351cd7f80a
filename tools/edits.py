"""Wrong bodies: small edits of a crate's code that the prover must refuse.

An edit is a file of lines 'file: PATH', a file of the crate, and then pairs 'old: TEXT' and 'new: TEXT'. Each TEXT is one line, and
each old one stands once in the file as the pairs before it left it. An edit that changes no function, but a constant or a table, names
those that must not be proved any more, by a line 'functions: PATH, PATH' before all others. What other lines say is for readers.
"""
import pathlib

from sources import functions_of, module_of, types_of


class BadEdit(Exception):
    """Why an edit cannot be applied."""


class Edit:
    """One edit of a crate, and the functions that it changes."""

    def __init__(self, file):
        self.folder, self.crate = file.parent.parent, file.parent.parent.name
        self.file, self.key = file, f"{self.crate}/{file.name}"
        named, self.changes = read(file)
        found, is_apart = self.changed()
        self.functions, self.is_named = named or found, bool(named)
        # Whether it has a copy of the crate for itself: it may change what more functions use than those that it is tried on.
        self.is_alone = is_apart or len(self.functions) > 1
        if not self.functions:
            raise BadEdit(f"{self.key}: it changes no function, so a line 'functions: ..' has to name those that it concerns")

    def changed(self):
        """The functions in which a text is replaced, each by its path below the crate, and whether one is replaced outside of all."""
        found, texts, is_apart, types = {}, {}, False, types_of(self.folder)
        for path, old, new in self.changes:
            text = texts.get(path) or text_of(self.folder, path)
            texts[path] = replaced(self.key, path, text, old, new)
            at = text.find(old)
            holders = [it.path for it in functions_of(text, module_of(path), types) if it.start <= at < it.end]
            found.update(dict.fromkeys(holders))
            is_apart = is_apart or not holders
        return list(found), is_apart

    def applied(self, texts):
        """The changed texts by their paths, those of earlier edits among them."""
        texts = dict(texts)
        for path, old, new in self.changes:
            text = texts[path] if path in texts else text_of(self.folder, path)
            texts[path] = replaced(self.key, path, text, old, new)
        return texts


def read(file):
    """The functions that an edit names, and its changes: for each the path, the old text and the new one."""
    named, changes, path, old = [], [], None, None
    for line in file.read_text().split("\n"):
        word, _, rest = line.partition(":")
        rest = rest.removeprefix(" ")
        if word == "functions":
            named += [it.strip() for it in rest.split(",")]
        elif word == "file":
            path = rest.strip()
        elif word == "old":
            old = rest
        elif word == "new" and path and old:
            changes.append((path, old, rest))
            old = None
    if not changes:
        raise BadEdit(f"{file.parent.parent.name}/{file.name}: it changes nothing")
    return named, changes


def text_of(folder, path):
    if pathlib.PurePosixPath(path).parts[:1] != ("src",) or ".." in path:
        raise BadEdit(f"{folder.name}: {path} is no file of src/")
    return (folder / path).read_text()


def replaced(key, path, text, old, new):
    if text.count(old) != 1:
        raise BadEdit(f"{key}: '{old}' stands in {path} {text.count(old)} times, and not once")
    return text.replace(old, new)


class Copy:
    """A copy of a crate with edits of different functions."""

    def __init__(self):
        self.edits, self.texts = [], {}

    def functions(self):
        return [it for edit in self.edits for it in edit.functions]

    def lines_of(self, function):
        """The files of the copy that have this function in an edited text, each with its lines there."""
        types = types_of(self.edits[0].folder)
        found = {path: functions_of(text, module_of(path), types) for path, text in self.texts.items()}
        return {path: it.lines for path, its in found.items() for it in its if it.path == function}

    def takes(self, edit):
        """Adds the edit, unless it concerns a function that is edited already, or the texts do not fit. Says whether it did."""
        if set(edit.functions) & set(self.functions()):
            return False
        try:
            texts = edit.applied(self.texts)
        except BadEdit:
            return False
        self.edits, self.texts = [*self.edits, edit], texts
        return True


def copies_of(edits, most):
    """Copies of one crate for all its edits, each with this many at most."""
    copies, shared = [], []
    for edit in edits:
        if edit.is_alone or not any(len(it.edits) < most and it.takes(edit) for it in shared):
            copies.append(alone_in_copy(edit))
            shared += [] if edit.is_alone else copies[-1:]
    return copies


def alone_in_copy(edit):
    copy = Copy()
    copy.takes(edit)
    return copy
