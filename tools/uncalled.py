#!/usr/bin/env python3
"""uncalled.py: names each public function that no program and no test comes to; the status is 1 where one may answer want of memory.

Contracts let such a function answer want of memory and nothing else, so somebody has to call it and look at what it gives. Calls are
found by name: a free function's by what the file declares and imports, a method's by its name, an associated function's by its type's
name too. So a call that is found may be another's; one that isn't found isn't there. The calls that programs and tests make are gone
through to those that these make, and so on.
"""
import collections
import pathlib
import re
import sys

TOP = pathlib.Path(__file__).resolve().parent.parent
# what stands in a file is a word, a mark of a path, or a sign
TOKEN = re.compile(r"\w+|::|->|\S")
# comments and literals, which hold no calls; a lifetime has no closing quote
SILENT = re.compile(r"""//[^\n]*|b?r?"(?:\\.|[^"\\])*"|b?'(?:\\[^\n]+?|[^'\\\n])'""")
MODIFIERS = {"pub", "const", "unsafe", "extern", "async"}


class Function:
    def __init__(self, crate, file, name, owner, trait, attributes, public):
        self.crate, self.file, self.name, self.owner, self.trait = crate, file, name, owner, trait
        self.is_test = "test" in attributes
        self.public = public
        self.has_self = self.lacks = False
        self.calls = []


def closed(tokens, at):
    """the place behind the bracket that closes the one at this place"""
    depth = 0
    while at < len(tokens):
        depth += tokens[at] in "([{"
        depth -= tokens[at] in ")]}"
        at += 1
        if depth == 0:
            return at
    return at


def type_name(tokens):
    """the last word of the first path behind the generics"""
    depth, found = 0, ""
    for token in tokens:
        depth += (token == "<") - (token == ">")
        if depth == 0 and (token[0].isalpha() or token[0] == "_"):
            found = token
        elif depth == 0 and token not in ("::", ">", "&", "(", ")"):
            break
    return found


def owner_of(header):
    """the type and the trait of an impl, by the tokens between `impl` and its bracket"""
    depth, cut = 0, None
    for at, token in enumerate(header):
        depth += (token == "<") - (token == ">")
        if token == "for" and depth == 0:
            cut = at
    if header and header[0] == "<":
        depth = 0
        for at, token in enumerate(header):
            depth += (token == "<") - (token == ">")
            if depth == 0:
                header, cut = header[at + 1:], None if cut is None else cut - at - 1
                break
    return (type_name(header), None) if cut is None else (type_name(header[cut + 1:]), type_name(header[:cut]))


def imported(tokens, at):
    """the paths of a use item, each with the name it has in the file, and the place behind it"""
    def paths(at, before):
        path, name = list(before), None
        while at < len(tokens):
            token = tokens[at]
            if token == "{":
                at += 1
                while tokens[at] != "}":
                    at = paths(at, path)
                    at += tokens[at] == ","
                return at + 1
            if token == "as":
                name = tokens[at + 1]
                at += 2
            elif token in (",", "}", ";"):
                break
            else:
                if token != "::":
                    path.append(token)
                at += 1
        if path:
            found.append((name or path[-1], path))
        return at
    found = []
    return found, paths(at, []) + 1


def calls(body, parameters):
    """the names that a body calls or hands on: of what, and how"""
    named = set(parameters)
    for at, token in enumerate(body):
        if token in ("let", "mut", "|", "Some", "Ok", "Err") and at + 1 < len(body):
            named.add(body[at + 1] if body[at + 1] != "(" else body[at + 2])
    for at, token in enumerate(body):
        if not (token[0].isalpha() or token[0] == "_"):
            continue
        before = body[at - 1] if at else ""
        behind = body[at + 1] if at + 1 < len(body) else ""
        if before == ".":
            if behind in ("(", "::"):
                yield "method", token, None
        elif before == "::" and behind != "::":
            yield "path", token, body[at - 2]
        elif behind in ("(", "::<") or before in "(," and behind in "),":
            if behind == "(" or token not in named:
                yield "free", token, None


class Sources:
    def __init__(self):
        self.functions, self.imports, self.lacking = [], collections.defaultdict(dict), {"NoMemory", "AllocError"}
        for file in sorted(TOP.glob("crates/*/src/**/*.rt")):
            self.read(file)
        self.frees, self.owned = collections.defaultdict(list), collections.defaultdict(list)
        for function in self.functions:
            (self.owned if function.owner else self.frees)[function.name].append(function)

    def read(self, file):
        text = SILENT.sub(" ", file.read_text())
        crate = file.relative_to(TOP / "crates").parts[0]
        tokens = TOKEN.findall(text)
        for error in re.findall(r"enum (\w+)[^{]*\{([^}]*)\}", text):
            if re.search(r"\bNoMemory\b", error[1]):
                self.lacking.add(error[0])
        at, attributes, modifiers, owners = 0, set(), [], []
        while at < len(tokens):
            token = tokens[at]
            while owners and at >= owners[-1][0]:
                owners.pop()
            if token == "#":
                end = closed(tokens, at + 1)
                attributes |= set(tokens[at + 2:end - 1][:1])
                at = end
            elif token == "use" and "ghost" not in modifiers:
                found, at = imported(tokens, at + 1)
                for name, path in found:
                    self.imports[file].setdefault(name, path)
                    if modifiers and "pub" in modifiers:
                        self.imports[crate].setdefault(name, path)
                modifiers, attributes = [], set()
            elif token == "impl" or token == "trait":
                end = at
                while tokens[end] != "{":
                    end += 1
                owner = owner_of(tokens[at + 1:end]) if token == "impl" else (tokens[at + 1], tokens[at + 1])
                owners.append((closed(tokens, end), *owner))
                modifiers, attributes, at = [], set(), end + 1
            elif token == "fn":
                owner, trait = owners[-1][1:] if owners else (None, None)
                function = Function(crate, file, tokens[at + 1], owner, trait, attributes, "pub" in modifiers or trait)
                at = self.function(function, tokens, at + 2)
                modifiers, attributes = [], set()
            elif token in ("pub", "ghost") or token in MODIFIERS:
                modifiers.append(token)
                at += 1
                if tokens[at] == "(" and token == "pub":
                    modifiers[-1] = "within"
                    at = closed(tokens, at)
            else:
                modifiers, attributes = [], set()
                at += 1

    def function(self, function, tokens, at):
        """reads a function behind its name"""
        start = at
        while tokens[at] != "(":
            at += 1
        end = closed(tokens, at)
        parameters = tokens[at + 1:end - 1]
        function.has_self = "self" in parameters[:5]
        at = result = end
        while tokens[at] not in ("{", ";", "requires", "ensures"):
            at += 1
        function.result = tokens[result:at]
        while tokens[at] in ("requires", "ensures"):
            while tokens[at] != "{":
                at += 1
            at = closed(tokens, at)
        self.functions.append(function)
        if tokens[at] == ";":
            return at + 1
        end = closed(tokens, at)
        names = [a for a, b in zip(parameters, parameters[1:]) if b == ":"]
        function.calls = list(calls(tokens[at + 1:end - 1], names))
        return end

    def free(self, function, name):
        """the free functions that the name is in the file"""
        here = [f for f in self.frees[name] if f.file == function.file]
        if here:
            return here
        path = self.imports[function.file].get(name)
        return self.within(function.crate, path) if path else []

    def within(self, crate, path, seen=()):
        """the free functions that a path from a file of the crate names"""
        where, name = path[0], path[-1]
        where = crate if where in ("crate", "self", "super") else where
        found = [f for f in self.frees[name] if f.crate == where]
        further = self.imports[where].get(name)
        if found or not further or (where, name) in seen:
            return found
        return self.within(where, further, (*seen, (where, name)))

    def called(self, function):
        for how, name, of in function.calls:
            if how == "free":
                yield from self.free(function, name)
            elif how == "method":
                yield from (f for f in self.owned[name] if f.has_self)
            else:
                of = function.owner if of == "Self" else of
                of = (self.imports[function.file].get(of) or [of])[-1]
                yield from (f for f in self.owned[name] if of in (f.owner, f.trait))
                yield from (f for f in self.frees[name] if of in (f.crate, f.file.stem, "crate", "super", "self"))

    def may_lack(self, function):
        return bool(self.lacking & set(function.result))

    def uncalled(self):
        programs = {file.relative_to(TOP / "crates").parts[0] for file in TOP.glob("crates/*/src/main.rt")}
        # what `?`, operators and formatting call isn't written as a call
        silent = {"From", "Drop", "Display", "Debug", "PartialEq", "PartialOrd", "Model", "Hash", "Iterator"}
        left = [f for f in self.functions if f.is_test or f.trait in silent or f.name == "main" and f.crate in programs]
        reached = set(left)
        while left:
            for function in self.called(left.pop()):
                if function not in reached:
                    reached.add(function)
                    left.append(function)
        return [f for f in self.functions if f.public and f not in reached]

    @staticmethod
    def gives_nothing(function):
        """whether it is a law, whose contract alone counts: who answers nothing and takes nothing"""
        return not function.result and not function.has_self


def named(function):
    owner = f"{function.owner}::" if function.owner else ""
    return f"{function.file.relative_to(TOP)}: {owner}{function.name}"


def main():
    sources = Sources()
    found = sources.uncalled()
    lacking = [f for f in found if sources.may_lack(f)]
    for function in lacking:
        print(named(function))
    asked = sum(1 for f in sources.functions if f.public and sources.may_lack(f))
    print(f"uncalled.py: of {asked} public functions that may answer want of memory {len(lacking)} aren't called by a program or a test", file=sys.stderr)
    # what can't fail so is told, and refuses nothing
    others = [f for f in found if f not in lacking and not sources.gives_nothing(f)]
    for function in others:
        print(f"uncalled.py: no program and no test comes to {named(function)}", file=sys.stderr)
    return 1 if lacking else 0


if __name__ == "__main__":
    sys.exit(main())
