"""Reads manifests that Ninja accepts: the edges, and every file that was read on the way.

Where Ninja and rebug look names up differently (a variable of the file with the name of a rule's variable, at a build
line without indented lines), an edge gives both commands: Ninja's log has the hash of Ninja's, rebug compares its own.
"""

from __future__ import annotations

import re
from dataclasses import dataclass, field

from .fields import canonical, quoted, shown


class BadManifest(Exception):
    """A line that this reader does not understand; Ninja most likely refuses it as well."""


_NAME = re.compile(rb"[A-Za-z0-9_.-]+")
_DOLLAR = rb"\$\{([A-Za-z0-9_.-]+)\}|\$([A-Za-z0-9_-]+)|\$([$ :])|\$\r?\n *"
_IN_PATH = re.compile(rb"([^$ :|\r\n\0]+)|" + _DOLLAR)
_IN_VALUE = re.compile(rb"((?:[^$\r\n\0]|\r(?!\n))+)|" + _DOLLAR)
_BLANKS = re.compile(rb"(?: |\$\r?\n)*")
_DROPPED = re.compile(rb"(?: *\r?\n| *#[^\n]*(?:\n|\Z))*")
_COMMENT = re.compile(rb" *#[^\n]*(?:\n|\Z)")
_INDENT = re.compile(rb" +(?=[^ \r\n#])")
_SPANNED = (b"dyndep", b"restat")
_LINE_END = re.compile(rb" *(?:\r?\n|\Z)")


class Scope:
    """Variables and rules of a file, and the scope that it was named from by subninja."""

    def __init__(self, parent=None):
        self.variables, self.rules, self.parent = {}, {}, parent

    def variable(self, name):
        scope = self
        while scope is not None:
            if name in scope.variables:
                return scope.variables[name]
            scope = scope.parent
        return b""

    def rule(self, name):
        scope = self
        while scope is not None:
            if name in scope.rules:
                return scope.rules[name]
            scope = scope.parent
        return None


@dataclass(frozen=True)
class Places:
    """Where a build statement with a dyndep stands in its file: the places at which implicit outputs and inputs can be
    put in, and whether there are some already; its binding of `dyndep` and that of `restat`, from begin to end, each
    where the block has it; whether its paths or its rule need one of the two; and whether its file is read a second
    time."""

    outputs: int
    has_outputs: bool
    inputs: int
    has_inputs: bool
    dyndep: tuple[int, int] | None
    restat: tuple[int, int] | None
    needs: frozenset[bytes]
    is_again: bool


@dataclass(eq=False)
class Edge:
    """A build statement. Paths are canonical; outputs are the explicit ones, then the implicit ones."""

    number: int
    rule: bytes
    outputs: list
    explicit_outputs: int
    explicit: list
    implicit: list
    order_only: list
    validations: list
    block: dict
    texts: dict
    scope: Scope
    file: bytes
    line: int
    phony: bool = False
    command: bytes = b""
    ninja_command: bytes = b""
    content: bytes = b""
    depfile: bytes = b""
    rspfile: bytes = b""
    deps: bytes = b""
    dyndep: bytes = b""
    restat: bool = False
    generator: bool = False
    pool: bytes = b""
    inputs: list = field(default_factory=list)
    places: Places | None = None

    @property
    def keeps_deps(self):
        return bool(self.depfile or self.deps)

    @property
    def name(self):
        return self.outputs[0]

    def binding(self, name):
        """The value of a binding as Ninja looks it up, and shows it (`command`, `description`)."""
        return Lookup(self, as_ninja=True).value(name)


class Lookup:
    """Expands the variables of an edge whose texts stand in its rule."""

    def __init__(self, edge, as_ninja=False, escape=quoted):
        self.edge, self.escape, self.open = edge, escape, []
        self.file_first = as_ninja and not edge.block

    def value(self, name):
        edge = self.edge
        if name in (b"in", b"in_newline"):
            return (b" " if name == b"in" else b"\n").join(self.escape(it) for it in edge.explicit)
        if name == b"out":
            return b" ".join(self.escape(it) for it in edge.outputs[: edge.explicit_outputs])
        if name in edge.block:
            return edge.block[name]
        if self.file_first and name in edge.scope.variables:
            return edge.scope.variables[name]
        if name in edge.texts:
            if name in self.open:
                raise BadManifest(f"line {edge.line}: the rule's variable {name.decode()} needs itself")
            self.open.append(name)
            value = expand(edge.texts[name], self.value)
            self.open.pop()
            return value
        return edge.scope.variable(name)


def expand(text, lookup):
    """The value of a text: a list of bytes and of names of variables (in a tuple of one)."""
    return b"".join(it if isinstance(it, bytes) else lookup(it[0]) for it in text)


@dataclass
class Include:
    """Where an include or subninja statement stands, and which file it names."""

    begin: int
    end: int
    keyword: bytes
    path: bytes


class Manifest:
    """The edges of a manifest with its pools and defaults, and the files that it was read from.

    `files` has (name, content, includes) in reading order, each file once; the first is the manifest itself.
    """

    def __init__(self, name, read_file):
        self.edges: list[Edge] = []
        self.files: list[tuple[bytes, bytes, list]] = []
        self.pools: dict[bytes, int] = {b"console": 1}
        self.default_paths: list[bytes] = []
        self.pool_names, self.read_file = [b"console"], read_file
        self._known: dict[bytes, tuple[bytes, bytes, list]] = {}
        self.depths: dict[bytes, bytes] = {}
        self.deepest = 0
        # where rules bind `dyndep`, and where a file binds it at its own level
        self.dyndeps_of_rules: list[tuple[bytes, int, int]] = []
        self.dyndeps_of_files: list[tuple[bytes, int]] = []
        self.scope = self.new_scope()
        self._read(name, self.scope, 0)
        for edge in self.edges:
            self._end(edge)
        self.producer: dict[bytes, Edge] = {}
        for edge in self.edges:
            for path in edge.outputs:
                self.producer.setdefault(path, edge)

    def new_scope(self, parent=None):
        """A scope of variables and rules, for a file that this scope names."""
        return Scope(parent)

    def _read(self, name, scope, depth):
        if depth > 100:
            raise BadManifest(f"{shown(name)} is included by itself")
        self.deepest = max(self.deepest, depth)
        known, is_again = self._known.get(canonical(name)), True
        if known is None:
            content, is_again = self.read_file(name), False
            known = self._known[canonical(name)] = (name, content, [])
            self.files.append(known)
        Reader(self, known, scope, depth, is_again).read()

    def _end(self, edge):
        """What is expanded once all files are read."""
        if edge.phony:
            return
        lookup = Lookup(edge)
        edge.command, edge.content = _compared(lookup), lookup.value(b"rspfile_content")
        edge.ninja_command = edge.command if edge.block else _compared(Lookup(edge, as_ninja=True))
        as_it_stands = Lookup(edge, as_ninja=True, escape=lambda it: it)
        edge.depfile = as_it_stands.value(b"depfile")
        edge.rspfile = as_it_stands.value(b"rspfile")
        edge.dyndep = as_it_stands.value(b"dyndep")
        edge.deps = lookup.value(b"deps")
        edge.restat, edge.generator = bool(lookup.value(b"restat")), bool(lookup.value(b"generator"))
        edge.pool = lookup.value(b"pool")

    def known_paths(self):
        """Every path of a build line, each once, in reading order."""
        found = {}
        for edge in self.edges:
            for paths in (edge.outputs, edge.inputs, edge.validations):
                found.update(dict.fromkeys(paths))
        return found

    def defaults(self):
        """The targets where none are given."""
        if self.default_paths:
            return self.default_paths
        used = {path for edge in self.edges for path in edge.inputs}
        return [path for edge in self.edges for path in edge.outputs if path not in used]

    def depth(self, edge):
        """The number of slots of the edge's pool, None where it has no pool with slots."""
        return self.pools.get(edge.pool) or None

    def log_folder(self):
        """The folder in which Ninja keeps its two logs."""
        return self.scope.variable(b"builddir")


def _compared(lookup):
    content = lookup.value(b"rspfile_content")
    return lookup.value(b"command") + (b";rspfile=" + content if content else b"")


class Reader:
    """Reads the statements of one file, which may have been read before (`is_again`)."""

    def __init__(self, manifest, known, scope, depth, is_again=False):
        self.manifest, self.scope, self.depth = manifest, scope, depth
        self.name, self.text, self.includes = known
        self.is_again = is_again
        self.at = self._counted = 0
        self._line = 1

    def line(self):
        self._line += self.text.count(b"\n", self._counted, self.at)
        self._counted = self.at
        return self._line

    def bad(self, what, line=None):
        return BadManifest(f"{shown(self.name)}:{line or self.line()}: {what}")

    def blanks(self):
        self.skip(_BLANKS)

    def skip(self, pattern):
        """Goes behind what the pattern matches, which may be nothing."""
        found = pattern.match(self.text, self.at)
        self.at = found.end() if found else self.at

    def name_here(self, what):
        found = _NAME.match(self.text, self.at)
        if not found:
            raise self.bad(f"expected {what}")
        self.at = found.end()
        self.blanks()
        return found[0]

    def takes(self, token):
        if not self.text.startswith(token, self.at):
            return False
        self.at += len(token)
        self.blanks()
        return True

    def line_end(self):
        found = _LINE_END.match(self.text, self.at)
        if not found:
            raise self.bad("expected the end of the line")
        self.at = found.end()

    def piece_list(self, pattern):
        pieces: list = []
        while True:
            found = pattern.match(self.text, self.at)
            if not found:
                return pieces
            self.at = found.end()
            plain, braced, bare, escaped = found.groups()
            if plain is not None or escaped is not None:
                pieces.append(plain if escaped is None else escaped)
            elif braced is not None or bare is not None:
                pieces.append((braced if bare is None else bare,))

    def value(self):
        pieces = self.piece_list(_IN_VALUE)
        if self.text.startswith(b"$", self.at):
            raise self.bad("bad $-escape")
        self.line_end()
        return pieces

    def paths(self):
        """Texts of paths up to the next token."""
        found: list[list] = []
        while True:
            pieces = self.piece_list(_IN_PATH)
            if not pieces:
                return found
            found.append(pieces)
            self.blanks()

    def read(self):
        while True:
            self.skip(_DROPPED)
            if self.at >= len(self.text):
                return
            begin = self.at
            keyword = self.name_here("a statement")
            statement = {b"rule": self.rule, b"build": self.build, b"pool": self.pool,
                         b"default": self.default}.get(keyword)
            if keyword in (b"include", b"subninja"):
                self.include(keyword, begin)
            elif statement:
                statement()
            else:
                self.variable(keyword)

    def variable(self, name):
        """A binding at the file's own level."""
        if name == b"dyndep":
            self.manifest.dyndeps_of_files.append((self.name, self.line()))
        self.binding(name, self.scope.variables)

    def binding(self, name, into):
        if not self.takes(b"="):
            raise self.bad("expected '='")
        into[name] = expand(self.value(), self.scope.variable)

    def indented(self):
        """Whether an indented line follows; steps over its indentation. Comments may stand between."""
        at = self.at
        while True:
            comment = _COMMENT.match(self.text, at)
            if not comment:
                break
            at = comment.end()
        found = _INDENT.match(self.text, at)
        if found:
            self.at = found.end()
        return bool(found)

    def rule(self):
        name = self.name_here("a rule's name")
        self.line_end()
        texts = {}
        while self.indented():
            begin, key = self.at, self.name_here("a variable")
            if not self.takes(b"="):
                raise self.bad("expected '='")
            texts[key] = self.value()
            if key == b"dyndep" and not self.is_again:
                self.manifest.dyndeps_of_rules.append((self.name, *self.span(begin)))
        self.scope.rules[name] = texts

    def span(self, begin):
        """From a place to the end of the line that was read last."""
        end = self.at - self.text.endswith(b"\n", 0, self.at)
        return begin, end - self.text.endswith(b"\r", 0, end)

    def pool(self):
        name = self.name_here("a pool's name")
        self.line_end()
        values: dict = {}
        while self.indented():
            self.binding(self.name_here("depth"), values)
        self.manifest.depths[name] = values.get(b"depth", b"")
        depth = self.manifest.depths[name].strip()
        self.manifest.pools[name] = int(depth) if depth.isdigit() else 0
        self.manifest.pool_names.append(name)

    def default(self):
        for text in self.paths():
            self.manifest.default_paths.append(canonical(expand(text, self.scope.variable)))
        self.line_end()

    def include(self, keyword, begin):
        texts = self.paths()
        if len(texts) != 1:
            raise self.bad(f"expected one path after {keyword.decode()}")
        path = expand(texts[0], self.scope.variable)
        self.line_end()
        end = self.at - self.text.endswith(b"\n", 0, self.at)
        if not self.is_again:
            self.includes.append(Include(begin, end, keyword, path))
        self.manifest._read(path, self.scope if keyword == b"include" else self.manifest.new_scope(self.scope),
                            self.depth + 1)

    def build(self):
        line = self.line()
        outs = self.paths()
        has_outputs = self.takes(b"|")
        implicit_outs = self.paths() if has_outputs else []
        outputs_at = self.at
        if not self.takes(b":"):
            raise self.bad("expected ':'")
        name = self.name_here("a rule")
        lists = [self.paths()]
        has_inputs = not self.text.startswith((b"||", b"|@"), self.at) and self.takes(b"|")
        lists.append(self.paths() if has_inputs else [])
        inputs_at = self.at
        for token in (b"||", b"|@"):
            lists.append(self.paths() if self.takes(token) else [])
        self.line_end()
        block: dict = {}
        spans: dict = {}
        while self.indented():
            begin, key = self.at, self.name_here("a variable")
            self.binding(key, block)
            if key in _SPANNED:
                spans[key] = self.span(begin)
        texts = {} if name == b"phony" else self.scope.rule(name)
        if texts is None:
            raise self.bad(f"unknown rule {name.decode()}", line)
        lookup = lambda it: block[it] if it in block else self.scope.variable(it)
        values = [[canonical(expand(it, lookup)) for it in found] for found in (outs, implicit_outs, *lists)]
        edge = self.add(name, texts, values, block, line)
        if b"dyndep" in block or b"dyndep" in texts:
            needs = _needed(texts.values(), outs, implicit_outs, *lists)
            edge.places = Places(outputs_at, has_outputs, inputs_at, has_inputs, spans.get(b"dyndep"),
                                 spans.get(b"restat"), needs, self.is_again)

    def add(self, name, texts, values, block, line):
        outs, implicit_outs, explicit, implicit, order_only, validations = values
        outputs = list(dict.fromkeys(outs + implicit_outs))
        if not outputs:
            raise self.bad("expected a path")
        if name == b"phony":
            own = set(outputs)
            explicit, implicit, order_only = ([it for it in paths if it not in own]
                                              for paths in (explicit, implicit, order_only))
        edges = self.manifest.edges
        edge = Edge(len(edges), name, outputs, len(dict.fromkeys(outs)), explicit, implicit, order_only, validations,
                    block, texts, self.scope, self.name, line, phony=name == b"phony")
        edge.inputs = explicit + implicit + order_only
        edges.append(edge)
        return edge


def _needed(*lists):
    """Which of `dyndep` and `restat` the texts need."""
    names = {it[0] for texts in lists for text in texts for it in text if isinstance(it, tuple)}
    return frozenset(names.intersection(_SPANNED))
