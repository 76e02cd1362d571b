"""Runs Meson, and writes down what its interpreter declares: for each target, use of a generator and dependency the
calls of the user's files that it stands in.

It runs in the Python that Meson itself runs in: `meson_ears.py OUT MESON WORDS..`. It uses names of Meson's own that no
page of Meson promises. Where this Meson does not have them, it ends with status 77 before Meson runs.
"""

import importlib
import json
import os
import sys

UNKNOWN_MESON = 77
KEPT: list = []  # objects that are known by their numbers, which a freed object would give to another one
STACK: list = []


def where():
    """The calls that are being evaluated, the innermost last."""
    found = []
    for one, node in STACK:
        name = getattr(node, "func_name", None) or getattr(node, "name", None) or getattr(node, "var_name", None)
        file = getattr(node, "filename", "") or os.path.join(one.subdir, "meson.build")
        found.append({"file": os.path.normpath(os.path.join(one.environment.source_dir, file)), "line": node.lineno,
                      "end": getattr(node, "end_lineno", None), "kind": type(node).__name__,
                      "name": str(getattr(name, "value", name))})
    return found


def listen_to_calls(base):
    """Keeps STACK as the calls and assignments are evaluated."""
    def around(name):
        old = getattr(base, name)

        def new(self, node, *rest):
            STACK.append((self, node))
            try:
                return old(self, node, *rest)
            finally:
                STACK.pop()
        setattr(base, name, new)
    for name in ("function_call", "method_call", "assignment"):
        around(name)


def listen_to_targets(interpreter, write):
    """Writes each target and each declared dependency."""
    old_add, old_declare = interpreter.add_target, interpreter.func_declare_dependency

    def add_target(self, name, target):
        old_add(self, name, target)
        dependencies = ["%x" % id(it) for it in getattr(target, "added_deps", [])]
        write(what="target", id=target.get_id(), dependencies=dependencies)

    def declare(self, *words, **more):
        found = old_declare(self, *words, **more)
        KEPT.append(found)
        write(what="dependency", id="%x" % id(found))
        return found
    declare.__dict__.update(getattr(old_declare, "__dict__", {}))
    interpreter.add_target, interpreter.func_declare_dependency = add_target, declare


def listen_to_generators(holder, write):
    """Writes the outputs of each use of a generator."""
    old_process, old_init = holder.process_method, holder.__init__

    def process(self, *words, **more):
        found = old_process(self, *words, **more)
        write(what="generator", id="", outputs=list(found.get_outputs()))
        return found
    process.__dict__.update(getattr(old_process, "__dict__", {}))

    def init(self, *words):
        old_init(self, *words)
        self.methods["process"] = lambda *its, **more: process(self, *its, **more)
    holder.process_method, holder.__init__ = process, init


def main(out, meson, words):
    sys.path.insert(0, os.path.dirname(os.path.realpath(meson)))
    try:
        mesonmain, interpreter, objects, base = (importlib.import_module(f"mesonbuild.{name}") for name in (
            "mesonmain", "interpreter.interpreter", "interpreter.interpreterobjects",
            "interpreterbase.interpreterbase"))
        file = open(out, "w", encoding="utf-8", errors="surrogateescape")

        def write(**it):
            file.write(json.dumps({"outputs": [], "dependencies": [], **it, "calls": where()}) + "\n")
        listen_to_calls(base.InterpreterBase)
        listen_to_targets(interpreter.Interpreter, write)
        listen_to_generators(objects.GeneratorHolder, write)
    except (ImportError, AttributeError) as why:
        print(why)
        return UNKNOWN_MESON
    sys.argv = [meson, *words]
    status = mesonmain.run(words, os.path.realpath(meson))
    file.close()
    return status


if __name__ == "__main__":
    sys.exit(main(sys.argv[1], sys.argv[2], sys.argv[3:]))
