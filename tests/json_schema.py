"""Holds what the programs write as JSON to the schemas of docs/JSON.md.

A schema is JSON Schema (2020-12), of which the page uses the words that stand here. What is not named in it is refused:
each object has `additionalProperties` false."""

from __future__ import annotations

import functools
import json
import pathlib
import re
from typing import Any

PAGE = pathlib.Path(__file__).resolve().parents[1] / "docs/JSON.md"
TYPES = {"object": dict, "array": list, "string": str, "integer": int, "boolean": bool, "null": type(None)}


@functools.cache
def schemas() -> dict[str, Any]:
    """The schemas of docs/JSON.md, by their names."""
    blocks = re.findall(r"```json\n(.*?)```", PAGE.read_text(encoding="utf-8"), re.S)
    return {it["$id"]: it for it in map(json.loads, blocks)}


def named(reference: str, root: Any) -> tuple[Any, Any]:
    """What a reference names, and the schema that it stands in: `#/$defs/edge`, `races`, `races#/$defs/edge`."""
    name, _, place = reference.partition("#/$defs/")
    schema = schemas()[name] if name else root
    return (schema["$defs"][place] if place else schema), schema


def kinds_of(name: str) -> set[str]:
    """The kinds of object that a schema has."""
    root, kinds = schemas()[name], set()
    for it in root["oneOf"]:
        kind = named(it["$ref"], root)[0]["properties"]["kind"]
        kinds.update([kind["const"]] if "const" in kind else kind["enum"])
    return kinds


def has_type(value: Any, names: str | list[str]) -> bool:
    """Whether a value is of one of these types of JSON."""
    for name in [names] if isinstance(names, str) else names:
        if isinstance(value, TYPES[name]) and (name != "integer" or not isinstance(value, bool)):
            return True
    return False


def fits(value: Any, schema: Any, root: Any) -> bool:
    """Whether a value is what a schema says that stands in another."""
    if "$ref" in schema:
        return fits(value, *named(schema["$ref"], root))
    if "oneOf" in schema:
        return sum(fits(value, it, root) for it in schema["oneOf"]) == 1
    if "const" in schema:
        return value == schema["const"]
    if "enum" in schema:
        return value in schema["enum"]
    if not has_type(value, schema["type"]):
        return False
    if isinstance(value, list):
        return all(fits(it, schema["items"], root) for it in value)
    if isinstance(value, dict):
        known, others = schema.get("properties", {}), schema["additionalProperties"]
        return all(name in value for name in schema.get("required", ())) and all(
            fits(it, known[name], root) if name in known else bool(others) and fits(it, others, root)
            for name, it in value.items())
    return True


def misfits(out: bytes, name: str) -> list[str]:
    """The lines that are not what a schema says."""
    schema = schemas()[name]
    return [line for line in out.decode("ascii").splitlines() if not fits(json.loads(line), schema, schema)]
