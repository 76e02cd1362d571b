"""Puts what the page has into one file: script, style and data, with a policy under which nothing else is run or
fetched."""

from __future__ import annotations

import base64
import hashlib
import html
import json
import pathlib
import zlib

from .asking import Object
from .data import Pages

_HERE = pathlib.Path(__file__).resolve().parent
_LEVEL = 9
SCRIPTS = ("model.js", "chart.js", "page.js")
"""The sources of the script, in their order."""

_PAGE = """<!doctype html>
<html lang="en">
<head>
<meta charset="utf-8">
<meta http-equiv="Content-Security-Policy" content="{policy}">
<meta name="viewport" content="width=device-width, initial-scale=1">
<meta name="color-scheme" content="light dark">
<title>{title}</title>
<style>{style}</style>
</head>
<body>
{body}
{data}
<script>{script}</script>
</body>
</html>
"""


def page_of(recordings: list[Pages], differences: list[Object] | None) -> bytes:
    """The page of one recording, or of two and what differs between them."""
    style, body = _source("style.css"), _source("body.html")
    script = "".join(_source(it) for it in SCRIPTS)
    first: Object = {"recordings": [it.first for it in recordings], "differences": differences}
    blocks = [("first", first), *((f"behind{place}", it.behind) for place, it in enumerate(recordings))]
    names = " and ".join(str(it.first["name"]) for it in recordings)
    return _PAGE.format(policy=_policy(style, script), title=html.escape(f"rebug explore: {_plain(names)}"),
                        style=style, body=body, script=script,
                        data="\n".join(_block(name, it) for name, it in blocks)).encode()


def _source(name: str) -> str:
    return (_HERE / name).read_text(encoding="utf-8")


def _policy(style: str, script: str) -> str:
    """The content security policy: this script and this style alone, and nothing is fetched."""
    sums = [base64.b64encode(hashlib.sha256(it.encode()).digest()).decode() for it in (style, script)]
    return (f"default-src 'none'; style-src 'sha256-{sums[0]}'; script-src 'sha256-{sums[1]}'; base-uri 'none'; "
            f"form-action 'none'")


def _block(name: str, it: Object) -> str:
    """An object as compressed JSON in letters of which none begins a tag."""
    text = json.dumps(it, separators=(",", ":"), ensure_ascii=True).encode()
    letters = base64.b64encode(zlib.compress(text, _LEVEL)).decode()
    return f'<script type="text/plain" id="data-{name}">{letters}</script>'


def _plain(text: str) -> str:
    return "".join(it if it.isprintable() else f"\\x{ord(it) & 0xff:02x}" for it in text)
