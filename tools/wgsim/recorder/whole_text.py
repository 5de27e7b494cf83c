"""The recorder as one text: its parts, in the order in which they are read, and the tables that they go by."""

from __future__ import annotations

import json
import pathlib
import re
from typing import Any

from wgsim.reading import calls, limits

FOLDER = pathlib.Path(__file__).resolve().parent
PARTS = ("wgsl.js", "device.js", "descriptors.js", "calls.js", "wrap.js", "canvas.js", "workers.js", "save.js")
NAME = "wgsim-record.js"
HEAD = """\
// Records what a page asks of WebGPU, as a script of wgsim. It is put into the page before the page's own scripts:
//
//     <script src="wgsim-record.js"></script>
//
// `wgsimRecord.save()` ends the recording and saves it as a file. `./wgsim record --one-file` wrote this; docs/recording.md has all of it.
"""
OUTSIDE = json.loads((FOLDER / "outside.json").read_text(encoding="utf-8"))["words"]


def tables() -> dict[str, Any]:
    """What a script can say, for the parts: formats, blend factors, labels, limits, and what is left out without harm."""
    return {
        "formats": calls.WORDS["format"],
        "attributes": calls.WORDS["attribute format"],
        "canvasFormats": calls.WORDS["canvas format"],
        "factors": calls.WORDS["blend factor"],
        "mostLabel": calls.MOST_LABEL,
        "limits": {
            limit.name: {"default": limit.default, "best": limit.best, "isAlignment": limit.is_alignment} for limit in limits.TABLE.values()
        },
        "defaults": {word: row["default"] for word, row in OUTSIDE.items() if "default" in row},
        "harmless": [word for word, row in OUTSIDE.items() if row.get("harmless")],
    }


def text(asked: dict[str, Any] | None = None) -> str:
    """The recorder. `asked` is what the tool asks of it where it opens the page itself."""
    parts = [(FOLDER / name).read_text(encoding="utf-8") for name in PARTS]
    first = f"globalThis.wgsimRecordAsked = {json.dumps(asked)};\n" if asked is not None else ""
    inside = "\n".join(["'use strict';", f"const TABLES = {json.dumps(tables())};", *parts])
    return f"{HEAD}{first}if (!globalThis.wgsimRecord) (() => {{\n{inside}}})();\n//# sourceURL={NAME}\n"


def before_worker(script: bytes) -> bytes:
    """What a server puts before the script of a worker: the recorder, in the same line, so that all others stay as they are. The recorder
    is told how many columns that takes. Whether the script is a module is not known, so that it imports nothing."""
    strict = "'use strict';" if re.match(rb"\s*(?:'use strict'|\"use strict\")", script) else ""
    recorder = json.dumps(text())
    begin, end = f"{strict}globalThis.wgsimRecordAhead=", f";(0,eval)({recorder});"
    return f"{begin}{len(begin) + 8 + len(end):8}{end}".encode()
