"""Writes what a script does as a page that stands alone, and as a test of the web platform: plain calls of WebGPU, one below the other."""

from __future__ import annotations

import html
import json
import re
from typing import Any

from . import differences
from .core import Answered
from .differences import Difference
from .translation import SCOPES, translated

PLAIN = re.compile(r"[A-Za-z_]\w*$")
EXCEPTION = "an exception"
ERRORS = {"validation": "GPUValidationError", "out-of-memory": "GPUOutOfMemoryError", "internal": "GPUInternalError"}


def code(value: Any) -> str:
    """A value as JavaScript has it."""
    if isinstance(value, dict):
        if "$" in value:
            return value["$"]
        if "bytes" in value:
            return f"new Uint8Array({value['bytes']})"
        members = (f"{key if PLAIN.match(key) else json.dumps(key)}: {code(each)}" for key, each in value.items())
        return "{ " + ", ".join(members) + " }" if value else "{}"
    if isinstance(value, list):
        return "[" + ", ".join(map(code, value)) + "]"
    if isinstance(value, str):
        return "'" + json.dumps(value)[1:-1].replace("'", "\\'").replace('\\"', '"') + "'"
    return json.dumps(value)


def items(args: list[Any]) -> str:
    """Arguments, with null where one is null."""
    return ", ".join(code(arg) for arg in args)


def statement(call: dict[str, Any]) -> list[str]:
    """A call as a line of JavaScript, with the line that makes its shader where it has one."""
    if "canvas" in call:
        width, height = call["canvas"]
        return [f"const {call['as']} = new OffscreenCanvas({width}, {height}).getContext('webgpu');"]
    if "present" in call:
        return [f"{call['present']}.canvas.transferToImageBitmap().close();"]
    if call["do"] == "complete":
        return ["await device.queue.onSubmittedWorkDone();"]
    on = "device.queue" if call["on"] == "queue" else call["on"]
    if "code" not in call:
        return [f"{on}.{call['method']}({items(call['args'])});"]
    module = f"code{call['n']}"
    args = items(call["args"]).replace("module: module", f"module: {module}")
    return [f"const {module} = device.createShaderModule({{ code: `\n{call['code']}` }});", f"{on}.{call['method']}({args});"]


class Written:
    """The calls of a script in JavaScript, with what is asked at the one that differs."""

    def __init__(self, answered: Answered, difference: Difference) -> None:
        self.difference = difference
        self.calls = translated(answered)
        self.answered = answered
        self.entry = answered.entry_of.get(difference.number) if difference.number is not None else None
        self.is_scoped = difference.kind == differences.SCOPE
        # Whether it is the errors that differ which no scope catches.
        self.is_counted = self.is_scoped and difference.number is None
        is_error = difference.kind in (differences.CORE_ALONE, differences.OTHER_ALONE, differences.KIND)
        self.watched = difference.number if is_error else None

    def lines(self) -> list[str]:
        """The calls, a statement in each line."""
        lines: list[str] = []
        for call in self.calls:
            *before, last = statement(call)
            lines += [line for text in before for line in text.splitlines()]
            lines += self.watching(call, last) if call["n"] == self.watched else self.plain(call, last)
        return lines

    def plain(self, call: dict[str, Any], line: str) -> list[str]:
        """A call that is not the one that differs, and what is waited for after it."""
        made = f"const {call['as']} = {line}" if "as" in call and "canvas" not in call else line
        if call.get("promise"):
            made = f"const promise{call['n']} = settled({line[:-1]});"
        return [made, *(f"await promise{each};" for each in call.get("wait", []))]

    def watching(self, call: dict[str, Any], line: str) -> list[str]:
        """The call that differs, with a scope around it."""
        lines, name = ["let thrown = null;", *([f"let {call['as']};"] if "as" in call else [])], call.get("as")
        lines += [f"device.pushErrorScope('{each}');" for each in reversed(self.filters())]
        made = f"{name} = {line}" if name else line
        if call.get("promise"):
            made = line[:-1] + ".catch(() => {});"
        lines += [f"try {{ {made} }} catch (error) {{ thrown = error; }}"]
        return lines + ["let found = null;", *["found = await device.popErrorScope() || found;" for _ in self.filters()]]

    def filters(self) -> list[str]:
        """The filters of the scopes around the call that differs."""
        return ["validation"] if self.difference.rule != 13 else ["validation", "out-of-memory"]

    def promises(self) -> list[int]:
        """The promises whose settling is told: that of the call that differs, or those of the script's scopes."""
        if self.is_scoped:
            return [call["n"] for call in self.calls if call["do"] == "popErrorScope"]
        return [self.difference.number] if self.difference.number is not None and self.watched is None else []

    def uncaught(self) -> list[str]:
        """The kinds of the errors that no scope catches, as the core has them."""
        faults = [(entry.fault, self.answered.whole[number]) for number, entry in self.answered.entry_of.items() if entry.fault is not None]
        return sorted(fault[0] for fault, call in faults if differences.is_uncaught(fault, call))

    def wanted_of(self, number: int) -> str:
        """How the core settles a promise."""
        return re.sub(r" \d+$", "", self.answered.settled.get(number, "nothing"))

    def asked(self) -> str:
        """What the standard asks of the call that differs, in words."""
        if self.watched is not None:
            fault = self.entry.fault if self.entry is not None else None
            return "no error" if fault is None else EXCEPTION if fault[1] in differences.THROWS else ERRORS[fault[0]]
        if self.is_counted:
            return "errors that no scope catches: " + (", ".join(self.uncaught()) or "none")
        return "; ".join(f"call {number}: {self.wanted_of(number)}" for number in self.promises()) or self.difference.core

    def assertions(self) -> list[str]:
        """What a test asks."""
        if self.is_counted:
            return [f"assert_array_equals(uncaught.sort(), {code(self.uncaught())}, 'the errors that no scope catches');"]
        if self.watched is None:
            wanted = {number: self.wanted_of(number) for number in self.promises()}
            is_met = {number: "fulfilled" if word in ("mapped", "done") else word for number, word in wanted.items()}
            return [f"assert_equals(await promise{number}, {code(word)});" for number, word in is_met.items()]
        asked = self.asked()
        name = code(asked) if asked.startswith("GPU") else "null"
        throws, takes = "assert_not_equals(thrown, null, 'it throws');", "assert_equals(thrown, null, 'nothing is thrown');"
        first = throws if asked == EXCEPTION else takes
        return [first, f"assert_equals(found && found.constructor.name, {name}, 'the error of the call');"]


SETTLED = """\
const settled = promise => promise.then(
  value => value instanceof GPUError ? `error ${kindOf(value)}` : value === null ? 'null' : 'fulfilled',
  error => error.name === 'AbortError' ? 'aborted' : 'rejected');
const kindOf = error => error instanceof GPUValidationError ? 'validation'
  : error instanceof GPUOutOfMemoryError ? 'out-of-memory' : 'internal';"""


def beginning(answered: Answered) -> list[str]:
    """The lines that ask for a device, as the script has it."""
    limits = f"{{ requiredLimits: {code(answered.flat.limits)} }}" if answered.flat.limits else ""
    return ["const adapter = await navigator.gpu.requestAdapter();", f"const device = await adapter.requestDevice({limits});"]


COUNTING = [
    "const uncaught = [];",
    "device.addEventListener('uncapturederror', event => uncaught.push(kindOf(event.error)));",
]
COUNTED = ["await device.queue.onSubmittedWorkDone();", "await new Promise(done => setTimeout(done, 500));"]


def indented(lines: list[str], by: str) -> str:
    return "\n".join(by + line if line else line for line in lines)


def page(title: str, answered: Answered, difference: Difference, about: str) -> str:
    """A page that stands alone, and says in its console, and on itself, what the browser answered and what the standard asks."""
    written = Written(answered, difference)
    if written.watched is not None:
        answer = "thrown ? String(thrown) : found ? found.constructor.name + ': ' + found.message : 'no error'"
        tell = [f"say('the browser answers: ' + ({answer}));"]
    elif written.is_counted:
        tell = [*COUNTED, "say('errors that no scope caught: ' + (uncaught.sort().join(', ') || 'none'));"]
    else:
        tell = [f"say('call {number} is settled: ' + await promise{number});" for number in written.promises()]
    uncaught = "device.addEventListener('uncapturederror', event => say('uncaptured: ' + event.error.message));"
    asked = f"say({code('the standard asks: ' + written.asked())});"
    counting = COUNTING if written.is_counted else []
    body = [*beginning(answered), uncaught, SETTLED, *counting, *written.lines(), *tell, asked]
    return f"""<!doctype html>
<meta charset="utf-8">
<title>{html.escape(title)}</title>
<p>{html.escape(about)}</p>
<pre id="told"></pre>
<script type="module">
const say = text => {{ console.log(text); document.querySelector('#told').textContent += text + '\\n'; }};
{indented(body, "")}
</script>
"""


def test(title: str, answered: Answered, difference: Difference) -> str:
    """The same as a test of the web platform."""
    written = Written(answered, difference)
    counting, counted = (COUNTING, COUNTED) if written.is_counted else ([], [])
    body = [*beginning(answered), *SETTLED.splitlines(), *counting, *written.lines(), *counted, *written.assertions()]
    return f"""<!doctype html>
<meta charset="utf-8">
<title>{html.escape(title)}</title>
<script src="/resources/testharness.js"></script>
<script src="/resources/testharnessreport.js"></script>
<script type="module">
promise_test(async () => {{
{indented(body, "  ")}
}}, {code(title)});
</script>
"""


def has_scopes(answered: Answered) -> bool:
    """Whether a script has error scopes of its own."""
    return any(call["do"] in SCOPES for call in answered.flat.calls)
