"""The tables of the tool beside the documents."""

import re

from common import EXAMPLES, TOP, check, wgsim
from wgsim.reading import bits, calls, limits, rules


def test_rules():
    """Each rule can be asked for, and the page of them is printed."""
    check(wgsim("rules", "--page").stdout.decode("utf-8") == rules.page(), "wgsim rules --page: another page")
    for number in sorted({number for rule in rules.RULES for number in rule.numbers}):
        check(rules.shown(number) is not None, f"rule {number} cannot be asked for")
    ran = wgsim("rules", "258")
    check(
        rules.of(258)[0].asks.encode("utf-8") in ran.stdout and b'"validating texture copy range"' in ran.stdout,
        f"wgsim rules 258: {ran.stdout}",
    )
    check(wgsim("rules").stdout.count(b"\n") > 100, "wgsim rules: not all rules")
    rows = [(call["call"], row) for part in rules.TABLE["parts"] if "calls" in part for call in part["calls"] for row in call["rules"]]
    for call, row in rows:
        for number in row["rules"] if row["asks"].startswith(rules.ABOVE) else []:
            whole = next(above["asks"] for _, above in rows if number in above["rules"] and not above["asks"].startswith(rules.ABOVE))
            expected = [whole + row["asks"][len(rules.ABOVE) :]]
            found = [rule.asks for rule in rules.of(number, call)]
            check(found == expected, f"reading/rules.py: rule {number} asks {found} of {call}, and not {expected}")


def test_calls():
    """The table of calls has each call of docs/script.md with its keys and those that may be left out, and no other."""
    text = (TOP / "docs/script.md").read_text(encoding="utf-8").split("\n## Calls\n")[1].split("\n## Values\n")[0]
    before, rows = None, re.findall(r"^\| `(\w+)` \| (.*?) \| .* \|$", text.split("### Textures")[0], re.M)
    check(
        {word for word, _ in rows} == set(calls.CALLS),
        f"tools/wgsim/reading/calls.json: not the calls of docs/script.md: {sorted({word for word, _ in rows} ^ set(calls.CALLS))}",
    )
    for word, keys in rows:
        keys = before if keys == "the same" else re.findall(r"`(\w+)`(=?)", keys)
        before = keys
        known = calls.keys_of(word)
        own = [(name, "=" if key.may_be_left_out else "") for name, key in (known or {}).items()]
        check(own == keys, f"tools/wgsim/reading/calls.json: {word} has not the keys of docs/script.md: {keys}")
    titles = ("Bindings", "Render pipelines", "Render passes", "Samplers")
    check_objects(*[text.partition(f"\n### {title}\n")[2].split("\n### ")[0] for title in titles])
    said = re.search(
        r"`on` names an encoder; a bundle encoder in (.*?); a pass in (.*?); and an encoder or a pass in (.*?)\. The pass has to be a"
        r" compute pass in (.*?), and a render pass in "
        r"(.*?) and the four draws; .*? It may be a bundle encoder as well in (.*?)\.",
        " ".join(text.split()),
    )
    of_ends, of_passes, of_both, of_compute, of_render, of_bundles = (
        ([set(re.findall(r"`(\w+)`", words)) for words in said.groups()]) if said else (set(),) * 6
    )
    draws = {word for word in of_passes if word.startswith("draw")}
    of_render, of_bundles = of_render | draws, of_bundles | draws
    for word in calls.CALLS:
        passes = ["compute pass"] if word in of_compute else ["render pass"] if word in of_render else ["compute pass", "render pass"]
        kinds = (
            passes
            if word in of_passes
            else ["encoder", *passes]
            if word in of_both
            else ["bundle encoder"]
            if word in of_ends
            else ["encoder"]
        )
        kinds += ["bundle encoder"] if word in of_bundles else []
        own = calls.keys_of(word).get("on")
        check(
            own is None or own.kinds() == kinds,
            f"tools/wgsim/reading/calls.json: `on` of {word} is not {calls.either(kinds)}, as docs/script.md says",
        )
        check(
            own is None or calls.records(word) or calls.ends_encoder(word),
            f"tools/wgsim/reading/calls.json: {word} has `on`, and is neither recorded nor a finish",
        )


def check_objects(*parts):
    """The same of the objects in calls, and of the words whose keys they have: in the parts of docs/script.md on bindings, render
    pipelines, render passes and samplers."""
    def has(keys, written, what):
        own = [(name, "=" if key.may_be_left_out else "") for name, key in keys.items()]
        check(
            own == re.findall(r"`(\w+)`(=?)", written),
            f"tools/wgsim/reading/calls.json: {what} has not the keys of docs/script.md: {written}",
        )

    def of_form(sort, form):
        further = calls.FORMS[calls.OBJECTS[sort]["forms"]][form]
        return {name: calls.Key(text) for name, text in further.items()}

    rows = [row for text in parts for row in re.findall(r"^\| (.*?) \| (.*?) \|", text, re.M)]
    entries = {said.split(", ")[0].replace("`", ""): keys for said, keys in rows}
    for sort, known in calls.OBJECTS.items():
        check(known["said"] in entries, f"docs/script.md has no row for {known['said']}")
        if calls.form_key(sort) or not calls.forms_of(sort):
            has(
                {name: calls.Key(text) for name, text in known["keys"].items()},
                entries.get(known["said"], "").split(", and the keys")[0],
                known["said"],
            )
    for said, keys in rows:
        found = re.fullmatch(r"an entry of a bind group, with a (\w+)", said)
        if found:
            has({"binding": calls.Key("number 32"), **of_form("group entry", found[1])}, keys, said)
    of_bindings = re.findall(r"^\| (.*?) \| (.*?) \|", parts[0], re.M)
    kinds = [
        (word, keys)
        for words, keys in of_bindings
        for word in re.findall(r"`([\w-]+)`", words)
        if word in calls.FORMS["binding kind"] and "entry" not in words
    ]
    check(
        [word for word, _ in kinds] == list(calls.FORMS["binding kind"]) == calls.WORDS["binding kind"],
        f"tools/wgsim/reading/calls.json: not the kinds of docs/script.md: {kinds}",
    )
    for word, keys in kinds:
        has(of_form("layout entry", word), keys, f"the kind {word}")
    holders = {
        "sampler": "`kind` of `createSampler`, and `type`",
        "sample": "`sample`",
        "access": "`access`",
        "stage": "`stage`",
        "step": "`step`",
    }
    holders.update(
        {
            "attribute format": "`format` of an attribute",
            "load": "`load`, `depthLoad`, `stencilLoad`",
            "store": "`store`, `depthStore`, `stencilStore`",
            "sampler filter": "`magFilter`, `minFilter`, `mipmapFilter`",
            "comparison": "`compare`",
            "address mode": "`addressModeU`, `addressModeV`, `addressModeW`",
            "blend operation": "`operation`",
            "blend factor": "`srcFactor`, `dstFactor`",
            "stencil operation": "`failOp`, `depthFailOp`, `passOp`",
            "topology": "`topology`",
            "front face": "`frontFace`",
            "cull mode": "`cullMode`",
        }
    )
    for word, row in holders.items():
        check(
            re.findall(r"`([\w-]+)`", dict(rows).get(row, "")) == calls.WORDS[word],
            f"tools/wgsim/reading/calls.json: not the words of {row} of docs/script.md",
        )
    said = re.search(r"`format` of a `setIndexBuffer` is `(\w+)` or `(\w+)`", parts[2])
    check(
        said and list(said.groups()) == calls.WORDS["index format"],
        "tools/wgsim/reading/calls.json: not the words of `format` of a setIndexBuffer of docs/script.md",
    )


def test_limits():
    """The table of limits in docs/script.md is that of docs/limits.json, and tells the rules that docs/rules.json has of each."""
    text = (TOP / "docs/script.md").read_text(encoding="utf-8").split("\n## Limits of the device\n")[1].split("\n## ")[0]
    rows = re.findall(r"^\| (`.*?) \| (\d+|none) \| (\d+) \| (.*?) \|$", text, re.M)
    shown = {
        name: (None if default == "none" else int(default), int(best))
        for names, default, best, _ in rows
        for name in re.findall(r"`(\w+)`", names)
    }
    check(
        shown == {name: (limit.default, limit.best) for name, limit in limits.TABLE.items()},
        f"docs/script.md does not have the limits of docs/limits.json: {shown}",
    )
    for names, _, _, told in rows:
        for name in re.findall(r"`(\w+)`", names):
            asking = {number for rule in rules.RULES if f"`{name}`" in rule.asks for number in rule.numbers}
            check(
                asking <= set(map(int, re.findall(r"\d+", told))),
                f"docs/script.md: {name} has not all rules that ask for it: {sorted(asking)}",
            )


def test_index():
    """Each example stands in the index."""
    index = (TOP / "examples/README.md").read_text(encoding="utf-8")
    for path in EXAMPLES:
        check(f"`{path.stem}`" in index, f"examples/README.md: {path.stem} is not in it")


def test_words():
    """The words of usages, stages and modes are those of docs/script.md, and each of its tables is one of the kinds."""
    text = (TOP / "docs/script.md").read_text(encoding="utf-8")
    for kind, begin in (
        ("usage of a buffer", "The `usage` of a buffer is a sum of bits: "),
        ("usage of a texture", "The `usage` of a texture is a sum of bits: "),
        ("visibility", "`visibility` is a sum of bits: "),
    ):
        written = {int(bit): word for word, bit in re.findall(r"([A-Z_]+) (\d+)", text.split(begin)[1].split(".")[0])}
        check(written == bits.KINDS[kind], f"reading/bits.py: not the words of {kind} of docs/script.md: {written}")
    modes = re.search(r"READ is (\d) and WRITE is (\d)", text)
    check(
        {int(modes[1]): "READ", int(modes[2]): "WRITE"} == bits.KINDS["mode of a mapAsync"],
        "reading/bits.py: not the modes of docs/script.md",
    )
    check(len(re.findall("is a sum of bits", text)) == 3, "docs/script.md has other sums of bits than the three that wgsim words knows")
