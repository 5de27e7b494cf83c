"""Bind groups as they are set in a pass: the rules of setBindGroup, those on what is set where a dispatch or a draw comes, and what is
touched by it.
"""

from __future__ import annotations

from typing import TYPE_CHECKING, Any, Iterator

from . import automatic, buffers, groups, textures
from .cells import do_meet, in_buffer, in_texture
from .limits import of_all as limits_of_all
from .rules import at_most

if TYPE_CHECKING:
    from model.history import Played
    from model.passes import Settings

MOST_GROUPS = limits_of_all("maxBindGroups")


def set_rules(index: int, group: Played | None, offsets: tuple[()]) -> Iterator[tuple[int, str, bool]]:
    """The own rules of setBindGroup, of which one without a group, which unsets what is set, takes no offset."""
    yield at_most(325, "index" if group is not None else "index, no group", index, MOST_GROUPS - 1)
    if group is None:
        yield 326, "no offset without a group", len(offsets) == 0
        return
    dynamic = dynamic_of(group)
    yield 326, "no offset is missing", len(offsets) >= len(dynamic)
    yield 326, "no offset too many", len(offsets) <= len(dynamic)
    for entry, offset in zip(dynamic, offsets):
        yield 327, "offset", offset % groups.ALIGNMENTS[entry["kind"]] == 0
    for asked, entry, thing, move in bindings(group, offsets):
        if asked["kind"] in groups.BUFFER_KINDS:
            offset, size, word = groups.range_of(entry, thing)
            end = "just the end by" if move + offset + size == thing.call["size"] else "range by"
            how = f"an offset of a {asked['kind']} of {word}" if asked["dynamic"] else "no offset"
            yield 328, f"{end} {how}", buffers.fits(thing.call, move + offset, size)


def layout_of(group: Played) -> Any:
    """The entries of the layout of a bind group."""
    return group.uses["layout"].entries


def dynamic_of(group: Played) -> list[Any]:
    """The dynamic entries of the layout of a bind group, by ascending binding."""
    return sorted((entry for entry in layout_of(group) if entry.get("dynamic")), key=lambda entry: entry["binding"])


def bindings(group: Played, offsets: tuple[()]) -> Any:
    """What a group binds that is set with some offsets: the entry of its layout, its own entry, the object, and by how much a range
    is moved. Offsets are dealt out to dynamic entries by ascending binding."""
    asked = {entry["binding"]: entry for entry in layout_of(group)}
    moves = dict(zip([entry["binding"] for entry in dynamic_of(group)], offsets))
    bound = zip(group.call["entries"], group.uses["entries"])
    return [(asked[entry["binding"]], entry, thing, moves.get(entry["binding"], 0)) for entry, thing in bound]


def asked_for(settings: Any) -> Any:
    """Of each layout of the pipeline that has an entry, its entries, and the setBindGroup at its index, or None."""
    return [(entries, settings.groups.get(index)) for index, entries in enumerate(settings.pipeline.layouts) if entries]


def bound_rules(settings: Settings) -> Iterator[tuple[int, str, bool]]:
    """Rules 340, 341 and 342, on what is set where a dispatch or a draw comes."""
    yield 340, "pipeline", settings.pipeline is not None
    asked = asked_for(settings)
    for entries, setting in asked:
        yield 341, "a group is set", setting is not None
        yield from equivalent_rules(entries, layout_of(setting.uses["group"]))
        yield from automatic.owner_rules(settings.pipeline, setting.uses["group"])
    yield from overlap_rules([(place, *one) for place, (_, setting) in enumerate(asked) for one in touched(setting)])


def overlap_rules(bound: Any) -> Iterator[tuple[int, str, bool]]:
    """Rule 342 on what is bound: triples of a number of its group, the entry of the layout, and what is touched.

    Of two bindings that may overlap, since one may be written and they are of one object, some stage sees both and they have a byte
    or a subresource in common.
    """
    for number, (group, one, touches) in enumerate(bound):
        for other_group, other, others in bound[number + 1:]:
            if (groups.is_written(one) or groups.is_written(other)) and are_of_one(touches, others):
                is_seen = one["visibility"] & other["visibility"] != 0
                is_common = any(do_meet(cell, found) for cell, _, _ in touches for found, _, _ in others)
                what = f"{' and '.join(sorted([one['kind'], other['kind']]))} of {'one group' if group == other_group else 'two groups'}"
                unseen = "" if is_seen else ", not seen together, that overlap" if is_common else ", not seen together, apart"
                yield 342, what + unseen, not (is_seen and is_common)


def are_of_one(touches: list[tuple[tuple[Any, ...], str, str]], others: list[Any]) -> bool:
    """Two bindings are of one buffer or one texture."""
    return touches != [] and others != [] and touches[0][0][:2] == others[0][0][:2]


def equivalent_rules(asked: Any, given: Any) -> Iterator[Any]:
    """Rule 341 on the entries of two layouts, in whatever order they stand."""
    given = {entry["binding"]: entry for entry in given}
    yield 341, "as many entries", len(given) == len(asked)
    for entry in asked:
        yield 341, "binding", entry["binding"] in given
        other = given[entry["binding"]]
        yield 341, "kind", other["kind"] == entry["kind"]
        for key, value in entry.items():
            yield 341, f"{key} of {entry['kind']}", other[key] == value


def touched(setting: Played) -> list[Any]:
    """What a setBindGroup binds: pairs of the entry of its layout, and what is touched by it. One without a group binds nothing."""
    if "group" not in setting.uses:
        return []
    found = bindings(setting.uses["group"], setting.call["offsets"])
    return [(asked, touches_of(asked, entry, thing, move)) for asked, entry, thing, move in found]


def touches_of(asked: dict[Any, Any], entry: dict[Any, Any], thing: Played, move: int) -> list[Any]:
    """What is touched by one binding: the range of a buffer, moved, or each subresource of a view; of a sampler nothing."""
    if asked["kind"] in groups.BUFFER_KINDS:
        offset, size, _ = groups.range_of(entry, thing)
        return in_buffer(thing, move + offset, size, *use_of(asked))
    if asked["kind"] == "sampler":
        return []
    return in_texture(thing.uses["texture"], textures.subresources_of_view(thing), *use_of(asked))


def use_of(asked: dict[Any, Any]) -> tuple[str, str]:
    """The usage and the kind of access of what is bound for an entry of a layout."""
    if asked["kind"] in ("uniform", "texture"):
        return "constant", "read"
    return ("storage", "both") if groups.is_written(asked) else ("storage-read", "read")
