"""What the makers of scripts hand to each other, by name. It is read for its types alone."""

from __future__ import annotations

from random import Random
from typing import Any, Callable, Dict, List, Optional, Set, Tuple, Union

from .world import Thing, World

# A call, or an object of one, with its keys; and an entry of a layout, of an interface or of a bind group.
Call = Dict[str, Any]
Entry = Dict[str, Any]
# The keys and numbers that lead to a place inside a call.
Path = Tuple[Union[str, int], ...]

# The cells that are touched, `("b", name, low, high)` of a buffer and `("t", name, aspect, mip, layer)` of a texture; a part of a usage
# scope is one without `low` and `high`. And the role that each part has in a scope.
Cell = Tuple[Any, ...]
Uses = Dict[Cell, str]
# The entries of a layout, each with the cells of what is bound for it.
Bound = List[Tuple[Entry, List[Cell]]]
# A group for each index at which a pipeline asks for one, with its offsets.
Groups = Dict[int, Tuple[Thing, List[int]]]
# What an interface names: a group, an entry, and the stage that names it, or None of a compute pipeline.
Named = List[Tuple[int, Entry, Optional[str]]]
# The faults of a bind group by the places of its entries; those of the whole have no place.
Faults = Dict[Optional[int], Set[str]]

# A texture with a mip level and a layer or slice, which can be attached.
Spot = Tuple[Thing, int, int]
# The formats of what is drawn to: of the colors and of the depth; and the samples.
Signature = Tuple[Tuple[Optional[str], ...], Optional[str], int]
# The name of a buffer, an offset and a size, and of an index buffer its format.
Setting = Tuple[Any, ...]
# What is set in a pass, by the kind and the place of a setting.
Now = Dict[object, Any]

# A fault of the calls of a pass or of a bundle encoder, from the first to the last, on an encoder of some name and on what has another.
Fault = Callable[[World, str, str, List[Call]], None]
# A change of one call, of which a fault is made; and changes of calls that make something, and of places in textures.
Change = Callable[[World, Call], None]
CallFault = Callable[[Random, Call], None]
SpotFault = Callable[[Random, Call, Call], None]
# What spoils the calls of a bundle encoder of some name.
Spoil = Callable[[World, str, List[Call]], None]
# What a script is made of, one after another.
Act = Callable[[World], object]
# What gives more calls between the draws of a pass, whether any will do or such alone as agree with it.
Between = Callable[[bool], List[Call]]

# A name that a call of a lane gives, the word of the call, and the lane.
Given = Tuple[str, str, List[Any]]
# What things were like at some time.
States = Dict[Thing, Dict[str, Any]]
