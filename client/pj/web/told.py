"""What a conflict is about, in one sentence: who did what, and did not know of whom."""

from __future__ import annotations

from typing import Dict, List, Sequence

from markupsafe import Markup

from ..text import Change
from .letters import author

Changes = Dict[str, Change]


def people(changes: Changes, names: Sequence[str]) -> Markup:
    """The authors of some changes, each once."""
    held = (changes[name].author for name in names if name in changes)
    who = [Markup("<strong>{}</strong>").format(author(data)) for data in dict.fromkeys(held)]
    if len(who) > 4:
        who = [*who[:3], Markup("{} others").format(len(who) - 3)]
    if not who:
        return Markup("somebody")
    return Markup(" and ").join([Markup(", ").join(who[:-1]), who[-1]] if len(who) > 1 else who)


def _all_people(changes: Changes, sides: Sequence[Sequence[str]]) -> Markup:
    return people(changes, [name for side in sides for name in side])


def _one_author(changes: Changes, sides: Sequence[Sequence[str]]) -> bool:
    found = {changes[name].author for side in sides for name in side if name in changes}
    return len(found) == 1


def is_replaced(kind: str, sides: Sequence[Sequence[str]]) -> bool:
    """Whether those who deleted lines are those who wrote other ones in their place."""
    return kind == "zombie" and len(sides) == 2 and len(sides[0]) > 1 and {*sides[0]} == {*sides[1]}


def sentence(changes: Changes, kind: str, sides: Sequence[Sequence[str]]) -> Markup:
    """What a conflict of this kind says, given the changes that speak for each side."""
    who: List[Markup] = [people(changes, side) for side in sides]
    everybody = _all_people(changes, sides)
    if is_replaced(kind, sides):
        return Markup("{} each replaced these lines; neither knew of the other.").format(everybody)
    if kind in ("zombie", "name", "emptied") and len(who) == 2:
        words = {
            "zombie": "{} deleted these lines, and {} worked on them",
            "name": "{} deleted it, and {} worked on it",
            "emptied": "{} deleted it, and {} moved it",
        }[kind]
        return Markup(words + "; neither knew of the other.").format(*who)
    if kind == "instead":
        return Markup("Instead of them {} wrote these.").format(everybody)
    if kind == "sides" and len(who) == 2:
        if _one_author(changes, sides):
            return Markup("{} wrote both of these at one place, in two changes.").format(who[0])
        return Markup("{} and {} wrote at one place; neither knew of the other.").format(*who)
    words = {
        "sides": "{} wrote {} texts at one place, of which none is before another.",
        "cycle": "The changes of {} put these {} pieces before each other.",
        "tangle": "The changes of {} gave these {} pieces an order that cannot be drawn.",
        "twin": "Another file or directory has the same name; this one is by {}.",
        "again": "Two moves gave one file two names: by {}.",
        "orphan": "All its names are deleted, and there was work on it: deleted by {}.",
        "adrift": "No directory leads to it: it was moved into itself, by {}.",
    }.get(kind, "By {}.")
    return Markup(words).format(everybody, len(sides))


def side_title(kind: str, number: int, sides: Sequence[Sequence[str]] = ()) -> str:
    """What a side is called; `number` is from 0."""
    if is_replaced(kind, sides):
        return ("Replaced by", "As it was before")[number]
    if kind in ("zombie", "name", "emptied"):
        return ("Deleted by", "Kept by" if kind != "emptied" else "Moved by")[min(number, 1)]
    return f"{'Piece' if kind in ('cycle', 'tangle') else 'Side'} {number + 1}"
