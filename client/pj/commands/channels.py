"""Commands on the channels of the repository: channels, fork, switch, merge."""

from __future__ import annotations

from argparse import Namespace

from ..say import Stop, line, many
from ..wire import Refused
from ..workspace import Workspace, refuse_edited
from .common import check_within, say_written
from .exchange import write_files

REASONS = {
    "channel": ("the repository has no channel {}", "pj channels lists those that are there"),
    "taken": ("the repository has a channel {} already", "give another name"),
}
LETTERS = frozenset("abcdefghijklmnopqrstuvwxyzABCDEFGHIJKLMNOPQRSTUVWXYZ0123456789.-_")


def check_channel(name: str) -> None:
    """Stops where no channel can have a name."""
    if not 1 <= len(name) <= 64 or not LETTERS.issuperset(name):
        raise Stop(
            f"{name!r} is no name of a channel:"
            " give 1 to 64 letters of a to z or A to Z, digits, `.`, `-` or `_`",
            status=2,
        )


def _explained(refusal: Refused, name: str) -> Stop:
    if refusal.reason in REASONS:
        what, hint = REASONS[refusal.reason]
        return Stop(what.format(name), hint)
    return Stop(str(refusal))


def run_channels(workspace: Workspace, given: Namespace) -> int:
    """Lists the channels, each with how many changes it has."""
    for name, count in workspace.session.channels().items():
        line(f"{'*' if name == workspace.channel else ' '} {name}  {many(count, 'change')}")
    return 0


def run_fork(workspace: Workspace, given: Namespace) -> int:
    """Makes a channel that holds what the present one does."""
    check_channel(given.name)
    try:
        workspace.session.ask("fork", workspace.channel, given.name)
    except Refused as refusal:
        raise _explained(refusal, given.name) from None
    line(
        f"channel {given.name} holds what {workspace.channel} does",
        f"pj switch {given.name} goes to it",
    )
    return 0


def run_switch(workspace: Workspace, given: Namespace) -> int:
    """Makes the files those of another channel, on which records go from now on."""
    check_channel(given.name)
    if given.name == workspace.channel:
        raise Stop(
            f"the folder is on channel {given.name} already", "pj pull shows what came to it"
        )
    try:
        names = workspace.session.log(given.name)
    except Refused as refusal:
        raise _explained(refusal, given.name) from None
    view = workspace.view(names)
    blocked = workspace.blocked(view.folder)
    if blocked:
        raise refuse_edited(
            workspace,
            blocked,
            f"nothing was written, and the folder is still on channel {workspace.channel}",
            "record these first (pj record -m MESSAGE), or take them back (pj restore)",
        )
    config = workspace.folder.config._replace(channel=given.name)
    written = workspace.write_view(view, names, config)
    workspace.folder.save_known(names)
    line(f"on channel {given.name}, with {many(len(names), 'change')}")
    return say_written(workspace, written)


def run_merge(workspace: Workspace, given: Namespace) -> int:
    """Takes what another channel of the repository has, and writes it into the files."""
    check_channel(given.name)
    check_within(workspace, workspace.log())
    try:
        workspace.session.ask("pull", workspace.channel, given.name)
    except Refused as refusal:
        raise _explained(refusal, given.name) from None
    names = workspace.log()
    if set(names) == set(workspace.folder.shown):
        line(f"the files show all that {given.name} has")
        return 0
    return write_files(workspace, names)
