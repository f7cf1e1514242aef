"""The words of `pj`, and what a person is told where a command cannot do what was asked."""

from __future__ import annotations

import argparse
import difflib
import os
import sys
import traceback
from typing import Callable, List, Optional, Sequence

from . import say, update
from .addresses import FORMS
from .commands import change, channels, exchange, files, imports, kept, look, mirror
from .commands import read, settle, start, watch, web
from .folder import Busy, NoFolder, WorkingFolder
from .paths import spoken
from .view import Unshowable
from .wire import Lost, Refused
from .workspace import Workspace

USAGE = """\
pj COMMAND ..        the commands below; pj COMMAND --help says more of one
pj ADDRESS ..        the raw form: one request to a server, or standard input (pj ADDRESS --help)
"""
READERS = {"status", "diff", "ls", "credit", "archive", "graph"}  # need no repository
# These make a working folder, or need none.
ALONE = {"init", "clone", "web", "check", "backup", "watch", "mirror"}


def parser() -> argparse.ArgumentParser:
    """All commands with their words."""
    top = argparse.ArgumentParser(
        prog="pj",
        usage=USAGE,
        description="Records the files of a folder as changes, and exchanges them.",
        epilog="A change is called by its name, or by six or more of its first digits.",
    )
    commands = top.add_subparsers(dest="command", metavar="COMMAND", prog="pj")
    _add_start(commands)
    _add_look(commands)
    _add_change(commands)
    _add_exchange(commands)
    _add_files(commands)
    _add_read(commands)
    _add_kept(commands)
    _add_watch(commands)
    _add_mirror(commands)
    return top


Commands = argparse._SubParsersAction  # the type has no public name


def _add(
    commands: Commands, name: str, help_: str, run: Callable[..., int]
) -> argparse.ArgumentParser:
    found: argparse.ArgumentParser = commands.add_parser(name, help=help_, description=help_ + ".")
    found.set_defaults(run=run)
    return found


def _author(one: argparse.ArgumentParser) -> None:
    one.add_argument("--author", metavar="NAME", help="else PJ_AUTHOR, or what git has")


def _add_start(commands: Commands) -> None:
    help_ = "make a working folder with a repository of its own"
    one = _add(commands, "init", help_, start.run_init)
    one.add_argument("folder", nargs="?", default=".", metavar="FOLDER")
    one.add_argument("--channel", default=start.MAIN, metavar="NAME")
    one = _add(commands, "clone", "make a working folder of a server's channel", start.run_clone)
    one.add_argument("--thin", action="store_true", help="with no repository of its own")
    one.add_argument("address", metavar="ADDRESS", help=FORMS)
    one.add_argument("channel", metavar="CHANNEL")
    one.add_argument("folder", metavar="FOLDER")


def _add_look(commands: Commands) -> None:
    _add(commands, "status", "say what is not recorded, and what is in conflict", look.run_status)
    one = _add(commands, "diff", "show what is not recorded", look.run_diff)
    one.add_argument("paths", nargs="*", metavar="PATH")
    one = _add(commands, "log", "list the changes of the channel, the last one first", look.run_log)
    one.add_argument("-n", dest="number", type=int, metavar="N", help="only so many")
    one.add_argument("path", nargs="?", metavar="PATH", help="only those that worked on it")
    one = _add(commands, "show", "show one change", look.run_show)
    one.add_argument("--text", action="store_true", help="the text that is stored and named")
    one.add_argument("name", metavar="NAME")
    one = _add(commands, "ls", "list the paths of the channel with their statuses", look.run_ls)
    one.add_argument("paths", nargs="*", metavar="PATH")


def _add_change(commands: Commands) -> None:
    one = _add(commands, "record", "make a change of what differs", change.run_record)
    one.add_argument("-m", "--message", required=True, metavar="MESSAGE")
    _author(one)
    one.add_argument("--leave", action="store_true", help="leave conflicts as they are")
    one.add_argument(
        "--with-markers", action="store_true", help="take lines that look like marker lines as text"
    )
    one.add_argument("paths", nargs="*", metavar="PATH")
    one = _add(commands, "unrecord", "take a change out of the channel", change.run_unrecord)
    one.add_argument("name", metavar="NAME")
    one = _add(commands, "uproot", "take a change out with all that need it", change.run_uproot)
    one.add_argument("--yes", action="store_true", help="do not ask")
    one.add_argument("name", metavar="NAME")
    one = _add(commands, "undo", "record the opposite of a change", change.run_undo)
    _author(one)
    one.add_argument("name", metavar="NAME")


def _add_exchange(commands: Commands) -> None:
    for name, help_, run in (
        ("pull", "take what another repository has, and write the files", exchange.run_pull),
        ("push", "give another repository what it lacks", exchange.run_push),
        ("sync", "pull and push", exchange.run_sync),
    ):
        one = _add(commands, name, help_, run)
        one.add_argument("address", nargs="?", metavar="ADDRESS", help="else the origin")
        one.add_argument("--channel", metavar="NAME", help="the other one's channel")
        if name == "pull":
            one.add_argument(
                "--drop", action="store_true", help="take what the channel lacks out of the files"
            )
    _add(commands, "channels", "list the channels", channels.run_channels)
    one = _add(commands, "fork", "make a channel that holds what this one does", channels.run_fork)
    one.add_argument("name", metavar="NAME")
    one = _add(commands, "switch", "make the files those of another channel", channels.run_switch)
    one.add_argument("name", metavar="NAME")
    one = _add(commands, "merge", "take what another channel has", channels.run_merge)
    one.add_argument("name", metavar="NAME")


def _add_files(commands: Commands) -> None:
    one = _add(commands, "move", "move a file or folder, and say so to the record", files.run_move)
    one.add_argument("old", metavar="OLD")
    one.add_argument("new", metavar="NEW")
    one = _add(commands, "keep", "keep a name that is in conflict", files.run_keep)
    one.add_argument("paths", nargs="+", metavar="PATH")
    one = _add(commands, "restore", "take back what is not recorded", files.run_restore)
    one.add_argument("paths", nargs="+", metavar="PATH")
    one = _add(commands, "resolve", "list conflicts, or settle them by rule", settle.run_resolve)
    how = one.add_mutually_exclusive_group()
    how.add_argument("--take", metavar="NAME", help="take the side of this change")
    how.add_argument("--same", action="store_true", help="settle those whose sides are equal")
    one.add_argument("paths", nargs="*", metavar="PATH")


def _add_read(commands: Commands) -> None:
    one = _add(commands, "credit", "show who wrote each line of a file", read.run_credit)
    one.add_argument("path", metavar="PATH")
    one = _add(commands, "archive", "write the files of the channel as a tar", read.run_archive)
    one.add_argument("-o", dest="output", metavar="FILE", help="else standard output")
    one = _add(commands, "graph", "list the pieces of a file's text", read.run_graph)
    one.add_argument("--dot", action="store_true", help="as a graph for Graphviz")
    one.add_argument("path", metavar="PATH")
    one = _add(commands, "web", "show a repository in a browser", web.run_web)
    one.add_argument("--listen", default="127.0.0.1", metavar="HOST", help="else this machine")
    one.add_argument("--port", type=int, default=8700, metavar="PORT", help="0 for a free one")
    one.add_argument("--export", metavar="FOLDER", help="write the pages of a channel as files")
    one.add_argument("--channel", metavar="NAME", help="the channel to export")
    one.add_argument("--edit", action="store_true", help="resolve conflicts of the folder there")
    _author(one)
    one.add_argument(
        "repository", nargs="?", metavar="REPOSITORY",
        help="an address, a folder or the file of a kept repository; else the folder here",
    )
    one = _add(commands, "import-git", "make changes of the commits of git", imports.run_import)
    one.add_argument("repository", metavar="REPO")
    one.add_argument("--rev", default="HEAD", metavar="REV", help="the commit to end at")
    one.add_argument("--graph", action="store_true", help="merges as unions of their parents")


def _add_kept(commands: Commands) -> None:
    file = "the file of a kept repository, or a working folder that has one"
    one = _add(commands, "check", "read the file of a kept repository to its end", kept.run_check)
    one.add_argument("file", metavar="FILE", help=file)
    one = _add(commands, "backup", "copy a kept repository, which may be in use", kept.run_backup)
    one.add_argument("--whole", action="store_true", help="what is whole, of a file that breaks")
    one.add_argument("file", metavar="FILE", help=file)
    one.add_argument("to", metavar="TO", help="the file to make")


def _add_watch(commands: Commands) -> None:
    one = _add(commands, "watch", "tell how a server is, for Prometheus", watch.run_watch)
    one.add_argument("--once", action="store_true", help="say it once, for people")
    one.add_argument(
        "--listen", default=watch.LISTEN, metavar="HOST:PORT", help=f"else {watch.LISTEN}"
    )
    one.add_argument("--every", type=float, default=60.0, metavar="SECONDS", help="else 60")
    one.add_argument("--channel", default=start.MAIN, metavar="NAME", help="the one to print")
    one.add_argument("--file", metavar="PATH", help="the file in which the repository is kept")
    one.add_argument("--of", metavar="ADDRESS", help="the server of which it is a mirror")
    one.add_argument("address", metavar="ADDRESS", help=FORMS)


def _add_mirror(commands: Commands) -> None:
    help_ = "bring the channels of one server to another one, again and again"
    one = _add(commands, "mirror", help_, mirror.run_mirror)
    one.add_argument("--take", action="store_true", help="give nothing back to FROM")
    one.add_argument("--once", action="store_true", help="one round, and no more")
    one.add_argument("--every", type=float, default=60.0, metavar="SECONDS", help="else 60")
    one.add_argument("source", metavar="FROM", help=FORMS)
    one.add_argument("target", metavar="TO", help="the mirror, as FROM")


def names(top: argparse.ArgumentParser) -> List[str]:
    """The names of all commands."""
    (commands,) = (action for action in top._actions if isinstance(action, Commands))
    return list(commands.choices)


def no_command(word: str, known: Sequence[str]) -> List[str]:
    """What is said of a word that is no command."""
    near = difflib.get_close_matches(word, known, 1)
    hint = f"do you mean pj {near[0]}?" if near else "pj --help lists the commands"
    return [f"pj: {word} is no command", hint]


def main(words: Optional[Sequence[str]] = None) -> int:
    """Runs one command, and gives the exit status."""
    say.set_up()
    given_words: List[str] = list(sys.argv[1:] if words is None else words)
    top = parser()
    if given_words and not given_words[0].startswith("-") and given_words[0] not in names(top):
        say.note(*no_command(given_words[0], names(top)))
        return 2
    given = top.parse_args(given_words)
    if not given.command:
        top.print_help(sys.stderr)
        return 2
    try:
        return _run(given)
    except say.Stop as stop:
        say.note(f"pj: {stop}")
        return stop.status
    except BrokenPipeError:
        os.dup2(os.open(os.devnull, os.O_WRONLY), sys.stdout.fileno())
        return 1
    except KeyboardInterrupt:
        say.note("pj: stopped; the next command goes on with what was begun")
        return 1
    except Exception as fault:  # the last resort: a person is told, and not shown a trace
        say.note(f"pj: {told(fault)}")
        if os.environ.get("PJ_TRACE"):
            traceback.print_exc()
        return 1


def _run(given: argparse.Namespace) -> int:
    if given.command in ALONE:
        status: int = given.run(given)
        return status
    try:
        folder = WorkingFolder.find(os.getcwdb())
    except NoFolder as fault:
        raise say.Stop(
            str(fault) or "this is no working folder, nor is one above it",
            "pj init makes one, pj clone makes one of a server's channel",
        ) from None
    with folder.lock():
        folder = WorkingFolder(folder.root)  # as it stands now that no other command works on it
        with Workspace(folder) as workspace:
            go_on(workspace, given.command)
            status = given.run(workspace, given)
            return status


def go_on(workspace: Workspace, command: str) -> None:
    """Ends what a command that was stopped has begun."""
    try:
        if update.go_on(workspace.folder):
            say.note("a command that was stopped while it wrote files was ended first")
    except update.Halted as halted:
        raise say.Stop(
            "a command was stopped while it wrote files, and these were edited since:",
            *(f"  {workspace.relative(path)}" for path in halted.paths),
            "move them away (mv), run pj status, and then put your edits into the new files",
        ) from None
    if workspace.folder.pending is None:
        update.clear(workspace.folder)
    try:
        if workspace.take_record():
            say.note("a record that was stopped was ended first")
    except Lost as lost:
        if command not in READERS:
            raise
        say.note(f"a record that was stopped goes on once the repository answers: {lost}")


def told(fault: Exception) -> str:
    """What a person is told of a fault."""
    if isinstance(fault, Lost):
        return f"{fault}\n{fault.hint}"
    if isinstance(fault, Refused):
        return f"{fault}\nnothing else was done; pj status tells how the folder stands"
    if isinstance(fault, Busy):
        return "another pj works on this folder; try again when it has ended"
    if isinstance(fault, update.Edited):
        return f"these have edits that are not recorded: {fault}\npj record -m MESSAGE records them"
    if isinstance(fault, update.Halted):
        return f"stopped, since these were edited meanwhile: {fault}\npj status goes on"
    if isinstance(fault, (update.Unwritable, Unshowable)):
        return f"no file was written: {fault}\npj unrecord NAME takes the change out that has it"
    if isinstance(fault, OSError):
        name = fault.filename
        path = f"{spoken(name) if isinstance(name, bytes) else name}: " if name else ""
        return f"{path}{fault.strerror}\nmend that, and try again; what was begun goes on then"
    return (
        f"a fault of this client: {type(fault).__name__}: {fault}\n"
        "the files and the channel are as they were; PJ_TRACE=1 shows where it is"
    )
