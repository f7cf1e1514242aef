"""The commands of `pj`, each a function of a workspace and the words given, to an exit status.

    start     init, clone
    look      status, diff, log, show, ls
    read      credit, archive, graph
    change    record, unrecord, uproot, undo
    exchange  pull, push, sync
    channels  channels, fork, switch, merge
    files     move, keep, restore
    settle    resolve
    imports   import-git
    kept      check, backup

A command that cannot do what was asked raises `Stop`, with what to do next.
"""
