"""`pj`: a person records, exchanges and resolves, and never sees a hunk.

It makes changes from files, and files from the changes of a channel of pijuld.
It is unverified, and needs Python 3.9 and its standard library alone, but for
`pj web`. What it does, and how a record is made, is told in docs/CLIENT.md.

What a set of changes means (docs/MODEL.md, docs/FORMATS.md):

    text         a change: its text read, written and named
    graph        versions, contests, statuses, vertices and names of a set
    layout       the order of a file's live text
    marked       its marked text, by blocks
    tree         the walk of a print, each entry with its inode
    view         a set with its print as files

From files to changes:

    paths        paths of a folder, and what stands at them
    lines        the difference of two texts by lines
    match        which paths of a folder are which inodes: moves
    standing     which conflicts stand in a text that a person edited
    writer       hunks packed into changes, with what each must list
    edit         one text made another
    record       a folder made changes, and the print that must come of them
    notice       a deletion beside a move, which no print shows
    conflicts    what is in conflict, with its sides
    settled      which conflicts the files settle
    resolve      conflicts of texts resolved by rule
    twins        files and folders that have one name
    differences  unified diffs

A folder and a server:

    stops        where a test stops a command
    disk         files read and written
    folder       what `.pj` keeps
    update       files written from one set to another, all or none
    addresses    the forms of addresses, and a connection to each
    sockets      TCP, and sockets of this machine
    ssh          a socket of another machine, through ssh
    tls          TCP with certificates
    wire         sessions: requests and replies
    exchange     two channels come to hold the same
    workspace    a folder at work
    kept         the file of a kept repository, read without a server
    mirror       the channels of one server come to another one
    watch        how a server is, for people and for Prometheus
    gitimport    the commits of git made changes
    say          lines for people
    commands     one module for each few commands
    cli          the words
    web          a repository in the browser, by packages of others
    raw          `pj ADDRESS ..`, one request to a server
"""
