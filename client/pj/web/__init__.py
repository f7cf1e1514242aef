"""`pj web`: a repository in the browser.

It reads what any server, or a kept repository, has in its channels, and shows it
as pages that need no script. docs/CLIENT.md says what they show.

    source       a repository: how it is reached, its logs, its changes
    cache        texts of changes that were read before
    shelf        channels as sets of changes, each worked out once
    names        paths of inodes, also of those that are gone
    filetext     a file as lines with their changes, conflicts set apart
    differences  one change as differences, each at its place
    drawing      the graph of a file as a picture, by Graphviz
    union        two channels beside each other
    search       what is found by words
    told         what a conflict is about, in one sentence
    letters      texts of others made harmless, and all of them seen
    colours      the colours of texts, by Pygments
    links        addresses of pages, each relative to the page that has it
    pages        what each page shows; `templates` lay it out
    app          the pages at their addresses, and the headers
    resolving    what a person chose for a conflict, written and recorded
    editing      the pages on which it is chosen, below a token
    settling     what a person chose for a conflict of names, done and recorded
    naming       the pages on which it is chosen
    export       the pages of a channel as files
    serve        the program that listens

`style.css` is the one style sheet.
"""
