#!/bin/bash
# Runs the built program over the transcripts, over faults of real files, over sessions at
# sockets and large runs, and compares it with the independent programs of this folder.
#
# A transcript is a folder of tests/transcripts, named by what it shows:
#   words   the words of the command line, one a line
#   in      what standard input holds (no file: nothing)
#   out     the bytes that standard output must have
#   status  the exit status
# The last line is 'N passed, N failed'. With a word it runs the transcripts whose names begin so, and nothing else; with
# `--long` it runs all, more of the drawn histories of the client, a longer attack on a server, more kills, and refuses all
# allocations.
#
# It needs Linux with /dev/full and /proc, and the GNU tools (coreutils, diffutils, findutils, grep). What is compared with
# independent programs needs python3 of at least 3.9 as well, and is left out where that is missing. `tests/setup` installs what the
# pages of `pj web` need, a browser among it; without them these tests are left out, and that is said.
set -u
cd "$(dirname "$0")/.."

program=$PWD/pijuld
client=(client/tests/run.py)
hostile=(tests/hostile.py)
kept=(tests/kept.py)
every=11 # of the allocations that are refused in turn, each so many
if [ "${1-}" = --long ]; then
    client+=(--long)
    hostile+=(--long)
    kept+=(--long)
    every=1
    shift
fi
work=$(mktemp -d)
trap 'rm -rf "$work"' EXIT
trap 'exit 130' INT TERM
passed=0
failed=0
export PYTHONDONTWRITEBYTECODE=1
# The independent programs compare by `assert`.
unset PYTHONOPTIMIZE

# The seconds that one start of the program may take, and those of an independent program with all that it starts. What takes
# longer is stopped, with status 124, and has failed.
patience=120
long_patience=900

# Build first, so that no case counts the builder's own messages.
if ! "$program" --version >/dev/null; then
    echo '0 passed, 1 failed'
    exit 1
fi
program=$PWD/crates/pijuld/out/pijuld

# pijuld WORDS ..: the program.
pijuld() {
    timeout --foreground "$patience" "$program" "$@"
}

# python WORDS ..: an independent program.
python3=python3
python() {
    timeout --foreground --signal=INT "$long_patience" "$python3" "$@"
}

# judge NAME WANTED_STATUS STATUS: compares $work/out with $work/wanted, and the two statuses.
judge() {
    local name=$1 wanted=$2 status=$3
    if [ "$wanted" = "$status" ] && cmp -s "$work/wanted" "$work/out"; then
        passed=$((passed + 1))
        return
    fi
    failed=$((failed + 1))
    echo "FAILED $name: status $status, wanted $wanted"
    case " $status " in
    *' 124 '*) echo 'it was stopped, since it took too long' ;;
    esac
    diff <(head -c 2000 "$work/wanted" | cat -A) <(head -c 2000 "$work/out" | cat -A) | head -n 20
}

# compare NAME WORDS ..: judges an independent program that compares by itself, and tells by its status whether all agrees.
compare() {
    local name=$1
    shift
    python "$@" >"$work/told" 2>&1
    local status=$?
    [ "$status" = 0 ] || cat "$work/told"
    : >"$work/wanted"
    : >"$work/out"
    judge "$name" 0 "$status"
}

# built NAME: sees that the program of a crate is built, and that no source of any crate is newer. Where it has to be built, it
# gets the time at which that began, so that a source that was edited meanwhile is newer; a build that fails counts as a failure.
built() {
    local made=crates/$1/out/$1
    [ -x "$made" ] && [ -z "$(find crates/*/src -newer "$made" -print -quit)" ] && return
    : >"$work/stamp"
    (cd "crates/$1" && rt run </dev/null >/dev/null) && touch -r "$work/stamp" "$made" && return
    failed=$((failed + 1))
    echo "FAILED the program $1 could not be built"
    return 1
}

transcript() {
    local folder=$1 input=/dev/null words=()
    [ -f "$folder/in" ] && input=$folder/in
    mapfile -t words <"$folder/words"
    pijuld "${words[@]}" <"$input" >"$work/out" 2>/dev/null
    local status=$?
    cp "$folder/out" "$work/wanted"
    judge "$(basename "$folder")" "$(cat "$folder/status")" "$status"
}

# Only the transcripts whose names begin so, where a word is given.
for folder in tests/transcripts/"${1-}"*/; do
    transcript "${folder%/}"
done
if [ $# -gt 0 ]; then
    echo "$passed passed, $failed failed"
    [ "$failed" = 0 ]
    exit
fi

# The sessions of examples/, each with the replies beside it.
for session in examples/*.session; do
    pijuld one <"$session" >"$work/out" 2>/dev/null
    status=$?
    cp "${session%.session}.replies" "$work/wanted"
    judge "$(basename "$session")" 0 "$status"
done

# ---- faults of real files

: >"$work/wanted"

pijuld show </ >"$work/out" 2>"$work/error"
judge 'a directory as standard input is a read fault' 3 $?

cp "$work/error" "$work/out"
echo 'pijuld: read fault' >"$work/wanted"
judge 'a read fault is told on standard error' 0 0

: >"$work/wanted"
: >"$work/out"
pijuld show <examples/file.change >/dev/full 2>"$work/error"
judge 'a full device as standard output is a write fault' 4 $?

cp "$work/error" "$work/out"
echo 'pijuld: write fault' >"$work/wanted"
judge 'a write fault is told on standard error' 0 0

: >"$work/wanted"
pijuld show <&- >"$work/out" 2>/dev/null
judge 'a closed standard input is a read fault' 3 $?

: >"$work/out"
pijuld --help >/dev/full 2>/dev/null
judge 'a write fault of the help' 4 $?

printf 'malformed\n' >"$work/wanted"
head -c 3000000 /dev/zero | pijuld show >"$work/out" 2>/dev/null
judge 'three million zero bytes are malformed' 1 $?

# A text of version 2 that is as long as a text may be, and one that is a byte longer.
large_text() {
    printf 'pijul change 2\nmessage L\nauthor ann\ntime 1\nfile root a\n'
    printf 'insert 0.1 after 0.1 before - %d\n' "$1"
    head -c "$1" /dev/zero | tr '\0' 'x'
    printf '\nend\n'
}

large_text 16777117 >"$work/large"
wc -c <"$work/large" >"$work/out"
echo 16777216 >"$work/wanted"
judge 'the large text has the length that is meant' 0 0
{
    printf 'change %s\n' "$(sha256sum <"$work/large" | cut -d' ' -f1)"
    printf '0 file 0-2\n1 insert 2-16777119\n'
} >"$work/wanted"
pijuld show <"$work/large" >"$work/out" 2>/dev/null
judge 'a text of 16,777,216 bytes is read' 0 $?

printf 'malformed\n' >"$work/wanted"
large_text 16777118 | pijuld show >"$work/out" 2>/dev/null
judge 'a text of 16,777,217 bytes is malformed' 1 $?

# The same of version 1, whose texts have at most 1,048,576 bytes.
large_text 1048478 | sed '1s/2/1/' >"$work/large"
{
    printf 'change %s\n' "$(sha256sum <"$work/large" | cut -d' ' -f1)"
    printf '0 file 0-2\n1 insert 2-1048480\n'
} >"$work/wanted"
pijuld show <"$work/large" >"$work/out" 2>/dev/null
judge 'a text of version 1 of 1,048,576 bytes is read' 0 $?

printf 'malformed\n' >"$work/wanted"
large_text 1048479 | sed '1s/2/1/' | pijuld show >"$work/out" 2>/dev/null
judge 'a text of version 1 of 1,048,577 bytes is malformed' 1 $?

# No more than 16,777,217 bytes are taken, however many come: the others are left in the file.
head -c 40000000 /dev/zero >"$work/large"
{ pijuld show 2>/dev/null; status=$?; cat >"$work/left"; } <"$work/large" >"$work/out"
judge 'forty million zero bytes are malformed' 1 "$status"

wc -c <"$work/left" >"$work/out"
echo $((40000000 - 16777217)) >"$work/wanted"
judge 'and all but 16,777,217 of them are left' 0 0

echo 'pijuld: words' >"$work/wanted"
pijuld shwo 2>"$work/out" </dev/null
judge 'an unknown word is told on standard error' 2 $?

# ---- sessions over real files

printf 'new c\nquit\n' >"$work/a"
printf 'quit\n' >"$work/b"
printf '1 1 1 new c\n' >"$work/wanted"
pijuld run "$work/a" "$work/b" >"$work/out" 2>/dev/null
judge 'the journal of two scripts' 0 $?

printf 'ok 1\n' >"$work/wanted"
cp "$work/a.out" "$work/out"
judge 'the replies to the first script' 0 0

: >"$work/wanted"
cp "$work/b.out" "$work/out"
judge 'the replies to the second script' 0 0

pijuld run "$work/a" "$work/missing" >"$work/out" 2>"$work/error"
judge 'a script that is not there is a read fault' 3 $?

pijuld run "$work/a" >&- 2>/dev/null
status=$?
: >"$work/out"
judge 'a closed standard output is a write fault' 4 "$status"

printf 'ok 1\n' >"$work/wanted"
cp "$work/a.out" "$work/out"
judge 'and no line of the journal stands among the replies' 0 0

: >"$work/wanted"
printf 'appply main\n' >"$work/c"
pijuld run "$work/c" >"$work/out" 2>"$work/error"
judge 'a script with an unknown request' 6 $?

cp "$work/error" "$work/out"
echo 'pijuld: session' >"$work/wanted"
judge 'a session that failed is told on standard error' 0 0

scripts=()
: >"$work/wanted"
for number in $(seq 64); do
    printf 'new c%d\nchannels\nquit\n' "$number" >"$work/s$number"
    scripts+=("$work/s$number")
    printf 'new c%d\n' "$number" >>"$work/wanted"
done
pijuld run "${scripts[@]}" 2>/dev/null | cut -d' ' -f4- | sort >"$work/out"
status=${PIPESTATUS[0]}
sort -o "$work/wanted" "$work/wanted"
judge 'sixty-four scripts at once' 0 "$status"

: >"$work/wanted"
: >"$work/out"
pijuld run "${scripts[@]}" "$work/a" >"$work/out" 2>/dev/null
judge 'sixty-five scripts are no command' 2 $?

: >"$work/out"
pijuld run "$(printf 'a\377')" >"$work/out" 2>/dev/null
judge 'a word that is no UTF-8 is no command' 2 $?

yes channels | head -n 100000 | { pijuld one 2>"$work/error"; echo $? >"$work/status"; } | head -c 20 >/dev/null
cp "$work/error" "$work/out"
echo 'pijuld: write fault' >"$work/wanted"
judge 'a reader that closes its pipe is a write fault' 4 "$(cat "$work/status")"

# ---- large runs

: >"$work/wanted"
: >"$work/out"
pijuld load 0 1 1 >/dev/full 2>"$work/error"
judge 'a summary on a full device is a write fault' 4 $?

pijuld load 0 1 1 >&- 2>/dev/null
judge 'a summary on a closed standard output is a write fault' 4 $?

timeout "$patience" bash -c 'ulimit -v 16000 && exec "$@"' bash "$program" load 7 16384 1 >"$work/out" 2>"$work/error"
judge 'a large run for which there is no memory writes nothing' 5 $?

cp "$work/error" "$work/out"
echo 'pijuld: memory' >"$work/wanted"
judge 'out of memory is told on standard error' 0 0

# ---- independent programs, a thousand forks, and the memory held

if python3 -c 'import sys; sys.exit(sys.version_info < (3, 9))' 2>/dev/null; then
    compare 'three thousand mutated texts are read as the independent reader reads them' \
        tests/differential.py "$program" 3000

    compare 'of a thousand forks of a channel only the one that is changed has another graph' \
        tests/forks.py "$program" 200 1000

    compare 'a file of 16,384 vertices is printed, one of 16,385 is wide, three thousand shares are no copies, and uneven files are printed in order' \
        tests/wide.py "$program" 3000

    compare 'the worked examples of the plain channel, among them inverses, on a repository' \
        tests/plain_rows.py "$program" crates/test_plain rows inverses

    # What a program of cases must write is what the independent programs answer to its cases. That of the last cases of
    # test_tables, tests/contests.py, takes two minutes: run it where one of the two changes.
    python tests/tables.py <crates/test_tables/data/operations >"$work/out"
    made=$?
    python tests/table_rows.py <crates/test_tables/data/lists >>"$work/out"
    made+=" $?"
    python tests/pseudo_rows.py replies >>"$work/out"
    made+=" $?"
    head -c "$(wc -c <"$work/out")" crates/test_tables/stdout >"$work/wanted"
    judge 'what test_tables must write first is what tests/tables.py, table_rows.py and pseudo_rows.py answer' '0 0 0' "$made"

    python tests/disk.py <crates/test_formats/data/disk >"$work/out"
    made=$?
    python tests/requests.py <crates/test_formats/data/requests >>"$work/out"
    made+=" $?"
    python tests/replies.py <crates/test_formats/data/replies >>"$work/out"
    made+=" $?"
    python tests/large_run.py lines <crates/test_formats/data/scripts >>"$work/out"
    made+=" $?"
    cp crates/test_formats/stdout "$work/wanted"
    judge 'what test_formats must write is what tests/disk.py, requests.py, replies.py and large_run.py answer' '0 0 0 0' "$made"

    compare 'what files of kept repositories store, as the independent model restores it, is what a session answers' \
        tests/keep.py "$program"

    compare 'a repository that is kept in a file: kills, full disks, flipped bits, and files of other kinds' \
        "${kept[@]}" "$program"

    python tests/faults.py <crates/test_sessions/data/faults >"$work/out"
    made=$?
    tail -c "$(wc -c <"$work/out")" crates/test_sessions/stdout >"$work/wanted"
    judge 'what test_sessions must write last is what tests/faults.py answers' 0 "$made"

    for text in examples/*.change; do
        python tests/reader.py "$text" >"$work/wanted"
        wanted=$?
        pijuld show <"$text" >"$work/out" 2>/dev/null
        status=$?
        judge "$(basename "$text") is read as the independent reader reads it" "$wanted" "$status"
    done

    # A large run with one session, whose prints are worked out from the sets of changes alone.
    for run in '0 1' '7 200' '7 2000'; do
        read -r number changes <<<"$run"
        python tests/large_run.py summary "$number" "$changes" 1 >"$work/wanted"
        made=$?
        python tests/large_run.py session "$number" "$changes" | pijuld one 2>/dev/null |
            python tests/large_run.py replies "$number" "$changes" >"$work/out"
        judge "the prints of $changes changes of the large run $number" '0 0 0 0' "$made ${PIPESTATUS[*]}"
    done

    # The tables of each channel of a large run beside a plain channel, request by request.
    if built test_tables; then
        python tests/large_run.py session 7 200 | python tests/session_rows.py >"$work/lines"
        made=${PIPESTATUS[*]}
        # Each change comes to two channels. Lines without one would be answered alike, whatever the tables are.
        [ "$(grep -ac '^with ' "$work/lines")" -ge 400 ]
        made+=" $?"
        python tests/table_rows.py <"$work/lines" >"$work/wanted"
        made+=" $?"
        timeout "$patience" crates/test_tables/out/test_tables lists "$work/lines" >"$work/out" 2>/dev/null
        judge 'the tables of each channel of the large run 7, after each of its requests' '0 0 0 0 0' "$made $?"
    fi

    # Large runs whose sessions are at work at once.
    for run in '1 300 3' '4294967295 300 8'; do
        read -r number changes sessions <<<"$run"
        python tests/large_run.py summary "$number" "$changes" "$sessions" >"$work/wanted"
        made=$?
        pijuld load "$number" "$changes" "$sessions" >"$work/out" 2>/dev/null
        judge "the summary of $changes changes of the large run $number in $sessions sessions" '0 0' "$made $?"
    done

    if built test_formats; then
        compare 'requests cut, changed and mutated are read as the independent reader reads them' \
            tests/requests_differential.py "$PWD/crates/test_formats/out/test_formats" 3000
    fi

    compare 'a hundred thousand requests hold memory in proportion to what is stored' \
        tests/memory.py "$program"

    compare 'clients over real sockets, and one history of what two hundred were told' \
        tests/serve.py "$program"

    compare 'silent clients end, sockets of this machine have their mode, and a server says where it listens' \
        tests/idle.py "$program"

    compare 'two servers that a client exchanges come to hold the same, also after exchanges that stopped' \
        tests/exchange.py "$program" 300

    compare 'the ways in to a server that deploy/ has: ssh, and TLS with certificates; who is let in, who is not, and limits' \
        tests/deploy.py "$program"
    grep '^LEFT OUT' "$work/told"

    compare 'tools/install: the program and the client below a prefix and as a Debian package, manual pages and completions' \
        tests/install.py "$program"
    grep '^LEFT OUT' "$work/told"

    [ "${#client[@]}" = 1 ] || long_patience=14400
    compare 'a server under attack, one history of what honest and hostile clients were told, and a thousand connections at once' \
        "${hostile[@]}" "$program"

    if command -v cc >/dev/null; then
        compare 'each allocation is refused in turn, and what is answered then is right' \
            tests/refused.py "$program" "$every"
    else
        echo 'LEFT OUT: refused allocations, since there is no cc here'
    fi

    # The packages of `pj web` and of a browser may be there for the python3 of the distribution alone.
    pages='LEFT OUT: the pages of pj web in a browser, since packages are missing here: tests/setup installs them'
    for one in python3 /usr/bin/python3; do
        if "$one" -c 'import flask, pygments, selenium, waitress' 2>/dev/null && command -v chromedriver >/dev/null; then
            python3=$one pages=
            break
        fi
    done
    PIJULD=$program compare 'the client: rules, commands, stops, imports, drawn histories, the pages of pj web, and the walk of examples/README.md' \
        "${client[@]}"
    python3=python3
    [ -z "$pages" ] || echo "$pages"

    compare 'processor time goes to the crate and the part of the gate that took it' tests/minutes.py
else
    echo 'LEFT OUT: all that is compared with independent programs, the thousand forks, the memory held, and clients over sockets, since there is no python3 of at least 3.9 here'
fi

echo "$passed passed, $failed failed"
[ "$failed" = 0 ]
