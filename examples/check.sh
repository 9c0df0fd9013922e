#!/bin/sh
# Runs the built program on command lines that no test of a crate can run: files, words, streams that are closed or full.
# What each leaves is compared with examples/check.txt: a line for each, with its name, its exit status, its output and
# the first line of its errors, parted by `|`; `/` stands for a line's end.
#
#   examples/check.sh             runs ./ractor, which builds the program where that is needed
#   examples/check.sh PROGRAM     runs another one
here=$(CDPATH= cd -- "$(dirname -- "$0")" && pwd)
program=${1:-$here/../ractor}
case $program in
    /*) ;;
    *) program=$PWD/$program ;;
esac
[ -x "$program" ] || { echo "check.sh: $program is no program" >&2; exit 70; }

work=$(mktemp -d) || exit 70
trap 'rm -rf "$work"' EXIT
cd "$work" || exit 70
mkdir folder
printf 'puts 7 / -2, 7 %% -2\n' >a.rb
printf 'puts "another"\n' >"another file.rb"
printf 'puts "dashed"\n' >-dashed.rb
printf 'puts 1\nputs 9223372036854775807 + 1\n' >raise.rb
printf 'puts "abc' >open.rb
printf '' >empty.rb

on_one_line() {
    tr '\n' '/' <"$1"
}

# A line of the table: `row NAME STATUS`, with what was written in the files output and errors.
row() {
    sed -n 1p errors >first
    printf '%s|%s|%s|%s\n' "$1" "$2" "$(on_one_line output)" "$(on_one_line first)"
}

# Runs the program with these words: `leaves NAME WORD..`
leaves() {
    name=$1
    shift
    "$program" "$@" >output 2>errors </dev/null
    row "$name" $?
}

table() {
    leaves "a file" run a.rb
    leaves "another file name" run "another file.rb"
    leaves "an empty file" run empty.rb
    leaves "a name behind two dashes" run -- -dashed.rb
    leaves "two dashes before a plain name" run -- a.rb
    leaves "an uncaught exception" run raise.rb
    leaves "an open text" run open.rb
    leaves "a missing file" run none.rb
    leaves "a directory" run folder
    leaves "a name that is empty" run ""
    leaves "no words"
    leaves "a word that is no command" walk a.rb
    leaves "a command without its file" run
    leaves "a file too many" run a.rb raise.rb
    leaves "an option that is none" run --fast a.rb
    : >output
    "$program" run a.rb >&- 2>errors </dev/null
    row "closed output" $?
    "$program" run empty.rb >&- 2>errors </dev/null
    row "closed output that nothing is written to" $?
    "$program" run raise.rb >output 2>&- </dev/null
    status=$?
    : >errors
    row "closed errors" $status
    if [ -c /dev/full ]; then
        : >output
        "$program" run a.rb >/dev/full 2>errors </dev/null
        row "output to a full device" $?
    else
        grep '^output to a full device|' "$here/check.txt"
    fi
}

table >"$work/table"
if diff "$here/check.txt" "$work/table"; then
    echo "check.sh: as wanted"
else
    exit 1
fi
