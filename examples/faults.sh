#!/bin/sh
# Runs the proved program where the outside fails: files that are not there or cannot be read, and outputs that take
# nothing. The last line says how many ended as they should; the status is 0 where all did.
#
# SPV names the program to run, as in check.sh.

set -u
spv=${SPV:-../spv}
case $spv in
    /* | ../spv) ;;
    */*) spv=$PWD/$spv ;;
esac
cd "$(dirname "$0")" || exit 2

work=$(mktemp -d) || exit 2
trap 'rm -rf "$work"' EXIT

passed=0
failed=0

# wanted NAME STATUS GOT TEXT: the run of this name ended with GOT and wrote $work/out.
wanted() {
    printf '%s' "$4" > "$work/wanted"
    if [ "$3" -eq "$2" ] && cmp -s "$work/wanted" "$work/out" && [ ! -s "$work/err" ]; then
        passed=$((passed + 1))
    else
        echo "$1: status $3, not $2, or another output"
        failed=$((failed + 1))
    fi
}

# The launcher may have to build the program first.
"$spv" verify one.pas > /dev/null || exit 2

"$spv" verify none.pas > "$work/out" 2> "$work/err"
wanted "no such file" 4 $? 'READ FAULT none.pas
'

mkdir "$work/folder"
"$spv" verify "$work/folder" > "$work/out" 2> "$work/err"
wanted "a folder" 4 $? "READ FAULT $work/folder
"

# The superuser reads every file.
if [ "$(id -u)" -ne 0 ]; then
    cp one.pas "$work/closed.pas"
    chmod 000 "$work/closed.pas"
    "$spv" verify "$work/closed.pas" > "$work/out" 2> "$work/err"
    wanted "a file without read permission" 4 $? "READ FAULT $work/closed.pas
"
fi

if [ -w /dev/full ]; then
    : > "$work/out"
    "$spv" verify one.pas > /dev/full 2> "$work/err"
    wanted "a full device" 5 $? ''
fi

# The reader ends before anything is written.
: > "$work/out"
{ sleep 1; "$spv" verify one.pas 2> "$work/err"; echo $? > "$work/status"; } | :
wanted "a closed pipe" 5 "$(cat "$work/status")" ''

: > "$work/out"
"$spv" verify one.pas >&- 2> "$work/err"
wanted "a closed output" 5 $? ''

echo "$passed as they should be, $failed not"
[ "$failed" -eq 0 ]
