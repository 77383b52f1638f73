#!/bin/sh
# Compares pages with those that are kept in this folder: NAME.lst is what `verify` writes of NAME.pas, and NAME.fml.lst what `simplify` writes
# of NAME.fml. NAME.rules.lst is what one of them writes of NAME.pas, or NAME where it ends in .fml, under the rules of NAME.rules. The status is that of the page's RESULT, or that of a refusal. NAME.cnd is what `conditions` writes, with status 8. The last line
# says how many pages were compared, and how many are as they should be. The status is 0 where all are, and 1 where one is not.
#
# SPV names the program to run, as in `SPV=/tmp/spv examples/check.sh`; without it that is `spv` in the folder above.

set -u
spv=${SPV:-../spv}
case $spv in
    /* | ../spv) ;;
    */*) spv=$PWD/$spv ;;
esac
cd "$(dirname "$0")" || exit 2

page=$(mktemp) || exit 2
trap 'rm -f "$page"' EXIT

passed=0
failed=0

# Compares the page of a program in a mode, maybe under rules, and the status.
compare() {
    mode=$1 program=$2 wanted=$3 status=$4
    shift 4
    "$spv" "$mode" "$program" "$@" > "$page"
    got=$?
    if [ "$got" -ne "$status" ]; then
        echo "$program: status $got, not $status"
        failed=$((failed + 1))
    elif ! cmp -s "$wanted" "$page"; then
        echo "$program: another page than $wanted"
        diff "$wanted" "$page"
        failed=$((failed + 1))
    else
        passed=$((passed + 1))
    fi
}

for program in *.pas; do
    if [ ! -f "${program%.pas}.lst" ] && [ ! -f "${program%.pas}.cnd" ] && [ ! -f "${program%.pas}.rules.lst" ]; then
        echo "$program: no page is kept of it"
        failed=$((failed + 1))
    fi
done
for formula in *.fml; do
    if [ ! -f "$formula.lst" ] && [ ! -f "$formula.rules.lst" ]; then
        echo "$formula: no page is kept of it"
        failed=$((failed + 1))
    fi
done
for rules in *.rules; do
    if [ ! -f "$rules.lst" ]; then
        echo "$rules: no page is kept of it"
        failed=$((failed + 1))
    fi
done
for wanted in *.lst; do
    set --
    case $wanted in
        *.fml.rules.lst) mode=simplify text=${wanted%.rules.lst} && set -- "${wanted%.lst}" ;;
        *.rules.lst) mode=verify text=${wanted%.rules.lst}.pas && set -- "${wanted%.lst}" ;;
        *.fml.lst) mode=simplify text=${wanted%.lst} ;;
        *) mode=verify text=${wanted%.lst}.pas ;;
    esac
    case $(tail -n 1 "$wanted") in
        'RESULT PROVED') compare "$mode" "$text" "$wanted" 0 "$@" ;;
        'RESULT UNPROVED') compare "$mode" "$text" "$wanted" 1 "$@" ;;
        'RESULT GAVE UP') compare "$mode" "$text" "$wanted" 2 "$@" ;;
        'REFUSED '*) compare "$mode" "$text" "$wanted" 3 "$@" ;;
        *) echo "$wanted: no RESULT at its end"; failed=$((failed + 1)) ;;
    esac
done
for wanted in *.cnd; do
    compare conditions "${wanted%.cnd}.pas" "$wanted" 8
done

echo "$((passed + failed)) pages compared: $passed as they should be, $failed not"
[ "$failed" -eq 0 ]
