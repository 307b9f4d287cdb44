#!/bin/sh
# The whole test: everything proved, every must-fail edit refused, every program and test run, and the checks that
# 'rt ci' cannot make. Needs the Rattle kit and a POSIX shell. The last line is 'N passed, M failed'.
set -u
cd "$(dirname "$0")/.." || exit 2
work=$(mktemp -d) || exit 2
trap 'rm -rf "$work"' EXIT
passed=0
failed=0

# tell NAME STATUS: counts one check
tell() {
    if [ "$2" -eq 0 ]; then
        passed=$((passed + 1))
        echo "$1: ok"
    else
        failed=$((failed + 1))
        echo "$1: FAILED"
    fi
}

# Every folder of crates/ is a listed crate.
listed=0
for folder in crates/*/; do
    name=$(basename "$folder")
    grep -Eq "^$name( |:)" crates.txt || { echo "crates/$name is not in crates.txt"; listed=1; }
done
tell "crates are listed" "$listed"

{ rt ci 2>&1; echo $? >"$work/status"; } | tee "$work/log"
tell "rt ci" "$(cat "$work/status")"
last=$(tail -n 1 "$work/log")
case $last in
*" passed, "*" failed"*)
    passed=$((passed + ${last%% passed*}))
    rest=${last#* passed, }
    failed=$((failed + ${rest%% failed*}))
    ;;
*) tell "count of rt ci" 1 ;;
esac

# An edit that cannot be tried is passed over by 'rt ci', and counts as a failure here.
grep '^rt: ok' "$work/log" >"$work/ok" && ! grep -Eq ', [1-9][0-9]* bad' "$work/ok"
tell "every must-fail edit was tried" $?

# Uses that the compiler must stop.
sh tools/misuse.sh >"$work/misuse"
tell "misuse" $?
cat "$work/misuse"
passed=$((passed + $(grep -c ': ok$' "$work/misuse")))
failed=$((failed + $(grep -c ': FAILED$' "$work/misuse")))

# Sessions with stored answers.
(cd crates/scanset && rt run </dev/null) >"$work/build" 2>&1
built=$?
[ "$built" -eq 0 ] || cat "$work/build"
tell "the program is built" "$built"
for answers in sessions/*.answers; do
    crates/scanset/out/scanset <"${answers%.answers}.txt" | cmp -s - "$answers"
    tell "$answers" $?
done

echo "$passed passed, $failed failed"
[ "$failed" -eq 0 ]
