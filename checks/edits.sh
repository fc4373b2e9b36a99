#!/bin/sh
# Tries wrong bodies that don't stand in the gate: each checks/edits/CRATE/NAME.edit has the form of a must-fail edit, and
# the prover has to refuse it. Works in a copy, one edit at a time, and prints of each whether it was refused and how many
# seconds it took; the last line has the counts.
# usage: checks/edits.sh [CRATE [NAME]]    (without a crate: all of them)
set -eu
cd "$(dirname "$0")/.."
here=$PWD
copy=$(mktemp -d)
trap 'rm -rf "$copy"' EXIT
mkdir "$copy/crates"
cp crates.txt HANDLES "$copy/"
for crate in crates/*; do
    mkdir "$copy/$crate"
    (cd "$crate" && tar cf - --exclude=./out --exclude=./must-fail .) | (cd "$copy/$crate" && tar xf -)
done

refused=0
others=0
# try CRATE EDIT
try() {
    rm -rf "$copy/crates/$1/must-fail"
    mkdir "$copy/crates/$1/must-fail"
    cp "$2" "$copy/crates/$1/must-fail/"
    began=$(date +%s)
    if (cd "$copy" && rt must-fail "$1" >told 2>&1); then
        refused=$((refused + 1))
        word=refused
    else
        others=$((others + 1))
        word='NOT REFUSED'
        grep -i "$(basename "$2" .edit)" "$copy/told" || tail -n 5 "$copy/told"
    fi
    echo "$1/$(basename "$2" .edit): $word ($(($(date +%s) - began)) s)"
}

for edit in "$here"/checks/edits/${1:-*}/${2:-*}.edit; do
    crate=$(basename "$(dirname "$edit")")
    if [ "$crate" != "${at:-}" ]; then
        at=$crate
        # What a check keeps is where each edit begins.
        (cd "$copy/crates/$crate" && rt check >/dev/null 2>&1) || echo "$crate: it is not proved itself" >&2
    fi
    try "$crate" "$edit"
done
echo "checks/edits.sh: $refused refused, $others not refused"
[ "$others" = 0 ]
