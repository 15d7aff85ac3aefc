#!/usr/bin/env bash
# Joins the models of two files in one file: ./join.sh models/p.model models/pyrometers.model OUT. OUT is whole, or as it was.
# Proves and builds the program first where it is missing or older than its sources.
name="join"
usage="FIRST SECOND OUT"
source "$(dirname "$(readlink -f "${BASH_SOURCE[0]}")")/tools/program.sh"
expect_arguments 3 "$@"
first=$1
second=$2
out=$3
expect_readable "$first"
expect_readable "$second"
[ ! -d "$out" ] || fail 3 "$out: this is a folder; give a file to write"
[ ! -e "$out" ] || [ -w "$out" ] || fail 3 "$out: the file may not be written by you"
make_ready

# A file is made beside the one that it replaces, so that it comes in its place at once; a link stays and leads to it. A pipe or a device is written
# when all of the joined file is there.
if [ -e "$out" ] && [ ! -f "$out" ]; then
    beside=
    made=$(mktemp 2>/dev/null) || fail 3 "no temporary file can be made in ${TMPDIR:-/tmp}"
else
    beside=$(readlink -f -- "$out") || fail 3 "$out: no file can be made there"
    made=$(mktemp -- "$(dirname -- "$beside")/.join.XXXXXX" 2>/dev/null) || fail 3 "$out: no file can be made there"
fi
trap 'rm -f -- "$made"' EXIT

said=$("$program" "$first" "$second" 2>&1 >"$made") || fail 3 "the program was ended before it had written the joined file"
case $said in
"") ;;
"refused "*)
    {
        read -r refused
        read -r where
    } <<<"$said"
    say "$refused"
    case $where in
    "the first file") say_refusal "$first" "${refused#refused }" "whatever takes a file" ;;
    "the second file") say_refusal "$second" "${refused#refused }" "whatever takes a file" ;;
    *) say_refusal "$first and $second" "${refused#refused }" joining "${where#both files: }" ;;
    esac
    exit 1
    ;;
"standard output: "*) fail 3 "$out: the joined file could not be written: ${said##*: }" ;;
*) fail 2 "$said" ;;
esac

if [ -z "$beside" ]; then
    cat -- "$made" 2>/dev/null >"$out" || fail 3 "$out: the joined file could not be written"
    exit
fi
# It has the mode of the file that it replaces, or that of any new file.
if [ -e "$out" ]; then
    chmod --reference="$out" -- "$made"
else
    chmod "$(printf '%o' $((0666 & ~$(umask))))" -- "$made"
fi
mv -f -- "$made" "$beside" 2>/dev/null || fail 3 "$out: the joined file could not be put in its place"
