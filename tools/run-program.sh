#!/usr/bin/env bash
# Runs one of the programs that read a model from standard input: tools/run-program.sh judge FILE. judge.sh and page.sh call it.
name=$1
usage=FILE
shift
source "$(dirname "${BASH_SOURCE[0]}")/program.sh"
expect_arguments 1 "$@"
file=$1
expect_readable "$file"
[ -e /dev/stdout ] || fail 3 "the output could not be written: standard output is closed"
make_ready

# The dot keeps the newline at the end. A program that did not write all of its text was ended by a signal, or has said why not.
text=$("$program" <"$file" && printf .) || fail 3 "the program was ended before it had written its text"
text=${text%.}
[ -n "$text" ] || fail 2 "$file: the file could not be read"
[ "${text: -1}" = $'\n' ] || fail 3 "the program was ended before it had written its text"

# What printf says of a write that fails ends in the system's reason.
exec 3>&1
reason=$({ printf '%s' "$text" >&3; } 2>&1) || fail 3 "the output could not be written: ${reason##*: }"

# Each refusal in words. The first word of a line is `refused`, of the whole file, or the way of judging that is refused.
status=0
refused_ways=0
while read -r first second third fourth; do
    case $name:$first:$second in
    judge:plain:refused)
        say_refusal "$file: plain" "$third" "judging plainly" "1,000,000"
        refused_ways=$((refused_ways + 1))
        ;;
    judge:tree:refused)
        say_refusal "$file: tree" "$third" "judging by built-in trees" "$fourth, where 1,000,000 are allowed"
        refused_ways=$((refused_ways + 1))
        ;;
    judge:refused:*)
        say_refusal "$file" "$second" "whatever takes a file"
        status=1
        ;;
    page:refused:*)
        say_refusal "$file" "$second" "making the page" "${third:+$third are forecast}"
        status=1
        ;;
    esac
done <<<"$text"
# Where one way is refused, the other has the judgement.
[ "$refused_ways" -lt 2 ] || status=1
exit "$status"
