#!/usr/bin/env bash
# Runs fmf with its standard streams closed in every way, and shows that no file takes the place of a stream: with its
# output closed it ends with 4, with its input closed `-` is empty, and the certificate never holds a reply.
#   examples/closed-streams.sh
set -u
top=$(cd "$(dirname "${BASH_SOURCE[0]}")/.." && pwd)
script=$top/examples/first.smt2
room=$(mktemp -d)
trap 'rm -rf "$room"' EXIT
cd "$room" || exit 1
"$top/fmf" solve "$script" >whole.txt || exit 1
cp fmf.cert whole.cert
failed=0

# What is closed, the script's name, the status that is wanted, the certificate that is wanted.
row() {
    rm -f fmf.cert
    "${@:5}"
    local status=$?
    if [ "$status" -ne "$3" ] || ! cmp -s fmf.cert "$4"; then
        echo "closed $1, script $2: status $status in place of $3, or another certificate"
        failed=1
    fi
}
solve() { "$top/fmf" solve "$@"; }
printf 'fmfcert 1\n' >header.cert
# A block is written before its reply, so the first block stands where the first reply fails.
awk '/^b / && ++blocks == 2 { exit } { print }' whole.cert >first-block.cert

closed_in() { solve "$@" <&-; }
closed_out() { solve "$@" >&-; }
closed_error() { solve "$@" >/dev/null 2>&-; }
closed_in_out() { solve "$@" <&- >&-; }
closed_in_error() { solve "$@" <&- >/dev/null 2>&-; }
closed_out_error() { solve "$@" >&- 2>&-; }
closed_all() { solve "$@" <&- >&- 2>&-; }

row input "$script" 0 whole.cert closed_in "$script" >/dev/null
row output "$script" 4 first-block.cert closed_out "$script" 2>/dev/null
row error "$script" 0 whole.cert closed_error "$script"
row "input, output" "$script" 4 first-block.cert closed_in_out "$script" 2>/dev/null
row "input, error" "$script" 0 whole.cert closed_in_error "$script"
row "output, error" "$script" 4 first-block.cert closed_out_error "$script"
row all "$script" 4 first-block.cert closed_all "$script"
row input - 0 header.cert closed_in - >/dev/null
row "input, output" - 0 header.cert closed_in_out -
row all - 0 header.cert closed_all -
[ "$failed" -eq 0 ] && echo "every way to close the streams ends as it should"
exit "$failed"
