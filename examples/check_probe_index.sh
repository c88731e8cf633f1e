#!/usr/bin/env bash
# Runs probe_index, and compares what it writes and the status that it ends with.
# The program is the one that `rt ci`, or ../probe_index --prove, built, or the one that is named.
set -u
here=$(realpath "$(dirname "$0")/../crates/probe_index")
program=$(realpath "${1:-$here/out/probe_index}")
if [ ! -x "$program" ]; then
    echo "examples: no program at $program: build it with ./probe_index --prove" >&2
    exit 1
fi
folder=$(mktemp -d) && cd "$folder" || exit 1
trap 'rm -rf "$folder"' EXIT
wrong=0

fail() {
    echo "examples: probe_index $1" >&2
    wrong=1
}

found=83baae61804e65cc73a7201a7252750c76066a30
absent=1f7a7a472abf3dd9643fd615f6da379c4acb3e3b
long=${found}000000000000000000000000
cp "$here/stdin" whole
head -c 100 whole >short
head -c 4 whole | cat - whole >shifted
printf 'no index' >other

# A row has the status, the file, the words and a front of what is written, with a blank for the end of each line.
while IFS='|' read -r status file words front; do
    # shellcheck disable=SC2086
    told=$("$program" $words <"$file" 2>/dev/null | tr '\n' ' '; echo "|${PIPESTATUS[0]}")
    case $told in
    "$front"*"|$status") ;;
    *) fail "$words of $file: $told" ;;
    esac
done <<ROWS
0|whole|$found $absent|$found 12 $absent absent |
0|whole|--help|usage: probe_index 
0|whole|--version|probe_index 0.1.0 
1|whole|--help $found|usage: probe_index 
1|whole|-h|usage: probe_index 
1|whole||usage: probe_index 
1|whole|frob|usage: probe_index 
1|whole|$found $long|usage: probe_index 
2|short|$found|refused: 
2|shifted|$found|refused: 
2|other|$found|refused: 
ROWS

# A folder can't be read as a file, and nothing can be written to a full device.
# Compares a status, and what is told on standard error, with those that are wanted.
expect_told() { # STATUS WANTED TEXT
    [ "$1 $(cat told)" = "$2 probe_index: $3" ] || fail "ends with $1 and tells $(cat told)"
}
[ -z "$("$program" "$found" <. 2>told; echo "$?" >status)" ] || fail "writes lines of no file"
expect_told "$(cat status)" 3 "standard input can't be read"
"$program" "$found" <whole >/dev/full 2>told
expect_told $? 4 "standard output can't be written"
"$program" "$found" <other >/dev/null 2>told
expect_told $? 2 'standard input is no such file: neither a pack index nor a multi-pack index'
"$program" "$found" <short >/dev/null 2>told
expect_told $? 2 'standard input is no such file: no pack index of version 2 with ids of this length'
"$program" <whole >/dev/null 2>told
expect_told $? 1 'no words: probe_index --help tells which there are'
for word in -h help $'\xff'; do
    "$program" "$word" <whole >/dev/null 2>told
    expect_told $? 1 'each word has to be an id, and all of one length: see probe_index --help'
done
[ "$("$program" --help <whole | tail -n 1)" = 'probe_index --help writes this text, and probe_index --version the version.' ] || fail "--help ends with something else"

# Of the multi-pack index that Git wrote it says what the world finds: at each place the pack has the object that git_multi_index.output has.
script=$here/../../examples/git_multi_index.script
kinds=('' commit tree blob tag)
hex_of() { sed -n "s|^put $1 [0-9]* ||p" "$script"; } # PATH
object_at() { # PATH OFFSET
    local hex byte size shift=4 at=$(($2 * 2)) kind
    hex=$(hex_of "$1")
    byte=$((16#${hex:at:2}))
    kind=${kinds[byte >> 4 & 7]}
    size=$((byte & 15))
    while ((byte & 128)); do
        at=$((at + 2))
        byte=$((16#${hex:at:2}))
        size=$((size | (byte & 127) << shift))
        shift=$((shift + 7))
    done
    echo "found $kind $size ${hex:at + 2:size * 2}"
}
printf '%b' "$(hex_of /o/pack/multi-pack-index | sed 's/../\\x&/g')" >multi
ids=$(sed -n '/^header/q; s/^find 0 //p' "$script")
# shellcheck disable=SC2086
places=$("$program" $ids <multi) || fail "refuses the multi-pack index that Git wrote"
[ "$(while read -r _ offset name; do object_at "/o/pack/${name%.idx}.pack" "$offset"; done <<<"$places")" = \
    "$(grep '^found' "${script%.script}.output" | head -n "$(wc -w <<<"$ids")")" ] || fail "and the world differ on the multi-pack index that Git wrote"

exit "$wrong"
