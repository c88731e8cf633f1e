#!/usr/bin/env bash
# Runs the program that `rt ci`, or ../gitodb --prove, built, and compares what it writes and the status that it ends with:
# for each `.script` of this folder the `.output` beside it and status 0, for each line of refused.txt and reasons.txt what
# stands there, and for words, streams and long scripts what stands below. Then it tries the launchers.
set -u -o pipefail
cd "$(dirname "$0")" || exit 1
program=${1:-../crates/gitodb/out/gitodb}
if [ ! -x "$program" ]; then
    echo "examples: no program at $program: build it with ./gitodb --prove" >&2
    exit 1
fi
wrong=0

# Compares what words come to, over standard input, with a status and a text.
expect() { # NAME STATUS TEXT WORD..
    local name=$1 want found
    want=$(printf '%b' "$3"; echo "status $2")
    found=$("$program" "${@:4}" 2>/dev/null; echo "status $?")
    if [ "$found" != "$want" ]; then
        printf 'examples: %s\ncomes to\n%s\nin place of\n%s\n' "$name" "$found" "$want" >&2
        wrong=1
    fi
}

# Compares what words tell on standard error, over standard input, with a text behind the program's name.
expect_told() { # NAME TEXT WORD..
    local want=${2:+gitodb: $2} found
    found=$("$program" "${@:3}" 2>&1 >/dev/null)
    if [ "$found" != "$want" ]; then
        printf 'examples: %s\ntells\n%s\nin place of\n%s\n' "$1" "$found" "$want" >&2
        wrong=1
    fi
}

for script in *.script; do
    if ! diff <(cat "${script%.script}.output"; echo "status 0") <("$program" world <"$script"; echo "status $?"); then
        echo "examples: $script comes to something else" >&2
        wrong=1
    fi
done

# The table in which a line of refused.txt stands: its status, its text, and the line before it.
table= status= text= front=
while IFS= read -r line; do
    case $line in
    '' | '#'*) ;;
    '== scripts') table=scripts ;;
    '== '*)
        table=lines front= number=1
        read -r _ status text <<<"$line"
        if [[ $text == *' behind '* ]]; then
            front="${text#* behind }\n" text=${text%% behind *} number=2
        fi
        ;;
    *)
        if [ "$table" = lines ]; then
            expect "$line" "$status" "line $number $text\n" world < <(printf '%b' "$front$line\n")
        else
            read -r status text <<<"${line##* => }"
            expect "$line" "$status" "${text:+$text\n}" world < <(printf '%b' "${line%% => *}")
        fi
        ;;
    esac
done <refused.txt

while IFS= read -r line; do
    case $line in
    '' | '#'*) ;;
    *) expect_told "$line" "${line##* => }" world < <(printf '%b' "${line%% => *}") ;;
    esac
done <reasons.txt

# Words that are none of the program's, of which no script is read.
for word in '' frob World 'world ' --Help; do
    expect "the word '$word'" 1 'words not understood\n' "$word" <first_find.script
done
expect 'no word' 1 'words not understood\n' <first_find.script
expect 'a word too many' 1 'words not understood\n' world frob <first_find.script
expect 'an empty word behind another' 1 'words not understood\n' world '' <first_find.script
expect 'two words' 1 'words not understood\n' --help world <first_find.script
expect 'a word that is no text' 1 'words not understood\n' $'\xff' <first_find.script

help='no such words: gitodb --help tells which there are'
for word in frob -h help; do
    expect_told "the word '$word'" "$help" "$word" <first_find.script
done
expect_told 'a word that is no text' "$help" $'\xff' <first_find.script
expect_told 'no word' 'no words: gitodb --help tells which there are' <first_find.script
expect_told 'a script that is done' '' world <first_find.script
expect_told 'a source that fails' "standard input can't be read" world <.

expect 'the version' 0 'gitodb 0.1.0\n' --version <first_find.script
if [[ $("$program" --help) != 'usage: gitodb world '* ]]; then
    echo "examples: --help begins with something else" >&2
    wrong=1
fi

# A folder can't be read as a file, and nothing can be written to a full device.
expect 'a source that fails' 3 '' world <.
for word in world --help --version frob; do
    found=$("$program" "$word" <first_find.script 2>&1 >/dev/full; echo "status $?")
    if [ "$found" != "gitodb: standard output can't be written"$'\n''status 4' ]; then
        echo "examples: a failed write of $word tells $found" >&2
        wrong=1
    fi
done

# A script of two lines and a comment that is so long.
long() {
    printf 'steps\nturn 0\n'
    head -c "$1" /dev/zero | tr '\0' '#'
}
limit=67108864
told='misuse no-handle\n'
expect 'a script of the greatest length' 0 "$told" world < <(long $((limit - 13)) 2>/dev/null)
expect 'a script of one byte more' 2 "${told}line 3 refused\n" world < <(long $((limit - 12)) 2>/dev/null)
expect 'a script without end' 2 "${told}line 3 refused\n" world < <(long $((1 << 50)) 2>/dev/null)
expect_told 'a script without end' "line 3: the script is longer than $limit bytes" world < <(long $((1 << 50)) 2>/dev/null)
expect_told 'a script of one byte more' "line 3: the script is longer than $limit bytes" world < <(long $((limit - 12)) 2>/dev/null)

# A folder whose multi-pack index names so many packs, each with the empty blob, and a test, a write and an opening there.
with_packs() { # COUNT
    printf 'mkdir /o\nmkdir /o/pack\nput /o/pack/multi-pack-index 1 @midx:'
    seq -s ';' -f '%05.0f=blob:-' 1 "$1"
    printf '%s\n' steps 'open 0 /o slots=1' 'finish 0' "test 0 $empty" 'finish 0' 'write 0 blob -' 'finish 0' 'open 1 /o' 'finish 1'
}
empty=e69de29bb2d1d6434b8b29ae775ad8c2e48c5391
expect 'a multi-pack index of the most packs' 0 "applied\nopened 1\napplied\ntest yes\napplied\nwrote $empty\napplied\nopened 32\n" \
    world < <(with_packs 65535)
told='load-index too-many-packs 65536 /o/pack/multi-pack-index'
expect 'a multi-pack index of one pack too many' 0 \
    "applied\nopened 1\napplied\nerror $told\napplied\nerror write $told\napplied\nerror open $told\n" world < <(with_packs 65536)

# The script of the greatest length, by a program that may have less memory than it takes.
found=$(long $((limit - 13)) 2>/dev/null | (ulimit -v 60000 && exec "$program" world 2>/dev/null); echo "status $?")
if [ "$found" != 'status 5' ]; then
    printf 'examples: want of memory comes to\n%s\n' "$found" >&2
    wrong=1
fi
./check_failing_find.sh "$program" || wrong=1
./check_list_walk.sh || wrong=1
./check_probe_index.sh || wrong=1
../tools/try_launchers quick || wrong=1
exit "$wrong"
