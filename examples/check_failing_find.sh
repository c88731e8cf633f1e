#!/usr/bin/env bash
# One call of the disk fails in a look-up among packs, each call in turn. No look-up is answered by not-found then, and each
# error is the one of the rows below.
# The program is the one that `rt ci`, or ../gitodb --prove, built, or the one that is named.
set -u
cd "$(dirname "$0")" || exit 1
program=${1:-../crates/gitodb/out/gitodb}
if [ ! -x "$program" ]; then
    echo "examples: no program at $program: build it with ./gitodb --prove" >&2
    exit 1
fi
wrong=0

packed=1f7a7a472abf3dd9643fd615f6da379c4acb3e3a # in the second folder's pack
later=ce013625030ba8dba906f756967f9e9ca394464a  # in a pack that replaces it
absent=ce013625030ba8dba906f756967f9e9ca394464b
versions=blob:76657273696f6e20310a,blob:76657273696f6e20320a

# A store of two folders with a pack each.
setup() {
    printf 'mkdir /%s\n' o o/pack p p/pack
    printf 'put /o/pack/pack-a.%s 1 @%s:blob:6f6e650a\n' pack pack idx idx
    printf "put /p/pack/pack-b.%s 1 @%s:$versions\n" pack pack idx idx
    printf '%s\n' steps 'open 0 /o folder=/p slots=4' 'finish 0'
}

# Another program packs anew, behind a first find.
repacked() {
    printf '%s\n' "find 0 $packed" 'finish 0'
    printf 'do put /p/pack/pack-c.%s 2 @%s:blob:68656c6c6f0a\n' pack pack idx idx
    printf 'do remove /p/pack/pack-b.%s\n' idx pack
}

# Each row: a call that fails, and what the last line is then.
rows() { # LAST_CALL FRONT LOOK_UP
    local number
    for ((number = 1; number <= $1 + 1; number++)); do
        printf '%d %s\n' "$number" "$( (echo "fail $number"; setup; $2; printf '%s\nfinish 0\n' "$3") | "$program" world | tail -n 1)"
    done
}

# Rows in which several calls in turn come to the same are written once.
table() { # FROM TO TEXT ..
    local number
    while [ $# -gt 0 ]; do
        for ((number = $1; number <= $2; number++)); do
            printf '%d %s\n' "$number" "$3"
        done
        shift 3
    done
}

compare() { # NAME LAST_CALL FRONT LOOK_UP FROM TO TEXT ..
    if ! diff <(table "${@:5}") <(rows "$2" "$3" "$4"); then
        echo "examples: $1 comes to something else where a call fails" >&2
        wrong=1
    fi
}

io='error load-index io'
opening=(1 1 'misuse no-handle')
# The call of a file that lies loose: its path in one of the folders.
loose() { # FOLDER ID
    echo "error loose io /$1/${2:0:2}/${2:2}"
}

compare 'a find of a packed object' 15 true "find 0 $packed" "${opening[@]}" 2 14 "$io" 15 15 'error load-pack' \
    16 16 'found blob 10 76657273696f6e20320a'
compare 'a header of a packed object' 15 true "header 0 $packed" "${opening[@]}" 2 14 "$io" 15 15 'error load-pack' \
    16 16 'header blob 10 packed'
compare 'a test of a packed object' 14 true "test 0 $packed" "${opening[@]}" 2 14 "$io" 15 15 'test yes'
compare 'a find of an absent object' 17 true "find 0 $absent" "${opening[@]}" 2 15 "$io" 16 16 "$(loose o $absent)" \
    17 17 "$(loose p $absent)" 18 18 not-found
compare 'a test of an absent object' 17 true "test 0 $absent" "${opening[@]}" 2 17 "$io" 18 18 'test no'

# Here the calls up to 15 are those of the opening and of the first find. Behind a failed one, the pack that it sought in is
# replaced before it is sought again. The index of the first folder is read by call 18: where this fails, a listing goes on.
found='found blob 6 68656c6c6f0a'
compare 'a find behind a repack' 32 repacked "find 0 $later" "${opening[@]}" 2 15 "$found" 16 16 "$(loose o $later)" \
    17 17 "$(loose p $later)" 18 18 "$found" 19 31 "$io" 32 32 'error load-pack' 33 33 "$found"
compare 'a find of an absent object behind a repack' 33 repacked "find 0 $absent" "${opening[@]}" 2 15 not-found \
    16 16 "$(loose o $absent)" 17 17 "$(loose p $absent)" 18 31 "$io" 32 32 "$(loose o $absent)" 33 33 "$(loose p $absent)" \
    34 34 not-found
compare 'a find of what a handle has loaded' 15 repacked "find 0 $packed" "${opening[@]}" 2 15 not-found \
    16 16 'found blob 10 76657273696f6e20320a'
exit "$wrong"
