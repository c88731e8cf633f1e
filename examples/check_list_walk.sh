#!/usr/bin/env bash
# Runs list_walk over folders that it makes, and compares the lines, the errors and the status with those that are wanted.
# The program is the one that `rt ci`, or ../list_walk --prove, built, or the one that is named.
set -u
program=$(realpath "${1:-$(dirname "$0")/../crates/list_walk/out/list_walk}")
if [ ! -x "$program" ]; then
    echo "examples: no program at $program: build it with ./list_walk --prove" >&2
    exit 1
fi
folder=$(mktemp -d) && cd "$folder" || exit 1
trap 'rm -rf "$folder"' EXIT
wrong=0

fail() {
    echo "examples: list_walk $1" >&2
    wrong=1
}

# A row has the status, the words, the lines and what is told on standard error, with a blank behind each line. `@` stands
# for the folder.
check() {
    local status words lines told found
    while IFS='|' read -r status words lines told; do
        # shellcheck disable=SC2086
        found=$("$program" ${words//@/$folder} 2>told | tr '\n\0' ' 0'; echo "|${PIPESTATUS[0]}")
        [ "$found" = "${lines//@/$folder}|$status" ] || fail "$words: $found"
        [ "$(tr '\n' ' ' <told)" = "${told//@/$folder}" ] || fail "$words tells $(cat told)"
    done
}

mkdir -p t/b/c t/a
ln -s .. t/b/l
help=': list_walk --help tells which there are '
no_option='list_walk: no such option: '
no_number='list_walk: no number behind --max-'
no_folder='list_walk: no folder is named: list_walk --help tells how '
no_way='list_walk: `..` behind a name isn'"'"'t followed: a link may stand in its place '

# Shows an option that is taken for another, a word that is passed over, and an error that leaves the status at 0.
check <<ROWS
0|@/t --sort|@/t @/t/a @/t/b @/t/b/c @/t/b/l |
0|@/t --sort --contents-first|@/t/a @/t/b/c @/t/b/l @/t/b @/t |
0|@/t --sort --contents-first --max-open 1 --max-depth 1|@/t/a @/t/b @/t |
2|@/t --sort --follow --max-open 1|@/t @/t/a @/t/b @/t/b/c |list_walk: File system loop found: @/t/b/l points to an ancestor @/t 
0|@/t --sort --min-depth 1 --max-depth 1|@/t/a @/t/b |
0|@/t --max-depth 9 --max-depth 0 --same-file-system|@/t |
2|@/x||list_walk: IO error for operation on @/x: Absent (No such file or directory) 
1||words not understood |list_walk: no words: list_walk --help tells which there are 
1|@/t --frob|words not understood |${no_option}--frob$help
1|@/t --max-open|words not understood |${no_number}open 
1|@/t --max-open x|words not understood |${no_number}open: x 
1|@/t --min-depth -1 --frob|words not understood |list_walk: no number behind --min-depth: -1 
1|--sort|words not understood |$no_folder
1|-h|words not understood |${no_option}-h$help
2|help||list_walk: IO error for operation on @/help: Absent (No such file or directory) list_walk: \`help\` is taken for a folder: list_walk --help tells which words there are 
2|help @/t/a|@/t/a |list_walk: IO error for operation on @/help: Absent (No such file or directory) 
0|@/t --max-depth --version --help|list_walk 0.1.0 |
2|@/t/a -- --version|@/t/a |list_walk: IO error for operation on @/--version: Absent (No such file or directory) 
ROWS

# Options before, between and behind folders, numbers behind \`=\`, folders behind \`--\`, and entries that end by NUL.
# Shows an option that counts only for what follows it, a folder that is taken for an option, and a walk that ends the others.
mkdir ./--sort help
check <<ROWS
0|--sort --max-depth=1 @/t|@/t @/t/a @/t/b |
0|--max-depth=1 --max-depth 0 @/t|@/t |
0|--max-depth 0 @/t @/t/a|@/t @/t/a |
0|@/t/b --sort @/t/a --max-depth=0|@/t/b @/t/a |
2|@/t/a @/x @/t/b/c|@/t/a @/t/b/c |list_walk: IO error for operation on @/x: Absent (No such file or directory) 
0|@/t/a -- --sort|@/t/a @/--sort |
0|help|@/help |
1|@/t --max-depth=|words not understood |${no_number}depth: --max-depth= 
1|@/t --max-depth=x|words not understood |${no_number}depth: --max-depth=x 
1|@/t --sort=1|words not understood |${no_option}--sort=1$help
1|@/t -|words not understood |${no_option}-$help
1|--|words not understood |$no_folder
0|@/t/a @/t/b/c -0|@/t/a0@/t/b/c0|
ROWS

# Folders as people name them. Shows a relative one that lies elsewhere, and a \`..\` that leads up behind a link.
check <<ROWS
0|t --max-depth 0|@/t |
0|t/ ./t ./t/./a// --max-depth 0|@/t @/t @/t/a |
0|@//t/a/ --max-depth 0|@/t/a |
1|t/../t|words not understood |$no_way
1|./t/a/../.. -0|words not understood |$no_way
ROWS
(
    cd t/b || exit 1
    check <<ROWS
0|. --max-depth 0|@/t/b |
0|.. ../a --max-depth 0|@/t @/t/a |
0|../../../../../../../../../../../../.. --max-depth 0|/ |
ROWS
    exit "$wrong"
) || wrong=1

[ "$("$program" --help | head -n 1)" = 'usage: list_walk FOLDER.. [OPTION..]' ] || fail "--help begins with something else"
[ "$("$program" --version)" = 'list_walk 0.1.0' ] || fail "another version"

[ "$("$program" "$folder/t" --help -- --version)" = "$("$program" --help)" ] || fail "--help behind a folder is something else"

# Shows an empty word, or one that is no text, that is taken for a folder.
for word in '' $'\xff'; do
    [ "$("$program" "$word" 2>&1 >/dev/null)" = 'list_walk: no folder: (nothing, or no text)' ] || fail "an empty word tells something else"
done

# Shows an error that stands without words: no name is that long. And an entry that is passed over without an error.
name=$(printf '%0300d' 0)
mkdir odd && mkfifo odd/pipe && touch odd/file
check <<ROWS
2|@/$name||list_walk: IO error for operation on @/$name: Failed (refused by the system, or an entry that can't be listed) 
2|@/odd|@/odd @/odd/file |list_walk: Failed (refused by the system, or an entry that can't be listed) 
ROWS

# Shows an item that is lost without an order.
"$program" "$folder/t" | LC_ALL=C sort | diff <("$program" "$folder/t" --sort | LC_ALL=C sort) - || fail "unsorted"

mkdir -p links/d
touch links/f links/d/g
ln -s .. links/d/up
ln -s f links/to_f
ln -s d links/to_d
ln -s none links/to_none
ln -s itself links/itself

# Shows a link of a real disk that is followed where it mustn't be or isn't where it must, and one that leads nowhere or
# back and is passed over or walked without end.
check <<'ROWS'
0|@/links --sort|@/links @/links/d @/links/d/g @/links/d/up @/links/f @/links/itself @/links/to_d @/links/to_f @/links/to_none |
2|@/links --sort --follow|@/links @/links/d @/links/d/g @/links/f @/links/to_d @/links/to_d/g @/links/to_f |list_walk: File system loop found: @/links/d/up points to an ancestor @/links list_walk: IO error for operation on @/links/itself: LinkLoop (Too many levels of symbolic links) list_walk: File system loop found: @/links/to_d/up points to an ancestor @/links list_walk: IO error for operation on @/links/to_none: Absent (No such file or directory) 
ROWS

# The program writes pieces of 32,768 bytes and what is left of the line; the listing of this folder is more than one.
mkdir wide
long=a-name-that-is-so-long-that-a-few-hundred-of-its-kind-are-more-than-one-piece-of-output
for number in {1000..1399}; do
    : >"wide/$number-$long"
done
printf '%s\n' "$folder/wide" "$folder"/wide/* >listing

# Shows a piece that is written twice, out of turn or not at all.
"$program" "$folder/wide" --sort | cmp - listing || fail "another listing"

# Shows a failed write that is passed over: of the first piece, of the words that aren't understood, and of the last piece.
"$program" "$folder/wide" --sort >/dev/full 2>told
[ $? = 4 ] && [ "$(cat told)" = "list_walk: standard output can't be written" ] || fail "the first write is passed over"
"$program" --frob >/dev/full 2>/dev/null
[ $? = 4 ] || fail "the refusal's write is passed over"
(
    trap '' XFSZ
    ulimit -f 36
    exec "$program" "$folder/wide" --sort >part 2>/dev/null
)
[ $? = 4 ] || fail "the last write is passed over"
"$program" "$folder/x" 2>/dev/full
[ $? = 4 ] || fail "an error's write is passed over"
[ "$(stat -c %s part)" -gt 32768 ] && cmp -n "$(stat -c %s part)" part listing || fail "not a front of the listing"

exit "$wrong"
