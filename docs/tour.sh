#!/bin/sh
# Runs the commands of README.md and of TOUR.md, those of each page in a folder of its own, and compares what they print with
# what stands there.
# usage: sh docs/tour.sh PROGRAM [readme|tour]
# With a second word it runs that page alone. PROGRAM is an executable of any build: `rt run` leaves one, and while `rt try`
# runs the program one stands in its folder below TMPDIR; that one is slow at keys of LMS. The other program, willow_mesh, is
# looked for beside PROGRAM and where `rt run` leaves it; the variable WILLOW_MESH names another.
# In a console block a line behind `$ ` is a command, one behind `> ` goes on with it, and the lines below are what it prints,
# on both streams; `…` there stands for one or more hexadecimal digits.

here=$(cd "$(dirname "$0")" && pwd) || exit 2
top=$(dirname "$here")
program=$(cd "$(dirname "$1")" && pwd)/$(basename "$1") || exit 2
[ -f "$program" ] && [ -x "$program" ] || { echo "usage: sh tour.sh PROGRAM [readme|tour]" >&2; exit 2; }
folder=$(mktemp -d) || exit 2
trap 'rm -rf "$folder"' EXIT

mesh=${WILLOW_MESH:-$(dirname "$program")/willow_mesh}
[ -f "$mesh" ] || mesh=$top/crates/willow_mesh/out/willow_mesh
mesh=$(cd "$(dirname "$mesh")" 2> /dev/null && pwd)/$(basename "$mesh")

willow_peer() { "$program" "$@"; }
willow_mesh() { "$mesh" "$@"; }

wrong=0 others=0

# Tells that something is otherwise than a page says: its name, with what stands there and what was printed.
otherwise() {
    wrong=$((wrong + 1))
    printf 'otherwise: %s\n--- expected\n' "$1"
    cat "$folder/expected"
    echo '--- printed'
    cat "$folder/printed"
}

# Whether each printed line matches the expected one in its place, and none is left.
matches() {
    sed -e 's/[][\\.*^$]/\\&/g' -e 's/…/[0-9a-f][0-9a-f]*/g' "$folder/expected" > "$folder/patterns"
    [ "$(wc -l < "$folder/patterns")" -eq "$(wc -l < "$folder/printed")" ] || return 1
    while IFS= read -r pattern <&4 && IFS= read -r printed <&5; do
        printf '%s\n' "$printed" | grep -q -x -e "$pattern" || return 1
    done 4< "$folder/patterns" 5< "$folder/printed"
}

command_= status=0 commands=0

# Runs the command that was read, with the status of the one before it in place, and compares its lines.
finish() {
    [ -n "$command_" ] || return
    commands=$((commands + 1))
    (exit $status)
    eval "$command_" > "$folder/printed" 2>&1 < /dev/null
    status=$?
    matches || otherwise "$command_"
    command_=
}

# Runs the console blocks of a page in a new folder.
walk() {
    mkdir "$folder/$1" && cd "$folder/$1" || exit 2
    inside=no status=0
    while IFS= read -r line <&3; do
        case $inside$line in
        no'```console') inside=yes ;;
        no*) ;;
        yes'```') finish; inside=no ;;
        yes'$ '*) finish; command_=${line#??}; : > "$folder/expected" ;;
        yes'> '*) command_="$command_
${line#??}" ;;
        yes*) printf '%s\n' "$line" >> "$folder/expected" ;;
        esac
    done 3< "$2"
}

# README.md's first command: its words over the sample make the image that lies beside it, and the lines and the status that
# stand below it up to the first one of the tool's.
sample() {
    commands=$((commands + 1))
    words=$(sed -n 's/^(cd .* rt try -- \(.*\) < [^<]*$/\1/p' "$top/README.md")
    # shellcheck disable=SC2086 # the words are parted at their spaces
    willow_peer $words < "$top/samples/notes.rows" > "$folder/image" 2> "$folder/printed"
    echo "checked: ended status=$?" >> "$folder/printed"
    sed -n '/^```text$/,/^checked: /p' "$top/README.md" | sed 1d > "$folder/expected"
    { matches && cmp "$folder/image" "$top/samples/notes.image"; } || otherwise "$words"
}

if [ "${2:-readme}" = readme ]; then
    sample
    walk readme "$top/README.md"
fi
if [ "${2:-tour}" = tour ]; then
    walk tour "$here/TOUR.md"
    # What the first part leaves is what lies in the repository.
    for name in anna.rows ben.rows archive.image; do
        cmp "$name" "$top/samples/$name" || others=$((others + 1))
    done
fi

echo "$((commands - wrong)) of $commands commands as they stand there"
[ "$commands" -gt 0 ] && [ "$wrong" -eq 0 ] && [ "$others" -eq 0 ]
