# Which program there is of these sources: for the scripts that start or install it. They set `top`, the folder
# of the repository, and source this file.

# The program that ./build makes.
proved="$top/crates/zlab/out/zlab"
# The folder of the quick builds.
kept="$top/out/quick"

is_newer_than_the_sources() {
    [ -x "$1" ] && [ -z "$(find "$top/crates" "$top/crates.txt" -name out -prune -o -type f \
        \( -name '*.rt' -o -name '*.antt' -o -name crates.txt \) -newer "$1" -print -quit)" ]
}

# The file of the quick build of these sources, named by the checksum of what it is made of: the code and the
# list of crates. Proofs change nothing of it.
quick_of_the_sources() {
    local sum
    sum=$(cd "$top" && find crates.txt crates -name out -prune -o -type f \( -name '*.rt' -o -name crates.txt \) -print0 |
        LC_ALL=C sort -z | xargs -0 sha256sum | sha256sum | cut -c 1-32)
    echo "$kept/zlab-$sum"
}

# revision LENGTH PATH ..: the revision of this checkout in so many digits, and whether something below the paths
# differs from it. Status 1 where it is no checkout, or no git can tell.
revision() {
    local hash changes
    [ -e "$top/.git" ] || return 1
    hash=$(git -C "$top" rev-parse --short="$1" HEAD 2> /dev/null) || return 1
    changes=$(git -C "$top" status --porcelain -- "${@:2}" 2> /dev/null) || return 1
    echo "$hash${changes:+ with changes}"
}
