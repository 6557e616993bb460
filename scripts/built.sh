# Where the built program stands, and whether it is that of the sources. The launcher, the test and the release read
# this file.

crate="$root/crates/dali_bench"
program="$crate/out/dali_bench"
built_from="$crate/out/dali_bench.built_from"

# The files and folders that the program is made of. The libraries' tests are crates of their own.
find_sources() { # more words for find
    (cd "$root" && find crates.txt HANDLES crates/*/src crates/*/specs crates/*/proofs -not -path 'crates/*_tests/*' "$@")
}

# One sum over every such file.
sum_of_sources() {
    find_sources -type f -print0 | LC_ALL=C sort -z | (cd "$root" && xargs -0 sha256sum) | sha256sum
}

# Gives the note the time of a second before that one: a change within it may have the time of its beginning.
date_note() { # second since 1970
    touch -c -d "@$(($1 - 1))" "$built_from"
}

# Notes that the program is built from the sources that had this sum, at the second at which it was taken.
note_built() { # sum, second since 1970
    echo "$1" >"$built_from" && date_note "$2"
}

# Where no file or folder has changed since that second, none is read. Where the sum is the same nevertheless, as in a
# folder that was copied, that is noted for the next time, if it may be.
is_built() {
    [ -x "$program" ] && [ -f "$built_from" ] || return 1
    [ -n "$(find_sources -cnewer "$built_from" -print -quit 2>&1)" ] || return 0
    now=$(date +%s)
    [ "$(cat "$built_from" 2>&1)" = "$(sum_of_sources 2>/dev/null)" ] || return 1
    date_note "$now" 2>/dev/null || :
}

# Tells the first of the files and folders of a build that may not be read, if one may not.
unread_source() {
    (cd "$root" && find crates.txt HANDLES scripts crates -name out -prune -o \
        \( ! -readable -o -type d ! -executable \) -print -quit 2>/dev/null)
}

# Tells the first folder that a build writes to and that may not be written to, if one may not.
unwritten_folder() {
    for folder in "$root"/crates/*; do
        [ ! -d "$folder/out" ] || folder=$folder/out
        case $folder in
            *_tests | *_tests/out) ;;
            *) [ -w "$folder" ] || { echo "$folder"; return; } ;;
        esac
    done
}

# Asks git about this folder, where it is a repository of its own.
ask_git() { # words
    git --no-optional-locks --git-dir="$root/.git" --work-tree="$root" "$@" 2>/dev/null
}

# Tells the commit of the files, and that they have changed since, where git knows it.
commit_of_files() {
    commit=$(ask_git rev-parse --short=12 HEAD) && changes=$(ask_git status --porcelain) || return 1
    echo "$commit${changes:+-changed}"
}

# Tells which command is missing that the rest needs, if one is.
missing_command() {
    for command in find sort xargs sha256sum touch; do
        command -v "$command" >/dev/null || { echo "$command"; return; }
    done
}
