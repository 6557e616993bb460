# Starts the built program. The launcher and the one of an archive read this file.

# Whether these words ask for the version.
asks_version() { # words
    [ "$*" = --version ] || [ "$*" = -V ]
}

# Starts $program on the words, in the place of this shell, so that a signal that is sent to it reaches the program. A
# write past a limit on the length of files is to fail, and not to end it. To --version and -V the commit is added,
# where commit_of_files tells it.
start() { # words
    trap '' XFSZ
    if asks_version "$@" && commit=$(commit_of_files) && line=$("$program" --version); then
        # As of the program: no message if only the reader has gone.
        trap 'exit 2' PIPE
        printf '%s, commit %s\n' "$line" "$commit" 2>/dev/null && exit
        echo "error: the output can't be written" >&2
        exit 2
    fi
    exec "$program" "$@"
}
