# What ./tlbridge, ./tlscore, interfaces/build and ./test know of a program, and of the static library zuldegei, by its name: where it
# stands, and what it was built from. They read this file at the top of the repository. A program NAME of which nothing is proved is
# NAME.unproved to them, another file with another stamp, so that neither is ever taken for the other.

# Prints where a program or the library stands.
program_of() {
    case $1 in
    *.unproved) printf 'out/%s' "$1" ;;
    zuldegei) printf 'crates/%s/out/lib%s.a' "$1" "$1" ;;
    *) printf 'crates/%s/out/%s' "$1" "$1" ;;
    esac
}

# Prints where it is noted what it was built from.
stamp_of() {
    printf 'out/%s.stamp' "$1"
}

# Prints the checksum of each source. A source that was edited, added, deleted or put back changes this, whatever its date.
sources() {
    find crates.txt crates -name out -prune -o -type f \( -name '*.rt' -o -name '*.antt' -o -name crates.txt \) -exec cksum {} + |
        LC_ALL=C sort
}

# Notes that what stands there was built from the sources that are given. They were listed before the build, so where
# one was changed since, nothing is noted.
note_built_from() {
    made=$(cksum "$(program_of "$1")") && [ "$2" = "$(sources)" ] && printf '%s\n' "$2" "$made" >"$(stamp_of "$1")"
}

# Tells whether it stands there as it was built from the sources as they are now.
is_built() {
    [ -r "$(program_of "$1")" ] && [ -r "$(stamp_of "$1")" ] &&
        { sources && cksum "$(program_of "$1")"; } | cmp -s - "$(stamp_of "$1")"
}
