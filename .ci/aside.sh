# Libraries that `rt check` built, which ./test puts aside while it tries what rt ci builds: at its end rt ci gives them back, each in
# place of its own, and then no two need fit together. ./test reads this file at the top of the repository.

aside=$(git rev-parse --git-path libraries-aside) || return 1

# Puts them aside, once what an earlier test that was stopped put there is back.
put_aside() {
    put_back
    for library in crates/*/out/rlib; do
        [ ! -f "$library/stamp" ] || { mkdir -p "$aside/${library%/rlib}" && mv "$library" "$aside/$library"; }
    done
}

# Puts them back, each in place of what stands there.
put_back() {
    for library in "$aside"/crates/*/out/rlib; do
        place=${library#"$aside"/}
        [ ! -d "$library" ] || { rm -rf "$place" && mkdir -p "${place%/rlib}" && mv "$library" "$place"; }
    done
    rm -rf "$aside"
}
