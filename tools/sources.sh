# Of the launcher `polypar` and of tools/promote: which crates the program stands on, the checksum of all that it is
# built from, and what is noted so that a later call need not make it. `root` is where the repository stands.

# Reads crates.txt and the numbers of seconds.txt: what each crate stands on, a crate with all below it, and which crate
# is proved next: of those that stand on what is done, that with the longest chain of crates above it, by their seconds.
reader='
    { sub(/#.*/, "") }
    part == "seconds" { if (NF == 2 && length($2) < 6 && $2 ~ /^[0-9]+$/) seconds[$1] = $2; next }
    /:/ { split($0, side, ":"); split(side[1], head, " "); needs[head[1]] = side[2] }
    function mark(crate, set, word, words, i) {
        if (!(crate in needs) || crate in set) return
        set[crate]
        words = split(needs[crate], word, " ")
        for (i = 1; i <= words; i++) mark(word[i], set)
        order[++count] = crate
    }
    function rank(at, crate, word, words, i) {
        for (at = count; at > 0; at--) {
            chain[crate = order[at]] += seconds[crate]
            words = split(needs[crate], word, " ")
            for (i = 1; i <= words; i++) if (chain[word[i]] < chain[crate]) chain[word[i]] = chain[crate]
        }
    }
    function is_ready(crate, word, words, i) {
        if (crate in done || crate in busy) return 0
        words = split(needs[crate], word, " ")
        for (i = 1; i <= words; i++) if (word[i] in needs && !(word[i] in done)) return 0
        return 1
    }
    function next_ready(best, at) {
        best = ""
        for (at = 1; at <= count; at++)
            if (is_ready(order[at]) && (best == "" || chain[order[at]] > chain[best])) best = order[at]
        return best
    }
'

# The crates that the program, or the crate $1, stands on, each behind those that it stands on, and itself the last.
crates() {
    awk -v top="${1:-polypar_main}" "$reader"'
        END { mark(top, seen); for (at = 1; at <= count; at++) print order[at] }' "$root/crates.txt"
}

# Where all that the program is built from stands, seen from the root.
places() {
    echo crates.txt HANDLES
    for crate in $(crates); do
        echo "crates/$crate/src"
        [ ! -e "crates/$crate/specs" ] || echo "crates/$crate/specs"
        [ ! -e "crates/$crate/proofs" ] || echo "crates/$crate/proofs"
    done
}

# A checksum of all that the program is built from: the sources' names and contents.
sources() {
    cd "$root" || return 1
    sums=$(find $(places) -type f \( -name '*.rt' -o -name '*.antt' -o ! -path '*/*' \) -exec sha256sum {} +) ||
        return 1
    printf '%s\n' "$sums" | LC_ALL=C sort | sha256sum
}

# Notes in the folder $1 what the checksums hang on: the names of files and folders in four parts, and what `states`
# tells of each.
observe() {
    mkdir -p "$1" && cd "$root" || return 1
    { printf '.\0' && find $(places) proved -print0; } >"$1/names" || [ ! -e proved ] || return 1
    split -t '\0' -n l/4 -a 1 --numeric-suffixes=1 "$1/names" "$1/names." || return 1
    for part in 1 2 3 4; do
        states <"$1/names.$part" >"$1/states.$part" || return 1
    done
}

# Keeps the checksums with what was noted in the folder $1, for the next call; `stat` has told a line for each name.
remember() {
    [ "$(cat "$1"/states.* | wc -l)" = "$(tr -dc '\0' <"$1/names" | wc -c)" ] || return 1
    for part in 1 2 3 4; do
        { echo "$sources $bytes" && cat "$1/states.$part"; } >"$1/seen.$part" || return 1
    done
    printf '%s\n' "$sources" "$bytes" >"$1/sums" && rm -rf "$memory" "$1"/names "$1"/states.* && mv -T "$1" "$memory"
}
