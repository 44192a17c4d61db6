# Of the scripts beside it: `program` is what ./polypar starts; `built NAME` sets `made` to the program of the crate NAME as
# `rt` made it, and gives up where it is not there or older than the sources.
program=$(POLYPAR_WHICH=1 "$root/polypar")

built() {
    made=$root/crates/$1/out/$1
    [ -x "$made" ] &&
        [ -z "$(find "$root/crates" -name out -prune -o -type f -newer "$made" -print -quit)" ] || {
        echo "crates/$1/out/$1 is not there, or older than the sources; this makes it, in minutes:" >&2
        echo "    (cd crates/$1 && rt run <stdin >/dev/null)" >&2
        exit 1
    }
}
