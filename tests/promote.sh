#!/bin/sh
# Tries tools/promote on a small repository, with a stand-in for `rt` whose gate passes or fails as it is told: what it
# refuses, and that the launcher starts what it has put into proved/. It wants `git`, `gcc` and `readelf`. The last line
# is 'N passed, M failed'.
# usage: tests/promote.sh
set -u
root=$(CDPATH= cd -- "$(dirname -- "$0")/.." && pwd)
work=$(mktemp -d)
trap 'rm -rf "$work"' EXIT
copy=$work/copy
passed=0
failed=0

# The stand-in: `rt version` tells its logic; `rt ci` leaves the program of $work/program and prints the line $work/last.
make_stand_in() {
    mkdir -p "$work/bin"
    cat >"$work/bin/rt" <<STAND_IN
#!/bin/sh
case \$1 in
version) echo "kit 1 logic 00ff" ;;
ci)
    mkdir -p crates/polypar_main/out && cp "$work/program" crates/polypar_main/out/polypar_main
    cat "$work/last"
    grep -q ' 0 failed' "$work/last"
    ;;
esac
STAND_IN
    chmod +x "$work/bin/rt"
}

# A program that exits with 9, in whose file the logic $1 is named.
compile() {
    printf '__asm__(".section .comment\\n.string \\"rattle logic=%s\\"\\n.text"); int main(void) { return 9; }\n' "$1" |
        gcc -x c -o "$work/program" -
}

# A repository of one crate, committed.
make_copy() {
    mkdir -p "$copy/crates/polypar_main/src" "$copy/tools" "$copy/.ci"
    cp -p "$root/polypar" "$copy" && cp -p "$root"/tools/*.sh "$root/tools/promote" "$copy/tools"
    cp -p "$root/.ci/run" "$copy/.ci"
    echo 'polypar_main:' >"$copy/crates.txt"
    echo 'Handles allowed: none.' >"$copy/HANDLES"
    echo 'fn main() {}' >"$copy/crates/polypar_main/src/main.rt"
    echo out >"$copy/.gitignore"
    (cd "$copy" && git init -q && git add -A && git -c user.name=x -c user.email=x@x commit -qm first)
}

# Whether tools/promote ends with status $2 and tells $3; $1 says what was tried.
expect() {
    said=$(PATH=$work/bin:$PATH "$copy/tools/promote" 2>&1)
    ended=$?
    if [ "$ended" -eq "$2" ] && [ "${said%%"$3"*}" != "$said" ]; then
        passed=$((passed + 1))
    else
        failed=$((failed + 1))
        printf '%s: status %s for %s, and it says\n%s\n' "$1" "$ended" "$2" "$said"
    fi
}

# Counts whether $2 and $3 are the same; $1 says what they are.
same() {
    if [ "$2" = "$3" ]; then
        passed=$((passed + 1))
    else
        failed=$((failed + 1))
        printf '%s: "%s" for "%s"\n' "$1" "$2" "$3"
    fi
}

for command in git gcc readelf; do
    command -v "$command" >/dev/null || { echo "$command is missing"; echo "0 passed, 0 failed"; exit 0; }
done
make_stand_in
make_copy
compile 00ff
echo '3 passed, 1 failed' >"$work/last"
expect "a gate that fails" 1 "promote: the gate has not passed"
echo '3 passed, 0 failed, 2 edits refused' >"$work/last"
compile 11ff
expect "a program of another kit" 1 "promote: the program was not made by kit 1 logic 00ff"
compile 00ff
echo '// edited' >>"$copy/crates/polypar_main/src/main.rt"
expect "a change that is not committed" 1 "promote: there are changes of the sources that are not committed"
same "nothing was promoted" "$(ls "$copy/proved" 2>&1 | grep -c record)" 0
(cd "$copy" && git checkout -q crates)
expect "a gate that passes" 0 "commit proved/"
same "the file" "$(cmp "$work/program" "$copy/proved/polypar" 2>&1)" ""
same "the record" "$(sed -n '2p;3p' "$copy/proved/record")" "kit 1 logic 00ff
$(sha256sum <"$copy/proved/polypar")"
same "the least C library" "$(sed -n '4p' "$copy/proved/record" | grep -c '^2\.[0-9]*$')" 1
"$copy/polypar"
same "the launcher starts it" "$?" 9
echo "$passed passed, $failed failed"
[ "$failed" -eq 0 ]
