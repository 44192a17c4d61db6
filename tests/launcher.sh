#!/bin/sh
# Tries the launcher `polypar` on a copy of the repository, with a stand-in for `rt` that builds at once, and one for
# proved/polypar: which program it starts, what it builds, when it builds again, and what it says where it can't. The
# last line is 'N passed, M failed'.
# usage: tests/launcher.sh
set -u
root=$(CDPATH= cd -- "$(dirname -- "$0")/.." && pwd)
work=$(mktemp -d)
trap 'rm -rf "$work"' EXIT
copy=$work/copy
passed=0
failed=0

# The stand-in: `rt version` tells the contents of $work/version; `rt lib` proves a crate that has not been proved; `rt
# run` makes the program, which prints its words and exits with 7. The crate that $work/refuse names is not proved, and
# that in $work/slow takes five seconds. $work/calls tells the crates that `rt` was called for, $work/proofs those that
# it proved, $work/builds the programs, $work/process the process that is slow, $work/lacking where a crate did not find
# the library of one that it stands on.
make_stand_in() {
    mkdir -p "$work/bin" "$work/tmp"
    echo "kit 1" >"$work/version"
    cat >"$work/bin/rt" <<STAND_IN
#!/bin/sh
[ "\$1" != version ] || exec cat "$work/version"
case "\$1 \$2 \$3" in
"lib --jobs "[1-8] | "run --jobs "[1-8]) ;;
*) echo "unknown: rt \$*" >&2; exit 2 ;;
esac
crate=\${PWD##*/}
echo "\$crate" >>"$work/calls"
[ "\$1" = lib ] || echo built >>"$work/builds"
[ "\$(cat "$work/refuse" 2>/dev/null)" != "\$crate" ] || { echo "error: \$crate has no proof" >&2; exit 1; }
mkdir -p out/rlib out/incremental
: >"out/rlib/\$crate"
[ "\$(cat "$work/slow" 2>/dev/null)" != "\$crate" ] || { echo \$\$ >"$work/process"; exec sleep 5; }
for below in \$(sed -n "s/^\$crate://p" ../../crates.txt); do
    [ ! -d "../\$below" ] || [ -e "../\$below/out/rlib/\$below" ] || echo "\$crate \$below" >>"$work/lacking"
done
[ -e out/proved ] || echo "\$crate" >>"$work/proofs"
: >out/proved
if [ "\$1" = run ]; then
    printf '#!/bin/sh\necho "\$*"\nexit 7\n' >out/polypar_main
    chmod +x out/polypar_main
fi
STAND_IN
    chmod +x "$work/bin/rt"
}

# A fresh copy of what the launcher looks at, and no build yet.
fresh() {
    for old in copy builds refuse slow calls proofs process lacking; do
        rm -rf "${work:?}/$old"
    done
    mkdir -p "$copy/crates" "$copy/tools"
    cp -p "$root/polypar" "$root/crates.txt" "$root/HANDLES" "$copy"
    cp -p "$root"/tools/*.sh "$copy/tools"
    cp -Rp "$root/examples" "$copy"
    for crate in "$root"/crates/*; do
        mkdir -p "$copy/crates/${crate##*/}"
        for part in src specs proofs; do
            [ ! -d "$crate/$part" ] || cp -Rp "$crate/$part" "$copy/crates/${crate##*/}"
        done
    done
}

# Calls the launcher at $1 with two words; sets `status`, `said` (standard error), `printed` and `builds`.
call() {
    printed=$(PATH=$work/bin:$PATH TMPDIR=$work/tmp "$1" one two 2>"$work/said")
    status=$?
    said=$(cat "$work/said")
    builds=$(cat "$work/builds" 2>/dev/null | wc -l)
}

# Puts a program into proved/ of the copy that prints `shipped` and its words, and exits with $1, and its record.
ship() {
    mkdir -p "$copy/proved"
    printf '#!/bin/sh\necho "shipped $*"\nexit %s\n' "$1" >"$copy/proved/polypar"
    chmod +x "$copy/proved/polypar"
    record
}

# Makes the record of proved/polypar, as it is, and of the sources.
record() {
    (
        root=$copy
        . "$copy/tools/sources.sh"
        printf '%s\n' "$(sources)" "kit 1" "$(sha256sum <"$copy/proved/polypar")" 2.34 >"$copy/proved/record"
    )
}

# Calls the launcher at $1 with two words where `rt` is not on the PATH; sets what `call` does.
call_bare() {
    printed=$(PATH=$work/tools TMPDIR=$work/tmp "$1" one two 2>"$work/said")
    status=$?
    said=$(cat "$work/said")
    builds=0
}

# Whether the last call, without `rt`, built nothing, since $2; $1 says what was tried.
expect_unfit() {
    expect "$1" 70 0
    expect_same "$1: why" "$said" \
        "polypar: $2, and the command rt of the Rattle kit, which builds the program, is not on the PATH"
}

# Calls the launcher on a terminal with two words; sets `status`, `said` (all that is shown) and `builds`.
call_on_terminal() {
    PATH=$work/bin:$PATH TMPDIR=$work/tmp script -qec "$copy/polypar one two" /dev/null </dev/null >"$work/shown"
    status=$?
    tr -d '\r' <"$work/shown" >"$work/said"
    said=$(cat "$work/said")
    builds=$(cat "$work/builds" 2>/dev/null | wc -l)
}

# Lists a second for each crate, and for $1 so many that all together take 100 minutes, however many are side by side.
list_seconds() {
    echo "# what each took" >"$copy/seconds.txt"
    sed -n "s/^$1[ :].*/$1 5965/p; s/^\([a-z][a-z_]*\).*:.*/\1 1/p" "$root/crates.txt" >>"$copy/seconds.txt"
}

# Whether the last call ended with status $2 after $3 builds in all; $1 says what was tried.
expect() {
    if [ "$status" -eq "$2" ] && [ "$builds" -eq "$3" ]; then
        passed=$((passed + 1))
    else
        failed=$((failed + 1))
        printf '%s: status %s for %s, builds %s for %s\n%s\n' "$1" "$status" "$2" "$builds" "$3" "$said"
    fi
}

# Whether the last call said $2; $1 says what was tried.
expect_word() {
    case $said in
    *"$2"*) passed=$((passed + 1)) ;;
    *)
        failed=$((failed + 1))
        printf '%s: it does not say "%s" but\n%s\n' "$1" "$2" "$said"
        ;;
    esac
}

# Whether $2 and $3 are the same; $1 says what was tried.
expect_same() {
    if [ "$2" = "$3" ]; then
        passed=$((passed + 1))
    else
        failed=$((failed + 1))
        printf '%s: "%s" for "%s"\n' "$1" "$2" "$3"
    fi
}

# Whether the last call, on a terminal, built the program and told no minutes, but all else; $1 says what was tried.
expect_no_minutes() {
    expect "$1" 7 1
    expect_same "$1: no minutes" "$(grep -c 'minute\|awk\|seconds' "$work/said")" 0
    expect_same "$1: two lines and one for each library" "$(grep -c ^polypar: "$work/said")" $((crates + 1))
    expect_word "$1: the last of them" "polypar: polypar is proved, 1 to go
"
}

# The crates of $work/calls that stand in front of one that they stand on.
too_early() {
    awk 'NR == FNR { if (split($0, side, ":") == 2) needs[side[1]] = side[2]; next }
        {
            called[$1] = 1
            count = split(needs[$1], word, " ")
            for (i = 1; i <= count; i++) if (word[i] in needs && !called[word[i]]) print $1
        }' "$root/crates.txt" "$work/calls"
}

# Starts a call, sends it alone the signal $1 once the slow process is there, and waits; sets `status` and `builds`.
interrupt() {
    PATH=$work/bin:$PATH TMPDIR=$work/tmp env --default-signal="$1" "$copy/polypar" >/dev/null 2>"$work/said" &
    until [ -s "$work/process" ]; do sleep 0.1; done
    kill "-$1" "$!"
    wait "$!"
    status=$?
    said=$(cat "$work/said")
    builds=$(cat "$work/builds" 2>/dev/null | wc -l)
}

make_stand_in
fresh
call "$copy/polypar"
expect "the first call builds" 7 1
expect_same "the first call tells of it in one line" "$(wc -l <"$work/said")" 1
expect_word "the first call tells of it" "proving and building"
expect_same "the words are handed on" "$printed" "one two"
expect_same "each crate once" "$(sort "$work/calls" | uniq -d)" ""
expect_same "each behind those that it stands on" "$(too_early)" ""
expect_same "each finds the libraries that it stands on" "$(cat "$work/lacking" 2>/dev/null)" ""
expect_same "the program is the last" "$(tail -n 1 "$work/calls")" polypar_main
crates=$(wc -l <"$work/calls")
call "$copy/polypar"
expect "the second call does not" 7 1

ln -s "$copy/polypar" "$work/bin/by_link"
call "$work/bin/by_link"
expect "through a symbolic link" 7 1
(cd "$work" && ln -sf copy/polypar relative)
call "$work/relative"
expect "through a relative link" 7 1
call by_link
expect "found on the PATH" 7 1

echo "no kernel" >"$copy/examples/copy.c"
call "$copy/polypar"
expect "with an edited example" 7 1
rm -rf "$copy/examples" "$copy/crates/polypar_main/out"
call "$copy/polypar"
expect "built without the examples" 7 2

touch "$copy/crates/polypar/src/lib.rt"
call "$copy/polypar"
expect "a touched source is the same" 7 2
cp -p "$copy/crates/polypar/src/lib.rt" "$work/old.rt"
echo "// edited" >>"$copy/crates/polypar/src/lib.rt"
call "$copy/polypar"
expect "an edited source" 7 3
cp -p "$work/old.rt" "$copy/crates/polypar/src/lib.rt"
call "$copy/polypar"
expect "an older file put over a source" 7 4
echo "// edited" >>"$copy/crates/bench_cases/src/main.rt"
call "$copy/polypar"
expect "a source that the program does not use" 7 4

echo "kit 2" >"$work/version"
touch "$work/bin/rt"
call "$copy/polypar"
expect "another kit" 7 5
touch "$work/bin/rt"
call "$copy/polypar"
expect "the same kit, touched" 7 5

echo "// edited" >>"$copy/crates/polypar/src/lib.rt"
echo polypar_main >"$work/refuse"
call "$copy/polypar"
expect "a program that is not proved" 70 6
expect_word "a program that is not proved is shown" "error: polypar_main has no proof"
call "$copy/polypar"
expect "a program that is not proved again" 70 7
rm "$work/refuse"
call "$copy/polypar"
expect "the proof mended" 7 8

fresh
echo scop_units >"$work/refuse"
call "$copy/polypar"
expect "a crate that is not proved" 70 0
expect_word "a crate that is not proved is shown" "error: scop_units has no proof"
expect_word "a crate that is not proved is named" "polypar: scop_units was not proved"
expect_same "none is tried that stands on it" "$(grep -c 'scop_pass\|polypar' "$work/calls")" 0

fresh
echo scop_lexer >"$work/slow"
PATH=$work/bin:$PATH TMPDIR=$work/tmp "$copy/polypar" >/dev/null 2>&1 &
until grep -qs scop_grammar "$work/calls"; do sleep 0.1; done
kill -0 "$(cat "$work/process")" 2>/dev/null
expect_same "independent crates are proved side by side" "$?" 0
wait "$!"
status=$?
builds=$(wc -l <"$work/builds")
expect "after a slow crate" 7 1
expect_same "each behind those that it stands on, side by side" "$(too_early)" ""
expect_same "each finds them, side by side" "$(cat "$work/lacking" 2>/dev/null)" ""

for signal in TERM:143 INT:130; do
    fresh
    echo scop_units >"$work/slow"
    interrupt "${signal%:*}"
    expect "interrupted by ${signal%:*}" "${signal#*:}" 0
    kill -0 "$(cat "$work/process")" 2>/dev/null
    expect_same "what was under way has ended" "$?" 1
    expect_same "no temporary file is left" "$(ls "$work/tmp")" ""
    rm "$work/slow"
    call "$copy/polypar"
    expect "after an interrupt" 7 1
    expect_same "nothing is proved twice" "$(sort "$work/proofs" | uniq -d)" ""
    expect_same "each crate is proved" "$(wc -l <"$work/proofs")" "$crates"
done

fresh
PATH=$work/bin:$PATH TMPDIR=$work/tmp "$copy/polypar" >/dev/null 2>&1 &
call "$copy/polypar"
expect "one of two calls at once" 7 1
wait "$!"
status=$?
expect "the other of two calls at once" 7 1

if command -v script >/dev/null; then
    fresh
    list_seconds polypar_main
    call_on_terminal
    expect "on a terminal" 7 1
    expect_same "what it does, and why" "$(head -n 1 "$work/said")" \
        "polypar: proving the program's $crates crates, since no build of it is kept (later calls start at once)"
    expect_same "how long it takes" "$(sed -n '2s/ with [0-9]* process[es]*;/;/p' "$work/said")" \
        "polypar: about 100 minutes; what is proved is kept, also after an interrupt"
    told=$(grep -c '^polypar: [a-z_]* is proved, [0-9]* to go, about [0-9]* minutes left$' "$work/said")
    expect_same "each library is told" "$told" $((crates - 1))
    expect_word "the last of them is told" "polypar: polypar is proved, 1 to go, about "
    expect_same "the program's own words come last" "$(tail -n 1 "$work/said")" "one two"
    expect_same "what each took is noted" "$(grep -c '^[a-z_]* [0-9]*$' "$copy/crates/polypar_main/out/seconds")" \
        "$crates"
    expect_same "under the same head" "$(head -n 1 "$copy/crates/polypar_main/out/seconds")" "# what each took"
    call_on_terminal
    expect "on a terminal, built" 7 1
    expect_same "on a terminal, built, it says nothing" "$said" "one two"

    cp "$copy/crates/polypar_main/out/seconds" "$copy/seconds.txt"
    touch "$work/bin/rt"
    echo "kit 3" >"$work/version"
    call_on_terminal
    expect "on a terminal, another kit" 7 2
    expect_word "on a terminal, another kit" "since the kit changed"
    expect_word "by what was noted" "polypar: at most about a minute with"

    list_seconds whole_numbers
    echo "// edited" >>"$copy/crates/polypar/src/lib.rt"
    call_on_terminal
    expect "on a terminal, an edited source" 7 3
    expect_word "on a terminal, an edited source" "since its sources changed"
    expect_word "what is kept takes no time" "polypar: at most about a minute with"
    echo "// edited" >>"$copy/crates/whole_numbers/src/lib.rt"
    call_on_terminal
    expect_word "what was edited takes its time" "polypar: at most about 100 minutes with"

    fresh
    rm -f "$copy/seconds.txt"
    call_on_terminal
    expect_no_minutes "no seconds.txt"
    fresh
    printf '%s\n' words 7 "fractions many" "polypar_main: 7" "fractions 7 7" "fractions -5" "fractions 1e9" "# a 7" \
        >"$copy/seconds.txt"
    call_on_terminal
    expect_no_minutes "a seconds.txt without sense"
fi

fresh
mkdir -p "$copy/crates/polypar_main"
: >"$copy/crates/polypar_main/out"
call "$copy/polypar"
expect "where out/ can't be written" 70 0
expect_word "where out/ can't be written it says so" "out can't be written"

fresh
rm -r "$copy/crates/polypar/src"
call "$copy/polypar"
expect "where a source folder is missing" 70 0
expect_word "where a source folder is missing it says so" "can't be read whole"

fresh
mkdir "$work/tools"
for tool in sh readlink awk find sha256sum sort ls cat rm mkdir mktemp flock xargs stat cmp wc tr split mv uname; do
    ln -s "$(command -v "$tool")" "$work/tools/$tool"
done
printf '#!/bin/sh\necho glibc 2.36\n' >"$work/tools/getconf"
chmod +x "$work/tools/getconf"
call_bare "$copy/polypar"
expect_unfit "without rt" "no build of it is kept"

ship 9
for file in "$copy/polypar" "$work/bin/by_link" "$work/relative"; do
    call_bare "$file"
    expect "proved/polypar, by $file" 9 0
    expect_same "proved/polypar, by $file: words" "$printed" "shipped one two"
    expect_same "proved/polypar, by $file: no word" "$said" ""
done
call "$copy/polypar"
expect "proved/polypar with a kit" 9 0
which=$(POLYPAR_WHICH=1 "$copy/polypar" one two)
expect_same "which program" "$which" "$copy/proved/polypar"
(cd / && PATH=$work/tools "$copy/polypar" one two) >"$work/other" &
call_bare "$copy/polypar"
wait "$!"
expect "proved/polypar, two calls at once" 9 0
expect_same "proved/polypar, the other call, from another folder" "$(cat "$work/other")" "shipped one two"

rm "$work/tools/sha256sum"
call_bare "$copy/polypar"
expect "checksums are remembered" 9 0
ln -s "$(command -v sha256sum)" "$work/tools/sha256sum"
touch "$copy/crates/polypar/src/lib.rt"
call_bare "$copy/polypar"
expect "a touched source, proved/polypar" 9 0
cp -p "$copy/crates/polypar/src/lib.rt" "$work/old.rt"
echo "// edited" >>"$copy/crates/polypar/src/lib.rt"
call_bare "$copy/polypar"
expect_unfit "an edited source, proved/polypar" "its sources are not those of proved/polypar"
cp -p "$work/old.rt" "$copy/crates/polypar/src/lib.rt"
: >"$copy/crates/polypar/proofs/New.antt"
call_bare "$copy/polypar"
expect_unfit "a new file of proofs" "its sources are not those of proved/polypar"
rm "$copy/crates/polypar/proofs/New.antt"
call_bare "$copy/polypar"
expect "the sources as they were" 9 0

cp -p "$copy/proved/polypar" "$work/whole"
head -c 20 "$work/whole" >"$copy/proved/polypar"
call_bare "$copy/polypar"
expect_unfit "a file that is cut off" "proved/polypar is not the file that was proved"
sed 's/shipped/shopped/' "$work/whole" >"$copy/proved/polypar"
call_bare "$copy/polypar"
expect_unfit "one byte is another" "proved/polypar is not the file that was proved"
cp -p "$work/whole" "$copy/proved/polypar"
chmod -x "$copy/proved/polypar"
call_bare "$copy/polypar"
expect_unfit "a file that may not be executed" "proved/polypar is not the file that was proved"
chmod +x "$copy/proved/polypar"
for library in "glibc 2.31" "glibc 1.99" ""; do
    printf '#!/bin/sh\necho "%s"\n' "$library" >"$work/tools/getconf"
    call_bare "$copy/polypar"
    expect_unfit "the C library '$library'" "proved/polypar wants Linux on x86-64 with glibc 2.34"
done
for library in "glibc 2.34" "glibc 2.100" "glibc 3.0"; do
    printf '#!/bin/sh\necho "%s"\n' "$library" >"$work/tools/getconf"
    call_bare "$copy/polypar"
    expect "the C library '$library'" 9 0
done
cp -p "$copy/proved/record" "$work/record"
head -n 2 "$work/record" >"$copy/proved/record"
call_bare "$copy/polypar"
expect_unfit "a record that is cut off" "no build of it is kept"
cp -p "$work/record" "$copy/proved/record"

rm -rf "$copy/crates/polypar_main/out"
: >"$copy/crates/polypar_main/out"
call_bare "$copy/polypar"
expect "where nothing can be remembered" 9 0
rm "$copy/crates/polypar_main/out"
if unshare -m true 2>/dev/null; then
    printed=$(PATH=$work/tools:$PATH unshare -m sh -c \
        "mount --bind '$copy' '$copy' && mount -o remount,bind,ro '$copy' && exec '$copy/polypar' one two" 2>&1)
    status=$?
    expect "in a checkout that can't be written" 9 0
    expect_same "in a checkout that can't be written: words" "$printed" "shipped one two"
fi

printed=$(POLYPAR_PROVE=1 PATH=$work/bin:$PATH TMPDIR=$work/tmp "$copy/polypar" one two 2>"$work/said")
status=$?
said=$(cat "$work/said")
builds=$(wc -l <"$work/builds")
expect "POLYPAR_PROVE proves" 7 1
expect_word "POLYPAR_PROVE is told" "since POLYPAR_PROVE is set"
expect_word "other bytes are told" "polypar: warning: what $(cat "$work/version") built here is not the program of proved/record, by kit 1"
call "$copy/polypar"
expect "its own build is started" 7 1
call_bare "$copy/polypar"
expect "its own build is started without rt" 7 0
cp -p "$copy/crates/polypar_main/out/polypar_main" "$copy/proved/polypar"
echo "// edited" >>"$copy/crates/polypar/src/lib.rt"
record
touch "$copy/proved/polypar"
printed=$(POLYPAR_PROVE=1 PATH=$work/bin:$PATH TMPDIR=$work/tmp "$copy/polypar" one two 2>"$work/said")
status=$?
said=$(cat "$work/said")
builds=$(wc -l <"$work/builds")
expect "POLYPAR_PROVE proves what was edited" 7 2
expect_word "the same bytes are told" "polypar: what was proved and built here has the same bytes as proved/polypar"

echo "$passed passed, $failed failed"
[ "$failed" -eq 0 ]
