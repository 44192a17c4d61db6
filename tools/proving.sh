# Of the launcher `polypar`: proves all that the program stands on, crates side by side, and builds it (`build`). It
# takes the launcher's variables, its `give_up`, and the functions of tools/sources.sh.

work=
running=
proved=

# The crates that can be proved now, the one to begin with first.
ready() {
    { cat "$root/seconds.txt" 2>/dev/null; } | awk -v proved="$proved" -v running="$running" "$reader"'
        END {
            mark("polypar_main", seen)
            rank()
            words = split(proved, word, " ")
            for (i = 1; i <= words; i++) done[word[i]]
            words = split(running, word, " ")
            for (i = 1; i <= words; i++) busy[word[i]]
            while ((crate = next_ready()) != "") { print crate; busy[crate] }
        }' "$root/crates.txt" part=seconds -
}

# How many processes may prove at once: one for each processor that has 2.5 GB of free memory, and at most 8.
processes() {
    processors=$(nproc 2>/dev/null || getconf _NPROCESSORS_ONLN 2>/dev/null || echo 1)
    { cat /proc/meminfo 2>/dev/null; } | awk -v most="$processors" '
        /^MemAvailable:/ && $2 < most * 2500000 { most = int($2 / 2500000) }
        END { print (most < 1 ? 1 : most > 8 ? 8 : most) }'
}

# How many words there are.
count() {
    echo $#
}

# How many crates are proved side by side: one for each 5 GB of free memory, and at most as many as there are processes.
side_by_side() {
    { cat /proc/meminfo 2>/dev/null; } | awk -v most="$most" '
        BEGIN { side = most }
        /^MemAvailable:/ && $2 < side * 5000000 { side = int($2 / 5000000) }
        END { print (side < 1 ? 1 : side) }'
}

# How many processes prove a crate that is started now, beside those that run, where so many can be started: the
# processes are shared out, two at most, since each of a crate's processes reads for itself what the crate stands on.
share() {
    at_once=$(($(count $running) + $1))
    [ "$at_once" -le "$side" ] || at_once=$side
    echo $((most / at_once < 2 ? 1 : 2))
}

# Makes the trees: copies of the program's sources, in each of which one crate is proved at a time, since a run of `rt`
# keeps others out of all that its crate stands on. What the trees of an earlier call hold is brought home first.
plant() {
    bring_home || return 1
    for tree in $(seq "$side"); do
        tree=$trees/$tree
        mkdir -p "$tree/crates" && cp -p "$root/HANDLES" "$tree" || return 1
        for crate in $(crates); do
            grep "^$crate[ :]" "$root/crates.txt" >>"$tree/crates.txt"
            mkdir "$tree/crates/$crate"
            for part in src specs proofs; do
                from=$root/crates/$crate/$part
                [ ! -e "$from" ] || cp -Rp "$from" "$tree/crates/$crate" || return 1
            done
        done
    done
}

# Brings home what the trees hold of crates whose proofs did not end, and what is not there; no tree is left.
bring_home() {
    for kept in "$trees"/*/crates/*/out/incremental "$trees"/*/crates/*/out; do
        kept=${kept%/incremental}
        crate=${kept%/out}
        home=$root/crates/${crate##*/}/out
        [ ! -e "$kept" ] || [ -e "$home" ] || mv "$kept" "$home" || return 1
    done
    rm -rf "$trees"
}

# A tree in which nothing is proved now.
free_tree() {
    for tree in "$trees"/*; do
        [ -e "$tree/busy" ] || echo "$tree"
    done | head -n 1
}

# Brings what was proved of the crate $1 from the tree $2 home, and lends the library that was made of it to all trees,
# where no other run of `rt` changes it.
lend() {
    [ -e "$2/crates/$1/out" ] || return 0
    mv "$2/crates/$1/out" "$root/crates/$1/out" || return 1
    library=$root/crates/$1/out/rlib
    [ -e "$library" ] || return 0
    for tree in "$trees"/*; do
        kept=$tree/crates/$1/out
        mkdir -p "$kept" && { cp -Rl "$library" "$kept" 2>/dev/null || cp -Rp "$library" "$kept"; } || return 1
    done
}

# Brings what is kept of the crate $1 to the tree $2, where it is proved next.
take_out() {
    : >"$2/busy"
    rm -rf "$2/crates/$1/out"
    [ ! -e "$root/crates/$1/out" ] || mv "$root/crates/$1/out" "$2/crates/$1/out"
}

# Has `rt` prove the crate $1 in a tree in the background by $2 processes, or make the program; its status goes to a
# file. What stands on all other crates is reading for the most part, and is done by one process.
start() {
    echo "$1 $(date +%s) $(ls -d "$root/crates/$1/out/incremental" 2>/dev/null)" >>"$work/clock"
    word=lib
    place=$(free_tree)
    if [ "$1" = polypar_main ]; then
        word=run place=$root
        bring_home || give_up "what was proved can't be brought to $root/crates"
    else
        take_out "$1" "$place" || give_up "what is kept of $1 can't be brought to $place"
    fi
    echo "$place" >"$work/$1.place"
    case $1 in polypar | polypar_main) set -- "$1" 1 ;; esac
    (
        cd "$place/crates/$1" || exit
        rt "$word" --jobs "$2" </dev/null >"$work/$1.log" 2>&1 &
        trap 'kill "$!"; wait "$!"; exit' TERM
        wait "$!"
        echo $? >"$work/$1.end"
    ) 2>/dev/null &
    echo $! >"$work/$1.process"
    running="$running $1"
}

# Starts what can be proved now, as many crates as are proved side by side.
start_ready() {
    waiting=$(ready)
    [ -n "$waiting" ] || return 0
    jobs=$(share "$(count $waiting)")
    for crate in $waiting; do
        [ "$(count $running)" -lt "$side" ] || break
        start "$crate" "$jobs"
    done
}

# Notes when the crate $1 was done, and how long it took, in the manner of seconds.txt, where nothing of it was kept.
note() {
    echo "$1 $(date +%s)" >>"$work/clock"
    [ -e "$out/seconds" ] || sed -n '/^#/p' "$root/seconds.txt" 2>/dev/null >"$out/seconds"
    awk -v crate="$1" '$1 == crate { if (NF > 2) exit; if (begun) print crate, $2 - begun; begun = $2 }' \
        "$work/clock" 2>/dev/null >>"$out/seconds"
}

# The crates that are kept as they are, as if begun and done long ago: a library was made of each, and no file of it or
# of one below it is newer.
unchanged() {
    [ "${built_with:-$kit}" = "$kit" ] && cd "$root/crates" || return 0
    for crate in $(crates); do
        made=$crate/out/rlib
        [ ! -e "$made" ] || [ "$(find $(crates "$crate") -name out -prune -o -type f -newer "$made" -print)" ] ||
            printf '%s 0\n' "$crate" "$crate"
    done
}

# About how many minutes are left, put into $1, or nothing where seconds.txt has none of the crates: those that are not
# done are gone through as they will be proved. How long the others took, against seconds.txt, tells the pace; a minute
# that is taken as listed keeps the first of them from telling it alone.
minutes() {
    { cat "$root/seconds.txt" 2>/dev/null; } | awk -v form="$1" -v now="$(date +%s)" -v at_once="$side" '
        part == "clock" { if (!($1 in begun)) begun[$1] = $2; else if (!($1 in done)) done[$1] = $2; next }
        '"$reader"'
        function begin(crate, past) { busy[crate] = pace * seconds[crate] - past; under_way++ }
        END {
            mark("polypar_main", seen)
            for (i = 1; i <= count; i++) if (order[i] in seconds) { known++; sum += seconds[order[i]] }
            if (!known) exit
            for (i = 1; i <= count; i++) if (!(order[i] in seconds)) seconds[order[i]] = sum / known
            took = listed = 60
            for (crate in done) if (begun[crate] > 0) { took += done[crate] - begun[crate]; listed += seconds[crate] }
            pace = took / listed
            rank()
            for (crate in begun) if (!(crate in done)) begin(crate, now - begun[crate])
            for (;;) {
                while (under_way < at_once && (crate = next_ready()) != "") begin(crate, 0)
                if (!under_way) break
                first = ""
                for (crate in busy) if (first == "" || busy[crate] < busy[first]) first = crate
                step = busy[first] > 0 ? busy[first] : 0
                for (crate in busy) if ((busy[crate] -= step) <= 0) { done[crate]; delete busy[crate]; under_way-- }
                left += step
            }
            printf form, (left < 90 ? "about a minute" : "about " int(left / 60 + 0.5) " minutes")
        }' "$root/crates.txt" part=clock "$work/clock" part=seconds -
}

# Tells what is done, why, and for about how long.
announce() {
    (unchanged) >"$work/clock"
    kept=$(ls -d "$root"/crates/*/out/incremental 2>/dev/null)
    [ "$most" = 1 ] && noun=process || noun=processes
    echo "polypar: proving the program's $(count $(crates)) crates, since ${unfit:-$why} (later calls start at once)"
    echo "polypar: $(minutes "${kept:+at most }%s ")with $most $noun; what is proved is kept, also after an interrupt"
}

# Tells on a terminal that a crate is proved, how many are left, and for about how long.
tell() {
    [ ! -t 2 ] ||
        echo "polypar: $1 is proved, $(($(count $(crates)) - $(count $proved))) to go$(minutes ", %s left")" >&2
}

# Takes up what has ended. The program's own status says nothing: it is there just where it was proved.
collect() {
    under_way=$running
    running=
    for crate in $under_way; do
        if [ ! -s "$work/$crate.end" ]; then
            running="$running $crate"
            continue
        fi
        if [ "$crate" = polypar_main ]; then
            [ -x "$program" ] || fail "$crate"
        else
            place=$(cat "$work/$crate.place")
            rm -f "$place/busy"
            [ "$(cat "$work/$crate.end")" = 0 ] || fail "$crate"
            lend "$crate" "$place" || give_up "what was proved of $crate can't be brought to $root/crates"
        fi
        note "$crate"
        proved="$proved $crate"
        [ "$crate" = polypar_main ] || tell "$crate"
    done
}

# Ends what is under way, and leaves no temporary file.
clean_up() {
    for crate in $running; do
        kill "$(cat "$work/$crate.process")" 2>/dev/null
    done
    wait
    [ -z "$work" ] || rm -rf "$work"
}

# Gives up with what `rt` said of a crate.
fail() {
    cat "$work/$1.log" >&2
    give_up "$1 was not proved"
}

# Proves all that the program stands on, and builds the program. What is proved already takes no time.
build() {
    [ -n "$kit" ] ||
        give_up "${unfit:-$why}, and the command rt of the Rattle kit, which builds the program, is not on the PATH"
    [ -t 2 ] ||
        echo "polypar: proving and building the program, since ${unfit:-$why} (an hour; after an edit what changed)" >&2
    rm -f "$stamp" "$program"
    work=$(mktemp -d) || give_up "no temporary folder can be made for the build's logs"
    most=$(processes)
    side=$(side_by_side)
    [ ! -t 2 ] || announce >&2
    plant || give_up "the sources can't be copied to $trees"
    start_ready
    while [ -n "$running" ]; do
        sleep 0.2
        collect
        start_ready
    done
    rm -rf "$work"
    write_stamp
    compare
}

# Tells whether the program that was built is the one of the record, where that is of these sources.
compare() {
    { read -r built_from && read -r version && read -r sum; } 2>/dev/null <"$record" || return 0
    [ "$built_from" = "$sources" ] || return 0
    if [ "$(sha256sum <"$program")" = "$sum" ]; then
        echo "polypar: what was proved and built here has the same bytes as proved/polypar" >&2
    else
        echo "polypar: warning: what $(rt version) built here is not the program of proved/record, by $version" >&2
    fi
}
