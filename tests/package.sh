#!/bin/sh
# Makes the packages of a release twice, and compares them byte by byte; unpacks each into a root of its own, puts the
# loader and the C library of this machine there and nothing else, and runs each kernel of examples/ there by one worker
# and by two: in a `chroot`, where one is allowed, else by path. Tries what tools/package refuses. It takes ten seconds
# of a processor; the Debian package is tried where `dpkg-deb` is.
# usage: tests/package.sh
set -u
root=$(CDPATH= cd -- "$(dirname -- "$0")/.." && pwd)
work=$(mktemp -d)
trap 'rm -rf "$work"' EXIT
PATH=$PATH:/usr/sbin:/sbin
unset SOURCE_DATE_EPOCH
copy=$work/copy
passed=0
failed=0

# Whether $2 and $3 are the same; $1 says what was tried.
expect_same() {
    if [ "$2" = "$3" ]; then
        passed=$((passed + 1))
    else
        failed=$((failed + 1))
        printf '%s: "%s" for "%s"\n' "$1" "$2" "$3"
    fi
}

# Whether the files $2 and $3 are the same, byte by byte; $1 says what was tried.
expect_same_bytes() {
    expect_same "$1" "$(cmp "$2" "$3" 2>&1)" ""
}

# Whether the packages in the folder $2 are those that were made first; $1 says what was tried.
expect_same_packages() {
    for package in "$work"/first/*; do
        expect_same_bytes "${package##*/} $1" "$2/${package##*/}" "$package"
    done
}

# Copies parts of the repository to the copy.
renew() {
    for part in "$@"; do
        rm -rf "${copy:?}/$part"
        cp -R "$root/$part" "$copy/$part"
    done
}

# How a command is started with a folder as its root: `chroot`, the same as super-user of a space of its own, or `path`,
# where neither is allowed.
way_in() {
    for way in chroot 'unshare -r chroot'; do
        if $way / true 2>/dev/null; then
            echo "$way"
            return
        fi
    done
    echo path
}

# Puts what the executable loads into the root $1, each file at its own place.
furnish() {
    for file in $(ldd "$root/proved/polypar" | grep -o '/[^ ]*'); do
        mkdir -p "$1${file%/*}"
        cp -L "$file" "$1$file"
    done
}

# Starts the program $2 of the root $1 with the words behind it.
start() {
    place=$1 program=$2
    shift 2
    case $way in
    path) "$place$program" "$@" ;;
    *) $way "$place" "$program" "$@" ;;
    esac
}

# Whether the program $2 of the root $1 is the proved one, and prints the stored arrays of each kernel in the folder $3.
expect_answers() {
    expect_same_bytes "the executable $2" "$1$2" "$root/proved/polypar"
    furnish "$1"
    kernels=0
    for kernel in "$1$3"/*.c; do
        name=${kernel##*/}
        for workers in 1 2; do
            start "$1" "$2" run --workers "$workers" <"$kernel" >"$work/printed" 2>&1
            expect_same "$2 run --workers $workers of $name: status" $? 0
            expect_same_bytes "$2 run --workers $workers of $name" "$work/printed" "$root/examples/${name%.c}.out"
        done
        kernels=$((kernels + 1))
    done
    expect_same "the kernels beside $2" "$kernels" "$(ls "$root"/examples/*.out | wc -l)"
}

# Whether all files of the archive $2 have one owner and one time, that of the release, and no modes but these.
expect_plain() {
    TZ=UTC tar --numeric-owner --full-time -tvf "$2" >"$work/listed"
    expect_same "owner and time in $1" "$(awk '{ print $2, $4, $5 }' "$work/listed" | sort -u)" \
        "0/0 $(date -u -d "@$time" '+%F %T')"
    expect_same "modes in $1" "$(awk '{ print $1 }' "$work/listed" | LC_ALL=C sort -u | tr '\n' ' ')" \
        "-rw-r--r-- -rwxr-xr-x drwxr-xr-x "
}

# Whether the completions are in their places, those of bash in $1, those of zsh in $2.
expect_completions() {
    [ -e "$root/tools/completion" ] || return
    "$root/tools/completion" bash | cmp -s - "$1/polypar"
    expect_same "completion of bash" $? 0
    "$root/tools/completion" zsh | cmp -s - "$2/_polypar"
    expect_same "completion of zsh" $? 0
}

# Whether the tool $1 of a package asks the executable of the same package, not that which the PATH has.
expect_own() {
    [ -e "$root/tools/polypar-cc" ] || return
    sed '/^%%$/,$d' "$root/examples/copy.c" >"$work/copy.c"
    said=$(unset POLYPAR && PATH=$work/others:$PATH "$1" --function copy -o "$work/tiles.c" "$work/copy.c" 2>&1)
    expect_same "$1" "$? $said" "0 "
    expect_same "$1: parallel loops" "$(grep -c '#pragma omp parallel for' "$work/tiles.c")" 1
}

# Whether tools/package of the copy, asked for packages in the folders behind $1, or in $work/refused, gives up with the
# line `package: $1` and makes none; what was spoiled in the copy is mended after that.
expect_refusal() {
    line=$1
    shift
    [ $# -gt 0 ] || set -- "$work/refused"
    said=$("$copy/tools/package" "$@" 2>&1)
    expect_same "a refusal" "$? $said" "1 package: $line"
    expect_same "$line: files" "$(ls "$work/refused" 2>/dev/null)" ""
    renew proved VERSION CHANGES.md
}

version=$(cat "$root/VERSION")
tarball=polypar-$version-linux-x86_64.tar.gz
debian=polypar_${version}_amd64.deb
way=$(way_in)
names=$tarball
if command -v dpkg-deb >/dev/null; then
    names="$tarball $debian"
else
    echo "the Debian package is not tried, since dpkg-deb is not there"
fi

printed=$(TZ=UTC && export TZ && umask 022 && "$root/tools/package" "$work/first" 2>"$work/said" | sed 's/.*\///')
expect_same "the packages are told" "$(echo $printed)" "$names"
expect_same "the packages are there" "$(echo $(ls "$work/first" 2>/dev/null))" "$names"
if [ "$failed" -gt 0 ]; then
    cat "$work/said"
    echo "$passed passed, $failed failed"
    exit 1
fi

tree=$work/roots/tarball
mkdir -p "$tree"
tar -xzf "$work/first/$tarball" -C "$tree"
tree=$tree/polypar-$version
mkdir "$work/others"
printf '#!/bin/sh\nexit 9\n' >"$work/others/polypar"
chmod +x "$work/others/polypar"
time=$(stat -c %Y "$tree/polypar")
commit=$(cd -P "$root" && git -c safe.directory="$PWD" log -1 --format=%ct 2>/dev/null) &&
    expect_same "the time is that of the last commit" "$time" "$commit"

mkdir -p "$copy/bench"
(umask 077 && renew tools docs examples proved VERSION CHANGES.md README.md LICENSE NOTICES bench/example_kernels.sh)
touch -d "@$time" "$copy/CHANGES.md"
(TZ=Asia/Tokyo && export TZ && umask 077 && "$copy/tools/package" >/dev/null)
expect_same_packages "elsewhere, without git, with another umask, in another time zone" "$copy/dist"

expect_same "what the executable loads" "$(echo $(ldd "$root/proved/polypar" | grep -o '/[^ ]*' | sed 's/.*\///'))" \
    "libc.so.6 ld-linux-x86-64.so.2"
expect_plain "$tarball" "$work/first/$tarball"
expect_answers "$work/roots/tarball" "/polypar-$version/polypar" "/polypar-$version/examples"
expect_completions "$tree/share/bash-completion/completions" "$tree/share/zsh/site-functions"
expect_own "$tree/tools/polypar-cc"
for file in README.md LICENSE NOTICES CHANGES.md VERSION docs/LANGUAGE.md docs/CERTIFICATES.md; do
    expect_same_bytes "$file" "$tree/$file" "$root/$file"
done
expect_same_bytes "the manual page" "$tree/share/man/man1/polypar.1" "$root/docs/polypar.1"

if [ "$names" != "$tarball" ]; then
    tree=$work/roots/debian
    dpkg-deb -R "$work/first/$debian" "$tree"
    dpkg-deb --fsys-tarfile "$work/first/$debian" >"$work/debian.tar"
    expect_plain "$debian" "$work/debian.tar"
    expect_answers "$tree" /usr/bin/polypar /usr/share/doc/polypar/examples
    expect_completions "$tree/usr/share/bash-completion/completions" "$tree/usr/share/zsh/vendor-completions"
    expect_own "$tree/usr/bin/polypar-cc"
    expect_same "its sums" "$(cd "$tree" && md5sum --quiet -c DEBIAN/md5sums 2>&1)" ""
    expect_same "what it is" "$(echo $(dpkg-deb -f "$work/first/$debian" Package Version Architecture))" \
        "Package: polypar Version: $version Architecture: amd64"
    least=$(grep -ao 'GLIBC_2[.0-9]*' "$root/proved/polypar" | sort -uV | sed -n '$s/GLIBC_//p')
    expect_same "what it depends on" "$(dpkg-deb -f "$work/first/$debian" Depends)" "libc6 (>= $least)"
    gzip -dc "$tree/usr/share/man/man1/polypar.1.gz" | cmp -s - "$root/docs/polypar.1"
    expect_same "the manual page" $? 0
    mkdir "$work/commands"
    echo "$PATH" | tr : '\n' | while read -r folder; do ln -s "$folder"/* "$work/commands" 2>/dev/null; done
    rm "$work/commands/dpkg-deb"
    said=$(cd "$work" && SOURCE_DATE_EPOCH=$time PATH=$work/commands "$copy/tools/package" third 2>&1 >/dev/null)
    expect_same "without dpkg-deb" "$? $said" "0 package: no Debian package, since dpkg-deb is not there"
    expect_same "what is made without dpkg-deb" "$(ls "$work/third")" "$tarball"
    expect_same_bytes "$tarball, at the time that is said" "$work/third/$tarball" "$work/first/$tarball"
fi

expect_refusal "usage: tools/package [FOLDER]" "$work/refused" "$work/refused"
expect_refusal "no folder can be made at $copy/VERSION/there" "$copy/VERSION/there"
for wrong in '' 1.0 1.0.0-rc1 v1.0.0 "1.0.0
1.0.1"; do
    echo "$wrong" >"$copy/VERSION"
    expect_refusal "VERSION is not one line of the form N.N.N"
done
echo 1.0.99 >"$copy/VERSION"
expect_refusal "CHANGES.md has no part ## 1.0.99"
rm "$copy/proved/record"
expect_refusal "proved/polypar and proved/record are not there"
echo >>"$copy/proved/polypar"
expect_refusal "proved/polypar is not the file that proved/record names"
sed -i '3s/^./x/' "$copy/proved/record"
expect_refusal "proved/polypar is not the file that proved/record names"
sed -i '4s/.*/new/' "$copy/proved/record"
expect_refusal "line 4 of proved/record is not of the form N.N"

echo "the packages were run by $way"
echo "$passed passed, $failed failed"
[ "$failed" -eq 0 ]
