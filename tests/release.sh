#!/usr/bin/env bash
# Makes releases of this commit in clones of its own, and tries them: the same bytes twice, what is refused, what --check tells, programs that run where
# they are unpacked and where they are installed, and none of the host's symbols that Debian 12 lacks. ./build has to have built the programs.
# As root, with the word `debian`, it also installs the package in folders that debootstrap makes of Debian 11, 12 and 13, or of those in SUITES, and
# runs the tests there; that wants the network, or in MIRROR the address of a mirror. It isn't called by .ci/run. The last line is `N passed, M failed`.
set -u
top=$(cd "$(dirname "${BASH_SOURCE[0]}")/.." && pwd)
work=$(mktemp -d)
trap 'rm -rf "$work"' EXIT
chmod 755 "$work"
passed=0
failed=0

# is NAME FOUND WANTED: compares two texts.
is() {
    if [ "$2" = "$3" ]; then
        passed=$((passed + 1))
    else
        failed=$((failed + 1))
        printf '%s: %s\n%s: wanted %s\n' "$1" "$2" "$1" "$3"
    fi
}

# clone NAME: a clone of this commit, with the built programs of this checkout.
clone() {
    local program
    git clone -q "$top" "$work/$1"
    for program in ospack oscc oscheck osrun osview osvectors; do
        mkdir -p "$work/$1/crates/$program/out"
        cp -p "$top/crates/$program/out/$program" "$top/crates/$program/out/$program.built" "$work/$1/crates/$program/out"
    done
    (cd "$work/$1" && ./build) >"$work/log" 2>&1 || { cat "$work/log"; exit 1; }
}

# refused NAME TOLD WORD..: asks the first clone for a release, which is refused in one line, and leaves nothing.
refused() {
    local told
    told=$(cd "$work/one" && ./release "${@:3}" 2>&1)
    is "$1: status" "$?" 2
    is "$1" "$told" "release: $2"
    is "$1: nothing is written" "$(ls "$work/new" 2>&1)" "ls: cannot access '$work/new': No such file or directory"
}

version=$(cat "$top/VERSION")
archive=osrun-$version-linux-x86_64
package=osrun_${version}_amd64.deb
clone one
sleep 1
clone two
printf '12 passed, 0 failed\n' >"$work/ci.log"
touch -d 2026-01-02T03:04:05Z "$work/ci.log"

# What is refused.
head=$(git -C "$top" rev-parse HEAD)
echo >>"$work/one/README.md"
refused "a commit with changes" "the commit has changes: README.md" "$work/new"
git -C "$work/one" checkout -q README.md
: >"$work/one/more"
refused "a file that isn't committed" "the commit has changes: more" "$work/new"
rm "$work/one/more"
sed -i "s/^commit .*/commit 0123456789/" "$work/one/crates/osview/out/osview.built"
refused "a program of another commit" "osview was built from commit 0123456789, and not from this one: ./build proves and builds it" "$work/new"
mv "$work/one/crates/osview/out/osview.built" "$work/built"
refused "a program without a record" "osview isn't built: ./build proves and builds it" "$work/new"
sed "s/^commit .*/commit $head/" "$work/built" >"$work/one/crates/osview/out/osview.built"
printf '\n' >>"$work/one/crates/osview/out/osview"
refused "a program that was changed" "osview isn't what ./build left, or its sources aren't: ./build proves and builds it" "$work/new"
cp -p "$top/crates/osview/out/osview" "$work/one/crates/osview/out"
mkdir "$work/full"
: >"$work/full/file"
refused "a folder that isn't empty" "$work/full isn't empty" "$work/full"
refused "a file in place of a folder" "$work/full/file is no folder" "$work/full/file"
refused "a log that isn't there" "there is no file $work/none" --ci "$work/none" "$work/new"
echo '12 passed, 1 failed' >"$work/bad.log"
refused "a log of a run that failed" "the last line of $work/bad.log isn't that of an rt ci that passed" --ci "$work/bad.log" "$work/new"
refused "other words" "usage: ./release [--dev] [--ci LOG] [DIR]" --all

# The same bytes, in two folders at two times.
began=$SECONDS
(cd "$work/one" && ./release --ci "$work/ci.log" "$work/a") >"$work/log" 2>&1 || cat "$work/log"
is "less than five minutes" "$((SECONDS - began < 300))" 1
(cd "$work/two" && ./release --ci "$work/ci.log" "$work/b") >"$work/log" 2>&1 || cat "$work/log"
is "the same bytes twice" "$(diff -r "$work/a" "$work/b" && echo same)" same
is "what is in a release" "$(ls "$work/a" | tr '\n' ' ')" "SHA256SUMS $archive.tar.xz $package "
is "an archive below ten megabytes" "$(($(stat -c %s "$work/a/$archive.tar.xz") < 10000000))" 1
echo >>"$work/two/README.md"
(cd "$work/two" && ./release --dev "$work/dev") >"$work/log" 2>&1 || cat "$work/log"
is "what is in a release for trying" "$(ls "$work/dev" | tr '\n' ' ')" "SHA256SUMS osrun-$version-dev-linux-x86_64.tar.xz osrun_$version-dev_amd64.deb "

# What --check tells.
# checked NAME STATUS TOLD FOLDER
checked() {
    local told
    told=$(cd "$work/one" && ./release --check "$4" 2>&1)
    is "$1: status" "$?" "$2"
    is "$1" "$(echo "$told" | sed 's/[0-9]\{3,\} sources/sources/')" "$3"
}
checked "a release" 0 "$work/a: 2 files as SHA256SUMS has them, 14 programs and sources as PROVED has them" "$work/a"
cp -r "$work/a" "$work/changed"
printf x >>"$work/changed/$package"
checked "a longer package" 1 "$package: changed" "$work/changed"
printf 'x' | dd of="$work/changed/$archive.tar.xz" bs=1 seek=5000 conv=notrunc 2>/dev/null
checked "a changed archive beside it" 1 "$archive.tar.xz: changed
$package: changed" "$work/changed"
rm "$work/changed/$package"
cp "$work/a/$archive.tar.xz" "$work/changed"
checked "a missing package" 1 "$package: missing" "$work/changed"
cp "$work/a/$package" "$work/changed"
: >"$work/changed/more"
checked "a file that no sum is of" 1 "more: not in SHA256SUMS" "$work/changed"
mkdir "$work/a folder"
tar -C "$work/a folder" --strip-components=1 -xf "$work/a/$archive.tar.xz"
checked "an archive that was unpacked" 0 "$work/a folder: 14 programs and sources as PROVED has them" "$work/a folder"
cp -r "$work/a folder" "$work/b folder"
printf x >>"$work/b folder/libexec/osrun/osrun"
checked "a program that was changed" 1 "libexec/osrun/osrun: changed" "$work/b folder"
is "what PROVED tells of rt ci" "$(sed -n 3,4p "$work/a folder/PROVED")" "kit $(sed -n 's/^kit //p' "$top/crates/osrun/out/osrun.built")
rt ci 2026-01-02T03:04:05Z: 12 passed, 0 failed"

# No symbol of a later glibc than the start of programs needs: Debian 12 has 2.36, and 13 has 2.41.
newest=$(for program in "$work/a folder"/libexec/osrun/os*; do objdump -T "$program"; done | grep -o 'GLIBC_2[.0-9]*' | sort -uV | tail -n 1)
is "the newest symbols of glibc" "$newest" GLIBC_2.34

# Programs that run where they are unpacked, by a name that leads to them, and copied into the folder of a user who isn't root.
gen='seed 1 blocks 2
input 8 sum 1363
output 8 sum 1172
status 0'
is "a folder with a blank in its name" "$("$work/a folder/bin/osrun" gen 1 2)" "$gen"
ln -s "$work/a folder/bin/osrun" "$work/name"
is "a name that leads to a program" "$("$work/name" gen 1 2)" "$gen"
is "the folder of programs as the current one" "$(cd "$work/a folder/bin" && sh osrun gen 1 2)" "$gen"
is "the version" "$("$work/a folder/bin/oscheck" --version)" "oscheck $version, commit ${head:0:8}, $(sed -n 's/^kit //p' "$top/crates/osrun/out/osrun.built")"
(cd "$work" && ulimit -f 8 && exec "$work/a folder/bin/osrun" run "$top/examples/invert.c" "$top/docs/GUIDE.md") >"$work/limited" 2>"$work/report"
is "a file that may grow no further" "$?" 6
is "words that are refused on a terminal" "$(script -qec "'$work/a folder/bin/osrun'" /dev/null | tr -d '\r' | head -n 2)" "usage
osrun run PROGRAM INPUT [--workers N] [--budget N] [--control N]"
home=$work/home
mkdir -p "$home/.local"
if [ "$(id -u)" = 0 ]; then
    chown 65534:65534 "$home" "$home/.local"
    as="setpriv --reuid 65534 --regid 65534 --clear-groups"
else
    as=''
fi
$as cp -r "$work/a folder/bin" "$work/a folder/libexec" "$work/a folder/share" "$home/.local"
is "~/.local of a user who isn't root" "$($as "$home/.local/bin/osrun" gen 1 2)" "$gen"
dpkg-deb -x "$work/a/$package" "$work/root"
is "the programs of the package" "$("$work/root/usr/bin/osrun" gen 1 2)" "$gen"

# The pages and the package.
if command -v man >/dev/null; then
    for page in "$work/a folder"/share/man/man1/*.1; do
        is "$(basename "$page")" "$(MANWIDTH=80 man -l --warnings "$page" 2>&1 >/dev/null)" ""
    done
else
    echo "man isn't here: the pages aren't looked at"
fi
if command -v lintian >/dev/null; then
    is "lintian" "$(lintian --allow-root --fail-on error "$work/a/$package" 2>&1 | grep '^E:')" ""
else
    echo "lintian isn't here: the package isn't looked at"
fi

# files ROOT: what is in a folder of Debian's, but for what dpkg and apt keep for themselves.
files() {
    (cd "$1" && find . -xdev \( -path ./proc -o -path ./sys -o -path ./dev -o -path ./tmp -o -path ./var/lib/dpkg -o -path ./var/lib/apt -o -path ./var/log -o -path ./var/cache \) -prune -o -print | sort)
}

# What glibc of Debian 11, which is too old, says of the program.
old="version \`GLIBC_2.34' not found"

debian() {
    local suite root told
    for suite in ${SUITES:-bullseye bookworm trixie}; do
        root=${ROOTS:-$work}/root-$suite
        [ -d "$root/usr" ] || debootstrap --variant=minbase --include=python3 "$suite" "$root" ${MIRROR-http://deb.debian.org/debian} >"$work/log" 2>&1 ||
            { tail -n 3 "$work/log"; is "$suite is made" no yes; continue; }
        files "$root" >"$work/before"
        cp "$work/a/$package" "$root/tmp"
        chroot "$root" dpkg -i "/tmp/$package" >"$work/log" 2>&1
        if [ "$suite" = bullseye ]; then
            is "$suite: the package asks for a later glibc" "$(grep -c 'osrun depends on libc6 (>= 2.34)' "$work/log")" 1
            chroot "$root" osrun gen 1 2 >"$work/log" 2>&1
            is "$suite: its glibc is too old" "$(grep -c "$old" "$work/log" | sed 's/[1-9].*/some/')" some
            chroot "$root" dpkg --purge osrun >"$work/log" 2>&1
        else
            is "$suite: gen" "$(chroot "$root" osrun gen 1 2)" "$gen"
            mount -t proc proc "$root/proc"
            mount --rbind /dev "$root/dev"
            told=$(chroot "$root" env OSRUN_BIN=/usr/bin HOME=/tmp /usr/share/doc/osrun/tests/command.sh 2>&1)
            echo "$told" | tail -n 20 | head -n -1
            is "$suite: the tests" "$(echo "$told" | tail -n 1 | sed 's/^[0-9]* passed/passed/')" "passed, 0 failed"
            umount -l "$root/dev" "$root/proc"
            chroot "$root" apt-get remove -y osrun >"$work/log" 2>&1
        fi
        files "$root" >"$work/after"
        is "$suite: what is left" "$(diff "$work/before" "$work/after")" ""
    done
}
[ "${1-}" != debian ] || debian

echo "$passed passed, $failed failed"
[ "$failed" = 0 ]
