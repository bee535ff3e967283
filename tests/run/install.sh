#!/usr/bin/env bash
# What release/install, release/deb and release/wheel make, aiger-check there, and the Python module in a clone: in a
# copy of the repository without the kit, whose path has a space.
#
#     tests/run/install.sh                     of the released program and library
#     tests/run/install.sh FOLDER PROGRAM      of this program, and of the library as release/library makes it
#
# The last line is 'N passed, M failed', with ', K skipped' behind it where something was skipped.
. "$(dirname "${BASH_SOURCE[0]}")/../lib/judge.sh"
. "$top/release/state.sh"
unset LIBAIGTOOLS PYTHONPATH LD_LIBRARY_PATH PREFIX
PATH=$(tr : '\n' <<< "$PATH" | grep -v '/sbin$' | paste -sd :)   # as that of a user, whoever runs this

# check NAME WORD..: whether the words succeed; what they say is shown where they do not
check() {
    if "${@:2}" > "$work/said" 2>&1; then
        pass
    else
        failed=$((failed + 1))   # fail is that of release/state.sh, which ends the script
        printf 'FAILED %s\n' "$1"
        sed 's/^/    /' "$work/said" | head -n 20
    fi
}

# same WANTED WORD..: whether the words print this
same() {
    local came status=0
    came=$("${@:2}") || status=$?
    if [ "$status" != 0 ] || [ "$came" != "$1" ]; then
        printf 'wanted %s\ncame   %s\nstatus %s\n' "$1" "$came" "$status"
        return 1
    fi
}

# fails STATUS TEXT WORD..: whether the words end with this status, and their standard error has this text
fails() {
    local status=0
    "${@:3}" > "$work/out" 2> "$work/err" || status=$?
    if [ "$status" != "$1" ] || ! grep -qF "$2" "$work/err"; then
        cat "$work/out" "$work/err"
        printf 'status %s\n' "$status"
        return 1
    fi
}

# The copy, whose program and library are the released ones or those that are given.
tree="$work/a clone"
mkdir -p "$tree/docs" "$tree/examples"
cp -r "$top"/{release,include,python,man,LICENSE,CHANGELOG.md,pyproject.toml,aiger-check} "$tree"
cp "$top"/docs/{FORMAT,TOOLS}.md "$tree/docs"
cp -r "$top"/examples/{c,verilog} "$tree/examples"
release_given() {
    local name version
    version=$(sed -n 's/^Version: //p' "$1/aigtools.pc")
    cp "$1/aigtools.pc" "$tree/release"
    gzip -1 -n -c "$2" > "$tree/release/aiger-linux-x86_64-static.gz"
    for name in libaigtools.a libaigtools.so.1; do gzip -1 -n -c "$1/$name" > "$tree/release/$name.gz"; done
    printf '%s\n' "version $version" "static $(sha256 < "$2")" "archive $(sha256 < "$1/libaigtools.a")" \
        "library $(sha256 < "$1/libaigtools.so.1")" > "$tree/release/MANIFEST"
}
[ $# = 0 ] || release_given "$@"
manifest_of_tree() { (top=$tree && manifest "$1"); }
version=$(manifest_of_tree version)
module="import aigtools; print(aigtools.convert(b'aig 1 1 0 1 0\n3\n', ascii=1))"
module_says="b'aag 1 1 0 1 0\\n2\\n3\\n'"

# converts PLACE SYSROOT LIBRARIES: whether the example in C is made by what pkg-config says of this place, and converts
# with the library that lies there, but not without it
converts() {
    local place=$1 sysroot=$2 libraries=$3 flags
    flags=$(PKG_CONFIG_SYSROOT_DIR=$sysroot PKG_CONFIG_LIBDIR=$place pkg-config --cflags --libs aigtools) &&
        cc -Wall -Werror -o "$work/converts" "$tree/examples/c/aigconvert.c" $flags &&
        ! "$work/converts" < "$top/examples/half_adder.aag" 2> /dev/null &&
        LD_LIBRARY_PATH=$libraries "$work/converts" < "$top/examples/half_adder.aag" | cmp - "$work/image"
}
gzip -dc "$tree/release/aiger-linux-x86_64-static.gz" > "$work/aiger" && chmod 755 "$work/aiger"
"$work/aiger" aigtoaig --keep-map "$top/examples/half_adder.aag" "$work/image"

# answer_on_model PROGRAM: what this aiger-check says of a model, with the program aiger that it finds by itself, and
# how it ends
printf 'aag 3 1 2 0 0 1\n2\n4 2\n6 4\n6\n' > "$work/model.aag"
answer_on_model() { ( cd "$work" && unset AIGER && "$1" --quiet model.aag; echo "status $?" ); }
answer='b0 (model.aag): reached at 2
1 assertion: 1 reached
status 1'
checks="aiger-check $(sed -n 's/^## \[\([0-9][^]]*\)\].*/\1/p' "$top/CHANGELOG.md" | head -n 1)"
# checks_at PLACE PROGRAM: aiger-check where it was put
checks_at() {
    check "aiger-check of $1" same "$checks" "$2" --version
    if command -v cadical > /dev/null; then
        check "a model, by aiger-check of $1" same "$answer" answer_on_model "$2"
    else
        skip 1 'no cadical'
    fi
}

# options_of WORD..: the options in the help of these words
options_of() { "$@" --help | grep -oE '(^|[ ,])--?[A-Za-z-]+' | tr -d ', ' | LC_ALL=C sort -u; }

# not_in_manual PROGRAM: the options in the help of this aiger-check that its manual page does not have
not_in_manual() {
    local option
    for option in $(options_of "$1"); do
        grep -qF -- "Cm ${option//-/\\-}" "$top/man/aiger-check.1" || echo "$option"
    done
}

# designs_at FOLDER PROGRAM: what this aiger-check says of each assertion of the designs in a folder
designs_at() { ( cd "$1" && unset AIGER && "$2" --quiet --time 10 --top queue ./*.sv | sed '$d; s|(\./|(|' ); }

# --- release/install ---
install_files="bin/aiger
bin/aiger-check
include/aigtools.h
lib/libaigtools.a
lib/libaigtools.so
lib/libaigtools.so.1
lib/pkgconfig/aigtools.pc
$(cd "$top/python" && find aiger_check -name '*.py' | LC_ALL=C sort | sed 's|^|lib/python3/dist-packages/|')
lib/python3/dist-packages/aigtools.py
share/aiger/installed
share/bash-completion/completions/aiger
share/bash-completion/completions/aiger-check
share/fish/vendor_completions.d/aiger-check.fish
share/fish/vendor_completions.d/aiger.fish
share/man/man1/aiger-check.1
share/man/man1/aiger.1
share/zsh/site-functions/_aiger
share/zsh/site-functions/_aiger-check"
# but for what Python keeps of modules
files_below() { (cd "$1" && find . ! -type d ! -path '*/__pycache__/*' -printf '%P\n' | LC_ALL=C sort); }
staged=$work/staged
# in_order WORD..: what the words print, in the order of the list above
in_order() { "$@" | LC_ALL=C sort; }
check 'install below a folder, and what it prints' same "$(sed "s|^|$staged/opt/aig/|" <<< "$install_files")" \
    in_order "$tree/release/install" /opt/aig --destdir "$staged"
check 'the files below it' same "$install_files" files_below "$staged/opt/aig"
check 'the list that is kept' same "$install_files" grep -v '/$' "$staged/opt/aig/share/aiger/installed"
check 'nothing beside them' same opt ls "$staged"
check 'the program' same "aiger $("$work/aiger" --version | cut -c 7-)" "$staged/opt/aig/bin/aiger" --version
check 'the prefix for pkg-config' grep -qx 'prefix=/opt/aig' "$staged/opt/aig/lib/pkgconfig/aigtools.pc"
check 'Python finds the library' same "$module_says" \
    env PYTHONPATH="$staged/opt/aig/lib/python3/dist-packages" python3 -c "$module"
ln -s "$staged/opt/aig/bin/aiger-check" "$work/linked"
checks_at 'a prefix' "$staged/opt/aig/bin/aiger-check"
checks_at 'a prefix, by a link' "$work/linked"
check 'its options stand in the manual page' same '' not_in_manual "$work/linked"
check 'another aiger for it' fails 16 'aiger-check: ' env AIGER=false "$work/linked" "$work/model.aag"
check 'the destination by =' "$tree/release/install" --destdir="$work/by name" /opt/aig
check 'its files' same "$install_files" files_below "$work/by name/opt/aig"
check 'install to a prefix alone' fails 0 "LD_LIBRARY_PATH=$work/prefix/lib" "$tree/release/install" "$work/prefix"
check 'its files' same "$install_files" files_below "$work/prefix"
check 'compiled, as who starts it may not write there' eval 'ls "$work"/prefix/lib/python3/dist-packages/aiger_check/__pycache__/cli.*'
check 'installed again over these' fails 0 "PYTHONPATH=$work/prefix" "$tree/release/install" "$work/prefix/"

usage='usage: release/install [FOLDER] [--destdir DIR]'
: > "$work/file"
check 'another option' fails 2 "$usage" "$tree/release/install" --all
check 'its help' same "$usage               installs, and prints the name of each file" \
    sh -c '"$0" --help | head -n 1' "$tree/release/install"
check 'two folders' fails 1 'install: one FOLDER' "$tree/release/install" /a /b
check 'the root as folder' fails 1 'install: FOLDER is one below /' "$tree/release/install" /
check 'no folder' fails 1 'install: --destdir wants a folder' "$tree/release/install" --destdir
check 'a place that cannot be written' fails 1 "install: cannot write $work/file/share/aiger/installed: Not a directory" \
    "$tree/release/install" "$work/file"

# --- where FOLDER is, and how it is emptied again ---
install_in() { ( cd "$work" && HOME=$work/home "$tree/release/install" "$@" ) 2> /dev/null; }
check 'the folder that a variable names' env PREFIX="$work/by variable" "$tree/release/install"
check 'its files' same "$install_files" files_below "$work/by variable"
check 'a folder before the variable' env PREFIX="$work/file" "$tree/release/install" "$work/by word"
check 'a relative folder' install_in rel/../relative/here
check 'its files' same "$install_files" files_below "$work/relative/here"
check 'its prefix for pkg-config' grep -qx "prefix=$work/relative/here" "$work/relative/here/lib/pkgconfig/aigtools.pc"
check 'a folder at home that no shell has written out' install_in '~/.local'
check 'the program there' same "aiger $version" "$work/home/.local/bin/aiger" --version
if HOME=$work/home python3 -c 'import site, sys; sys.exit(not site.ENABLE_USER_SITE)'; then
    check 'Python finds the module there' same "$module_says" env HOME="$work/home" python3 -c "$module"
else
    skip 1 'this Python looks for no modules of a user'
fi
all_below() { find "$1" -mindepth 1 | LC_ALL=C sort; }
removed_from() { "$tree/release/install" --uninstall "$1" | sed 's/^removed //' | LC_ALL=C sort; }
check 'uninstalled there' same "$(HOME=$work/home files_below "$work/home/.local" |
    sed "s|^|$work/home/.local/|")" removed_from "$work/home/.local"
check 'nothing is left of it' test ! -e "$work/home/.local"
check 'what holds it stays' test -d "$work/home"
check 'uninstalled twice' fails 1 "install: nothing is installed in $work/home/.local" \
    "$tree/release/install" --uninstall "$work/home/.local"
mkdir -p "$work/prefix/lib/mine" && : > "$work/prefix/lib/mine/file"
check 'with a version before it, of which a file has gone' eval '
    : > "$work/prefix/lib/old"; echo lib/old >> "$work/prefix/share/aiger/installed"; install_in prefix'
check 'its files' same "$(printf '%s\n' "$install_files" lib/mine/file | LC_ALL=C sort)" files_below "$work/prefix"
check 'what it installed' same "$install_files" grep -v '/$' "$work/prefix/share/aiger/installed"
PYTHONPATH=$work/prefix/lib/python3/dist-packages python3 -c 'import aigtools, aiger_check.cli'
PYTHONPATH=$work/prefix/lib/python3/dist-packages python3 -m aiger_check --version > /dev/null
cp -r "$work/prefix" "$work/moved"
check 'uninstalled beside a file of somebody else' install_in --uninstall prefix
check 'what is left' same "$work/prefix/lib
$work/prefix/lib/mine
$work/prefix/lib/mine/file" all_below "$work/prefix"
check 'installed there once more' install_in prefix
echo ../file >> "$work/moved/share/aiger/installed"
check 'a list with a name that lies elsewhere' fails 1 "names ../file, which lies elsewhere" \
    "$tree/release/install" --uninstall "$work/moved"
check 'which stays' test -e "$work/file"
cp -r "$staged" "$work/staged again"
check 'uninstalled below a folder' "$tree/release/install" --uninstall /opt/aig --destdir "$work/staged again"
check 'and nothing is left there' same "$work/staged again/opt" all_below "$work/staged again"
mkdir "$work/bare"
ln -s "$(command -v readlink)" "$(command -v dirname)" "$work/bare"
for place in "$tree" "$staged/opt/aig/bin"; do
    check 'aiger-check without python3' fails 16 'aiger-check: there is no python3: it needs Python 3.9 or later' \
        env -i PATH="$work/bare" "$place/aiger-check"
done

# --- completions ---
share=$staged/opt/aig/share
# completed WORD..: what bash completes the last of these words to
completed() {
    bash -c '. "$1/bash-completion/completions/$2"
        COMP_WORDS=("${@:2}") COMP_CWORD=$(($# - 2))
        "_${2//-/_}"
        printf "%s\n" "${COMPREPLY[@]}" | LC_ALL=C sort -u' bash "$share" "$@"
}
# not_in FILE TEXT OPTION..: the options that do not stand in what a shell reads
not_in_fish() {
    local option
    for option in "${@:2}"; do
        grep -qE -- "^complete -c $1.* -[ls] $(sed 's/^-*//' <<< "$option") " "$share/fish/vendor_completions.d/${1%% *}.fish" ||
            echo "$option"
    done
}
not_in_zsh() {
    local option
    for option in "${@:2}"; do grep -qF -- "'*$option[" "$share/zsh/site-functions/_$1" || echo "$option"; done
}
# listed_options WORD..: the options at the beginnings of lines of the help of these words
listed_options() {
    "$@" --help | sed 's/ <[^>]*>//g' | grep -oE '^ {2,6}--?[A-Za-z-]+(, --?[A-Za-z-]+)*' | grep -oE -- '--?[A-Za-z-]+' |
        LC_ALL=C sort -u
}
aiger_commands=$("$work/aiger" --help | sed -n '/^Commands:/,/^$/s/^  \([a-z]*\) .*/\1/p')
for name in $aiger_commands; do
    check "bash completes $name" same "$name" completed aiger "$name"
    [ "$name" != help ] || continue
    options=$(listed_options "$work/aiger" "$name")
    check "bash completes the options of $name" same "$options" completed aiger "$name" -
    check "fish has the options of $name" same '' not_in_fish "aiger -n '__fish_seen_subcommand_from $name'" $options
    check "zsh has the options of $name" same '' not_in_zsh aiger $options
done
options=$(listed_options python3 -B "$tree/python/aiger_check")
check 'bash completes the options of aiger-check' same "$options" completed aiger-check -
check 'fish has the options of aiger-check' same '' not_in_fish aiger-check $options
check 'zsh has the options of aiger-check' same '' not_in_zsh aiger-check $options
check 'bash leaves files to itself' same '' completed aiger aigsim ''
for shell in zsh fish; do
    if command -v "$shell" > /dev/null; then
        check "$shell reads its completions" eval '
            for name in "$share"/zsh/site-functions/* "$share"/fish/*/*; do
                [[ $name != */$shell/* ]] || $shell -n "$name" || exit
            done'
    else
        skip 1 "no $shell"
    fi
done

# --- the Python module in a clone ---
left_behind() { find "$tree/python" "$tree/release" -newer "$work/aiger" -name '*libaigtools*' ! -name '*.gz'; }
in_clone() { PYTHONPATH="$tree/python" python3 -Bc "$module"; }
check 'the module in a clone' same "$module_says" in_clone
check 'it leaves no library behind' same '' left_behind
check 'a library that is named and not there' fails 1 "ImportError: $work/none" env LIBAIGTOOLS="$work/none" \
    PYTHONPATH="$tree/python" python3 -Bc "$module"
check 'a library without its calls' fails 1 'has no aigtools_convert: it is older than this module' \
    env LIBAIGTOOLS=libc.so.6 PYTHONPATH="$tree/python" python3 -Bc "$module"

# a released file that is broken or missing
mv "$tree/release/libaigtools.so.1.gz" "$work/kept.gz"
head -c 1000 "$work/kept.gz" > "$tree/release/libaigtools.so.1.gz"
check 'a broken library' fails 1 'install: the released libaigtools.so.1 is missing or broken' \
    "$tree/release/install" "$work/none"
check 'nothing is written then' test ! -e "$work/none"
check 'a broken library for Python' fails 1 'release/install of the repository installs libaigtools.so.1' in_clone
rm "$tree/release/libaigtools.so.1.gz"
check 'no library for Python' fails 1 'release/install of the repository installs libaigtools.so.1' in_clone
check 'no library for a package' fails 125 'the released libaigtools.so.1 is missing or broken' \
    "$tree/release/deb" "$work"
rm -f "$work"/*.deb
mv "$work/kept.gz" "$tree/release/libaigtools.so.1.gz"

# --- release/deb ---
packages=$work/packages
mkdir "$packages"
multiarch=/usr/lib/x86_64-linux-gnu
field() { dpkg-deb -f "$packages/$1"_*.deb "$2"; }
contents() { dpkg-deb -c "$packages/$1"_*.deb | awk '!/^d/ { print $6 }' | LC_ALL=C sort; }
all_files() {
    local name
    for name in aiger aiger-check libaigtools-dev libaigtools1 python3-aigtools; do contents "$name"; done
}
package_files="./usr/bin/aiger
./usr/share/bash-completion/completions/aiger
./usr/share/doc/aiger/CHANGELOG.md.gz
./usr/share/doc/aiger/FORMAT.md.gz
./usr/share/doc/aiger/changelog.gz
./usr/share/doc/aiger/copyright
./usr/share/fish/vendor_completions.d/aiger.fish
./usr/share/man/man1/aiger.1.gz
./usr/share/zsh/vendor-completions/_aiger
./usr/bin/aiger-check
$(cd "$top/python" && find aiger_check -name '*.py' | LC_ALL=C sort | sed 's|^|./usr/lib/python3/dist-packages/|')
./usr/share/bash-completion/completions/aiger-check
./usr/share/doc/aiger-check/CHANGELOG.md.gz
./usr/share/doc/aiger-check/TOOLS.md.gz
./usr/share/doc/aiger-check/changelog.gz
./usr/share/doc/aiger-check/copyright
$(cd "$top/examples/verilog" && printf './usr/share/doc/aiger-check/examples/%s\n' * | LC_ALL=C sort)
./usr/share/fish/vendor_completions.d/aiger-check.fish
./usr/share/man/man1/aiger-check.1.gz
./usr/share/zsh/vendor-completions/_aiger-check
./usr/include/aigtools.h
.$multiarch/libaigtools.a
.$multiarch/libaigtools.so
.$multiarch/pkgconfig/aigtools.pc
./usr/share/doc/libaigtools-dev/CHANGELOG.md.gz
./usr/share/doc/libaigtools-dev/FORMAT.md.gz
./usr/share/doc/libaigtools-dev/changelog.gz
./usr/share/doc/libaigtools-dev/copyright
./usr/share/doc/libaigtools-dev/examples/aigconvert.c
./usr/share/doc/libaigtools-dev/examples/aigconvert.rs
./usr/share/doc/libaigtools-dev/examples/levels.c
./usr/share/doc/libaigtools-dev/examples/levels.rs
./usr/share/doc/libaigtools-dev/examples/read_all.h
.$multiarch/libaigtools.so.1
./usr/share/doc/libaigtools1/CHANGELOG.md.gz
./usr/share/doc/libaigtools1/changelog.gz
./usr/share/doc/libaigtools1/copyright
./usr/lib/python3/dist-packages/aigtools.py
./usr/share/doc/python3-aigtools/CHANGELOG.md.gz
./usr/share/doc/python3-aigtools/changelog.gz
./usr/share/doc/python3-aigtools/copyright"
# install_packages ROOT: into a system of its own that has nothing, so what Debian has is not looked for, and scripts run
# outside of it. dpkg wants programs of folders that are on the PATH of root alone.
dpkg_in() { PATH=$PATH:/usr/sbin:/sbin dpkg --root="$1" --log=/dev/null --force-script-chrootless "${@:2}"; }
install_packages() {
    mkdir -p "$1/var/lib/dpkg/info" "$1/var/lib/dpkg/updates"
    : > "$1/var/lib/dpkg/status"
    dpkg_in "$1" --ignore-depends=libc6,python3 -i "$packages"/*.deb
}
remove_packages() { dpkg_in "$1" -r aiger aiger-check libaigtools-dev libaigtools1 python3-aigtools; }
# below_root ROOT: what is there but what dpkg itself keeps
below_root() { find "$1" -mindepth 1 -path "$1/var" -prune -o -print; }
# newest_needed FILE: the newest version of the C library that it asks for
newest_needed() { objdump -T "$1" | grep -o 'GLIBC_[0-9.]*' | sort -uV | tail -n 1; }

if ! command -v dpkg-deb > /dev/null; then
    skip 20 'no dpkg-deb'
else
    root=$work/root
    mkdir "$root"
    check 'packages' "$tree/release/deb" "$packages"
    check 'their names' same "aiger-check_${version}_all.deb
aiger_${version}_amd64.deb
libaigtools-dev_${version}_amd64.deb
libaigtools1_${version}_amd64.deb
python3-aigtools_${version}_all.deb" env LC_ALL=C ls "$packages"
    check 'their files' same "$package_files" all_files
    check 'what the header needs' same "libaigtools1 (= $version)" field libaigtools-dev Depends
    check 'what the module needs' same "python3, libaigtools1 (>= $version)" field python3-aigtools Depends
    check 'what aiger-check needs' same "python3 (>= 3.9), python3-aigtools (>= $version), aiger (>= $version)" \
        field aiger-check Depends
    check 'what it works with' same 'yosys, berkeley-abc, cadical' field aiger-check Recommends
    check 'what the library needs' same 'libc6 (>= 2.14)' field libaigtools1 Depends
    if [ "$(id -u)" = 0 ]; then
        check 'the packages install' install_packages "$root"
        check 'and are compiled' eval 'ls "$root"/usr/lib/python3/dist-packages/aiger_check/__pycache__/cli.*'
    else
        for package in "$packages"/*.deb; do dpkg-deb -x "$package" "$root"; done
        skip 2 'only root installs packages, so they were unpacked'
    fi
    if command -v objdump > /dev/null; then
        check 'the library asks for no newer C library' same GLIBC_2.14 newest_needed "$root$multiarch/libaigtools.so.1"
    else
        skip 1 'no objdump'
    fi
    check 'what the program needs' same '' field aiger Depends
    check 'the program of the package' same "$(cat "$top/examples/canonical/lock.aag")" \
        "$root/usr/bin/aiger" aigtoaig --ascii "$top/examples/lock.aag"
    for name in aiger aiger-check; do
        check "the manual page of $name" test -s "$root/usr/share/man/man1/$name.1.gz"
    done
    check 'the module of the package' same "$module_says" env LD_LIBRARY_PATH="$root$multiarch" \
        PYTHONPATH="$root/usr/lib/python3/dist-packages" python3 -c "$module"
    export LIBAIGTOOLS=$root$multiarch/libaigtools.so.1
    checks_at 'the package' "$root/usr/bin/aiger-check"
    if command -v yosys > /dev/null && command -v berkeley-abc > /dev/null && command -v cadical > /dev/null; then
        # the lines of README, of the copies that the package has
        wanted=$(sed -n 's|^    \(.*\)examples/verilog/\(.*: .*\)|\1\2|p' "$top/README.md")
        check 'the designs of the package' same "$wanted" \
            designs_at "$root/usr/share/doc/aiger-check/examples" "$root/usr/bin/aiger-check"
    else
        skip 1 'no yosys, berkeley-abc or cadical'
    fi
    unset LIBAIGTOOLS
    check 'no folder' fails 125 "there is no folder $work/none" "$tree/release/deb" "$work/none"
fi
check 'the help of release/deb' same 'usage: release/deb [FOLDER]' eval '"$tree/release/deb" --help | cut -c 1-27 | head -n 1'
check 'another option of it' fails 2 'usage: release/deb [FOLDER]' "$tree/release/deb" --all

# --- programs by pkg-config ---
if command -v cc > /dev/null && command -v pkg-config > /dev/null; then
    check 'a program over what was installed' converts "$work/prefix/lib/pkgconfig" '' "$work/prefix/lib"
    check 'a program over what was installed below a folder' \
        converts "$staged/opt/aig/lib/pkgconfig" "$staged" "$staged/opt/aig/lib"
    if [ -n "${root-}" ]; then
        check 'a program over the packages' converts "$root$multiarch/pkgconfig" "$root" "$root$multiarch"
    else
        skip 1 'no dpkg-deb'
    fi
    check 'the version for pkg-config' same "$version" \
        env PKG_CONFIG_LIBDIR="$work/prefix/lib/pkgconfig" pkg-config --modversion aigtools
else
    skip 4 'no C compiler, or no pkg-config'
fi

# --- removed again ---
if command -v dpkg-deb > /dev/null && [ "$(id -u)" = 0 ]; then
    PYTHONPATH=$root/usr/lib/python3/dist-packages LD_LIBRARY_PATH=$root$multiarch python3 -c 'import aigtools, aiger_check.cli'
    check 'the packages go' remove_packages "$root"
    check 'and leave nothing' same '' below_root "$root"
else
    skip 2 'only root installs packages, by dpkg'
fi

# --- a wheel, and pip ---
check 'the help of release/wheel' same 'usage: release/wheel [FOLDER]' eval '"$tree/release/wheel" --help | cut -c 1-29'
check 'another option of it' fails 2 'usage: release/wheel' "$tree/release/wheel" --all
check 'no folder for it' fails 1 "wheel: there is no folder $work/none" "$tree/release/wheel" "$work/none"
wheel=aigtools-$version-py3-none-manylinux2014_x86_64.whl
mkdir "$work/wheels" "$work/wheels again"
check 'a wheel' same "$work/wheels/$wheel" "$tree/release/wheel" "$work/wheels"
check 'made again' "$tree/release/wheel" "$work/wheels again"
check 'it is the same, byte for byte' cmp "$work/wheels/$wheel" "$work/wheels again/$wheel"
check 'and well formed' python3 -m zipfile -t "$work/wheels/$wheel"
# pip_at WORD..: pip of the environment, which takes nothing from elsewhere
pip_at() { PIP_CONFIG_FILE=/dev/null "$work/venv/bin/pip" --no-cache-dir --disable-pip-version-check "$@"; }
in_venv() { ( cd / && "$work/venv/bin/$1" "${@:2}" ); }
if python3 -m venv "$work/venv" > /dev/null 2>&1 && pip_at --version > /dev/null 2>&1; then
    all_below "$work/venv" | grep -v __pycache__ > "$work/venv before"
    for what in "$work/wheels/$wheel" "$tree"; do
        check "pip install ${what##*/}" pip_at install --no-index --no-build-isolation "$what"
        check 'the version for pip' same "Version: $version" eval 'pip_at show aigtools | grep ^Version'
        check 'the module' same "$module_says" in_venv python -c "$module"
        check 'the program' same "aiger $version" in_venv aiger --version
        checks_at 'the environment' "$work/venv/bin/aiger-check"
        check 'the manual page' test -s "$work/venv/share/man/man1/aiger-check.1"
        check 'all that is recorded is there' eval 'pip_at check && pip_at show -f aigtools > /dev/null'
        check 'pip uninstall' pip_at uninstall -y aigtools
        all_below "$work/venv" | grep -v __pycache__ > "$work/venv after"
        check 'which leaves no file' eval 'comm -13 "$work/venv before" "$work/venv after" |
            while IFS= read -r name; do [ -d "$name" ] || exit 1; done'
    done
    check 'nothing is left in the clone' same '' eval 'find "$tree" -newer "$work/venv before" -name "*.whl" -o -name build'
else
    skip 21 'no venv or no pip (Debian: apt install python3-venv)'
fi

finish
