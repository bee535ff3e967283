#!/usr/bin/env bash
# The launcher, prove and release/: in a folder of the repository's shape, with a command in the place of rt that proves
# nothing and says what rt says, so that a proof takes no time.
#
#     tests/run/launcher.sh
. "$(dirname "${BASH_SOURCE[0]}")/../lib/judge.sh"
. "$top/tests/lib/pages.sh"
. "$top/tests/lib/streams.sh"
need_program

tree=$work/tree
out=$tree/crates/aiger/out
mkdir -p "$tree"/crates/{low,next,aiger,beside}/{src,specs} "$tree/release"
cp "$top"/{aiger,prove} "$tree"
cp "$top"/release/{state.sh,side_by_side.py,make} "$tree/release"
# in the place of release/static, which needs the kit: a program that can be told from what was linked
printf '#!/bin/sh\n{ cat "%s"; printf static; } > "$1" && chmod +x "$1" && echo of_this\n' "$out/aiger" \
    > "$tree/release/static"
chmod +x "$tree/release/static"
printf '# crates\naiger: low next std\nbeside: low\nlow: memchr\nnext:\n' > "$tree/crates.txt"
printf '// one\n' | tee "$tree"/crates/{low,next,aiger,beside}/src/lib.rt > "$tree/crates/low/specs/More.antt"
echo 'Handles allowed: none.' > "$tree/HANDLES"
echo 'aag 0 0 0 0 0' > "$tree/crates/aiger/stdin"
# each copy of the sources that prove makes lies here, while it proves
export TMPDIR=$work/copies
mkdir "$TMPDIR"

# It is called for one crate, or for all. The files slow, broken and kept name crates. The first is held up by the file
# held, in a process of its own, so that it is proved after what it can be proved beside; if none is, low is proved before
# next. The file stray says what else goes wrong. As rt, it takes no name where it runs as a gate.
cat > "$work/rt" << 'RT'
#!/usr/bin/env bash
here=$(dirname "$0")
[ "$1" != version ] || { echo 'a kit'; exit; }
is_named() { grep -qx "$name" "$here/$1" 2> /dev/null; }
stray=$(cat "$here/stray" 2> /dev/null)
echo "$*" >> "$here/calls"
[ -z "$2" ] || [ "$CI" != true ] || { echo 'rt: a call with a name is not the gate' >&2; exit 2; }
[ "$stray" != stop ] || { echo 'rt: HANDLES is one line' >&2; echo '0 passed, 1 failed'; exit 2; }
[ -z "$2" ] || [ "$stray" != older ] || { echo 'usage: rt new FOLDER'; exit 2; }
if [ -z "$2" ]; then
    find . -type f | LC_ALL=C sort > "$here/copied"
    cp crates.txt "$here/lines"
fi
failed=
for name in ${2:-low next aiger}; do
    if is_named slow; then
        echo $$ > "$here/rt_pid"
        ( echo "$BASHPID" > "$here/pid"; while [ -e "$here/held" ]; do sleep 0.02; done ) > /dev/null 2>&1
    elif [ "$2" = next ] && [ ! -e "$here/slow" ]; then
        until [ -e ../low_ended ] && ! kill -0 "$(cat ../low_ended)" 2> /dev/null; do sleep 0.02; done
        sleep 0.1
    fi
    if is_named kept || { [ -z "$2" ] && [ "$name" != aiger ] && [ "$stray" != older ]; }; then
        echo "rt: $name is kept: an earlier run on this machine proved the same files over the same libraries"
    elif is_named broken; then
        echo "== $name"
        echo 'so far: 1 of 2 functions checked; the verdict comes last'
        echo "note: src/$name.rt:64:5: it is not proved that what the function ensures holds"
        echo "fn $name::first: no proof: expected answers in ./proofs/first/Answers.antt"
        echo 'help: write ./proofs/first/Answers.antt with these lines'
        echo "fn $name::second: no proof: it calls \`$name::first\`, which is not proved"
        echo 'logic=not-proved'
        echo "rt: $name NOT PROVED"
        failed+="$name "
    else
        printf '== %s\nfn %s::first: proved\nlogic=proved functions=2\nrt: %s proved\n' "$name" "$name" "$name"
    fi
done
if [ -z "$2" ]; then
    if [ "$stray" != 'no program' ]; then mkdir -p crates/aiger/out && cp "$here/program" crates/aiger/out/aiger; fi
    if [ "$stray" = run ]; then
        failed='aiger (run)'
        echo 'rt: aiger: the program ended with status 1, and not 0'
    fi
    [ "$stray" != note ] || echo 'rt: note: the disk has 2000 MB left'
fi
[ "$2" != low ] || { echo $$ > ../low_ends && mv ../low_ends ../low_ended; }
[ -z "$failed" ] || { echo "rt: FAILED: $failed"; echo '2 passed, 1 failed'; exit 1; }
echo "3 passed, 0 failed${2:+ ($2 and the crates below alone: not the gate)}"
RT
chmod +x "$work/rt"
cp "$program" "$work/program"

# look_again: the next launch looks at the sources, even in the same second as the one before it
look_again() { rm -f "$out/launch.seen"; }
launch() { look_again && RT=$work/rt "$tree/aiger" "$@"; }
edit() { echo '// more' >> "$tree/crates/low/src/lib.rt" && look_again; }
on_the_path() { ( unset RT; export PATH=$1:/usr/bin:/bin && shift && exec "$@" ); }
without_kit() { look_again && on_the_path "$work/none" "$tree/aiger" "$@"; }
begins='aiger: proving and linking the program from its sources: up to an hour on four cores the first time ..
'
links_it="aiger: 3 of 3: aiger is proved
aiger: the program is linked: $out/aiger
"
proves_it="${begins}aiger: 1 of 3: low is proved
aiger: 2 of 3: next is proved
$links_it"
proves="${proves_it}aiger: the released program is of other sources\n"
needs_kit='aiger: cannot prove and link the program: rt of the Rattle kit is not on the PATH\n'

# --- no program, no kit ---
: > "$work/calls"
wants '' "$needs_kit" 125
check 'no program and no kit' without_kit --help

# --- the program that is released for these sources, without the kit ---
first_launch() { rm -rf "$out" && without_kit "$@"; }
make_release() {
    rm -rf "$out" && RT=$work/rt "$tree/prove" 2> "$work/prove.err" && RT=$work/rt "$tree/release/make" > "$work/made" &&
        rm -rf "$out"
}
# in_time NAME WORD..: as check; and whether the words take at most two seconds of a processor, whatever else runs
# beside them
in_time() {
    local took TIMEFORMAT='%3U %3S'
    { time check "$@" 2>&3; } 3>&2 2> "$work/took"
    took=$(awk '{ print int(1000 * ($1 + $2)) }' "$work/took")
    if [ "$took" -le 2000 ]; then pass; else fail "$1: its time" 'wanted at most 2000 ms' "came   $took ms"; fi
}
make_release
version=$("$program" --version)
wants "version ${version#aiger }\nkit a kit\n" '' 0
check 'what the manifest says of version and kit' head -n 2 "$tree/release/MANIFEST"
: > "$work/calls"
wants "$small" '' 0
in_time 'the first launch of a fresh clone' first_launch aigtoaig --ascii < "$work/small"
check 'the second launch' without_kit aigtoaig --ascii < "$work/small"
check 'the third launch' without_kit aigtoaig --ascii < "$work/small"
wants 'static' '' 0
check 'it is the static program' tail -c 6 "$out/released"
wants '' 'aiger: -: line 1: not an AIGER file\n' 1
check 'a refusal by the launcher' without_kit aigtoaig --ascii < /dev/null
wants "$version\n" '' 0
check 'the version by the launcher' without_kit --version
wants '' '' 0
check 'nothing is started of the kit' cat "$work/calls"

# the repository itself, where its released program is of its sources
real=$work/real
mkdir "$real"
( cd "$top" && tar -cf - aiger prove crates.txt release crates/*/{src,specs,proofs} 2> /dev/null ) | tar -xf - -C "$real"
if ( top=$real && . "$real/release/state.sh" && read_places && [ "$(sources_sum)" = "$(manifest sources)" ] ); then
    wants "$version\n" '' 0
    in_time 'the first launch of this repository, without the kit' on_the_path "$work/none" "$real/aiger" --version
else
    skip 2 'the released program is of other sources'
fi

# at once: eight first launches
at_once() {
    local number
    rm -rf "$out"
    for number in {1..8}; do without_kit aigtoaig --ascii < "$work/small" > "$work/at_once.$number" 2>&1 & done
    wait
    cat "$work"/at_once.* | sort -u | wc -l
    ls "$out"
}
wants "$(printf '%b' "$small" | sort -u | wc -l)\nlaunch.seen\nlaunch.stamp\nreleased\n" '' 0
check 'eight first launches at once' at_once

# a folder that cannot be written, as in a read-only checkout
unwritable() {
    rm -rf "$out"
    : > "$out"
    on_the_path "$work/none" "$@"
    local status=$?
    rm -f "$out"
    return "$status"
}
wants "$small" '' 0
check 'a checkout that cannot be written' unwritable "$tree/aiger" aigtoaig --ascii < "$work/small"
no_place() { unwritable env TMPDIR="$work/none" "$tree/aiger" "$@"; }
wants '' 'aiger: cannot write a temporary file\n' 125
check 'a checkout that cannot be written, and no temporary folder' no_place aigtoaig --ascii < "$work/small"

# a release that is broken: what makes it so, and mends it
broken_release() {
    local name=$1 file=$2
    shift 2
    cp "$tree/release/$file" "$work/kept"
    "$@" "$tree/release/$file"
    wants '' "${says}$needs_kit" 125
    check "$name" first_launch aigtoaig --ascii < "$work/small"
    cp "$work/kept" "$tree/release/$file"
}
says='aiger: the released program in release/ is missing or broken\n'
broken_release 'a released program that is cut' aiger-linux-x86_64-static.gz truncate -s 1000
broken_release 'a released program of no bytes' aiger-linux-x86_64-static.gz truncate -s 0
broken_release 'another released program' aiger-linux-x86_64-static.gz sh -c 'gzip -c /bin/sh > "$0"'
broken_release 'no released program' aiger-linux-x86_64-static.gz rm
broken_release 'another sum of the program' MANIFEST sed -i '/^static /s/.$/x/'
says=
broken_release 'another sum of the sources' MANIFEST sed -i '/^sources/s/.$/x/'
broken_release 'no manifest' MANIFEST rm
broken_release 'an empty manifest' MANIFEST truncate -s 0
wants "$small" '' 0
check 'and once it is mended' first_launch aigtoaig --ascii < "$work/small"
wants "$small" '' 0
other_program() { printf x >> "$out/released"; without_kit "$@"; }
check 'another program in its place' other_program aigtoaig --ascii < "$work/small"

# by the processor's list of what it has
has='cx16 lahf_lm pni popcnt sse4_1 sse4_2 ssse3'
by_list() { printf 'flags\t\t: fpu %s avx\n' "$1" > "$work/cpuinfo" && CPUINFO=$work/cpuinfo first_launch "${@:2}"; }
wants "$small" '' 0
check 'a processor that has what the program needs' by_list "$has" aigtoaig --ascii < "$work/small"
wants '' 'aiger: this processor is older than x86-64-v2, which the program needs\n' 125
for name in $has; do
    check "a processor without $name" by_list "${has/$name/${name}x}" aigtoaig --ascii < "$work/small"
done
wants "$small" '' 0
no_list() { CPUINFO=$1 first_launch "${@:2}"; }
check 'a system without such a list' no_list "$work/none" aigtoaig --ascii < "$work/small"
check 'a list of no processor' no_list /dev/null aigtoaig --ascii < "$work/small"

# one byte of a source
: > "$work/calls"
sed -i 's/one/two/' "$tree/crates/low/src/lib.rt"
wants '' "$needs_kit" 125
check 'a source changed by one byte needs the kit' without_kit aigtoaig --ascii < "$work/small"
sed -i 's/two/one/' "$tree/crates/low/src/lib.rt"
wants "$small" '' 0
check 'and no more, once it is back' without_kit aigtoaig --ascii < "$work/small"
touch "$tree/crates/beside/src/lib.rt" "$tree/crates.txt" "$tree/crates/low/src/lib.rt"
check 'a source that is only touched' without_kit aigtoaig --ascii < "$work/small"
echo '// more' >> "$tree/crates/beside/src/lib.rt"
: > "$tree/crates/low/src/lib.rt~"
check 'a crate that the program does not stand on, and no source' without_kit aigtoaig --ascii < "$work/small"
wants '' '' 0
check 'nothing was started of the kit' cat "$work/calls"

# --- what it proves, and when, where the released program is another one ---
sed -i 's/^program ./program x/' "$tree/release/MANIFEST"
edit
wants "$small" "$proves" 0
check 'a changed source is proved' launch aigtoaig --ascii < "$work/small"
asks='ci\nci low\nci next\n'
wants "$asks" '' 0
check 'what it asks of rt' env LC_ALL=C sort "$work/calls"
copied='./HANDLES\n./crates.txt\n./crates/aiger/src/lib.rt\n./crates/aiger/stdin\n'
copied+='./crates/low/specs/More.antt\n./crates/low/src/lib.rt\n./crates/low/src/lib.rt~\n./crates/next/src/lib.rt\n'
wants "$copied" '' 0
check 'what it copies' cat "$work/copied"
wants 'aiger: low next std\nlow: memchr\nnext:\n' '' 0
check 'the lines of crates.txt that it copies' cat "$work/lines"
wants "$small" '' 0
check 'the launch after it' launch aigtoaig --ascii < "$work/small"
again="\n\nUsage: aiger <COMMAND>\n\nFor more information, try '--help'.\n"
"$program" --help > "$work/help"
wants '' "$(cat "$work/help")\n" 2
check 'no words to the launcher' launch
wants '' "error: unrecognized subcommand 'aigtoaig --ascii'\n\n  tip: a similar subcommand exists: 'aigtoaig'$again" 2
check 'one word of two to the launcher' launch 'aigtoaig --ascii'
wants '' 'aiger: an argument is not UTF-8 text\n' 2
check 'a word that is no text to the launcher' launch aigtoaig $'\377'
wants '' 'aiger: : cannot read: No such file or directory\n' 1
check 'an empty word to the launcher' launch aigtoaig ''
mkdir "$work/named"
by_name() { cd "$work/named" && launch aigtoaig --ascii -- "$odd" -; }
for odd in 'two  spaces ' $'two\nlines\n' ' * ? [a-z] $HOME `ls` \' -- --help "'" '"'; do
    cp "$work/small" "$work/named/$odd"
    wants "$small" '' 0
    check "the launcher hands on the name '$odd' in a folder" launch aigtoaig --ascii -- "$work/named/$odd" -
    check "the launcher hands on the name '$odd'" eval '( by_name )'
done
ln -s "$tree/aiger" "$work/link"
by_link() { cd / && RT=$work/rt "$work/link" aigtoaig --ascii; }
wants "$small" '' 0
check 'the launcher by a link, from another folder' eval '( by_link )' < "$work/small"

# seen WHAT WORD..: after the words, a launch proves and the next one does not
seen() {
    local what=$1
    shift
    "$@"
    : > "$work/calls"
    wants "$small" "$proves" 0
    check "$what is seen" launch aigtoaig --ascii < "$work/small"
    wants "$small" '' 0
    check "$what is seen once" launch aigtoaig --ascii < "$work/small"
}
older() {
    printf '// two\n' > "$work/older"
    touch -d 2001-01-01 "$work/older"
    cp -p "$work/older" "$tree/crates/aiger/src/lib.rt"
}
same_date() {
    touch -r "$tree/crates/low/src/lib.rt" "$work/date"
    sed -i 's/more/less/' "$tree/crates/low/src/lib.rt"
    touch -r "$work/date" "$tree/crates/low/src/lib.rt"
}
other_linked() { cp "$program" "$work/program2" && printf x >> "$work/program2" && mv "$work/program2" "$out/aiger"; }
seen 'an older source' older
seen 'a source of the same size and date' same_date
seen 'a new source' cp "$tree/crates/low/src/lib.rt" "$tree/crates/low/src/new.rt"
seen 'a source that has gone' rm "$tree/crates/low/src/new.rt"
in_folder() { mkdir "$tree/crates/low/src/$1" && cp "$tree/crates/low/src/lib.rt" "$tree/crates/low/src/$1/new.rt"; }
seen 'a new source in a folder named out' in_folder out
seen 'a changed definition' sed -i 's/one/two/' "$tree/crates/low/specs/More.antt"
seen 'a changed crates.txt' sed -i 's/# crates/# the crates/' "$tree/crates.txt"
seen 'a program that has gone' rm "$out/aiger"
seen 'another program' other_linked
mkdir "$tree/crates/low/out" "$tree/crates/low/must-fail"
touch "$tree/crates/low/out/kept" "$tree/crates/low/must-fail/wrong.edit"
check 'what rt keeps beside the sources, and edits that must fail' launch aigtoaig --ascii < "$work/small"
# what find -cnewer of another system does: it fails, and the sums are taken at each look
mkdir "$work/old"
printf '#!/bin/sh\ncase "$*" in *-cnewer*) exit 1;; esac\nexec /usr/bin/find "$@"\n' > "$work/old/find"
chmod +x "$work/old/find"
with_old_find() { look_again && PATH=$work/old:$PATH RT=$work/none "$tree/aiger" "$@"; }
check 'another find' with_old_find aigtoaig --ascii < "$work/small"
edit
wants '' "aiger: cannot prove and link the program: there is no command $work/none\n" 125
check 'a changed source is seen with another find' with_old_find aigtoaig --ascii < "$work/small"
wants "$small" "$proves" 0
check 'and proved' launch aigtoaig --ascii < "$work/small"

# --- within one second ---
# marks_itself: whether a launch leaves the second in which it was, and which program it ran
marks_itself() {
    local from=$EPOCHSECONDS second name
    launch --version > /dev/null 2>&1
    read -r second name < "$out/launch.seen"
    [ "$name" = aiger ] && ((from <= second && second <= EPOCHSECONDS))
}
wants '' '' 0
check 'a launch leaves a mark' marks_itself
# twice: what a launch gives in the second of such a mark, since which a source has changed. Where that second ends
# before the launch does, it starts over.
twice() {
    local status moment
    for _ in {1..1000}; do
        launch aigtoaig --ascii < "$work/small" > /dev/null 2>&1
        echo '// more' >> "$tree/crates/low/src/lib.rt"
        : > "$work/calls"
        moment=$EPOCHSECONDS
        echo "$moment aiger" > "$out/launch.seen"
        RT=$work/rt "$tree/aiger" aigtoaig --ascii < "$work/small" > "$work/second" 2>&1
        status=$?
        [ "$moment" != "$EPOCHSECONDS" ] || break
    done
    cat "$work/second"
    return "$status"
}
wants "$small" '' 0
check 'the sources are not looked at twice in a second' twice
wants '' '' 0
check 'so nothing is proved then' cat "$work/calls"
wants "$small" "$proves" 0
check 'but in the next second' launch aigtoaig --ascii < "$work/small"
edit
for ago in 1 -60; do
    echo "$((EPOCHSECONDS - ago)) aiger" > "$out/launch.seen"
    check "a mark of $ago seconds ago" env RT="$work/rt" "$tree/aiger" aigtoaig --ascii < "$work/small"
    edit
done

# --- no rt ---
wants '' "aiger: cannot prove and link the program: there is no command $work/none\n" 125
with_rt() { ( export RT=$1 && shift && exec "$@" ); }
check 'a changed source needs an rt' with_rt "$work/none" "$tree/aiger" aigtoaig --ascii < "$work/small"
wants '' '' 125
check 'and with a closed standard error' \
    errors_closed with_rt "$work/none" "$tree/aiger" aigtoaig --ascii < "$work/small"
wants "$small" "$proves" 0
check 'rt on the PATH' on_the_path "$work" "$tree/aiger" aigtoaig --ascii < "$work/small"
look_again
wants "$small" '' 0
check 'a linked program needs no rt' with_rt "$work/none" "$tree/aiger" aigtoaig --ascii < "$work/small"

# --- prove, called by itself ---
wants '' "$proves" 0
check 'prove proves whatever is linked' with_rt "$work/rt" "$tree/prove"
make_release
wants '' "${proves_it}aiger: it is the released program, byte for byte\n" 0
check 'prove finds the released program' with_rt "$work/rt" "$tree/prove"
printf x >> "$work/program"
wants '' "${proves_it}aiger: it is not the released program, which is of these sources too: that was linked by a kit\n" 0
check 'prove links another program of the same sources' with_rt "$work/rt" "$tree/prove"
cp "$program" "$work/program"
sed -i 's/^program ./program x/' "$tree/release/MANIFEST"
edit

# --- a proof that fails, and what else rt may say ---
faults_of() {
    printf 'aiger: %s is not proved:\naiger:   src/%s.rt:64:5: it is not proved that what the function ensures holds\n' "$1" "$1"
    printf 'aiger:   fn %s::first: no proof: expected answers in ./proofs/first/Answers.antt\n' "$1"
}
echo low > "$work/broken"
wants '' "$begins$(faults_of low)
aiger: 1 of 3: next is proved
aiger: not proved: low; the output of rt is in $out/prove.log\n" 125
check 'a crate without a proof' launch aigtoaig --ascii < "$work/small"
check 'and once more' launch aigtoaig --ascii < "$work/small"
wants '== low\n== next\n' '' 0
check 'the whole output of rt is in its log' grep '^==' "$out/prove.log"
echo next >> "$work/broken"
wants '' "$begins$(faults_of low)\n$(faults_of next)
aiger: not proved: low next; the output of rt is in $out/prove.log\n" 125
check 'two crates without a proof' launch aigtoaig --ascii < "$work/small"
rm "$work/broken"
# goes_wrong NAME WAY ERRORS: what is said where rt ends otherwise in this way
goes_wrong() {
    echo "$2" > "$work/stray"
    wants '' "$begins$3; its output is in $out/prove.log\n" 125
    check "$1" launch aigtoaig --ascii < "$work/small"
    rm "$work/stray"
}
not_linked='aiger: the program is not linked: rt ended with status'
proved="${proves_it%aiger: the program is linked*}"
goes_wrong 'an rt that does not begin' stop \
    "aiger:   rt: HANDLES is one line\naiger:   0 passed, 1 failed\n$not_linked 2"
goes_wrong 'a program that does not run as it should' run "${proved#"$begins"}aiger:   rt: aiger: the program ended with status \
1, and not 0\naiger:   rt: FAILED: aiger (run)\naiger:   2 passed, 1 failed\n$not_linked 1"
goes_wrong 'an rt that links no program' 'no program' "${proved#"$begins"}aiger:   3 passed, 0 failed\n$not_linked 0"
echo older > "$work/stray"
wants "$small" "$proves" 0
check 'an rt that takes no names' launch aigtoaig --ascii < "$work/small"
rm -rf "$work/stray" "$out"
wants '' 'aiger: cannot copy the sources to a temporary folder\n' 125
check 'no folder for the copy' env TMPDIR="$work/none" RT="$work/rt" "$tree/prove"
echo note > "$work/stray"
printf '%s\n' low next > "$work/kept"
wants "$small" "${begins}aiger: 1 of 3: low is unchanged since it was proved
aiger: 2 of 3: next is unchanged since it was proved
aiger: 3 of 3: aiger is proved
aiger:   note: the disk has 2000 MB left
aiger: the program is linked: $out/aiger
aiger: the released program is of other sources\n" 0
check 'and once it is mended, what rt keeps and notes' launch aigtoaig --ascii < "$work/small"
rm "$work/stray" "$work/kept"
wants '' '' 0
check 'no copy is left' ls -A "$TMPDIR"

# --- a standard error that takes nothing decides no status ---
for way in errors_closed errors_full; do
    wants "$small" '' 0
    edit
    check "$way, while it proves" "$way" launch aigtoaig --ascii < "$work/small"
    check "$way, once linked" "$way" launch aigtoaig --ascii < "$work/small"
    wants '' '' 1
    check "$way, and a refusal" "$way" launch aigtoaig --ascii < /dev/null
done
edit
wants "$small" '' 0
{ launch aigtoaig --ascii < "$work/small" 2>&1 > "$work/out"; echo $? > "$work/status"; } | true
: > "$work/err"
judge 'errors that nobody reads, while it proves' "$(cat "$work/status")"

# --- while it proves: signals, two launches at once, an edit. The proof of low is held up ---
# wait_for WORD..: until the words succeed, for five minutes at most
wait_for() { for _ in {1..15000}; do "$@" > /dev/null 2>&1 && return; sleep 0.02; done; }
hold() {
    edit
    echo low > "$work/slow"
    : | tee "$work/held" "$work/calls" > "$work/pid"
    env --default-signal=INT,TERM,HUP RT="$work/rt" "$@" \
        < "$work/small" > "$work/out" 2> "$work/err" &   # whoever runs this may ignore them, as nohup does
    held=$!
    wait_for test -s "$work/pid"
    wait_for grep -q next "$work/err"
}
let_go() { rm -f "$work/slow" "$work/held"; }
# is_gone: whether that process has ended. Where process 1 takes up nobody, as in a container, it stays as a zombie.
is_gone() { ! grep -q '^State:[[:space:]]*[^ZX[:space:]]' "/proc/$(cat "$work/pid")/status" 2> /dev/null; }
is_clean() { [ -z "$(ls -A "$TMPDIR")" ]; }
# what is said till then, and after it
holds="${begins}aiger: 1 of 3: next is proved\n"
goes_on="${holds}aiger: 2 of 3: low is proved\naiger: 3 of 3: aiger is proved\n"

# a terminal sends a signal to all of a job: to the launcher, and to prove, which it waits for
set -m   # without it what is in the background ignores SIGINT
for signal in INT TERM HUP; do
    for way in prove aiger; do
        hold "$tree/$way"
        kill -s "$signal" -- "-$held"
        wait_for is_gone
        wait_for is_clean
        left=
        is_gone || left=', and left a process'
        is_clean || left+=', and left a copy'
        let_go   # so that what goes on proving ends too
        wait "$held" 2> /dev/null
        ended=$?$left
        wants '' "$holds" $((128 + $(kill -l "$signal")))
        judge "SIG$signal to $way while it proves" "$ended"
    done
done
set +m

hold "$tree/aiger" aigtoaig --ascii
with_rt "$work/rt" "$tree/aiger" aigtoaig --ascii < "$work/small" > "$work/out2" 2> "$work/err2" &
second=$!
wait_for test -s "$work/err2"
let_go
wants "$small" "${goes_on}aiger: the program is linked: $out/aiger\naiger: the released program is of other sources\n" 0
wait "$held"
judge 'the first of two launches, and two crates proved side by side' $?
wants "$small" 'aiger: waiting for another call that is proving the program ..\n' 0
wait "$second"
ended=$?
mv "$work/out2" "$work/out"
mv "$work/err2" "$work/err"
judge 'the second waits, and then runs' "$ended"
wants "$asks" '' 0
check 'two launches prove once' env LC_ALL=C sort "$work/calls"

hold "$tree/aiger" aigtoaig --ascii
edit
let_go
wants '' "${goes_on}aiger: the sources changed while they were being proved: run this again\n" 125
wait "$held"
judge 'an edit while it proves' $?
wants "$small" "$proves" 0
check 'and the launch after it' launch aigtoaig --ascii < "$work/small"

hold "$tree/aiger" aigtoaig --ascii
kill -s KILL "$(cat "$work/rt_pid")"
wants '' "$holds$not_linked 137; its output is in $out/prove.log\n" 125
wait "$held"
judge 'an rt that is killed' $?
let_go
wants '' '' 0
check 'no copy is left of these' ls -A "$TMPDIR"

# --- release/static itself, where it links nothing ---
cp "$top/release/static" "$tree/release/static"
wants '' 'usage: release/static FILE\n' 2
check 'release/static without words' "$tree/release/static"
wants '' 'aiger: rt of the Rattle kit is not on the PATH\n' 125
check 'release/static without the kit' with_rt "$work/none" "$tree/release/static" "$work/linked"
kit=$(readlink -f "$(command -v "${RT:-rt}")")
if [ -n "$kit" ]; then
    rm -f "$out/aiger.o"
    wants '' "aiger: there is no $out/aiger.o: run ./test or ./prove\n" 125
    check 'release/static without an object' with_rt "$kit" "$tree/release/static" "$work/linked"
    echo 'int main(void) { return 0; }' |
        "${kit%/*}/../toolchain/bin/clang" --target=x86_64-linux-gnu -x c -c -o "$out/aiger.o" -
    wants '' "aiger: $out/aiger was not linked of $out/aiger.o: run ./test or ./prove\n" 125
    check 'release/static with an object of another program' with_rt "$kit" "$tree/release/static" "$work/linked"
else
    skip 2 'no kit'
fi

# --- what the program is told of memory ---
unasked() { ( unset GLIBC_TUNABLES LD_BIND_NOW && "$@" ); }
asked() { ( export GLIBC_TUNABLES=glibc.malloc.check=0 LD_BIND_NOW= && "$@" ); }
printf '#!/bin/sh\nprintf "%%s, %%s\\n" "$GLIBC_TUNABLES" "$LD_BIND_NOW"\n' > "$work/program"
chmod +x "$work/program"
edit
heap=glibc.malloc.mmap_threshold=33554432:glibc.malloc.trim_threshold=1073741824:glibc.malloc.top_pad=4194304
wants "glibc.malloc.hugetlb=1:$heap, 1\n" "$proves" 0
check 'large pages are asked for' unasked launch
wants 'glibc.malloc.check=0, \n' '' 0
check 'unless something else is' asked launch
cp "$program" "$work/program"
edit
launch --version > /dev/null 2>&1
every_run() { for _ in {1..8}; do unasked asked_for "$tree/aiger"; done | sort -u; }
read -r pages 2> /dev/null < /sys/kernel/mm/transparent_hugepage/enabled
if [[ $pages = *'[madvise]'* ]]; then
    wants 'yes\n' '' 0
    check 'and each run gets them' every_run
else
    skip 1 'the system gives large pages to all, or to none'
fi

# --- a limit on the size of files: the signal for a write above it ---
signalled() { look_again && RT=$work/rt env --default-signal=XFSZ "$tree/aiger" "$@"; }
printf '#!/bin/bash\nread -r _ ignored < <(grep ^SigIgn /proc/self/status)\necho $((0x$ignored >> 24 & 1))\n' > "$work/program"
edit
wants '1\n' "$proves" 0
check 'it is ignored' signalled
# no file grows then, so what comes goes through pipes
limited() { { (ulimit -f 0 && exec env --default-signal=XFSZ "$tree/aiger") 2>&1 | cat; } 2>&1; return "${PIPESTATUS[0]}"; }
wants '1\n' '' 0
check 'where no file may grow, and the program is noted' limited
look_again
check 'where it is noted, and was not looked at in this second' limited
look_again
rm -f "$out/launch.stamp"
check 'and where nothing is noted' limited
wants "$out/launch.seen\n" '' 0
check 'which leaves no other file' find "$out" -name 'launch.*'
cp "$program" "$work/program"

# --- a folder that cannot be written ---
rm -rf "$out"
: > "$out"
wants '' "aiger: cannot create the folder $out\n" 125
check 'a file in the place of out, where the program has to be proved' launch aigtoaig --ascii < "$work/small"

# --- ./test and .ci/run without the kit, over scripts that test nothing ---
rm -f "$out"
mkdir -p "$tree/tests/run" "$tree/.ci"
cp "$top/test" "$tree"
cp "$top/.ci/run" "$tree/.ci"
for name in "$top"/tests/run/*.*; do
    printf '#!/bin/sh\necho 1 passed, 0 failed\n' > "$tree/tests/run/${name##*/}"
    chmod +x "$tree/tests/run/${name##*/}"
done
echo 'aigtools_c:' >> "$tree/crates.txt"
# ends WORD..: the first line that is said, and the last two, without the numbers
ends() {
    local status=0
    env AIGER="$program" RT="$work/none" "$@" > "$work/said" || status=$?
    head -n 1 "$work/said"
    tail -n 2 "$work/said" | sed 's/^[1-9][0-9]* passed, 0 failed, [1-9][0-9]* skipped$/sums/'
    return "$status"
}
why="there is no Rattle kit (no command $work/none), so the tests alone run, as by --quick"
wants "No proof is made: $why\nNo proof was made: $why\nsums\n" '' 0
check './test without the kit' ends "$tree/test"
why='--quick runs the tests alone'
wants "No proof is made: $why\nNo proof was made: $why\nsums\n" '' 0
check './test --quick' ends "$tree/test" --quick
wants '' ".ci/run: there is no Rattle kit (no command $work/none), and nothing is proved without: ./test runs the tests alone\n" 1
check '.ci/run without the kit' with_rt "$work/none" "$tree/.ci/run"
printf '#!/bin/sh\necho 1 passed, 1 failed\nexit 1\n' > "$tree/tests/run/names.py"
wants 'sums\n' '' 1
fails_so() { ends "$tree/test" | tail -n 1 | sed 's/^[1-9][0-9]* passed, 1 failed, [1-9][0-9]* skipped$/sums/'; return "${PIPESTATUS[0]}"; }
check './test where one fails' fails_so
# at a terminal, by script of util-linux: one of the scripts waits until it is told of
if command -v script > /dev/null; then
    printf '#!/bin/sh\nfor _ in $(seq 600); do ! grep -q "done; .*names.py" "%s" || break; sleep 0.1; done
echo 1 passed, 0 failed\n' "$work/typescript" > "$tree/tests/run/names.py"
    at_terminal() {
        script -qefc "env AIGER='$program' RT=none '$tree/test'" "$work/typescript" < /dev/null > /dev/null
        grep -q 'done; .*names.py' "$work/typescript"
    }
    wants '' '' 0
    check 'what runs is told at a terminal' at_terminal
else
    skip 1 'no script of util-linux'
fi

finish
