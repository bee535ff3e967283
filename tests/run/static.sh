#!/usr/bin/env bash
# What only the static program has: it runs in a root without a C library, asks for large pages by itself, and says what an
# older processor lacks. Its answers are those of the program: see the rows.
#
#     tests/run/static.sh PROGRAM
export AIGER=$1
. "$(dirname "${BASH_SOURCE[0]}")/../lib/judge.sh"
. "$top/tests/lib/pages.sh"
. "$top/tests/lib/streams.sh"
need_program
PATH=$PATH:/usr/sbin:/sbin   # where chroot is, which the PATH of a user may not have

# --- a root that has the program, a circuit, and nothing else ---
root=$work/root
mkdir "$root"
cp "$program" "$root/aiger"
cp "$work/small" "$root/small"
way=
for words in chroot 'unshare --user --map-root-user chroot'; do
    ! $words / true 2> /dev/null || way=${way:-$words}
done
if [ -n "$way" ]; then
    in_root() { $way "$root" /aiger "$@"; }
    wants "$small" '' 0
    check 'a conversion in a root without a C library' in_root aigtoaig --ascii /small
    wants '' 'aiger: /none: cannot read: No such file or directory\n' 1
    check 'a refusal in a root without a C library' in_root aigtoaig /none
    wants '' '' 0
    check 'a destination in a root without a C library' in_root aigtoaig --ascii /small /made
    check 'and what stands there' cmp "$work/small" "$root/made"
else
    skip 4 'the root cannot be changed here'
fi

# before KILOBYTES and words: runs the words in so much address space
within=(bash -c 'ulimit -v "$0" && exec "$@"')

# --- large pages ---
read -r pages 2> /dev/null < /sys/kernel/mm/transparent_hugepage/enabled
if [[ $pages = *'[madvise]'* ]]; then
    wants 'yes\n' '' 0
    check 'it asks for large pages' asked_for env -u GLIBC_TUNABLES "$program"
    check 'and where there is no variable' asked_for env -i "$program"
    check 'and beside one with a name that begins so' asked_for env -i GLIBC_TUNABLE=1 GLIBC_TUNABLES2=2 "$program"
    wants 'no\n' '' 0
    check 'unless the variable asks for something else' asked_for env GLIBC_TUNABLES=glibc.malloc.check=0 "$program"
    check 'or for nothing' asked_for env GLIBC_TUNABLES= "$program"
    wants 'yes\n' '' 0
    check 'with 128 MB of address space' asked_for "${within[@]}" 131072 "$program"
    wants 'no\n' '' 0
    check 'not with 32 MB, which hold no large table' asked_for "${within[@]}" 32768 "$program"
else
    skip 7 'the system gives large pages to all, or to none'
fi
wants "$small" '' 0
many=()
for i in {1..1000}; do many+=("V$i=$i"); done
check 'a thousand variables' env -i "${many[@]}" "$program" aigtoaig --ascii "$work/small"

# --- a limit on the size of files ---
awk 'BEGIN { print "aag 0 0 0 100000 0"; for (i = 0; i < 100000; i++) print i % 2 }' > "$work/long"
limited() { ( ulimit -f 16 && exec env --default-signal=XFSZ "$program" aigtoaig "$work/long" "$work/limited.aag" ); }
wants '' "aiger: $work/limited.aag: cannot write: File too large\n" 1
check 'a file above the limit on sizes, whose signal is not ignored before' limited

# --- little memory: the system itself ends by SIGSEGV what it cannot load ---
# the least limit, in KB, into which the system loads the program
least() {
    local limit
    for ((limit = 1024; limit < 4096; limit += 16)); do
        { "${within[@]}" "$limit" "$program" --version > /dev/null; } 2> /dev/null
        [ $? = 139 ] || break
    done
    echo "$limit"
}
loaded=$(least)
# how a conversion ended in one limit after the other, each outcome once; the words run before the program
outcomes() {
    local limit ended
    for ((limit = loaded; limit <= 16384; limit += limit < 4096 ? 16 : 64)); do
        "$@" "${within[@]}" "$limit" "$program" aigtoaig --ascii "$work/small" > "$work/one" 2>&1
        ended=$?
        if [ "$ended" = 0 ] && cmp -s "$work/one" "$work/small"; then
            echo answered
        elif [ "$ended" = 1 ] && cmp -s "$work/one" "$work/lacking"; then
            echo lacking
        else
            echo "status $ended in $limit KB"
        fi
    done | sort -u
}
echo 'aiger: out of memory' > "$work/lacking"
wants 'answered\nlacking\n' '' 0
check 'it answers, or says that it is out of memory' outcomes env -u GLIBC_TUNABLES
check 'and where the variable asks for nothing' outcomes env GLIBC_TUNABLES=
wants '' 'aiger: out of memory\n' 1
check 'it says so where it is only just loaded' "${within[@]}" "$loaded" "$program" --version

# --- an older processor ---
if command -v qemu-x86_64 > /dev/null; then
    older='this machine lacks a feature of x86-64-v2, which this program was built for: '
    older+='run it on another machine, or build it with --cpu x86-64\n'
    wants '' "$older" 127
    check 'a processor before x86-64-v2' qemu-x86_64 -cpu core2duo "$program" --version
    wants "$small" '' 0
    check 'the first of x86-64-v2' qemu-x86_64 -cpu Nehalem "$program" aigtoaig --ascii "$work/small"
else
    skip 2 'no qemu-x86_64'
fi
finish
