#!/usr/bin/env bash
# Files with names, and what is answered to arguments: the linked program over files, folders, pipes and devices of the system.
#
#     tests/run/files.sh
. "$(dirname "${BASH_SOURCE[0]}")/../lib/judge.sh"
. "$top/tests/lib/streams.sh"
need_program

aig() { "$program" aigtoaig "$@"; }
files=$work/files
mkdir "$files"
source=$files/source.aag
cp "$top/examples/canonical/half_adder.aag" "$source"
aig --ascii < "$source" > "$work/ascii"
aig < "$source" > "$work/binary"
aig --ascii < "$work/binary" > "$work/renumbered"
aig --keep-map < "$source" > "$work/mapped"

# made NAME FILE WORD..: the words succeed without a word, and the file is then as wanted
made() {
    local name=$1 file=$2
    shift 2
    wants '' '' 0
    check "$name" "$@"
    if cmp -s "$file" "$work/want_file"; then pass; else
        fail "$name: the file" "wanted '$(shown "$work/want_file")'" "came   '$(shown "$file" 2> /dev/null)'"
    fi
}

# --- names, and what decides the form ---
cp "$work/binary" "$work/want_file"
made 'to a file' "$files/a.aig" aig "$source" "$files/a.aig"
made 'from standard input to a file' "$files/b.aig" aig - "$files/b.aig" < "$source"
made 'names behind --' "$files/c.aig" aig -- "$source" "$files/c.aig"
made 'a name without an ending' "$files/plain" aig "$source" "$files/plain"
made 'an ending in capitals is no .aag' "$files/a.AAG" aig "$source" "$files/a.AAG"
cp "$work/renumbered" "$work/want_file"
made 'to a name that ends in .aag' "$files/a.aag" aig "$files/a.aig" "$files/a.aag"
made 'to the name .aag' "$files/.aag" aig "$files/a.aig" "$files/.aag"
made '--ascii to any name' "$files/text" aig --ascii "$files/a.aig" "$files/text"
made 'options behind names' "$files/text" aig "$files/a.aig" "$files/text" --ascii
cp "$work/ascii" "$work/want_file"
made 'a limit that is reached' "$files/text" aig --max-var=7 "$source" --ascii "$files/text"
made 'a limit in two arguments' "$files/text" aig --max-var 7 "$source" --ascii "$files/text"
cp "$work/mapped" "$work/want_file"
made 'with a map' "$files/mapped.aig" aig --keep-map "$source" "$files/mapped.aig"
cp "$source" "$work/want_file"
made 'and undone' "$files/again.aag" aig --undo-map "$files/mapped.aig" "$files/again.aag"
cp "$source" "$files/same.aag"
made 'a file as source and destination' "$files/same.aag" aig "$files/same.aag" "$files/same.aag"
cp "$work/binary" "$work/want_file"
made 'and once more, to binary' "$files/same.aag" eval 'aig "$files/same.aag" "$files/same" && mv "$files/same" "$files/same.aag"'

wants '' '' 0
cp "$work/binary" "$work/want_out"
check 'from a file to standard output' aig "$source"
check 'from a file to -' aig "$source" -
cp "$work/renumbered" "$work/want_out"
check '--ascii from a file' aig --ascii "$files/a.aig" -
aig --strip --ascii "$source" > "$work/out"
if ! grep -q '^[ilo][0-9]\|^c' "$work/out" && [ "$(head -n 1 "$work/out")" = "$(head -n 1 "$source")" ]; then pass; else
    fail 'symbols and comment are stripped' "came   '$(shown "$work/out")'"
fi

# --- refused files: with their names, and no destination is touched ---
printf 'aag 1 1 0 0 0\n' > "$files/short.aag"
# untouched NAME FILE WORD..: what is wanted comes, and the file is as it was, to the time of its change
untouched() {
    local name=$1 file=$2 before
    shift 2
    cp -p "$file" "$work/before"
    before=$(stat -c '%Y %Z %i' "$file")
    check "$name" "$@"
    if cmp -s "$file" "$work/before" && [ "$(stat -c '%Y %Z %i' "$file")" = "$before" ]; then pass; else
        fail "$name: the destination is left alone"
    fi
}
wants '' "aiger: $files/short.aag: line 2: file ends too early\n" 1
untouched 'a refused source' "$files/a.aig" aig "$files/short.aag" "$files/a.aig"
untouched 'a refused source that is the destination' "$files/short.aag" aig "$files/short.aag" "$files/short.aag"
wants '' "aiger: $files/a.aig: no map\n" 1
untouched 'no map' "$files/b.aig" aig --undo-map "$files/a.aig" "$files/b.aig"
wants '' "aiger: $source: line 1: number above the limit\n" 1
untouched 'a limit that is passed' "$files/a.aig" aig --max-var 6 "$source" "$files/a.aig"
wants '' 'aiger: -: line 1: not an AIGER file\n' 1
untouched 'a refused standard input' "$files/a.aig" aig - "$files/a.aig" < /dev/null
rm -f "$files/none.aig"
check 'a refused standard input, and a new file' aig - "$files/none.aig" < /dev/null
if [ ! -e "$files/none.aig" ]; then pass; else fail 'no file is made for a refused source'; fi


# a name is reported as it was given, and nothing is looked up or shortened in it
cd "$files" || exit
mkdir -p 'a folder'
# refused_by TEXT FILE_TEXT WORD..: a source of these bytes, by a name with spaces and a relative path
refused_by() {
    local wanted=$1
    printf '%b' "$2" > './a folder/in put.aag'
    shift 2
    wants '' "aiger: ./a folder/../a folder/in put.aag: $wanted\n" 1
    untouched "a file is named where it is refused: $wanted" a.aig aig "$@" './a folder/../a folder/in put.aag' a.aig
}
refused_by 'line 1: not an AIGER file' ''
refused_by 'line 1: bad header' 'aag\n'
refused_by 'line 1: number above the limit' 'aag 2147483648 0 0 0 0\n'
refused_by 'line 2: bad line' 'aag 1 1 0 0 0\nx\n'
refused_by 'line 2: not a variable' 'aag 1 1 0 0 0\n3\n'
refused_by 'line 2: literal out of range' 'aag 1 0 0 1 0\n4\n'
refused_by 'line 2: file ends too early' 'aag 1 1 0 0 0\n'
refused_by 'gate 1: bad delta' 'aig 1 0 0 0 1\n\003\000'
refused_by 'line 2: bad symbol line' 'aag 0 0 0 0 0\nx\n'
refused_by 'line 2: symbol position out of range' 'aag 0 0 0 0 0\ni0 a\n'
refused_by 'line 4: symbol given twice' 'aag 1 1 0 0 0\n2\ni0 a\ni0 a\n'
refused_by 'variable 1 defined twice' 'aag 2 2 0 0 0\n2\n2\n'
refused_by 'literal 4 not defined' 'aag 2 1 0 1 0\n2\n4\n'
refused_by 'gate 2 depends on a cycle' 'aag 1 0 0 0 1\n2 2 2\n'
refused_by 'not in binary order' 'aag 9 1 0 0 0\n18\n' --undo-map
refused_by 'no map' 'aig 0 0 0 0 0\n' --undo-map
refused_by 'map line 1: bad line' 'aig 0 0 0 0 0\nc\naigmap 2\n' --undo-map
refused_by 'map counts differ' 'aig 0 0 0 0 0\nc\naigmap 1 1 1 0 0 0\n1\naigmap end\n' --undo-map
refused_by 'map does not belong to this circuit' 'aig 0 0 0 0 0\nc\naigmap 1 0 0 0 0 0\naigmap end\nx' --undo-map
refused_by 'bad states are there already' 'aag 0 0 0 1 0 1\n0\n0\n' --outputs-as-bad
refused_by 'no justice property 1' 'aag 0 0 0 0 0 0 0 1\n0\n' --justice-as-bad 1
refused_by 'too large' 'aag 2147483647 0 0 0 0 0 0 1\n0\n' --justice-as-bad 0
cd "$top" || exit

# --- compressed files, by what their refusal says ---
if command -v gzip > /dev/null; then
    gzip -c "$source" > "$files/half_adder.aag.gz"
    wants '' 'aiger: compressed input is not supported: use gzip -dc FILE.gz | aiger COMMAND .. - ..\n' 2
    untouched 'a compressed source' "$files/a.aig" aig "$files/half_adder.aag.gz" "$files/a.aig"
    cp "$work/binary" "$work/want_file"
    made 'and as it says' "$files/z.aig" eval 'gzip -dc "$files/half_adder.aag.gz" | aig - "$files/z.aig"'
    wants '' 'aiger: compressed output is not supported: use aiger COMMAND .. - | gzip > FILE.gz\n' 2
    check 'a compressed destination' aig "$source" "$files/z.aig.gz"
    if [ ! -e "$files/z.aig.gz" ]; then pass; else fail 'no compressed destination is made'; fi
    made 'and as it says' "$files/z.aig" eval 'aig "$source" - | gzip > "$files/z.aig.gz"; gzip -dc "$files/z.aig.gz" > "$files/z.aig"'
else
    skip 8 'no gzip'
fi
# --- files that cannot be read or written, and why, in the words of the C library ---
none='No such file or directory' folder='Is a directory' full='No space left on device' broken='Input/output error'
# cannot_read NAME FILE WHY
cannot_read() {
    wants '' "aiger: $2: cannot read: $3\n" 1
    untouched "$1" "$files/a.aig" aig "$2" "$files/a.aig"
}
cannot_write() {
    wants '' "aiger: $2: cannot write: $3\n" 1
    check "$1" aig "$source" "$2"
}
cannot_read 'a source that is not there' "$files/none.aag" "$none"
cannot_read 'a source in a folder that is not there' "$files/none/a.aag" "$none"
cannot_read 'a folder as source' "$files" "$folder"
cannot_read 'an empty name as source' '' "$none"
cannot_read 'a name of spaces' "$files/a b  c" "$none"
cannot_read 'a source in a file' "$source/a.aag" 'Not a directory'
ln -s "$files/none.aag" "$files/dangling"
cannot_read 'a dangling link as source' "$files/dangling" "$none"
ln -s circle "$files/circle"
cannot_read 'a link to itself as source' "$files/circle" 'Too many levels of symbolic links'
cannot_write 'a link to itself as destination' "$files/circle" 'Too many levels of symbolic links'
cannot_write 'a folder as destination' "$files" "$folder"
cannot_write 'an empty name as destination' '' "$none"
cannot_write 'a folder that is not there' "$files/none/a.aig" "$none"
cannot_write 'a full device' /dev/full "$full"
cannot_write 'a file in the place of a folder' "$files/a.aig/b.aig" 'Not a directory'
mkdir "$files/running"
cp "$(command -v sleep)" "$files/running/sleep"
"$files/running/sleep" 60 &
cannot_write 'a program that runs' "$files/running/sleep" 'Text file busy'
kill $!
wait $! 2> /dev/null
# a source is read to its end first, and this one has none
wants '' 'aiger: out of memory\n' 1
untouched 'a device without an end as source' "$files/a.aig" within 20480 "$program" aigtoaig /dev/full "$files/a.aig"
# what cannot be read is reported before what cannot be written
wants '' "aiger: $files/none.aag: cannot read: $none\n" 1
check 'neither can be opened' aig "$files/none.aag" "$files/none/a.aig"
cp "$work/binary" "$work/want_file"
made 'a dangling link as destination is made' "$files/none.aag" aig "$source" "$files/dangling"
rm "$files/none.aag"

# as somebody who may not: root may read and write whatever it likes
if [ "$(id -u)" = 0 ]; then as_nobody=(setpriv --reuid=65534 --regid=65534 --clear-groups); else as_nobody=(); fi
if "${as_nobody[@]}" test -x "$program" 2> /dev/null; then
    closed=$(mktemp -d)
    chmod 755 "$closed"
    cp "$source" "$closed/closed.aag"
    chmod 0 "$closed/closed.aag"
    wants '' "aiger: $closed/closed.aag: cannot read: Permission denied\n" 1
    check 'a source without permission' "${as_nobody[@]}" "$program" aigtoaig "$closed/closed.aag"
    wants '' "aiger: $closed/closed.aag: cannot write: Permission denied\n" 1
    check 'a destination without permission' \
        "${as_nobody[@]}" "$program" aigtoaig - "$closed/closed.aag" < "$source"
    rm -rf "$closed"
else
    skip 2 'files without permission: nobody else can run the program here'
fi

# a disk that is full, and a limit on the size of files: what shows only when bytes are written is not lost
awk 'BEGIN { print "aag 0 0 0 100000 0"; for (i = 0; i < 100000; i++) print i % 2 }' > "$work/long"
limited() { ( trap '' XFSZ; ulimit -f 16 && exec "$program" aigtoaig "$work/long" "$files/limited.aag" ); }
wants '' "aiger: $files/limited.aag: cannot write: File too large\n" 1
check 'a file above the limit on sizes' limited
if cmp -s -n "$(stat -c %s "$files/limited.aag")" "$files/limited.aag" "$work/long"; then pass; else
    fail 'what was written of it is a beginning'
fi
mkdir "$work/disk"
if mount -t tmpfs -o size=64k tmpfs "$work/disk" 2> /dev/null; then
    wants '' "aiger: $work/disk/full.aag: cannot write: $full\n" 1
    check 'a full disk' aig "$work/long" "$work/disk/full.aag"
    umount "$work/disk"
else
    skip 1 'a full disk: nothing can be mounted here'
fi

# what a file system says only when it is to keep a file is not lost: unasked where it is on no disk, else with --sync
if ! has_compiler; then
    skip 8 'no C compiler'
elif compile_preload fail_sync && compile_preload device_major; then
    closing() { MAJOR=$1 LD_PRELOAD="$work/fail_sync.so $work/device_major.so" "$program" aigtoaig "${@:2}"; }
    disk=8 no_disk=0
    wants '' "aiger: $files/closed.aig: cannot write: $broken\n" 1
    check 'a destination that a disk does not keep' closing $disk --sync "$source" "$files/closed.aig"
    check 'and from standard input' closing $disk - "$files/closed.aig" --sync < "$source"
    check 'a destination that is not kept where there is no disk' closing $no_disk "$source" "$files/closed.aig"
    check 'nor if that is asked for' closing $no_disk --sync "$source" "$files/closed.aig"
    wants '' "aiger: $files/short.aag: line 2: file ends too early\n" 1
    check 'a refused source is reported, and nothing is to be kept' closing $disk --sync "$files/short.aag" "$files/closed.aig"
    wants '' '' 0
    cp "$work/binary" "$work/want_file"
    made 'a disk is not waited for unasked' "$files/closed.aig" closing $disk "$source" "$files/closed.aig"
    cp "$work/binary" "$work/want_out"
    check 'standard output is not waited for' closing $no_disk "$source"
    wants '' '' 0
    check 'nor is a device, if that is asked for' closing $disk --sync "$source" /dev/null
else
    fail 'tests/preload/fail_sync.c and device_major.c compile' "came   $(cat "$work/compile" 2> /dev/null)"
fi

# --- streams beside files ---
wants '' '' 0
cp "$work/binary" "$work/want_file"
streams_closed() { "$@" <&- >&- 2>&-; }
made 'all streams closed, and two files' "$files/e.aig" streams_closed aig "$source" "$files/e.aig"
wants '' 'aiger: -: cannot write\n' 1
check 'a file into a full standard output' output_full aig "$source"
check 'a file into a closed standard output' output_closed aig "$source"
wants '' 'aiger: -: cannot read\n' 1
untouched 'a closed standard input, and a file' "$files/e.aig" aig - "$files/e.aig" <&-
then_rest() { aig "$source" "$files/f.aig" && cat; }
wants "$small" '' 0
check 'standard input is left alone where a source is named' then_rest < "$work/small"
wants '' '' 1
untouched 'a refusal with a closed standard error, and files' "$files/a.aig" \
    errors_closed aig "$files/short.aag" "$files/a.aig"
ln "$files/a.aig" "$files/linked.aig"
ln -s a.aig "$files/symbolic.aig"
made 'a link to the source as destination' "$files/a.aig" aig "$files/a.aig" "$files/symbolic.aig"
made 'a second name of the source as destination' "$files/a.aig" aig "$files/a.aig" "$files/linked.aig"
printf 'longer than what comes, so that a file that is not cut would show %s' "$(printf '%5000s' '' | tr ' ' x)" > "$files/longer"
made 'an existing file is cut' "$files/longer" aig "$source" "$files/longer"
chmod 640 "$files/longer"
made 'an existing file, once more' "$files/longer" aig "$source" "$files/longer"
wants '640\n' '' 0
check 'and keeps its permissions' stat -c %a "$files/longer"

# --- a model and a stimulus with names ---
sim() { "$program" aigsim "$@"; }
printf '00\n1x\n' > "$files/steps"
printf '00\n1\n' > "$files/bad_steps"
trace=' 00 00 \n 1x xx \n.\n'
wants "$trace" '' 0
check 'model and stimulus by their names' sim "$source" "$files/steps"
check 'the image and the stimulus by their names' sim "$files/a.aig" "$files/steps"
check 'model and stimulus by links' eval 'ln -sf steps "$files/steps.link" && ln -sf source.aag "$files/model.link" &&
    sim "$files/model.link" "$files/steps.link"'
cp "$files/steps" "$files/steps.GZ"
cp "$source" "$files/model.gzip"
check 'any ending of names, but for those of compressed files' sim "$files/model.gzip" "$files/steps.GZ"
check 'a stimulus and a model with names, all other streams closed' eval 'sim "$source" "$files/steps" <&- 2>&-'
check 'the stimulus by standard input' sim "$source" < "$files/steps"
check 'the model by standard input' sim - "$files/steps" < "$source"
cp "$files/steps" "$files/-s"
cp "$source" "$files/-m"
check 'names that begin with - behind --, to simulate' eval 'cd "$files" && sim -- -m -s'
check 'a limit on the model that is reached' sim --max-var=7 "$source" "$files/steps"
wants "${trace}00 00 rest\n" '' 0
check 'standard input is left alone where both are named' eval 'sim "$source" "$files/steps" && cat' <<< '00 00 rest'
wants '' "aiger: $source: line 1: number above the limit\n" 1
check 'a limit on the model that is passed' sim --max-var 6 "$source" "$files/steps"
wants ' 00 00 \n' "aiger: $files/bad_steps: line 2: bad stimulus line\n" 1
check 'a bad stimulus is named' sim "$source" "$files/bad_steps"
check 'and so it is where the model is standard input' sim - "$files/bad_steps" < "$source"
wants '' "aiger: $files/short.aag: line 2: file ends too early\n" 1
check 'a refused model is named' sim "$files/short.aag" "$files/bad_steps"
check 'a refused model is reported, and not a stimulus that is not there' sim "$files/short.aag" "$files/none"
wants '' 'aiger: -: line 2: file ends too early\n' 1
check 'a refused model by standard input' sim - "$files/none" < "$files/short.aag"
# neither NAME FILE WHY: as model, and as stimulus
neither() {
    wants '' "aiger: $2: cannot read: $3\n" 1
    check "$1 as model" sim "$2" "$files/steps"
    check "$1 as stimulus" sim "$source" "$2"
    check "$1 as stimulus, the model by standard input" sim - "$2" < "$source"
}
neither 'a file that is not there' "$files/none.aag" "$none"
neither 'a file in a folder that is not there' "$files/none/a.aag" "$none"
neither 'a folder' "$files" "$folder"
neither 'an empty name' '' "$none"
neither 'a dangling link' "$files/dangling" "$none"
wants '' 'aiger: -: cannot write\n' 1
check 'a trace of named files into a full standard output' output_full sim "$source" "$files/steps"
check 'a trace of named files into a closed standard output' output_closed sim "$source" "$files/steps"
wants '' "aiger: $files/none: cannot read: $none\n" 1
check 'a stimulus that is not there, and a full standard output' output_full sim "$source" "$files/none"
cp -p "$source" "$work/before"
cp -p "$files/steps" "$work/before_steps"
wants "$trace" '' 0
chmod 400 "$source" "$files/steps"
check 'a model and a stimulus that may only be read' sim "$source" "$files/steps"
chmod 644 "$source" "$files/steps"
if cmp -s "$source" "$work/before" && cmp -s "$files/steps" "$work/before_steps"; then pass; else fail 'neither is changed'; fi

# --- an unrolled circuit between files with names ---
held=$files/held.aag
printf 'aag 3 1 1 1 1\n2\n4 6\n6\n6 2 5\ni0 hold\nc\nheld' > "$held"
printf 'aag 4 2 0 2 2\n2\n4\n6\n8\n6 2 1\n8 7 4\n' > "$work/frames"
printf 'aig 4 2 0 2 2\n6\n8\n\004\001\001\003' > "$work/binary_frames"
cp "$work/binary_frames" "$work/want_file"
made 'unrolled to a file' "$files/u.aig" unroll 2 "$held" "$files/u.aig"
made 'unrolled from standard input to a file' "$files/v.aig" unroll 2 - "$files/v.aig" < "$held"
made 'unrolled to a name without an ending' "$files/unrolled" unroll 2 "$held" "$files/unrolled"
made 'unrolled to an ending in capitals, which is no .aag' "$files/u.AAG" unroll 2 "$held" "$files/u.AAG"
made 'unrolled, names behind --' "$files/w.aig" unroll 2 -- "$held" "$files/w.aig"
aig "$held" "$files/held.aig"
made 'unrolled from a binary file' "$files/x.aig" unroll 2 "$files/held.aig" "$files/x.aig"
made 'a file as source and destination, unrolled' "$files/held.aig" unroll 2 "$files/held.aig" "$files/held.aig"
cp "$work/frames" "$work/want_file"
made 'unrolled to a name that ends in .aag' "$files/u.aag" unroll 2 "$held" "$files/u.aag"
made 'unrolled with --ascii to any name' "$files/unrolled" unroll 2 --ascii "$held" "$files/unrolled"
made 'unrolled, options behind names' "$files/unrolled" "$program" aigunroll "$held" "$files/unrolled" --ascii --frames=2 --max-var 3
cp "$held" "$files/same.aag"
made 'a file as source and destination, unrolled to ASCII' "$files/same.aag" unroll 2 "$files/same.aag" "$files/same.aag"
wants '' '' 0
cp "$work/binary_frames" "$work/want_out"
check 'unrolled from a file to standard output' unroll 2 "$held"
check 'unrolled from a file to -' unroll 2 "$held" -
cp "$work/frames" "$work/want_out"
check 'unrolled from a file to standard output in ASCII' unroll 2 "$held" --ascii

printf 'aag 0 0 0 0 0 0 0 0 1\n1\n' > "$files/live.aag"
printf 'aig 2148 2148 0 0 0\n' > "$files/large.aig"
wants '' "aiger: $files/live.aag: justice or fairness cannot be unrolled\n" 1
untouched 'a circuit that cannot be unrolled' "$files/u.aig" unroll 2 "$files/live.aag" "$files/u.aig"
untouched 'a circuit that cannot be unrolled, as destination' "$files/live.aag" unroll 2 "$files/live.aag" "$files/live.aag"
wants '' "aiger: $files/large.aig: too large to unroll\n" 1
untouched 'a circuit that is too large to unroll' "$files/u.aig" unroll 1000000 "$files/large.aig" "$files/u.aig"
wants '' "aiger: $files/short.aag: line 2: file ends too early\n" 1
untouched 'a refused source to unroll' "$files/u.aig" unroll 2 "$files/short.aag" "$files/u.aig"
wants '' "aiger: $held: line 1: number above the limit\n" 1
untouched 'a limit that is passed, to unroll' "$files/u.aig" unroll 2 --max-var 2 "$held" "$files/u.aig"
wants '' 'aiger: -: line 1: not an AIGER file\n' 1
untouched 'a refused standard input to unroll' "$files/u.aig" unroll 2 - "$files/u.aig" < /dev/null
wants '' 'aiger: out of memory\n' 1
untouched 'a device without an end to unroll' "$files/u.aig" within 20480 "$program" aigunroll --frames 2 /dev/full "$files/u.aig"
wants '' "aiger: $files/none.aag: cannot read: $none\n" 1
untouched 'a file to unroll that is not there' "$files/u.aig" unroll 2 "$files/none.aag" "$files/u.aig"
check 'neither can be opened to unroll' unroll 2 "$files/none.aag" "$files/none/u.aig"
wants '' "aiger: $files: cannot read: $folder\n" 1
untouched 'a folder to unroll' "$files/u.aig" unroll 2 "$files" "$files/u.aig"
rm -f "$files/none.aig"
wants '' "aiger: $files/live.aag: justice or fairness cannot be unrolled\n" 1
check 'a circuit that cannot be unrolled, and a new file' unroll 2 "$files/live.aag" "$files/none.aig"
check 'and a folder that is not there' unroll 2 "$files/live.aag" "$files/none/u.aig"
if [ ! -e "$files/none.aig" ]; then pass; else fail 'no file is made for a circuit that cannot be unrolled'; fi
# cannot_unroll_to NAME FILE WHY
cannot_unroll_to() {
    wants '' "aiger: $2: cannot write: $3\n" 1
    check "$1 to unroll to" unroll 2 "$held" "$2"
}
cannot_unroll_to 'a folder' "$files" "$folder"
cannot_unroll_to 'an empty name' '' "$none"
cannot_unroll_to 'a folder that is not there' "$files/none/u.aig" "$none"
cannot_unroll_to 'a full device' /dev/full "$full"
limited_frames() { ( trap '' XFSZ; ulimit -f 16 && exec "$program" aigunroll --frames 5000 "$held" "$files/limited.aag" ); }
wants '' "aiger: $files/limited.aag: cannot write: File too large\n" 1
check 'an unrolled file above the limit on sizes' limited_frames
unroll 5000 --ascii "$held" > "$work/long_frames"
if [ -s "$files/limited.aag" ] && cmp -s -n "$(stat -c %s "$files/limited.aag")" "$files/limited.aag" "$work/long_frames"; then pass; else
    fail 'what was written of an unrolled file is a beginning'
fi
if [ -e "$work/fail_sync.so" ]; then
    wants '' "aiger: $files/u.aig: cannot write: $broken\n" 1
    check 'an unrolled file that is not kept' eval 'LD_PRELOAD=$work/fail_sync.so unroll 2 --sync "$held" "$files/u.aig"'
fi
cp "$work/binary_frames" "$work/want_file"
made 'all streams closed, and two files to unroll' "$files/u.aig" streams_closed unroll 2 "$held" "$files/u.aig"
wants 'rest\n' '' 0
check 'standard input is left alone where a file to unroll is named' eval 'unroll 2 "$held" "$files/u.aig" && cat' <<< 'rest'

# --- a miter of two files with names ---
miter() { "$program" aigmiter "$@"; }
old=$files/first.aag new=$files/second.aag
printf 'aag 1 1 0 1 0\n2\n3\ni0 a\no0 f\nc\nold' > "$old"
printf 'aag 2 1 0 0 1 1\n4\n2\n2 5 5\nb0 f\ni0 a\n' > "$new"
printf 'aag 1 1 0 2 0\n2\n3\n3\n' > "$files/two.aag"
printf 'aag 6 1 0 0 5 1\n2\n12\n6 2 1\n4 7 7\n8 4 3\n10 5 2\n12 11 9\n' > "$work/miter"
printf 'aig 6 1 0 0 5 1\n12\n\x02\x01\x01\x00\x02\x03\x03\x05\x01\x02' > "$work/binary_miter"
cp "$work/binary_miter" "$work/want_file"
made 'a miter to a file' "$files/m.aig" miter "$old" "$new" "$files/m.aig"
made 'a miter by names of signals' "$files/n.aig" miter --by-name "$old" "$new" "$files/n.aig"
made 'a miter, the second from standard input' "$files/n.aig" miter "$old" - "$files/n.aig" < "$new"
made 'a miter, the first from standard input' "$files/n.aig" miter - "$new" "$files/n.aig" < "$old"
made 'a miter to a name without an ending' "$files/mitered" miter "$old" "$new" "$files/mitered"
made 'a miter to an ending in capitals, which is no .aag' "$files/m.AAG" miter "$old" "$new" "$files/m.AAG"
made 'a miter, names behind --' "$files/n.aig" miter -- "$old" "$new" "$files/n.aig"
aig "$old" "$files/first.aig"
aig "$new" "$files/second.aig"
made 'a miter of binary files' "$files/n.aig" miter "$files/first.aig" "$files/second.aig" "$files/n.aig"
cp "$old" "$files/same"
made 'a file as first circuit and destination' "$files/same" miter "$files/same" "$new" "$files/same"
cp "$new" "$files/same"
made 'a file as second circuit and destination' "$files/same" miter "$old" "$files/same" "$files/same"
cp "$new" "$files/same"
ln -sf same "$files/same.link"
made 'a link to the second circuit as destination' "$files/same" miter "$old" "$files/same" "$files/same.link"
cp "$work/miter" "$work/want_file"
made 'a miter to a name that ends in .aag' "$files/m.aag" miter "$old" "$new" "$files/m.aag"
made 'a miter with --ascii to any name' "$files/mitered" miter --ascii "$old" "$new" "$files/mitered"
made 'a miter, options behind names' "$files/mitered" miter "$old" "$new" "$files/mitered" --by-name --ascii --max-var=2
printf 'aag 5 1 0 0 4 1\n2\n10\n4 2 1\n6 5 3\n8 4 2\n10 9 7\n' > "$work/want_file"
cp "$old" "$files/same.aag"
made 'a file as both circuits and destination' "$files/same.aag" miter "$files/same.aag" "$files/same.aag" "$files/same.aag"
wants '' '' 0
cp "$work/binary_miter" "$work/want_out"
check 'a miter to standard output' miter "$old" "$new"
check 'a miter to -' miter "$old" "$new" -
cp "$work/miter" "$work/want_out"
check 'a miter to standard output in ASCII' miter "$old" "$new" --ascii

# no_miter NAME MESSAGE WORD..: a destination that is there is left alone, and no new one is made
no_miter() {
    local name=$1
    wants '' "aiger: $2\n" 1
    shift 2
    untouched "$name" "$files/m.aig" miter "$@" "$files/m.aig"
    rm -f "$files/none.aig"
    check "$name, and a new file" miter "$@" "$files/none.aig"
    check "$name, and a folder that is not there" miter "$@" "$files/none/m.aig"
    if [ ! -e "$files/none.aig" ]; then pass; else fail "$name: no file is made"; fi
}
no_miter 'a first circuit that cannot be compared' "$files/live.aag: justice or fairness cannot be compared" \
    "$files/live.aag" "$new"
no_miter 'a second circuit that cannot be compared' "$files/live.aag: justice or fairness cannot be compared" \
    "$old" "$files/live.aag"
no_miter 'circuits with other inputs' "$source: not as many inputs" "$old" "$source"
no_miter 'circuits with other outputs' "$files/two.aag: not as many outputs and bad states" "$old" "$files/two.aag"
no_miter 'circuits with other names' "$held: output 0: no name" --by-name "$old" "$held"
no_miter 'a refused first circuit' "$files/short.aag: line 2: file ends too early" "$files/short.aag" "$new"
no_miter 'a refused second circuit' "$files/short.aag: line 2: file ends too early" "$old" "$files/short.aag"
no_miter 'a refused first circuit, and a second that is not there' "$files/short.aag: line 2: file ends too early" \
    "$files/short.aag" "$files/none.aag"
no_miter 'a limit that the first circuit passes' "$old: line 1: number above the limit" --max-var 0 "$old" "$new"
no_miter 'a limit that the second circuit passes' "$new: line 1: number above the limit" --max-var 1 "$old" "$new"
no_miter 'a first circuit that is not there' "$files/none.aag: cannot read: $none" "$files/none.aag" "$new"
no_miter 'a second circuit that is not there' "$files/none.aag: cannot read: $none" "$old" "$files/none.aag"
no_miter 'a folder as first circuit' "$files: cannot read: $folder" "$files" "$new"
no_miter 'a folder as second circuit' "$files: cannot read: $folder" "$old" "$files"
no_miter 'an empty name as second circuit' ": cannot read: $none" "$old" ''
wants '' "aiger: $files/live.aag: justice or fairness cannot be compared\n" 1
untouched 'a second circuit that cannot be compared, as destination' "$files/live.aag" \
    miter "$old" "$files/live.aag" "$files/live.aag"
wants '' 'aiger: -: line 1: not an AIGER file\n' 1
untouched 'a refused standard input to compare' "$files/m.aig" miter "$old" - "$files/m.aig" < /dev/null
wants '' 'aiger: -: cannot read\n' 1
untouched 'a closed standard input to compare' "$files/m.aig" miter "$old" - "$files/m.aig" <&-
wants '' 'aiger: out of memory\n' 1
untouched 'a device without an end to compare' "$files/m.aig" within 20480 "$program" aigmiter "$old" /dev/full "$files/m.aig"
# cannot_miter_to NAME FILE WHY
cannot_miter_to() {
    wants '' "aiger: $2: cannot write: $3\n" 1
    check "$1 for a miter" miter "$old" "$new" "$2"
}
cannot_miter_to 'a folder' "$files" "$folder"
cannot_miter_to 'an empty name' '' "$none"
cannot_miter_to 'a folder that is not there' "$files/none/m.aig" "$none"
cannot_miter_to 'a full device' /dev/full "$full"
wants '' 'aiger: -: cannot write\n' 1
check 'a miter into a full standard output' output_full miter "$old" "$new"
check 'a miter into a closed standard output' output_closed miter "$old" "$new"
if [ -e "$work/fail_sync.so" ]; then
    wants '' "aiger: $files/m.aig: cannot write: $broken\n" 1
    check 'a miter that is not kept' eval 'LD_PRELOAD=$work/fail_sync.so miter --sync "$old" "$new" "$files/m.aig"'
fi
cp "$work/binary_miter" "$work/want_file"
made 'a miter on the disk' "$files/m.aig" miter --sync "$old" "$new" "$files/m.aig"
made 'all streams closed, and three files' "$files/m.aig" streams_closed miter "$old" "$new" "$files/m.aig"
wants 'rest\n' '' 0
check 'standard input is left alone where both circuits are named' eval 'miter "$old" "$new" "$files/m.aig" && cat' <<< 'rest'

# --- clauses, and the witness in a solver's answer ---
answered=$files/answered.aag
clauses() { unroll 2 --cnf "$@"; }
witness() { unroll 2 --answer "$@"; }
printf 'aag 1 0 1 0 0 1\n2 3\n2\nc\nx' > "$answered"
printf 'p cnf 3 8\n-1 0\n-2 -1 0\n-2 1 0\n2 1 -1 0\n-3 -1 0\n-3 -1 0\n3 1 1 0\n2 3 0\n' > "$work/clauses"
printf '1\nb0\n0\n\n\n.\n' > "$work/run"
printf 's SATISFIABLE\nv 0\n' > "$files/answer"
printf 's UNSATISFIABLE\n' > "$files/unsatisfiable"
printf 's UNKNOWN\n' > "$files/unknown"
cp "$work/clauses" "$work/want_file"
made 'clauses to a file' "$files/c.cnf" clauses "$answered" "$files/c.cnf"
made 'clauses from standard input to a file in .aag' "$files/c.aag" clauses - "$files/c.aag" < "$answered"
cp "$answered" "$files/same.aag"
made 'a file as source and destination, of clauses' "$files/same.aag" clauses "$files/same.aag" "$files/same.aag"
cp "$work/run" "$work/want_file"
made 'a witness to a file' "$files/w" witness "$files/answer" "$answered" "$files/w"
made 'a witness to a file in .aag' "$files/w.aag" witness - "$answered" "$files/w.aag" < "$files/answer"
made 'a witness to a file, the model by standard input' "$files/w" witness "$files/answer" - "$files/w" < "$answered"
cp "$files/answer" "$files/same"
made 'a file as answer and destination' "$files/same" witness "$files/same" "$answered" "$files/same"
cp "$work/want_file" "$work/witness"
printf 'none within 1\n' > "$work/want_file"
made 'what a refutation shows, to a file' "$files/w" unroll 1 --refutation "$files/answer" "$answered" "$files/w"
cp "$files/answer" "$files/same"
made 'a file as refutation and destination' "$files/same" unroll 1 --refutation "$files/same" "$answered" "$files/same"
held_twice="$files/held twice.aag"
printf 'aag 1 0 1 0 0 1\n2 2\n2\n' > "$held_twice"
printf '1 1\n' > "$files/rows"
printf -- '-6 0\n' > "$files/rows.drat"
printf 'never\n' > "$work/want_file"
# proves WORD..
proves() { "$program" aigunroll --invariant "$files/rows" --refutation "$files/rows.drat" "$@"; }
made 'what an invariant shows, to a file' "$files/w" proves "$held_twice" "$files/w"
cp "$held_twice" "$files/same"
made 'a file as model of an invariant and destination' "$files/same" proves "$files/same" "$files/same"
cp "$files/rows" "$files/same"
made 'a file as invariant and destination' "$files/same" \
    "$program" aigunroll --invariant "$files/same" --refutation "$files/rows.drat" "$held_twice" "$files/same"
cp "$files/rows.drat" "$files/same"
made 'a file as refutation of an invariant and destination' "$files/same" \
    "$program" aigunroll --invariant "$files/rows" --refutation "$files/same" "$held_twice" "$files/same"
cp "$work/witness" "$work/want_file"
cp "$answered" "$files/same"
made 'a file as model and destination' "$files/same" witness "$files/answer" "$files/same" "$files/same"
made 'all streams closed, and a witness to a file' "$files/w" streams_closed witness "$files/answer" "$answered" "$files/w"
wants 'rest\n' '' 0
check 'standard input is left alone where model and answer are named' \
    eval 'witness "$files/answer" "$answered" "$files/w" && cat' <<< 'rest'

# no_witness NAME MESSAGE WORD..: a destination that is there is left alone, and no new one is made
no_witness() {
    local name=$1
    wants '' "aiger: $2\n" 1
    shift 2
    untouched "$name" "$files/w" "$@" "$files/w"
    rm -f "$files/none.aig"
    check "$name, and a new file" "$@" "$files/none.aig"
    check "$name, and a folder that is not there" "$@" "$files/none/w"
    if [ ! -e "$files/none.aig" ]; then pass; else fail "$name: no file is made"; fi
}
no_witness 'clauses without bad states' "$held: no bad states" clauses "$held"
no_witness 'clauses of a bad state that there is not' "$answered: no bad state 7" clauses --bad 7 "$answered"
no_witness 'clauses of justice or fairness' "$files/live.aag: justice or fairness cannot be unrolled" clauses "$files/live.aag"
no_witness 'an unsatisfiable answer' "$files/unsatisfiable: unsatisfiable" witness "$files/unsatisfiable" "$answered"
no_witness 'an unknown answer' "$files/unknown: unknown" witness "$files/unknown" "$answered"
no_witness 'a bad answer' "$answered: line 1: bad answer line" witness "$answered" "$answered"
no_witness 'an answer that reaches nothing' "$files/answer: no bad state is reached" \
    unroll 1 --answer "$files/answer" "$answered"
no_witness 'an answer that is not there' "$files/none.ans: cannot read: $none" witness "$files/none.ans" "$answered"
no_witness 'a forged refutation' "$files/answer: line 1: bad line" unroll 2 --refutation "$files/answer" "$answered"
printf '3 0\n' > "$files/proof"
no_witness 'a refutation that refutes nothing' "$files/proof: no refutation" unroll 2 --refutation "$files/proof" "$answered"
no_witness 'a refutation that is not there' "$files/none.drat: cannot read: $none" unroll 2 --refutation "$files/none.drat" "$answered"
no_witness 'a refused model of a refutation that is not there' "$held: no bad states" \
    unroll 2 --refutation "$files/none.drat" "$held"
no_witness 'a wrong invariant' "$files/answer: line 1: bad line" "$program" aigunroll --invariant "$files/answer" --cnf "$held_twice"
no_witness 'an invariant that is not there' "$files/none.pla: cannot read: $none" \
    "$program" aigunroll --invariant "$files/none.pla" --refutation "$files/none.drat" "$held_twice"
no_witness 'an invariant that is not right' "$files/proof: no refutation" \
    "$program" aigunroll --invariant /dev/null --refutation "$files/proof" "$held_twice"
no_witness 'a refused model of an invariant that is not there' "$held: no bad states" \
    "$program" aigunroll --invariant "$files/none.pla" --refutation "$files/none.drat" "$held"
no_witness 'a refused model of an answer that is not there' "$held: no bad states" witness "$files/none.ans" "$held"
# cannot_write_both NAME FILE WHY: neither clauses nor a witness
cannot_write_both() {
    wants '' "aiger: $2: cannot write: $3\n" 1
    check "$1 for clauses" clauses "$answered" "$2"
    check "$1 for a witness" witness "$files/answer" "$answered" "$2"
}
cannot_write_both 'a folder' "$files" "$folder"
cannot_write_both 'an empty name' '' "$none"
cannot_write_both 'a full device' /dev/full "$full"
if [ -e "$work/fail_sync.so" ]; then
    wants '' "aiger: $files/w: cannot write: $broken\n" 1
    check 'clauses that are not kept' eval 'LD_PRELOAD=$work/fail_sync.so clauses --sync "$answered" "$files/w"'
    check 'a witness that is not kept' eval 'LD_PRELOAD=$work/fail_sync.so witness "$files/answer" --sync "$answered" "$files/w"'
fi

# --- binary to a terminal, by script of util-linux ---
if command -v script > /dev/null; then
    # to_terminal WORD..: what the words print at a terminal, but for its carriage returns, and on standard error
    to_terminal() {
        local status
        SHELL=/bin/sh script -qec "$(printf '%q ' "$program" "$@") 2> $(printf %q "$work/told")" /dev/null < /dev/null > "$work/shown"
        status=$?
        tr -d '\r' < "$work/shown"
        cat "$work/told" >&2
        return "$status"
    }
    wants '' 'aiger: binary output to a terminal is refused: name a file, or use --ascii or --force\n' 2
    check 'binary to a terminal' to_terminal aigtoaig "$source"
    check 'binary to a terminal by -' to_terminal aigtoaig --keep-map "$source" -
    check 'binary to a terminal, of a source that is not there' to_terminal aigtoaig "$files/none.aag"
    check 'an unrolled circuit to a terminal' to_terminal aigunroll --frames 2 "$held"
    check 'a miter to a terminal' to_terminal aigmiter "$old" "$new"
    check 'a selection to a terminal' to_terminal aigselect --output 0 "$source"
    wants '' '' 0
    cp "$work/binary" "$work/want_out"
    check 'binary to a terminal, forced' to_terminal aigtoaig --force "$source"
    cp "$work/binary" "$work/want_file"
    made 'binary to a file, at a terminal' "$files/t.aig" to_terminal aigtoaig "$source" "$files/t.aig"
    cp "$work/ascii" "$work/want_out"
    check 'ASCII to a terminal' to_terminal aigtoaig --ascii "$source"
    wants "$trace" '' 0
    check 'a trace to a terminal' to_terminal aigsim "$source" "$files/steps"
else
    skip 11 'no script of util-linux'
fi
cp "$work/binary" "$work/want_out"
check 'forced, and no terminal' aig --force "$source"

# --- pipes with names ---
mkfifo "$files/pipe"
cat "$source" > "$files/pipe" &
cp "$work/binary" "$work/want_file"
made 'a pipe as source' "$files/d.aig" aig "$files/pipe" "$files/d.aig"
wait
cat "$files/pipe" > "$work/through" &
wants '' '' 0
check 'a pipe as destination' aig "$source" "$files/pipe"
wait
if cmp -s "$work/through" "$work/binary"; then pass; else fail 'what came through the pipe'; fi

wants '' "aiger: $files/short.aag: line 2: file ends too early\n" 1
check 'no pipe is waited for where a source is refused' timeout 10 "$program" aigtoaig "$files/short.aag" "$files/pipe"
wants '' "aiger: $files/pipe: cannot write: Broken pipe\n" 1
head -c 1 < "$files/pipe" > "$work/first" &
check 'a pipe that nobody reads any more' aig --ascii "$work/long" "$files/pipe"
wait

mkfifo "$files/model_pipe"
cat "$source" > "$files/model_pipe" &
cat "$files/steps" > "$files/pipe" &
wants "$trace" '' 0
check 'pipes as model and as stimulus' sim "$files/model_pipe" "$files/pipe"
wait
wants '' "aiger: $files/short.aag: line 2: file ends too early\n" 1
check 'no stimulus is waited for where a model is refused' timeout 10 "$program" aigsim "$files/short.aag" "$files/pipe"
wants '' "aiger: $files/live.aag: justice or fairness cannot be unrolled\n" 1
check 'no pipe is waited for where nothing is unrolled' timeout 10 "$program" aigunroll --frames 2 "$files/live.aag" "$files/pipe"
cat "$held" > "$files/model_pipe" &
cat "$files/pipe" > "$work/through" &
wants '' '' 0
check 'pipes as source and destination, to unroll' unroll 2 "$files/model_pipe" "$files/pipe"
wait
if cmp -s "$work/through" "$work/binary_frames"; then pass; else fail 'what came unrolled through the pipe'; fi
wants '' "aiger: $files/live.aag: justice or fairness cannot be compared\n" 1
check 'no second circuit is waited for where the first is refused' timeout 10 "$program" aigmiter "$files/live.aag" "$files/pipe"
cat "$old" > "$files/model_pipe" &
cat "$new" > "$files/pipe" &
wants '' '' 0
cp "$work/binary_miter" "$work/want_out"
check 'pipes as both circuits' miter "$files/model_pipe" "$files/pipe"
wait
cat "$answered" > "$files/model_pipe" &
cat "$files/answer" > "$files/pipe" &
wants '1\nb0\n0\n\n\n.\n' '' 0
check 'pipes as model and as answer' witness "$files/pipe" "$files/model_pipe"
wait
wants '' "aiger: $held: no bad states\n" 1
check 'no answer is waited for where a model is refused' timeout 10 "$program" aigunroll --frames 2 --answer "$files/pipe" "$held"

# --- names that look like options, and many or long arguments ---
cd "$files" || exit
cp "$source" ./-x.aag
cp "$work/binary" "$work/want_file"
made 'names that begin with - behind --' "$files/-y" aig -- -x.aag -y
cd "$top" || exit
wants '' '' 0
cp "$work/ascii" "$work/want_out"
name=$files/$'two\nlines and spaces.aag'
cp "$source" "$name"
check 'a name with a line feed and spaces' aig --ascii "$name"
mapfile -t many < <(yes x | head -n 300)
longest=$(head -c 131071 /dev/zero | tr '\0' x)   # the longest argument that Linux passes on
refused '300 arguments' 'x' aigtoaig "${many[@]}"
refused 'a very long option' '--x' aigtoaig "--${longest:2}"
wants '' "aiger: $longest: cannot read: File name too long\n" 1
check 'a very long name' aig "$longest"
refused 'an unknown option' '--asci' aigtoaig --asci
refused 'an option close to one' '--ascii' aigtoaig --asci
refused 'an option of simulations alone' '--batch' aigtoaig --batch
refused 'a limit that is no number' '--max-var' aigtoaig --max-var x
refused 'a limit above the largest' '2147483648' aigtoaig --max-var 2147483648
refused 'three names' 'c' aigtoaig a b c
refused 'a model that is not named' 'model' aigsim
refused 'three names to simulate' 'c' aigsim a b c
refused 'an option that a simulation does not have' '--ascii' aigsim --ascii a
refused 'frames that are not given' '--frames' aigunroll a b
refused 'no frames at all' '0 is not in 1..=1000000' aigunroll --frames 0
refused 'too many frames' '1000001 is not in 1..=1000000' aigunroll --frames 1000001
refused 'three names to unroll' 'c' aigunroll --frames 1 a b c
refused 'an option that unrolling does not have' '--properties' aigunroll --frames 1 --properties
refused 'clauses in ASCII' 'aiger: --cnf excludes --ascii' aigunroll --frames 2 --cnf --ascii
refused 'clauses of an answer' 'aiger: --answer excludes --cnf and --ascii' aigunroll --frames 2 --answer a --cnf
refused 'a refutation and an answer' 'aiger: --refutation excludes --cnf, --ascii and --answer' \
    aigunroll --frames 2 --refutation a --answer b
refused 'a bad state alone' 'aiger: --bad needs --cnf, --answer or --refutation' aigunroll --frames 2 --bad 0
refused 'a justice property alone' 'aiger: --justice needs --cnf, --answer or --refutation' aigunroll --frames 2 --justice 0
refused 'a bad state and a justice property' 'aiger: --bad excludes --justice' aigunroll --frames 2 --cnf --bad 0 --justice 0
refused 'a justice property above the largest' '2147483648 is not in 0..=2147483647' aigunroll --frames 2 --cnf --justice 2147483648
refused 'an invariant over frames' 'aiger: --invariant excludes --frames, --ascii and --answer' \
    aigunroll --invariant a --frames 2 --cnf
refused 'an invariant alone' 'aiger: --invariant needs --cnf or --refutation' aigunroll --invariant a b
refused 'one stream for model and invariant' 'aiger: model and invariant are both standard input' aigunroll --invariant - --cnf
refused 'one stream for invariant and refutation' 'aiger: invariant and refutation are both standard input' \
    aigunroll --invariant - --refutation - a
refused 'one stream for model and refutation' 'aiger: model and refutation are both standard input' \
    aigunroll --frames 2 --refutation -
refused 'one stream for model and answer' 'aiger: model and answer are both standard input' aigunroll --frames 2 --answer -
refused 'a bad state above the largest' '2147483648 is not in 0..=2147483647' aigunroll --frames 2 --cnf --bad 2147483648
refused 'a compressed witness' 'aiger: compressed output is not supported' aigunroll --frames 1 --answer a b x.gz
refused 'one circuit alone' '<second>' aigmiter a
refused 'four names to compare' 'd' aigmiter a b c d
refused 'an option that comparing does not have' '--strip' aigmiter --strip a b
refused 'one stream for both circuits' 'aiger: both circuits are standard input' aigmiter - -
refused 'a miter on the disk of standard output' 'aiger: --sync needs the name of a destination' aigmiter --sync a b
refused 'a compressed miter' 'aiger: compressed output is not supported' aigmiter a b x.gz
refused 'numbers in ASCII' '--ascii' aiginfo --ascii
refused 'numbers on the disk of standard output' 'aiger: --sync needs the name of a destination' aiginfo --sync a
refused 'compressed numbers' 'aiger: compressed output is not supported' aiginfo a x.gz
refused 'a selection of nothing' 'aiger: --output, --bad or --justice is needed' aigselect a b
refused 'positions with a comma' '0,1' aigselect --bad 0,1 a b
refused 'a compressed selection' 'aiger: compressed output is not supported' aigselect --bad 0 a x.gz
refused 'a cone of an input' 'aiger: --cone needs o, b, c, j or f and a position' aigtodot --cone i0 a
refused 'two cones' '--cone' aigtodot --cone b0 --cone b1 a
refused 'all steps of no cone' 'aiger: --all-steps needs --cone' aigtodot --all-steps a
refused 'a compressed picture' 'aiger: compressed output is not supported' aigtodot a x.gz
refused 'no subcommand' 'aigtoaig'
refused 'an unknown subcommand' 'aigsom' aigsom
refused 'help on a command that there is not' 'aigsom' help aigsom
refused 'an argument that is no text' 'not UTF-8' aigtoaig $'\377.aag'
refused 'a map in ASCII' 'aiger: --keep-map needs binary output' aigtoaig --keep-map --ascii
refused 'a map to a name that ends in .aag' 'aiger: --keep-map needs binary output' aigtoaig --keep-map - "$files/b.aag"
refused 'a map of a stripped circuit' 'aiger: --keep-map excludes --strip' aigtoaig --keep-map --strip --undo-map
refused 'a map kept and undone' 'aiger: --keep-map excludes --undo-map' aigtoaig --keep-map --undo-map
refused 'a map of a simplified circuit' 'aiger: --keep-map excludes --simplify' aigtoaig --keep-map --simplify a.aig
refused 'a map of outputs as bad states' 'aiger: --outputs-as-bad excludes --keep-map' aigtoaig --outputs-as-bad --keep-map
refused 'a map undone to outputs as bad states' 'aiger: --outputs-as-bad excludes --undo-map' aigtoaig --undo-map --outputs-as-bad
refused 'outputs and justice as bad states' 'aiger: --justice-as-bad excludes --outputs-as-bad, --keep-map and --undo-map' aigtoaig --outputs-as-bad --justice-as-bad 0
refused 'standard output on a disk' 'aiger: --sync needs the name of a destination' aigtoaig --sync a
refused 'an unrolled standard output on a disk' 'aiger: --sync needs the name of a destination' aigunroll --frames 2 --sync a -
refused 'one stream for model and stimulus' 'aiger: model and stimulus are both standard input' aigsim -
refused 'a compressed destination' 'aiger: compressed output is not supported' aigtoaig - x.aig.gz
refused 'a compressed destination to unroll to' 'aiger: compressed output is not supported' aigunroll --frames 1 - x.aag.gz

# --- help ---
# each line of help has at most 80 columns, and nothing else comes
helps() {
    local name=$1
    shift
    "$program" "$@" > "$work/out" 2> "$work/err" < /dev/null
    if [ $? = 0 ] && [ -s "$work/out" ] && [ ! -s "$work/err" ] && ! grep -q '.\{81\}' "$work/out"; then pass; else
        fail "$name" "came   '$(shown "$work/out")', errors '$(shown "$work/err")'"
    fi
}
helps 'help' --help
helps 'the short option for help' -h
for words in '' aigtoaig aigsim aigunroll aigmiter aiginfo aigselect aigtodot; do
    helps "help $words" help $words
    wants '' '' 0
    "$program" $words --help > "$work/want_out"
    check "help $words, as by the option" "$program" help $words
done
helps 'help of aigtoaig' aigtoaig --help
# its examples run as they stand, one after the other
grep '^  aiger aigtoaig ' "$work/out" | sed 's/^  aiger/"$program"/; s/   .*//' > "$work/examples"
# (their model has a justice property, of its first input)
sed '1s/$/ 0 0 1/; 5a 1\n2' "$source" > "$files/model.aag"
aig < "$files/model.aag" > "$work/live_binary"
ran=$(cd "$files" && set -e && . "$work/examples" 2>&1 && echo all)
if [ "$ran" = all ] && [ "$(wc -l < "$work/examples")" = 7 ] && grep -aq '^aigmap 1 ' "$files/image.aig" &&
    grep -q '^aag 5 2 0 0 3 2 0 1$' "$files/bad.aag" && cmp -s "$files/model.aig" "$work/live_binary" &&
    grep -aq '^aig 15 3 2 2 10 1$' "$files/live.aig" && cmp -s "$files/again.aag" "$files/model.aag" &&
    cmp -s "$files/small.aig" "$work/live_binary"; then pass; else
    fail 'the examples of help run' "came   $ran, of" "$(cat "$work/examples")"
fi
helps 'help of aigsim' aigsim --help
# its examples run as they stand too, over a half adder whose carry is the bad state: its traces come, and a witness is
# confirmed
printf 'aag 7 2 0 2 3 1\n2\n4\n6\n12\n12\n6 13 15\n12 2 4\n14 3 5\n' > "$files/model.aag"
grep '^  printf \|^  aiger aigsim ' "$work/out" | sed 's/aiger aigsim /"$program" aigsim /; s/   .*//' > "$work/examples"
simulation_examples() { ( cd "$files" && set -e && . "$work/examples" ); }
half=' 10 10 \n.\n 1x xx \n.\n'
wants " 10 10 \n 1x xx \n.\n 10 10  0 \n.\n 1x xx  x \n.\n${half}confirmed 0\n$half" '' 0
check 'the examples of help of aigsim run' simulation_examples
if grep -q '^#4$' "$files/a.vcd"; then pass; else fail 'the example of help of aigsim writes a waveform'; fi
if grep -q '^$comment confirmed 0 $end$' "$files/w.vcd"; then pass; else
    fail 'the example of help of aigsim writes the waveform of a witness'
fi
helps 'help of aigunroll' aigunroll --help
# its examples too; the half adder has no latches, so each frame is a copy of it. In the place of the solver is one that
# knows how its carry is 1 in the first frame, and that it is never 1 beside 0, which is the model of the examples after
# that; and ABC's invariant is empty. The model of the last but one is a toggle that is to be 1 again and again.
grep '^  aiger aigunroll \|^  cadical \|^  berkeley-abc ' "$work/out" |
    sed 's/^  aiger/"$program"/; s/   .*//; /--justice/s/^/cp toggle.aag model.aig; /; /--simplify/s/^/cp beside.aag model.aig; /' \
        > "$work/examples"
printf 'aag 1 0 1 0 0 0 0 1\n2 3\n1\n2\n' > "$files/toggle.aag"
"$program" aigtoaig --justice-as-bad 0 "$files/toggle.aag" | "$program" aigunroll --frames 20 --cnf > "$work/live_clauses"
aig "$files/model.aag" "$files/model.aig"
unroll 20 "$files/model.aig" > "$work/want_file"
unroll 2 "$files/model.aag" --ascii > "$work/frames"
printf 'aag 8 2 0 0 4 1\n2\n4\n16\n6 13 15\n12 2 4\n14 3 5\n16 12 0\n' > "$files/beside.aag"
cadical() {
    if [ "$*" = '-q model.cnf model.drat' ]; then cp beside.aag model.aig && echo 0 > model.drat
    elif [ "$*" = '-q never.cnf never.drat' ]; then echo 0 > never.drat; else
        cmp - model.cnf && printf 's SATISFIABLE\nv 2 3 0\n'
    fi
}
berkeley-abc() { [ "$*" = '-c read model.aig; pdr -d -e -I model.pla' ] && echo '.e' > model.pla; }
ran=$(cd "$files" && set -e && . "$work/examples" 2>&1 && echo all)
if [ "$ran" = $'none within 20\nnever\nall' ] && [ "$(wc -l < "$work/examples")" = 14 ] &&
    [ "$(< "$files/small.cnf")" = $'p cnf 41 2\n-1 0\n'"$(yes 1 | head -n 20 | tr '\n' ' ')0" ] &&
    cmp -s "$files/long.aig" "$work/want_file" && cmp -s "$files/live.cnf" "$work/live_clauses" &&
    cmp -s "$files/out" "$work/want_file" && cmp -s "$files/two.aag" "$work/frames" &&
    [ "$(sim --witness "$files/model.aag" "$files/witness.txt")" = 'confirmed 0' ]; then pass; else
    fail 'the examples of help of aigunroll run' "came   $ran, of" "$(cat "$work/examples")"
fi
helps 'help of aigmiter' aigmiter --help
# its examples too, over two files that are the same by names; the solver knows that in no step they differ
grep '^  aiger \|^  cadical ' "$work/out" | sed 's/^  aiger/"$program"/; s/   .*//' > "$work/examples"
cp "$old" "$files/old.aag"
cp "$new" "$files/new.aag"
aig "$old" "$files/old.aig"
aig "$new" "$files/new.aig"
printf 'aag 6 1 0 0 5 1\n2\n12\n4 2 1\n6 5 5\n8 6 3\n10 7 2\n12 11 9\n' > "$work/miter_of_binary"
cadical() { [ "$*" = '-q miter.cnf miter.drat' ] && printf '2 0\n0\n' > miter.drat; }
ran=$(cd "$files" && set -e && . "$work/examples" 2>&1 && echo all)
if [ "$ran" = $'none within 1\nall' ] && [ "$(wc -l < "$work/examples")" = 6 ] && cmp -s "$files/miter.aig" "$work/binary_miter" &&
    cmp -s "$files/miter.aag" "$work/miter_of_binary"; then pass; else
    fail 'the examples of help of aigmiter run' "came   $ran, of" "$(cat "$work/examples")"
fi
# those of the small tools too, over a model with four bad states; dot is one that only takes the graph
printf 'aag 3 2 0 4 1 4 0 1\n2\n4\n6\n2\n4\n7\n6\n7\n2\n5\n1\n6\n6 2 4\nb3 last\n' > "$files/model.aag"
aig "$files/model.aag" "$files/model.aig"
dot() { [ "$1" = -Tsvg ] && cat; }
rm -f "$files/model.json" "$files"/part.* "$files/cone.dot" "$files/model.svg"
for words in aiginfo aigselect aigtodot; do
    helps "help of $words" $words --help
    grep '^  aiger ' "$work/out" | sed 's/   .*//; s/aiger aig/"$program" aig/g' > "$work/examples"
    ran=$(cd "$files" && set -e -o pipefail && . "$work/examples" 2>&1 > "$work/said" && echo all)
    if [ "$ran" = all ] && [ "$(wc -l < "$work/examples")" = 3 ]; then pass; else
        fail "the examples of help of $words run" "came   $ran, of" "$(cat "$work/examples")"
    fi
done
for made in model.json part.aig part.aag cone.dot model.svg; do
    if [ -s "$files/$made" ]; then pass; else fail "the examples of help write $made"; fi
done
wants 'aag 3 2 0 1 1 2\n2\n4\n2\n6\n5\n6 4 2\nb1 last\n' '' 0
check 'the example of help of aigselect writes what is chosen' cat "$files/part.aag"
# the manual page has the same options
options() { grep -o -- '--[a-z][a-z-]*' | sort -u; }
for words in aigtoaig aigsim aigunroll aigmiter aiginfo aigselect aigtodot; do "$program" $words --help; done | options > "$work/help_options"
sed 's/Fl \\-/--/g; s/\\-/-/g' "$top/man/aiger.1" | options > "$work/man_options"
wants '' '' 0
cp "$work/help_options" "$work/want_out"
check 'the manual page has the options of help' cat "$work/man_options"
wants '' 'aiger: -: cannot write\n' 1
check 'help into a full standard output' output_full "$program" --help
check 'help into a closed standard output' output_closed "$program" aigtoaig --help
check 'the version into a full standard output' output_full "$program" --version

finish
