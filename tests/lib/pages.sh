# Sourced by scripts that look whether a program asks for large pages; $work is their folder.

# asked_for WORD..: whether memory of the program that the words run is marked for large pages, at the latest once it
# has read all that came of a circuit and waits for more
asked_for() {
    local from child state marked=0
    rm -f "$work/pipe"
    mkfifo "$work/pipe"
    "$@" aigtoaig - /dev/null < "$work/pipe" > /dev/null 2>&1 &
    child=$!
    exec {from}> "$work/pipe"
    { echo 'aag 400000 400000 0 0 0'; seq 2 2 400000; } >&"$from"
    while read -r _ _ state _ < "/proc/$child/stat"; do
        marked=$(grep -c '^VmFlags:.* hg' "/proc/$child/smaps")
        [ "$marked" = 0 ] && [[ $state = [RD] ]] || break
        sleep 0.01
    done
    exec {from}>&-
    wait "$child"
    [ "$marked" != 0 ] && echo yes || echo no
}
