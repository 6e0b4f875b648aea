# shellcheck shell=bash
# What the measuring scripts share. It is read by them, and does nothing alone.

# The most memory of a process so far, in KiB, while it runs; the last line is the last that was seen.
watch_memory() {
    while [ -e "/proc/$1" ]; do
        awk '/^VmHWM/ { print $2 }' "/proc/$1/status" 2>/dev/null || true
        sleep 0.02
    done
}

# measure FOLDER COMMAND..: runs the command on the input that stands at this call, and leaves its seconds and its most
# memory in KiB in the folder's file `figures`, or `-` where it ended before its memory was seen. Its output is the call's.
measure() {
    local folder=$1
    shift
    if [ -x /usr/bin/time ]; then
        # The format stands in for the long report of `time -v`, of which it prints two lines.
        /usr/bin/time -f '%e %M' -o "$folder/time" "$@"
        tail -n 1 "$folder/time" >"$folder/figures"
        return
    fi
    local begun ended process
    begun=$(date +%s.%N)
    # A command behind `&` has no input but the one that it is given.
    "$@" <&0 &
    process=$!
    watch_memory "$process" >"$folder/memory" &
    wait "$process"
    ended=$(date +%s.%N)
    wait "$!"
    awk -v begun="$begun" -v ended="$ended" 'END { printf "%.2f %s\n", ended - begun, NR ? $1 : "-" }' \
        "$folder/memory" >"$folder/figures"
}
