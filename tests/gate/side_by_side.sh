# Runs the parts of ./test in parallel: as many at once as there are processors, each in a subshell and in a room of its
# own. The output of a part is kept, and printed as a whole once the part has ended. A part hands back a line of
# numbers: one without it ended early, and has failed. listed_parts.sh defines `is_tried`.

declare -A at_work=() # by its process, when each part that is at work began, and its room
last_times=           # the file that keeps how long each part took the last time, if ./test names one
ending=(TERM KILL)    # the signals that end what is at work
takes_signals=(env --default-signal=HUP,INT,PIPE,TERM) # before a command, so that it ignores none of them

# SIGTERM and SIGHUP end bash at once, after the trap of EXIT. But without a trap bash ignores an interrupt that it
# alone gets while it waits for a command.
make_room_of_all() {
    room_of_all=$(mktemp -d) || exit 1
    trap leave_nothing EXIT
    trap 'exit 130' INT
}

leave_nothing() {
    trap '' INT TERM HUP
    end_processes "$room_of_all" "${!at_work[@]}"
    rm -rf -- "$room_of_all"
}

# Runs a command that isn't a part as a group of processes too, so that whatever ends ./test ends everything that it has
# started. An interrupt comes first, since rt then restores what it has set aside, which it doesn't do on another
# signal. The folder for temporary files stays the common one, since rt runs programs there as nobody, who can't enter
# the room: instead, a variable of its own identifies its processes.
in_a_group() { # COMMAND..
    local process status
    ending=(INT TERM KILL)
    set -m
    STARTED_IN=$room_of_all "$@" </dev/null &
    process=$!
    set +m
    at_work[$process]="$SECONDS $room_of_all"
    wait "$process"
    status=$?
    unset "at_work[$process]"
    ending=(TERM KILL)
    return "$status"
}

# Runs a part as soon as there is a processor for it.
part() { # NAME COMMAND..
    if ! is_tried "$1"; then return; fi
    while ((${#at_work[@]} >= $(nproc))); do await_a_part; done
    begin_part "$@"
}

# Runs a part while no other is at work.
part_alone() { # NAME COMMAND..
    if ! is_tried "$1"; then return; fi
    await_all_parts
    begin_part "$@"
    await_all_parts
}

# Under job control the part is a group of processes, which can be ended as a whole.
begin_part() { # NAME COMMAND..
    local its_room
    its_room=$(mktemp -d -- "$room_of_all/$1.XXXXXX") || exit 1
    set -m
    (do_part "$its_room" "${@:2}") </dev/null >"$its_room.printed" 2>&1 &
    set +m
    at_work[$!]="$SECONDS $its_room"
    tell_what_is_at_work
}

# On a terminal: prints how many parts are done, which are at work, and how long each took last time.
tell_what_is_at_work() {
    local process its_room name ended all=0 parts=()
    [[ -t 2 ]] || return 0
    ended=$(cat -- "$room_of_all/parts" 2>/dev/null | wc -l)
    while read -r name _; do if is_tried "$name"; then ((all += 1)); fi; done < <(listed_parts)
    for process in "${!at_work[@]}"; do
        read -r _ its_room <<<"${at_work[$process]}"
        name=${its_room##*/}
        name=${name%.*}
        parts+=("$name$(last_time_of "$name")")
    done
    name=$(printf '%s\n' "${parts[@]}" | sort | paste -s -d ,)
    echo "test: $ended of $all done; at work: ${name//,/, }" >&2
}

last_time_of() { # NAME
    if [[ ! -r $last_times ]]; then return; fi
    awk -v name="$1" '$1 == name { printf " (%d s the last time)", $2 }' "$last_times"
}

# Keeps the time for the next run to print. A part doesn't fail because its time can't be kept.
keep_time_of() { # NAME SECONDS
    if [[ ! $last_times ]]; then return; fi
    {
        mkdir -p -- "$(dirname -- "$last_times")" && touch -- "$last_times" &&
            awk -v name="$1" '$1 != name' "$last_times" >"$last_times.begun" &&
            echo "$1 $2" >>"$last_times.begun" && mv -- "$last_times.begun" "$last_times"
    } 2>/dev/null
}

# Runs a part in its subshell. Its folder for temporary files identifies everything that it starts. It ignores an
# interrupt and a hangup, as if ./test were started in the background of a script, or by nohup. So a part behaves alike
# however ./test was started, and a test that needs one of these signals uses `takes_signals`.
do_part() { # ROOM COMMAND..
    room=$1
    export TMPDIR=$room
    trap '' INT HUP
    passed=0 failed=0 runs_of_all=0 refused_of_all=0
    "${@:2}"
    echo "$passed $failed $runs_of_all $refused_of_all" >"$room.counts"
}

# bash forgets which of its jobs have ended, so that `wait -n` can miss one. But it remembers how they ended.
await_a_part() {
    local process status begun its_room
    while sleep 0.1; do
        for process in "${!at_work[@]}"; do
            if kill -0 "$process" 2>/dev/null; then continue; fi
            wait "$process"
            status=$?
            read -r begun its_room <<<"${at_work[$process]}"
            unset "at_work[$process]"
            take_back "$its_room" "$process" "$status" $((SECONDS - begun))
            return
        done
    done
}

# Waits until this part has ended.
await_part() { # NAME
    while [[ " ${at_work[*]##*/} " == *" $1."* ]]; do await_a_part; done
}

await_all_parts() {
    while ((${#at_work[@]} > 0)); do await_a_part; done
}

# Adds the numbers of a part that has ended. If there are none, ends the processes that it left.
take_back() { # ROOM PROCESS STATUS SECONDS
    local name=${1##*/} right=0 wrong=1 runs=0 refused=0
    name=${name%.*}
    cat -- "$1.printed"
    if [[ ! -s $1.counts ]]; then
        echo "FAILED: the part $name ended early, with status $3"
        end_processes "$1" "$2"
    else
        read -r right wrong runs refused <"$1.counts"
    fi
    ((passed += right, failed += wrong, runs_of_all += runs, refused_of_all += refused))
    echo "$name $((right + wrong)) $wrong $4" >>"$room_of_all/parts"
    keep_time_of "$name" "$4"
    echo "part $name: $((right + wrong)) cases, $wrong failed, $4 seconds"
}

# Prints the processes that the part of this room has started, or all parts, even indirectly.
started_in() { # ROOM
    grep -lsF -e "TMPDIR=$1" -e "STARTED_IN=$1" /proc/[0-9]*/environ | cut -d / -f 3
}

send_to_all() { # SIGNAL ROOM GROUP..
    local process
    for process in "${@:3}"; do kill -s "$1" -- "-$process"; done
    for process in $(started_in "$2"); do kill -s "$1" -- "$process"; done
} 2>/dev/null

# Ends these processes. They are asked to end first, since some must end what they have started, or remove a folder.
end_processes() { # ROOM GROUP..
    local signal turn turns
    for signal in "${ending[@]}"; do
        send_to_all "$signal" "$@"
        if [[ $signal == INT ]]; then turns=200; else turns=50; fi
        for ((turn = 0; turn < turns; turn += 1)); do
            if [[ ! $(started_in "$1") ]]; then break; fi
            sleep 0.1
        done
    done
}
