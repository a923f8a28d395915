# Runs random scripts for three minutes (tests/runs/soak), with a seed that it prints; the model of runs judges each
# report. A script with a wrong report stays in out/soak, and the same seed makes it again.

minutes_of_soak=3
# The minimum numbers of scripts, and of scripts with many components, that are tried in that time on any machine.
least_of_soak=40
least_of_soak_of_many=2

# The word at this place of the soak's last line.
soaked() { # PLACE
    awk -v place="$1" '$1 == "soak:" { found = $place } END { print found + 0 }' "$room/soak"
}

soak() {
    set_up "tpr_ordered is built" [ -x "$ordered" ] || return
    TPR=$tpr TPR_ORDERED=$ordered python3 -B tests/runs/soak "$minutes_of_soak" >"$room/soak" 2>&1
    count $?
    cat -- "$room/soak"
    set_up "half of the reports or more are decided" [ $((2 * $(soaked 23))) -le "$(soaked 21)" ] && count 0
    set_up "$least_of_soak scripts were made" [ "$(soaked 2)" -ge "$least_of_soak" ] && count 0
    set_up "$least_of_soak_of_many of them had many components" \
        [ "$(soaked 4)" -ge "$least_of_soak_of_many" ] && count 0
}
