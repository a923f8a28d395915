# Plants some of the faults of ./test faults: random parts must fail on theirs (faults.py).

planted_faults() {
    told "$room/faults" tests/gate/faults.py "$tpr" "$ordered" --some 3 "${FAULTS_SEED:-$RANDOM}" "$room_of_all/parts"
}
