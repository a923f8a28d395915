# Tests tpr_ordered: orders that it keeps, refuses or can't hold, some of which need several components inside their
# operations at once; runs that end by themselves (forced.py); and calls that fail (failed_orders.py).

forced_of_each() {
    mkdir -- "$room/forced"
    told "$room/told_of_forced" tests/forced/forced.py "$tpr" "$ordered" "$room/forced"
}

failed_of_each() {
    told "$room/told_of_failed" tests/forced/failed_orders.py "$ordered" "$room/forced" "$room_of_all/refused.so"
}

forced_orders() {
    set_up "tpr_ordered is built" [ -x "$ordered" ] || return
    at_least 63 forced_of_each
    if is_script "$ordered"; then
        leave_out "calls that fail in tpr_ordered, because TPR_ORDERED names a script"
    else
        at_least 7 failed_of_each
    fi
}
