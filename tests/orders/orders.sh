# Tests every order of the steps of small scripts (tests/orders/*/*.ttcn): the report of tpr_ordered must be that of the
# model of runs (tools/tpr_tools/model/). ./test defines `built_by_gate`.

# The minimum numbers of scripts with a behaviour that waits at the end, and of orders of all scripts.
least_waiting=10
least_orders=31000

# Builds tpr_ordered if TPR_ORDERED names none: `rt run` runs what it has built, here on one order of one script. If
# `rt ci` has built it in this run, it isn't built again: `rt ci` keeps nothing by which `rt run` would know that, so
# every crate would be proved once more. This is called once, before the first of the parts that need it.
build_ordered() {
    local script=$root/tests/orders/messages/all_wait_for_each_other.ttcn
    if [[ -z ${TPR_ORDERED-} ]] && ! built_by_gate "$ordered"; then
        echo >"$room/no_step"
        if ! (cd -- "$root/crates/tpr_ordered" && exec rt run -- "$script" "$room/no_step") \
            </dev/null >"$room/built" 2>&1; then
            tail -n 20 -- "$room/built"
            return 1
        fi
    fi
    [[ -x $ordered ]]
}

orders_of_each() {
    told "$room/orders" tests/orders/compare.py "$ordered" tests/orders/*/*.ttcn
    ordered_reports=$(sum_of 2 "$room/orders")
    waiting_scripts=$(awk '$1 == "passed" && $3 > 0' "$room/orders" | wc -l)
}

every_order() {
    set_up "tpr_ordered is built" [ -x "$ordered" ] || return
    at_least "$small_scripts" orders_of_each
    set_up "$least_orders orders are compared" [ "$ordered_reports" -ge "$least_orders" ]
    set_up "$least_waiting scripts wait in some order" [ "$waiting_scripts" -ge "$least_waiting" ]
    echo "orders: $ordered_reports of $(grep -c '^passed ' "$room/orders") scripts," \
        "$(sum_of 3 "$room/orders") of them with a behaviour that waits in the end"
}

# Tests the judge of tests/runs/soak: it allows what an example may print and all that a small script may report, and
# refuses slightly different reports. The files of an open example are all the reports that its script may have.
judge_of_each() {
    find_runnable
    told "$room/judged" tests/orders/judged.py "${runnable[@]}"
    echo "the judge: $(sum_of 2 "$room/judged") reports allowed, $(sum_of 3 "$room/judged") refused"
}

the_judge() {
    at_least $((right_examples + small_scripts)) judge_of_each
}
