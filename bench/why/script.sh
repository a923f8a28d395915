# A script with two loops of 1,000 turns, whose report has 60,000 entries: each turn sends 30 messages that contain the
# loop variable, and the other component receives them in an `alt`. The gate tests what tools/why prints for it, and
# bench/why/run measures how long that takes.
script_of_60000_entries() {
    local turn
    printf '%s\n' 'module M {' '  type record Order { integer number, charstring dish }' \
        '  type port Counter message { inout Order; }' '  type component Person { port Counter counter; }' \
        '  function cook() runs on Person {' '    for (var integer i := 0; i < 1000; i := i + 1) {'
    for ((turn = 0; turn < 30; turn++)); do
        printf '%s\n' '      alt {' '        [] counter.receive(Order:{?, pattern "tea*"}) { setverdict(fail); }' \
            '        [] counter.receive(Order:{i, ?});' '      }'
    done
    printf '%s\n' '    }' '  }' '  testcase t() runs on Person {' '    var Person chef := Person.create;' \
        '    connect(self:counter, chef:counter);' '    chef.start(cook());' \
        '    for (var integer i := 0; i < 1000; i := i + 1) {'
    yes '      counter.send(Order:{i, "soup of the day"});' | head -n 30
    printf '%s\n' '    }' '    all component.done;' '  }' '}'
}
