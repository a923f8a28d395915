# A script of 1 MiB with one wrong line among ordinary lines. The gate tests what tools/explain prints for it, and
# bench/explaining/run measures how long that takes.
script_of_a_mebibyte() {
    printf '%s\n' 'module M {' '  type record Order { integer number, charstring dish }' \
        '  type port Counter message { inout Order; }' '  type component Person { port Counter counter; }' \
        '  testcase t() runs on Person {'
    yes '    counter.send(Order:{1, "soup of the day"});   // one more order' | head -c 1048000 | sed '$d'
    printf '%s\n' '    counter.send(Order:{1, 2});' '  }' '}'
}
