# Tests the tools for test engineers: tools/chart, also with connections (connections.py), tools/compare, tools/suite,
# the commands of docs/CI.md (build_servers.py), the common behaviour of all tools (tool_words.py), and pages of charts
# and suites in a real browser, if there is one (pages.py).

tools() {
    mkdir -- "$room/charts" "$room/comparisons"
    at_least $((reports_of_examples + 38)) told "$room/told_of_charts" tests/tools/charts.py "$room/charts"
    at_least $((small_scripts + 9)) told "$room/told_of_connections" tests/tools/connections.py
    at_least 241 refused_reports
    at_least 119 suites
    mkdir -- "$room/pages"
    told "$room/told_of_pages" tests/tools/pages.py "$room/pages" "$room/suites/with_pages"
    at_least 16 told "$room/told_of_build_servers" tests/tools/build_servers.py "$tpr"
    at_least $((open_examples + 13)) told "$room/told_of_comparisons" tests/tools/comparisons.py "$room/comparisons"
    at_least 65 told "$room/told_of_words" tests/tools/tool_words.py
}

# Tests the commands that report times: tools/costs.py, tests/gate/gate_times.py, and ./test while its parts run.
costs() {
    at_least 17 told "$room/costs" tests/tools/costs_cases.py
}

# Tests that the tools refuse cut reports, and texts that aren't reports, with the line.
refused_reports() {
    mkdir -- "$room/refused_reports"
    told "$room/told_of_refused_reports" tests/tools/refused_reports.py "$room/refused_reports"
}

# Tests tools/suite: its lines for scripts with each result, for a program that isn't tpr, and for wrong command lines.
suites() {
    mkdir -- "$room/suites"
    told "$room/told_of_suites" tests/tools/suites.py "$tpr" "$called" "$room/suites"
}

# Tests the output of tools/explain for refused scripts, its warnings about accepted ones, and all faults at once in
# each form.
explains() {
    at_least 84 told "$room/explained" tests/tools/explain_cases.py "$tpr" $((grammar_texts + 103 + changed_scripts))
    at_least 55 told "$room/formats" tests/tools/explain_formats.py "$tpr"
}

# Tests the output of tools/why for reports.
whys() {
    at_least $((reports_of_examples + 95)) told "$room/whys" tests/tools/why_cases.py "$tpr"
}

# Tests releases: what a passed gate leaves for tools/release, and the archive and the packages that tools/release makes
# (releases.py).
release() {
    mkdir -- "$room/release"
    local library=${port:+$port/lib/libtp_port.a}
    told "$room/told_of_releases" tests/tools/releases.py "$tpr" "$ordered" "$room/release" ${library:+"$library"}
}
