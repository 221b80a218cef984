# Sourced by the test scripts at the root of the project: steps that are counted, and what C programs are linked with.
# `out` names the folder for what they write.
passed=0
failed=0
mkdir -p "$out/logs"

# counts LOG: 'GOOD BAD' for each line of counts: a test program's last line, or those of cargo test.
counts() {
    if [[ $(tail -n 1 "$1") =~ ^([0-9]+)\ passed,\ ([0-9]+)\ failed$ ]]; then
        echo "${BASH_REMATCH[1]} ${BASH_REMATCH[2]}"
    else
        sed -nE 's/^test result: .*\. ([0-9]+) passed; ([0-9]+) failed.*/\1 \2/p' "$1"
    fi
}

# step WHAT COMMAND..: one step, which fails at its first failing command. Its own counts are added up; a step without
# them counts as one. What a failing step wrote is shown.
step() {
    local what=$1 log rc good=0 bad=0 more fewer
    shift
    log=$out/logs/${what//[ \/]/-}.log
    # Not in a condition, where the shell would pass over what fails inside a function.
    set +e
    (
        set -e
        "$@"
    ) >"$log" 2>&1
    rc=$?
    set -e
    while read -r more fewer; do
        good=$((good + more))
        bad=$((bad + fewer))
    done < <(counts "$log")
    # A step may fail and have counted no failure: it broke off, or valgrind has its own behind the counts.
    if [ "$rc" -ne 0 ] && [ "$bad" -eq 0 ]; then bad=1; fi
    if [ "$good" -eq 0 ] && [ "$bad" -eq 0 ]; then good=1; fi
    passed=$((passed + good))
    failed=$((failed + bad))
    if [ "$bad" -eq 0 ]; then
        echo "ok: $what"
    else
        echo "FAILED: $what"
        cat "$log"
    fi
}

# has TOOL: whether it is there; what is not there is said, and never passed over quietly.
has() {
    command -v "$1" >"$out/logs/which.log" || { echo "absent: $1"; return 1; }
}

# link_with: what a C program is compiled and linked with: `include` and `archives`, from the package that PZ_PACKAGE
# names; else the header that stands here and the archives of the exported crates, which are built first.
link_with() {
    if [ -n "${PZ_PACKAGE:-}" ]; then
        include=$PZ_PACKAGE/include
        archives=("$PZ_PACKAGE/lib/libpolonezar.a")
    else
        step "archives" ./archives
        include=$PWD/include
        mapfile -t archives < <(./archives --list)
    fi
}

# finish: the last line, and the exit status. Links that steps made are removed, since `rt ci` stops at any link in the
# checkout.
finish() {
    find "$out" -type l -delete
    echo "$passed passed, $failed failed"
    [ "$failed" -eq 0 ]
}
