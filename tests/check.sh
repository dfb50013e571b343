# Sourced by the test scripts: a folder for what they make, unless the script has set one; checks that are counted; the closing
# line.
passed=0
failed=0
if [[ -z ${work:-} ]]; then
    work=$(mktemp -d) || exit 1
    trap 'rm -rf "$work"' EXIT
fi

# What is shown of what a failed check has printed.
excerpt() { head -c 8000 "$work/said"; }

# check WHAT COMMAND..: the command must succeed; what it prints is shown if it does not.
check() {
    local what=$1
    shift
    if "$@" >"$work/said" 2>&1 </dev/null; then
        passed=$((passed + 1))
    else
        failed=$((failed + 1))
        echo "failed: $what"
        excerpt
    fi
}

# show WHAT COMMAND..: a check whose last line is shown if it succeeds.
show() {
    local before=$failed
    check "$@"
    ((failed > before)) || echo "$1: $(tail -n 1 "$work/said")"
}

# The last line of a script, and its exit status: 0 only if nothing failed.
closing() {
    echo "$passed passed, $failed failed"
    ((failed == 0 && passed > 0))
}
