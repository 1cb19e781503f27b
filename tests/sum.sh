# Sourced by .ci/run and tests/run: runs commands whose last line is 'N passed, 0 failed', N above 0, and adds up N in `sum`. It stops at the first failure.
set -euo pipefail

log=$(mktemp)
trap 'rm -f "$log"' EXIT

sum=0
run() {
    echo "run: $*"
    if ! "$@" 2>&1 | tee "$log"; then
        echo "failed: $*"
        exit 1
    fi
    last=$(tail -n 1 "$log")
    if ! [[ $last =~ ^([0-9]+)\ passed,\ 0\ failed$ ]] || [ "${BASH_REMATCH[1]}" -eq 0 ]; then
        echo "no count of passed tests from: $*"
        exit 1
    fi
    sum=$((sum + BASH_REMATCH[1]))
}
