#!/bin/bash
# Tries the edits of tests/edits/CRATE on a copy of the repository, where the prover must refuse each: of the crates that are named,
# else of all. With --apply-only nothing is proved: it says whether each edit fits its file, also those of crates/CRATE/must-fail.
# The last line is 'N passed, M failed'.
set -euo pipefail
unset CDPATH

cd "$(dirname "$(readlink -f "${BASH_SOURCE[0]}")")/.."
room=$(mktemp -d)
trap 'rm -rf "$room"' EXIT
passed=0
failed=0
apply_only=no
if [ "${1-}" = --apply-only ]; then
    apply_only=yes
    shift
fi
crates=("$@")
if [ "$#" -eq 0 ]; then
    for folder in tests/edits/*/; do crates+=("$(basename "$folder")"); done
    if [ "$apply_only" = yes ]; then
        for folder in crates/*/must-fail/; do crates+=("$(basename "$(dirname "$folder")")"); done
        mapfile -t crates < <(printf '%s\n' "${crates[@]}" | sort -u)
    fi
fi

# Whether each 'old:' text of the edits lies once in its file, on what the pairs before it made. CRATE EDIT..
apply() {
    python3 - "$@" <<'PYTHON'
import sys


def wrong(crate, edit):
    """Why the edit doesn't fit, or None."""
    text = file = old = None
    for line in open(edit, encoding="utf-8").read().splitlines():
        key, _, value = line.partition(": ")
        if key == "file":
            file = f"crates/{crate}/{value}"
            try:
                text = open(file, encoding="utf-8").read()
            except OSError:
                return f"there is no {file}"
        elif key == "old":
            old = value
        elif key in ("new", "new:"):
            if text is None or old is None:
                return "a line 'new:' with no 'file:' or 'old:' before it"
            if text.count(old) != 1:
                return f"{text.count(old)} times in {file}: {old}"
            text, old = text.replace(old, value), None
    return None if text is not None and old is None else "a part is missing"


found = [(edit, wrong(sys.argv[1], edit)) for edit in sys.argv[2:]]
for edit, why in found:
    print(f"{edit}: {why or 'as it should be'}")
failed = sum(why is not None for _, why in found)
print(f"{len(found) - failed} passed, {failed} failed")
PYTHON
}

# Adds what the last line of that file, 'N passed, M failed', says to the counts.
count() {
    local last
    last=$(sed -n 's/^\([0-9]*\) passed, \([0-9]*\) failed$/\1 \2/p' "$1" | tail -n 1)
    [ -n "$last" ] || last='0 1'
    passed=$((passed + ${last% *}))
    failed=$((failed + ${last#* }))
}

# Copies the repository with the libraries that were proved, but none of the edits that the gate tries; each crate named gets its own.
copy() {
    local crate
    mkdir "$room/copy"
    tar -cf - --exclude='crates/*/out/incremental' crates crates.txt | tar -xf - -C "$room/copy"
    [ ! -e HANDLES ] || cp HANDLES "$room/copy"
    git -C "$room/copy" init --quiet
    rm -rf "$room/copy"/crates/*/must-fail
    for crate in "${crates[@]}"; do
        cp -r "tests/edits/$crate" "$room/copy/crates/$crate/must-fail"
    done
}

shopt -s nullglob
for crate in "${crates[@]}"; do
    edits=(tests/edits/"$crate"/*.edit)
    [ "$apply_only" = no ] || edits+=(crates/"$crate"/must-fail/*.edit)
    if [ "${#edits[@]}" -eq 0 ]; then
        echo "there are no edits of $crate" >&2
        exit 2
    fi
    [ "$apply_only" = yes ] || continue
    apply "$crate" "${edits[@]}" | tee "$room/said"
    count "$room/said"
done
if [ "$apply_only" = no ]; then
    copy
    for crate in "${crates[@]}"; do
        # Not 'rt must-fail', which proves all crates below anew, also those that 'rt ci' kept.
        (cd "$room/copy" && rt ci "$crate") 2>&1 | tee "$room/said" || true
        edits=(tests/edits/"$crate"/*.edit)
        refused=$(grep -c "must-fail $crate/.*\.edit: refused, as it must be" "$room/said" || true)
        passed=$((passed + refused))
        failed=$((failed + ${#edits[@]} - refused))
    done
fi
echo "$passed passed, $failed failed"
[ "$failed" -eq 0 ]
