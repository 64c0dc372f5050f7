#!/bin/bash
# Whether the documents fit the repository: crates and definitions that are named, README's example and its
# counts, definitions that are quoted, comments and lines.
# A line for each case; the last line is 'N passed, M failed'.
set -euo pipefail
unset CDPATH

cd "$(dirname "$(readlink -f "${BASH_SOURCE[0]}")")/.."
passed=0
failed=0

# NAME COMMAND..: the command prints nothing.
silent() {
    local said
    said=$("${@:2}" 2>&1) || said="it failed: $said"
    if [ -z "$said" ]; then
        echo "$1: as it should be"
        passed=$((passed + 1))
    else
        printf '%s:\n%s\n' "$1" "$said"
        failed=$((failed + 1))
    fi
}

crate_names() { sed -n 's/#.*//; s/^\([a-z0-9_]*\)[ :].*/\1/p' crates.txt; }
unnamed_crates() {
    local name
    for name in $(crate_names); do
        grep -q "$name" "$1" || echo "$name isn't named in $1"
    done
}
# Crates that a document names and crates.txt doesn't have.
absent_crates() {
    local name
    grep -oh '\blb_[a-z_]*\b' README.md docs/*.md | sort -u | while read -r name; do
        crate_names | grep -qx "$name" || echo "$name isn't in crates.txt"
    done
}
# Files of definitions that a document names by crate and that aren't there.
absent_specs() {
    local file
    grep -oh '\blb_[a-z_]*/specs/[A-Za-z/]*[A-Za-z]' README.md docs/*.md | sort -u | while read -r file; do
        [ -e "crates/$file.antt" ] || echo "there is no crates/$file.antt"
    done
}
# README's example is lb_example's first one with a `main`.
example_of_readme() {
    diff <(awk '/^```rust$/ { on = 1; next } /^```$/ { on = 0 } on' README.md) - <<EOF
$(cat crates/lb_example/src/first.rt)

fn main(rt: HostRuntime) -> Result<(), anyhow::Error> {
    run(&rt, pingora_load_balancing::health_check::TcpHealthCheck::new(rt))
}
EOF
}
# Documents that a document names and that aren't there.
absent_documents() {
    local file
    grep -oh '\bdocs/[A-Z_a-z]*\.[a-z]*' README.md docs/*.md lbsim lbcheck | sort -u | while read -r file; do
        [ -e "$file" ] || echo "there is no $file"
    done
}
# Names under a module of the facade that a document has and the facade doesn't pass on.
facade_modules='background|discovery|health_check|plain|port|prelude|schedule|selection|simulation'
absent_names() {
    local path
    grep -ohE "\\b($facade_modules)::[A-Za-z_]+" README.md docs/DIFFERENCES.md | sort -u | while read -r path; do
        grep -qE "\\b${path##*::}\\b" crates/pingora_load_balancing/src/"${path%%::*}".rt || echo "the facade has no $path"
    done
}
# Counts of README's table 'Reliability' that aren't the repository's.
stale_counts() {
    local edits=(crates/*/must-fail/*.edit) more=(tests/edits/*/*.edit) single threaded rows asked said
    single=$(grep -rhx ' *#\[test\]' crates/lb_tests/src | wc -l)
    threaded=$(grep -rhx ' *#\[test\]' crates/lb_{thread,group}_tests/src | wc -l)
    rows=$(wc -l <crates/lb_rows/stdout)
    asked=$(grep -cE '^(asked|against) ' tests/lbcheck_cases.sh)
    for said in "${#edits[@]} in each gate, ${#more[@]} more" "${rows} in each gate" "$single and $threaded in each gate" \
        " and $asked in each gate"; do
        grep -qF "$said" README.md || echo "README doesn't say '$said'"
    done
}
# Files of definitions that contracts of libraries cite, and those that the headline rests on: its own, and what these import.
definitions() { find crates/lb_*/specs -name '*.antt' ! -name Lib.antt ! -path '*/Internal*' ! -path 'crates/lb_tests/*'; }
headline_definitions() {
    local found=crates/lb_world/specs/Headline.antt more
    while :; do
        more=$(xargs grep -oh 'Rattle\.lb_[a-z_]*\.specs\.[A-Z][A-Za-z]*' <<<"$found" | sed 's|\.|/|g; s|^Rattle|crates|; s|$|.antt|')
        more=$(printf '%s\n' "$found" "$more" | sort -u)
        [ "$more" != "$found" ] || break
        found=$more
    done
    echo "$found"
}
# Counts of definitions in README and docs/TOUR.md that aren't the repository's.
stale_definitions() {
    local files lines document
    files=$(definitions | wc -l) lines=$(definitions | xargs cat | wc -l | sed 's/...$/,&/')
    grep -qF "$files files of $lines lines" README.md || echo "README doesn't say '$files files of $lines lines'"
    files=$(headline_definitions | wc -l) lines=$(headline_definitions | xargs cat | wc -l | sed 's/...$/,&/')
    for document in README.md docs/TOUR.md; do
        tr -s '\n ' ' ' <"$document" | grep -qE "rests on $files of (these files|them), $lines lines" ||
            echo "$document doesn't say that the headline rests on $files of them, $lines lines"
    done
}
# Definitions that docs/TOUR.md quotes and that the file named before them doesn't have, letter for letter but for their indentation.
absent_quotes() {
    python3 - <<'EOF'
import re

with open("docs/TOUR.md", encoding="utf-8") as tour:
    parts = re.split(r"```text\n(.*?)\n```", tour.read(), flags=re.S)
for said, quoted in zip(parts[::2], parts[1::2]):
    path = re.findall(r"`(crates/[^`]*\.(?:antt|rt))`", said)[-1]
    with open(path, encoding="utf-8") as file:
        text = file.read()
    for definition in quoted.split("\n\n"):
        lines = definition.splitlines()
        if not any("\n" + "\n".join(" " * depth + it for it in lines) + "\n" in text for depth in range(0, 13, 2)):
            print(f"{path} has no such lines as {lines[0]}")
EOF
}
long_lines() { LC_ALL=C.UTF-8 grep -nE '.{141}' README.md docs/*.md || true; }
long_source_lines() {
    LC_ALL=C.UTF-8 grep -rnE '.{141}' crates/*/src crates/*/specs crates/*/proofs --include='*.rt' --include='*.antt' || true
}
# Comments of items whose first words don't say what the item is or does.
empty_beginnings() {
    find crates/*/src -name '*.rt' -exec awk 'FNR == 1 { after = 0 }
        /^ *\/\/\/ (The same|As) / && !after { print FILENAME ":" FNR ":" $0 } { after = /^ *\/\/\// }' {} +
}
# FROM TO TABLE: each row in a file that ends in FROM has one that ends in TO, and its name is in the table and in what is written.
rows_that_lack() {
    local row name
    for row in crates/lb_rows/data/*."$1"; do
        name=$(basename "$row" ".$1")
        [ -e "${row%."$1"}.$2" ] || echo "$row has no $2"
        grep -qF "\"$name\"" "crates/lb_rows/src/$3" || echo "$row isn't run"
        grep -qxF "$name: as it should be" crates/lb_rows/stdout || echo "$row has no line in stdout"
    done
}
rows_without_answers() {
    rows_that_lack script answers script_tables.rt
    rows_that_lack stream answer check_tables.rt
}

silent 'docs/ARCHITECTURE.md names each crate' unnamed_crates docs/ARCHITECTURE.md
silent 'no crate is named that is not there' absent_crates
silent 'no file of definitions is named that is not there' absent_specs
silent 'no document is named that is not there' absent_documents
silent 'no name of the facade is named that is not there' absent_names
silent 'the example in README is the one that is proved' example_of_readme
silent 'the counts in README are those of the repository' stale_counts
silent 'the definitions in docs/TOUR.md are those of their files' absent_quotes
silent 'the counts of definitions are those of the repository' stale_definitions
silent 'no line of a document is over 140 columns' long_lines
silent 'no line of a source is over 140 columns' long_source_lines
silent "no comment of an item begins with 'The same' or 'As'" empty_beginnings
silent 'each row has answers and is run' rows_without_answers

echo "$passed passed, $failed failed"
[ "$failed" -eq 0 ]
