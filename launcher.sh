# Runs a program of this repository: the proved one where it is newer than its sources, else a trial build. ./lbsim and
# ./lbcheck read this in. It wants `name`, the crate of the program, `top`, the repository, `trial`, the words after 'rt run'
# with which the program ends with status 0, and `minutes`, what proving takes. Only the program itself is to write to
# standard output.
out=$top/crates/$name/out
program=$out/$name
built_from=$out/$name.built-from # its time is the start of the build that made the program
log=$out/$name.log

stop() {
    echo "$name: $1" >&2
    exit 2
}

need_rt() {
    command -v rt >/dev/null || stop "it has to be built, and there is no 'rt' on the PATH: install the Rattle toolchain that
README.md names (it needs Python 3.8 or later and no network), put the folder that holds 'rt' on the PATH, and run this again"
}

# The crates of this repository that $1 uses, by crates.txt, and then $1 itself: lowest first, each once.
crates=()
add_crates() {
    local name=$1 dependency dependencies
    [[ " ${crates[*]-} " != *" $name "* ]] || return 0
    dependencies=$(sed -n "s/#.*//; s/^$name\( [^:]*\)\{0,1\}://p" "$top/crates.txt")
    for dependency in $dependencies; do
        [ ! -d "$top/crates/$dependency" ] || add_crates "$dependency"
    done
    crates+=("$name")
}

# Whether the program is missing or older than what it is made from.
is_due() {
    local folders=() crate folder newer
    [ -x "$program" ] && [ -e "$built_from" ] || return 0
    for crate in "${crates[@]}"; do
        for folder in src specs proofs; do
            [ ! -d "$top/crates/$crate/$folder" ] || folders+=("$top/crates/$crate/$folder")
        done
    done
    newer=$(find "$top/crates.txt" "${folders[@]}" -newer "$built_from" -print -quit)
    [ -n "$newer" ]
}

# Proves and builds each crate, the program last.
build() {
    local crate number=0 command=()
    need_rt
    touch "$built_from.new"
    for crate in "${crates[@]}"; do
        number=$((number + 1))
        echo "crate $number of ${#crates[@]}: $crate" >&2
        command=(lib)
        [ "$crate" != "$name" ] || command=(run "${trial[@]}")
        if ! (cd "$top/crates/$crate" && rt "${command[@]}") </dev/null >>"$log" 2>&1; then
            tail -n 20 "$log" >&2
            stop "$crate isn't proved; the whole of what the prover said is in $log"
        fi
    done
    mv "$built_from.new" "$built_from"
}

# Proves and builds the program if it is missing or older than a source: a line on standard error for each crate.
prove_if_due() {
    add_crates "$name"
    if is_due; then
        mkdir -p "$out"
        exec 9>"$out/$name.lock"
        flock 9 # one build at a time; who waited looks again
        if is_due; then
            echo "$name: proving and building what is missing or older than its source; from nothing about $minutes minutes" >&2
            : >"$log"
            build
        fi
        exec 9>&-
    fi
}

# 'rt try' cuts what it reads at this many bytes.
input_limit=67108864

# Ends with the answers of a trial build, given these arguments and standard input. 'rt try' passes on what the program wrote
# when that has ended, and behind what it wrote to standard error three lines of its own. Nothing is passed on in part.
run_trial() {
    local status=0
    need_rt
    room=$(mktemp -d)
    trap 'rm -rf "$room"' EXIT
    cat >"$room/input"
    [ "$(wc -c <"$room/input")" -lt "$input_limit" ] ||
        stop "a trial build reads less than $input_limit bytes: ./$name --prove builds the program without that limit"
    (cd "$top/crates/$name" && rt try --seconds 3600 -- "$@") <"$room/input" >"$room/output" 2>"$room/said" || status=$?
    if [[ $(tail -n 3 "$room/said") != 'checked: ended status='*$'\nraces: '*$'\nrun=ended status='"$status "* ]]; then
        cat "$room/said" >&2
        stop "the trial build gave no whole answer, which is at most 1 MiB: ./$name --prove builds the program without that limit"
    fi
    cat "$room/output"
    head -n -3 "$room/said" >&2
    exit "$status"
}

# Runs the program with these arguments, and ends with its status.
run_program() {
    add_crates "$name"
    is_due || exec "$program" "$@"
    echo "$name: a trial build, not proved: ./$name --prove builds the proved one, about $minutes minutes" >&2
    run_trial "$@"
}
