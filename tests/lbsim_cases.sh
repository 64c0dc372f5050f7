#!/bin/bash
# What ./lbsim does around the program, tried on a copy with a made 'rt': it proves nothing and takes about a second.
# A line for each case; the last line is 'N passed, M failed'.
set -euo pipefail
unset CDPATH

here=$(dirname "$(readlink -f "${BASH_SOURCE[0]}")")
room=$(mktemp -d)
trap 'rm -rf "$room"' EXIT
repository=$room/repository
lbsim=$repository/lbsim
script=$room/one.script
passed=0
failed=0

# A repository of four crates under the script, one of them apart from the program.
mkdir -p "$repository"/crates/{low,mid,apart,lbsim}/{src,specs,proofs} "$room"/{bin,tools}
cp "$here/../lbsim" "$here/../launcher.sh" "$repository"
printf '%s\n' '# lowest first' 'low may_wait=2: rand_core' 'mid: low memchr # on low' 'apart: low' 'lbsim: mid' >"$repository/crates.txt"
printf 'gate\n' >"$script"

# The made rt builds a program that prints how it was called; it refuses a crate in which a file 'open' lies. A trial build
# prints as much and ends with status 1; where a file 'cut' lies it gives no whole answer.
cat >"$room/bin/rt" <<'END'
#!/bin/bash
crate=$(basename "$PWD")
if [ "$1" = try ]; then
    echo "trial $*"
    cat
    echo 'of its own' >&2
    [ ! -e cut ] || { echo 'run=no-answer proved=no' >&2; exit 6; }
    printf 'checked: ended status=1\nraces: none\nrun=ended status=1 runners=1 proved=no\n' >&2
    exit 1
fi
echo "rt $1 in $crate"
[ ! -e open ] || { echo "open goal in $crate"; exit 1; }
[ "$1" = run ] || exit 0
mkdir -p out
printf '#!/bin/sh\necho "arguments $#"\ncat\n' >out/lbsim
chmod +x out/lbsim
END
chmod +x "$room/bin/rt"

# Another folder for the PATH, with what the script uses besides rt.
for tool in bash cat dirname find flock head mkdir mktemp mv readlink rm sed tail touch wc; do
    ln -s "$(command -v "$tool")" "$room/tools/$tool"
done

proving=("$lbsim" --prove)
notice='lbsim: a trial build, not proved: ./lbsim --prove builds the proved one, about [0-9]* minutes'
tried=$'trial try --seconds 3600 --\ngate'
answers=$'arguments 0\ngate'
built=$'crate 1 of 3: low\ncrate 2 of 3: mid\ncrate 3 of 3: lbsim\n'"$answers"

# Whether a command ends with the status and says the text: 'says' somewhere, 'says_just' as the whole.
says() { judge "$1" "$2" "*$3*" "${@:4}"; }
says_just() { judge "$1" "$2" "$3" "${@:4}"; }
judge() {
    local name=$1 wanted=$2 pattern=$3 said status=0
    said=$("${@:4}" 2>&1 </dev/null) || status=$?
    # shellcheck disable=SC2053 # the right side is a pattern
    if [ "$status" -eq "$wanted" ] && [[ $said == $pattern ]]; then
        echo "$name: as it should be"
        passed=$((passed + 1))
    else
        printf '%s: status %s, said:\n%s\n' "$name" "$status" "$said"
        failed=$((failed + 1))
    fi
}

from_folder() { (cd "$1" && "${@:2}"); }
without_rt() { PATH=$room/tools "$@"; }
fed() { "$@" <"$script"; }
only_output() { "$@" 2>/dev/null; }

says 'help' 0 'usage: ./lbsim [[]SCRIPT]' "$lbsim" --help
says 'short help' 0 'usage: ./lbsim [[]SCRIPT]' "$lbsim" -h
says 'two arguments' 2 'usage: ./lbsim [[]SCRIPT]' "$lbsim" a b
says 'an option that is not there' 2 'there is no option --fast' "$lbsim" --fast
says 'a file that is not there' 2 'there is no file none.script' "$lbsim" none.script
says 'a directory' 2 'is a directory' "$lbsim" "$room"
says 'no rt' 2 'install the Rattle toolchain' without_rt "$lbsim" "$script"

says 'no rt to prove with' 2 'install the Rattle toolchain' without_rt "${proving[@]}"

export PATH=$room/bin:$PATH
says_just 'a trial build' 1 "$notice"$'\n'"$tried"$'\nof its own' "$lbsim" "$script"
says_just 'a trial build on standard output' 1 "$tried" only_output "$lbsim" "$script"
says_just 'a trial build of standard input' 1 "$tried" only_output fed "$lbsim"
touch "$repository/crates/lbsim/cut"
says 'a trial build that is cut' 2 'gave no whole answer' "$lbsim" "$script"
says_just 'and nothing of it on standard output' 2 '' only_output "$lbsim" "$script"
rm "$repository/crates/lbsim/cut"
truncate -s 64M "$room/large.script"
says 'a script too large for a trial build' 2 'reads less than 67108864 bytes' "$lbsim" "$room/large.script"
rm "$room/large.script"

touch "$repository/crates/mid/open"
says 'a crate that is not proved' 2 'open goal in mid' "${proving[@]}"
says 'still not proved' 2 "mid isn't proved" "${proving[@]}" "$script"
rm "$repository/crates/mid/open"
says 'a line for each crate' 0 'crate 3 of 3: lbsim' "${proving[@]}"
says_just 'proved before' 0 '' "${proving[@]}"
says_just 'proved before, and a script' 0 "$answers" "${proving[@]}" "$script"
says_just 'nothing to build' 0 "$answers" "$lbsim" "$script"
says_just 'nothing to build, and no rt' 0 "$answers" without_rt "$lbsim" "$script"

says_just 'standard input' 0 "$answers" fed "$lbsim"
says_just 'standard input by its sign' 0 "$answers" fed "$lbsim" -
says_just 'from another folder' 0 "$answers" from_folder "$room" repository/lbsim one.script
says_just 'with CDPATH' 0 "$answers" from_folder "$room" env CDPATH="$repository:/usr" repository/lbsim one.script
ln -s repository/lbsim "$room/linked"
ln -s ../linked "$room/bin/twice"
says_just 'through a symlink' 0 "$answers" from_folder / "$room/linked" "$script"
says_just 'through two, on the PATH' 0 "$answers" from_folder "$room" twice one.script

for source in crates/low/src/a.rt crates/mid/specs/A.antt crates/lbsim/proofs/A.antt crates.txt; do
    touch "$repository/$source"
    says "$source is newer" 1 "$notice" "$lbsim" "$script"
    says "$source is newer, and proved" 0 "$built" "${proving[@]}" "$script"
    says_just "$source was built" 0 "$answers" "$lbsim" "$script"
done
rm "$repository/crates/low/src/a.rt"
says 'a source is gone' 0 "$built" "${proving[@]}" "$script"
touch "$repository/crates/apart/src/a.rt"
says_just 'a crate apart is newer' 0 "$answers" "$lbsim" "$script"
touch "$repository/crates/low/src/a.rt"
says_just 'only the program writes to standard output' 0 "$answers" only_output "${proving[@]}" "$script"

echo "$passed passed, $failed failed"
[ "$failed" -eq 0 ]
