#!/usr/bin/env bash
# Tests .ci/try_mutants.py, which the gate calls, over two small crates and with an `rt` that refuses what it is told to
# refuse. It needs the toolchain. The last line is `N passed, M failed`.
#
# usage: tests/try_mutants.sh
set -euo pipefail
cd "$(dirname "$0")/.."
. tests/lib.sh
proved=$room/proved
top=$room/top

# Writes a mutant of a crate: `mutant CRATE NAME OLD NEW`. A check tells the lines that have the word `goal`, those that
# have `advice` so that they don't count, and no others. `rt must-fail` refuses what has no `equal` in its name.
mutant() {
    mkdir -p "$top/crates/$1/must-fail"
    printf 'file: src/lib.rt\nold: %s\nnew: %s\n' "$3" "$4" >"$top/crates/$1/must-fail/$2.edit"
}

# Calls the script when `rt ci` has printed these lines, and has ended or not.
try() {
    printf '%s\n' "${@:2}" >"$room/said"
    : >"$room/asked"
    keep env PATH="$room/bin:$PATH" "$top/.ci/try_mutants.py" "$proved" "$room/said" "$1"
}

# Whether the last call ended with this status, asked `rt` for this in some order, and printed these lines.
tells() {
    [ "$status" = "$1" ] && has <(sort "$room/asked") "$2" && has <(sort "$room/output") "$3"
}

mkdir -p "$room/bin" "$top"/{.ci,tests} "$proved/crates"/{below,above}/src
cat >"$room/bin/rt" <<EOF
#!/usr/bin/env bash
case \$1 in
    check)
        echo "check \${PWD##*/}: \$(grep -c goal src/lib.rt) goals" >>"$room/asked"
        sed -n -e '/advice/=' src/lib.rt | sed 's|.*|so far: note: src/lib.rt:&:5: not proved (\`returns\`)|'
        sed -n -e '/advice/=' src/lib.rt | sed 's|.*|src/lib.rt:&:5: note: not proved (\`returns\`)|'
        grep -q gone src/lib.rt && echo './proofs/one/Answers.antt:1:1: error: \`goal.then\`: has no \`then\`'
        sed -n -e '/goal/=' src/lib.rt | sed 's|.*|note: src/lib.rt:&:5: not proved (\`returns\`)|'
        [ ! -e "$room/broken" ] && ! grep -q goal src/lib.rt && exit
        [ ! -e "$room/breaks" ] || touch "$room/broken"
        grep -q unread src/lib.rt && echo 'src/lib.rt:4:5: error: \`four\` is not in scope'
        grep -q 'no verdict' src/lib.rt || echo logic=not-proved
        exit 1
        ;;
    must-fail)
        for file in crates/"\$2"/must-fail/*; do
            echo "must-fail \$2/\${file##*/}" >>"$room/asked"
            case \$file in
                *equal*) echo "rt: must-fail \$2/\${file##*/}: NOT REFUSED: the crate is still proved with this edit" ;;
                *.edit) echo "rt: must-fail \$2/\${file##*/}: refused, as it must be: alone" ;;
            esac
        done
        ;;
    *) exec $(command -v rt) "\$@" ;;
esac
EOF
chmod +x "$room/bin/rt"
cp .ci/*.py "$top/.ci/"
cp tests/{mutants,rattle,counting}.py "$top/tests/"
printf 'below:\nabove: below\n' >"$proved/crates.txt"
echo 'Handles allowed: none.' >"$proved/HANDLES"
for crate in below above; do
    printf 'const ONE: u8 = 1;\n\npub fn one() -> u8 {\n    ONE\n}\n\npub fn two() -> u8 {\n    ONE + 1\n}\n' \
        >"$proved/crates/$crate/src/lib.rt"
done
mkdir -p "$top/crates"
cp -r "$proved/crates"/* "$top/crates/"
here=$$
both=('rt: below proved' 'rt: above is kept: ..')

# What is said of a mutant whose goal is on this line.
goal() {
    echo "refused, as it must be: note: src/lib.rt:$1:5: not proved (\`returns\`)"
}
alone='refused, as it must be: alone'
not_refused='NOT REFUSED: the crate is still proved with this edit'
not_tried="NOT TRIED: its crate isn't proved, or \`rt must-fail\` says nothing of it"

mutant below two.three 'ONE + 1' '3 // goal'
mutant above two.three 'ONE + 1' '3 // goal'
mutant above two.four 'ONE + 1' '4 // goal'
try "$here" "${both[@]}"
check "a check tries a mutant, and mutants of one function are tried in turn" tells 0 'check above: 0 goals
check above: 0 goals
check above: 1 goals
check above: 1 goals
check below: 0 goals
check below: 0 goals
check below: 1 goals
' "3 passed, 0 failed
must-fail above/two.four.edit: $(goal 8)
must-fail above/two.three.edit: $(goal 8)
must-fail below/two.three.edit: $(goal 8)
"
rm -r "$top/crates/above/must-fail"

printf 'const ONE: u8 = 1;\n\npub fn one() -> u8 {\n    ONE * 1\n}\n\npub fn two() -> u8 {\n    ONE + 1\n}\n' |
    tee "$proved/crates/below/src/lib.rt" >"$top/crates/below/src/lib.rt"
mutant below one.two 'ONE * 1' '2 // goal'
try "$here" "${both[@]}"
check "mutants of different functions are tried at once" tells 0 'check below: 0 goals
check below: 0 goals
check below: 2 goals
' "2 passed, 0 failed
must-fail below/one.two.edit: $(goal 4)
must-fail below/two.three.edit: $(goal 8)
"
touch "$room/broken"
try "$here" "${both[@]}"
check "and each by itself where the crate isn't proved without them" tells 0 'check below: 0 goals
must-fail below/one.two.edit
must-fail below/two.three.edit
' "2 passed, 0 failed
must-fail below/one.two.edit: $alone
must-fail below/two.three.edit: $alone
"
mv "$room/broken" "$room/breaks"
try "$here" "${both[@]}"
check "or isn't proved any more after them" tells 0 'check below: 0 goals
check below: 0 goals
check below: 2 goals
must-fail below/one.two.edit
must-fail below/two.three.edit
' "2 passed, 0 failed
must-fail below/one.two.edit: $alone
must-fail below/two.three.edit: $alone
"
rm "$room/broken" "$room/breaks"
for what in advice gone; do
    mutant below one.two 'ONE * 1' "2 // $what"
    try "$here" "${both[@]}"
    check "so is one of which a check tells no goal, but: $what" tells 0 'check below: 0 goals
check below: 0 goals
check below: 1 goals
must-fail below/one.two.edit
' "2 passed, 0 failed
must-fail below/one.two.edit: $alone
must-fail below/two.three.edit: $(goal 8)
"
done
for what in unread 'no verdict'; do
    mutant below one.two 'ONE * 1' "four // goal, $what"
    try "$here" "${both[@]}"
    check "and all, where the text isn't read: $what" tells 0 'check below: 0 goals
check below: 0 goals
check below: 2 goals
must-fail below/one.two.edit
must-fail below/two.three.edit
' "2 passed, 0 failed
must-fail below/one.two.edit: $alone
must-fail below/two.three.edit: $alone
"
done
rm "$top/crates/below/must-fail/one.two.edit"
mutant below one.equal 'ONE * 1' '1 // equal'
try "$here" "${both[@]}"
check "one that is still proved fails" tells 1 'check below: 0 goals
check below: 0 goals
check below: 1 goals
must-fail below/one.equal.edit
' "1 passed, 1 failed
must-fail below/one.equal.edit: $not_refused
must-fail below/two.three.edit: $(goal 8)
"
rm "$top/crates/below/must-fail/one.equal.edit"
mutant below lib.one-is-two 'u8 = 1' 'u8 = 2 // goal'
try "$here" "${both[@]}"
check "one of no function is tried by itself" tells 0 'check below: 0 goals
check below: 0 goals
check below: 1 goals
must-fail below/lib.one-is-two.edit
' "2 passed, 0 failed
must-fail below/lib.one-is-two.edit: $alone
must-fail below/two.three.edit: $(goal 8)
"
rm "$top/crates/below/must-fail/lib.one-is-two.edit"
touch "$top/crates/below/must-fail/two.three"
try "$here" "${both[@]}"
check "a file that rt doesn't take for a mutant fails" tells 1 'check below: 0 goals
check below: 0 goals
check below: 1 goals
must-fail below/two.three
' "1 passed, 1 failed
must-fail below/two.three.edit: $(goal 8)
must-fail below/two.three: $not_tried
"
rm "$top/crates/below/must-fail/two.three"
mutant above two.three 'ONE + 1' '3 // goal'
try 0 'rt: below NOT PROVED' 'rt: above NOT PROVED'
check "without a proof its mutants fail" tells 1 '' "0 passed, 2 failed
must-fail above/two.three.edit: $not_tried
must-fail below/two.three.edit: $not_tried
"
try 0 'rt: below proved' 'rt: above NOT PROVED'
check "and no others" tells 1 'check below: 0 goals
check below: 0 goals
check below: 1 goals
' "1 passed, 1 failed
must-fail above/two.three.edit: $not_tried
must-fail below/two.three.edit: $(goal 8)
"
tell_sums
