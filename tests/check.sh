#!/usr/bin/env bash
# Calls the built program dotenvy_check on real files, with each option: files that can't be opened or read, a FIFO,
# links, folders, the search for `.env`, words that are no text, and standard output and error that are closed or full.
# `tests/check.sh PROGRAM` calls another program, and a second word is its version. Without a word it is the one that
# `rt ci`, or `rt run` in crates/dotenvy_check, has built. It takes some seconds. The last line is `N passed, M failed`.
#
# shellcheck disable=SC2016 # dollars in single quotes belong to files and reports
# shellcheck disable=SC2059 # the names of files in formats of printf are plain
set -euo pipefail
cd "$(dirname "$0")/.."
. tests/lib.sh
umask 022
take_program dotenvy_check "$@"
# Root may read every file, so root has the checks made as nobody.
if has_nobody; then
    run_as_nobody tests/lib.sh
    exit
fi
cd "$room/files"

# Counts a check of the last call: what it is, and the status, standard output and standard error that are right.
check() {
    holds "$1" ended "${@:2}"
}

show() {
    show_call
}

# What is printed of places, each FILE:LINE:COL, by the kind of the finding.
no_equals_sign() {
    printf '%s: error: there is no = after the name; write NAME=VALUE [no-equals-sign]\n' "$@"
}

space_in_value() {
    printf '%s: error: a value with a space needs quotes; put it in double quotes [space-in-value]\n' "$@"
}

unknown_name() {
    printf '%s: warning: the name after this dollar has no value; write \\$ for a dollar, or declare it before%s\n' \
        "$1" ' [unknown-name]'
}

tilde() {
    printf '%s: warning: ~ is not expanded; write the directory, or ${HOME} [tilde]\n' "$@"
}

# What is printed of names: those that no checked file declares, and those that the file FILE doesn't have.
not_declared() {
    printf "$1: error: no checked file declares this name: %s [not-declared]\n" "${@:2}"
}

not_in_schema() {
    printf "$1: warning: a checked file declares this name, and this file doesn't: %s [not-in-schema]\n" "${@:2}"
}

# What the program prints of itself on standard error.
failure() {
    printf 'dotenvy_check: error: %s\n' "$@"
}

unread() {
    printf '%s: error: %s\n' "$@"
}

nl=$'\n'
cat >good.env <<'END'
A=1
B=$A
END
cat >bad.env <<'END'
A=1
B=two words
C=$NOT_THERE_
END
cat >mentions.env <<'END'
A=$CHECKED
END
cat >home.env <<'END'
FILES=${HOME}/files
END
bad=$(space_in_value bad.env:2:6)$nl
bad+="bad.env:3:7: warning: the name ends before this _; write \${NAME} [name-before-underscore]$nl"
mentions=$(unknown_name mentions.env:1:3)$nl
unset CHECKED NOT

check_statuses() {
    gives 'a file without findings' 0 '' '' good.env
    gives 'a file with a fault and warnings' 1 "$bad" '' bad.env
    gives 'a file with a warning' 0 "$mentions" '' mentions.env
    gives 'a warning with --strict' 1 "$mentions" '' mentions.env --strict
    CHECKED=1 gives 'a name of the environment has a value' 0 '' '' --strict mentions.env
    HOME=/srv gives 'so has one in braces, in the middle of a value' 0 '' '' --strict home.env
    CHECKED='' gives 'an empty one has a value' 0 '' '' --strict mentions.env
    CHECKED=$'\377' gives 'one that is no text has none' 0 "$mentions" '' mentions.env
    cat >next.env <<'END'
A=1
B="$A"
END
    gives 'the second dialect' 0 '' '' --next next.env
    local bare='in double quotes a name needs braces; write ${NAME}, or \$ for a dollar [bare-name-in-quotes]'
    gives 'the first dialect' 1 "next.env:2:4: error: $bare$nl" '' next.env
}

# Calls the program with a word that is refused, and tells why.
check_refused() {
    local what=$1 text=$2
    shift 2
    gives "$what" 2 '' "$(failure "$text; try 'dotenvy_check --help'")$nl" "$@"
}

# Values of options that are refused, and options without their value.
check_values() {
    local option
    check_refused 'an unknown kind that is allowed' "there is no kind 'none'" --allow none bad.env
    check_refused 'an unknown kind that is denied' "there is no kind 'Tilde'" bad.env --deny Tilde
    check_refused 'an error that is allowed' "only a warning can be allowed, not 'open-brace'" --allow=open-brace bad.env
    check_refused 'an unknown format' "there is no format 'xml'" --format xml bad.env
    check_refused 'an empty format' "there is no format ''" --format= bad.env
    check_refused 'an unknown kind with an escape' "there is no kind '\\u{1b}[31m\\n'" --deny $'\e[31m\n' bad.env
    check_refused 'the first wrong value of --allow' "there is no kind 'x'" --format w --deny y --allow x --allow z
    check_refused 'a wrong value, quietly' "there is no format 'x'" -q --format x bad.env
    for option in --allow --deny --known --schema --exclude --format; do
        check_refused "$option at the end" "no value after '$option'" bad.env "$option"
        check_refused "$option before an option" "no value after '$option'" "$option" --strict bad.env
    done
    for option in --text --together --ignore-environment; do
        check_refused "$option with a value" "unexpected value in '$option=1'" "$option=1" bad.env
    done
    gives 'a wrong value before --version' 0 "dotenvy_check $version$nl" '' --allow none --version
}

check_words() {
    check_refused 'an unknown option' "unknown option '-x'" -x
    check_refused 'an unknown option after a file: nothing is checked' "unknown option '--list'" bad.env --list
    check_refused 'a part of an option' "unknown option '--stric'" --stric
    check_refused 'an unknown letter beside a known one' "unknown option '-qx'" -qx
    local word
    for word in -hello -Vx -hV -qh -hq -qVq -h=x; do
        check_refused "letters with that of help or the version: $word" "unknown option '$word'" bad.env "$word" --help
    done
    check_refused 'a value of an option that takes none' "unexpected value in '--next=1'" --next=1 -x
    check_refused 'an unknown option before --help' "unknown option '-x'" -x --help
    check_values
    check_refused 'an unknown option with an escape and a line feed' "unknown option '-\\u{1b}[31m\\n'" $'-\e[31m\n'
    check_refused 'an unknown option with characters that turn or end a line' \
        "unknown option '-\\u{202e}\\u{2066}\\u{2028}\\u{2029}'" $'-\u202e\u2066\u2028\u2029'
    call bad.env $'\377.env'
    check 'a word that is no text: nothing is checked' 2 '' "$(failure 'a word of the command line is not UTF-8')$nl"
    gives 'the version' 0 "dotenvy_check $version$nl" '' --version
    gives 'the version by its letter: nothing is checked' 0 "dotenvy_check $version$nl" '' -V bad.env
    call --help
    cp "$room/output" "$room/help"
    check 'help' 0 "$(cat "$room/help")$nl" ''
    local option
    for option in --next --strict --allow --deny --known --ignore-environment --together --schema --exclude --format \
        --text -q --quiet -h --help -V --version --; do
        status=0
        grep -qE -- "^ .*$option(,| )" "$room/help" || status=$?
        check "help has $option" 0 "$(cat "$room/help")$nl" ''
    done
    call bad.env -h -x
    check 'help by its letter: nothing is checked, and no word after it is read' 0 "$(cat "$room/help")$nl" ''
    printf 'A\n' >$'a\nb.env'
    gives 'a file name with a line feed' 1 "$(no_equals_sign 'a\nb.env:1:2')$nl" '' $'a\nb.env'
    gives 'a file without a name' 2 "$(unread '' 'No such file or directory (os error 2)')$nl" '' ''
    gives 'a file whose name begins with a dash' 2 "$(unread ./-x 'No such file or directory (os error 2)')$nl" '' ./-x
    gives 'one after --' 2 "$(unread -x 'No such file or directory (os error 2)')$nl" '' -- -x
    gives 'an option that is repeated' 1 "$mentions" '' --strict --strict mentions.env --strict
    local number all=
    for number in $(seq 300); do
        all+=$(unread "absent$number.env" 'No such file or directory (os error 2)')$nl
    done
    # shellcheck disable=SC2046 # each number is a word of its own
    gives 'three hundred files' 2 "$all" '' $(seq 300 | sed 's/.*/absent&.env/')
}

# Which findings are reported, and which count.
check_counts() {
    local warnings
    printf 'A=$CHECKED\nB=~/x\n' >warnings.env
    warnings=$(unknown_name warnings.env:1:3)$nl$(tilde warnings.env:2:3)$nl
    gives 'a kind that is allowed' 0 "$(tilde warnings.env:2:3)$nl" '' warnings.env --allow unknown-name
    gives 'two kinds that are allowed, with --strict' 0 '' '' --strict --allow=unknown-name warnings.env --allow tilde
    call --allow name-before-underscore bad.env
    check 'a fault beside a kind that is allowed' 1 "$(space_in_value bad.env:2:6)$nl" ''
    gives 'a kind that is denied' 1 "$warnings" '' --deny tilde warnings.env
    gives 'kinds that are denied and not there' 0 "$warnings" '' --deny default --deny open-brace warnings.env
    call --deny tilde --allow tilde warnings.env
    check 'a kind that is denied and allowed' 0 "$(unknown_name warnings.env:1:3)$nl" ''
    gives 'a kind that is denied, quietly' 1 '' '' -q --deny tilde warnings.env
}

# Which names have a value that the file doesn't declare.
check_names() {
    gives 'a known name' 0 '' '' --known CHECKED --strict mentions.env
    gives 'another known name' 0 "$mentions" '' --known=NOT mentions.env
    gives 'known names that are none' 0 "$mentions" '' --known 1A --known '' mentions.env
    CHECKED=1 gives 'a name of the environment that is ignored' 0 "$mentions" '' --ignore-environment mentions.env
    CHECKED=1 call --ignore-environment --known CHECKED --strict mentions.env
    check 'a known name beside an environment that is ignored' 0 '' ''
    echo 'CHECKED=1' >before.env
    gives 'a name of another file' 1 "$mentions" '' --strict before.env mentions.env
    gives 'a name of the file before, together' 0 '' '' --strict --together before.env mentions.env
    gives 'a name of the file behind, together' 0 "$mentions" '' --together mentions.env before.env
    gives 'a name that two files declare, together' 0 '' '' --strict --together before.env before.env
    gives 'a name of standard input, together' 0 '' '' --together - mentions.env <before.env
    CHECKED=1 call --together --ignore-environment mentions.env
    check 'a name of the environment that is ignored, together' 0 "$mentions" ''
}

# The names that there should be.
check_schema() {
    local missing extra json
    printf 'B=secret\nA=\nfaulty\nZ=$CHECKED\n' >names.schema
    printf 'A=1\nC=hidden\nB_=2\n' >some.env
    printf 'Z=1\nB=1\n' >others.env
    missing=$(not_declared names.schema B Z)$nl
    extra=$(not_in_schema names.schema B_ C)$nl
    gives 'names that are missing, and others' 1 "$missing$extra" '' --schema names.schema some.env
    gives 'names of two files, and others' 0 "$extra" '' some.env others.env --schema=names.schema
    gives 'other names with --strict' 1 "$extra" '' --strict --schema names.schema some.env others.env
    printf 'A=1\n' >one.env
    gives 'each name in one of two files' 0 '' '' --strict --schema names.schema one.env others.env
    call --schema names.schema others.env bad.env
    check 'names come behind findings' 1 "$bad$(not_in_schema names.schema C)$nl" ''
    CHECKED=1 A=1 call --known A --schema names.schema others.env
    check 'a name of the environment is not declared' 1 "$(not_declared names.schema A)$nl" ''
    gives 'names that are missing, quietly' 1 '' '' -q --schema names.schema some.env
    call --schema absent.schema one.env
    check 'an absent file of names' 2 "$(unread absent.schema 'No such file or directory (os error 2)')$nl" ''
    call --format github --schema names.schema one.env others.env some.env
    check "other names in GitHub's form" 0 \
        "::warning file=names.schema,title=not-in-schema::a checked file declares this name, and this file doesn't: B_
::warning file=names.schema,title=not-in-schema::a checked file declares this name, and this file doesn't: C$nl" ''
    json='"file":"names.schema","severity":"error","kind":"not-declared","message":"no checked file declares this name'
    call --format json --schema names.schema one.env
    check 'names that are missing, as JSON' 1 "{$json: B\"}$nl{$json: Z\"}$nl" ''
    mkdir sorts
    cp one.env sorts/.env
    cp names.schema sorts/.env.example
    call --schema sorts/.env.example --exclude .env.example sorts
    check 'a file of names that is left out of its folder' 1 "$(not_declared sorts/.env.example B Z)$nl" ''
}

# The environment files of a folder.
check_folders() {
    local found
    mkdir -p many/below many/below.env bare
    printf 'A\n' | tee many/{.env,b.env,.env.local,-x.env} many/{.envrc,.env.,env,a.env.bak} many/below{,.env}/a.env \
        >"$room/output"
    ln -s ../bad.env many/c.env
    ln -s ../bare many/d.env
    mkfifo many/e.env
    found=$(no_equals_sign many/{-x.env,.env,.env.local,b.env}:1:2)$nl
    gives 'a folder' 1 "$found" '' many
    gives 'a folder with a slash' 1 "$found" '' many/
    check_refused 'a value that begins with a dash, as a word' "no value after '--exclude'" --exclude -x.env many
    call --exclude=-x.env many --exclude .env
    check 'two names that are left out of a folder' 1 "$(no_equals_sign many/{.env.local,b.env}:1:2)$nl" ''
    call --exclude b.env many many/b.env
    check 'a file that is left out, and named' 1 "$(no_equals_sign many/{-x.env,.env,.env.local,b.env}:1:2)$nl" ''
    call many/below good.env many/below.env
    check 'folders below it, around a file' 1 "$(no_equals_sign many/below/a.env:1:2 many/below.env/a.env:1:2)$nl" ''
    ln -s many/below linked
    gives 'a link to a folder' 1 "$(no_equals_sign linked/a.env:1:2)$nl" '' linked
    gives 'a folder without files' 0 '' '' bare
    cd many/below
    call .
    cd ../..
    check 'the current directory' 1 "$(no_equals_sign ./a.env:1:2)$nl" ''
    if [ "$(id -u)" -ne 0 ]; then
        chmod 111 bare
        check_between 'a folder that may not be read' bare 'Permission denied (os error 13)'
        chmod 755 bare
    fi
    if printf 'A\n' >"bare/"$'\377.env' && printf 'B\n' >bare/z.env; then
        call bare good.env
        found=$(no_equals_sign bare/z.env:1:2)$nl$(unread bare 'a file here has a name that is not UTF-8')$nl
        check 'a folder with a name that is no text' 2 "$found" ''
        gives 'a folder with a name that is no text, quietly' 2 '' '' -q bare
    fi
}

# A report in another format.
check_formats() {
    local format
    gives 'a report as text' 1 "$bad" '' --format text bad.env
    check_github
    check_json
    check_sarif
    for format in text github json sarif; do
        gives "a quiet check in the format $format" 2 '' '' --format "$format" --quiet bad.env absent.env
        call --format "$format" --deny unknown-name mentions.env -q
        check "a quiet check in the format $format with a warning that counts" 1 '' ''
    done
    for format in text github json; do
        gives "nothing is found in the format $format" 0 '' '' --format "$format" good.env
    done
    gives 'the last format counts' 1 "$bad" '' --format xml bad.env --format text
}

check_github() {
    local wanted
    wanted=$(
        cat <<'END'
::error file=bad.env,line=2,col=6,title=space-in-value::a value with a space needs quotes; put it in double quotes
::warning file=bad.env,line=3,col=7,title=name-before-underscore::the name ends before this _; write ${NAME}
::error file=absent.env::No such file or directory (os error 2)
END
    )
    gives "a report in GitHub's form" 2 "$wanted$nl" '' --format github bad.env absent.env
    printf '// c\n' >'a:b,c%d.env'
    call --format github 'a:b,c%d.env'
    check "a file name in GitHub's form" 1 \
        "::error file=a%3Ab%2Cc%25d.env,line=1,col=1,title=other-comment::a comment begins with #$nl" ''
}

check_json() {
    local wanted
    wanted=$(
        cat <<'END'
{"file":"\"a\\b\".env","line":1,"column":1,"severity":"error","kind":"other-comment","message":"a comment begins with #"}
END
    )
    printf '// c\n' >'"a\b".env'
    gives 'a file name in JSON' 1 "$wanted$nl" '' --format json '"a\b".env'
    # Each object is a line, which is broken here.
    wanted=$(
        sed ':next; /}$/!{ N; s/\n *//; b next; }' <<'END'
{"file":"guess.env","line":2,"column":1,"severity":"warning","kind":"declared-twice",
    "message":"this name is declared already, and the first value counts","other":1}
{"file":"guess.env","line":3,"column":3,"severity":"error","kind":"open-double-quote",
    "message":"this double quote is never closed; close it, or write \\\" for one that is meant"}
{"file":"guess.env","line":4,"column":1,"severity":"warning","kind":"other-comment",
    "message":"a comment begins with #","guess":true}
{"file":"absent.env","severity":"error",
    "message":"No such file or directory (os error 2)"}
END
    )
    printf 'A=1\nA=2\nB="\n// c\n' >guess.env
    gives 'a report as JSON' 2 "$wanted$nl" '' --format json guess.env absent.env
}

# Keeps of a document of SARIF its results, and what is behind them.
cut_results() {
    grep -o '"results":\[.*' "$room/output" >"$room/results" || :
    mv "$room/results" "$room/output"
}

check_sarif() {
    local wanted
    call --format sarif good.env
    cut_results
    check 'nothing is found in the format sarif' 0 "\"results\":[]}]}$nl" ''
    # It is one line, which is broken here.
    wanted=$(
        sed 's/^ *//' <<'END' | tr -d '\n'
"results":[{"ruleId":"other-comment","level":"error","message":{"text":"a comment begins with #"},
    "locations":[{"physicalLocation":{"artifactLocation":{"uri":"a%20b.env"},
        "region":{"startLine":1,"startColumn":1}}}]},
    {"ruleId":"unread-file","level":"error","message":{"text":"No such file or directory (os error 2)"},
    "locations":[{"physicalLocation":{"artifactLocation":{"uri":"absent.env"}}}]}]}]}
END
    )
    printf '// c\n' >'a b.env'
    call --format sarif 'a b.env' absent.env
    cut_results
    check 'a report as SARIF' 2 "$wanted$nl" ''
    call_without_output '>/dev/full' --format sarif good.env
    check 'SARIF is written where nothing is found' 2 '' "$(failure 'No space left on device (os error 28)')$nl"
}

# What a load says of each error.
check_texts() {
    local space said
    space=$(space_in_value bad.env:2:6)$nl
    said="    Error parsing line: 'two words', error at line index: 4$nl"
    gives 'what a load says' 1 "${bad/"$space"/"$space$said"}" '' --text bad.env
    gives 'a load says nothing of a warning' 0 "$mentions" '' --text mentions.env
    printf 'A="secret\n# \e[31m\n' >turned.env
    call turned.env --text
    check 'what a load says of an open quote, on one line' 1 \
        "turned.env:1:3: error: this double quote is never closed; close it, or write \\\" for one that is meant [open-double-quote]
    Error parsing line: 'A=\"secret\\n# \\u{1b}[31m\\n', error at line index: 18$nl" ''
    printf 'A=\377\n' >none.env
    call --text none.env
    check 'a load says nothing of a line that is no text' 1 \
        "none.env:1:3: error: this byte is not UTF-8, and the file may be in Latin-1; save it as UTF-8 [latin-1]$nl" ''
    gives 'what a load says, quietly' 1 '' '' --text --quiet bad.env
    call --format github bad.env
    cp "$room/output" "$room/kept"
    gives "what a load says is not in GitHub's form" 1 "$(cat "$room/kept")$nl" '' --text --format github bad.env
}

check_quiet() {
    gives 'a quiet check without findings' 0 '' '' --quiet good.env
    gives 'a quiet check with findings' 1 '' '' -q bad.env
    gives 'a quiet check with a warning' 0 '' '' -q mentions.env
    gives 'a quiet check with a warning that counts' 1 '' '' -q --strict mentions.env
    gives 'a quiet check with an absent file' 2 '' '' bad.env absent.env -q
    call -q -x
    check 'a quiet check with an unknown option' 2 '' "$(failure "unknown option '-x'; try 'dotenvy_check --help'")$nl"
}

# Calls the program with twenty thousand names in its environment.
call_with_many_names() (
    local number
    for number in $(seq 20000); do
        export "CHECKED$number=1"
    done
    status=0
    "$program" "$@" >"$room/output" 2>"$room/errors" || status=$?
    exit "$status"
)

check_many_names() {
    printf 'A=$CHECKED1$CHECKED20000\nB=$CHECKED\n' >many_names.env
    status=0
    call_with_many_names many_names.env || status=$?
    check 'names of a large environment have values' 0 "$(unknown_name many_names.env:2:3)$nl" ''
}

# Checks a file between two others, which are checked all the same.
check_between() {
    local what=$1 file=$2 text=$3
    gives "$what" 2 "$(unread "$file" "$text")$nl$bad" '' good.env "$file" bad.env
}

check_files() {
    mkdir folder shut
    printf 'A\n' >locked.env
    printf 'A\n' >shut/a.env
    ln -s loop.env loop.env
    ln -s absent.env nothing.env
    chmod 000 locked.env shut
    check_between 'an absent file' absent.env 'No such file or directory (os error 2)'
    check_between 'a link to nothing' nothing.env 'No such file or directory (os error 2)'
    check_between 'a link to itself' loop.env 'Too many levels of symbolic links (os error 40)'
    check_between 'a file in a file' good.env/x 'Not a directory (os error 20)'
    check_between 'a name that is too long' "$(printf '%0300d' 0)" 'File name too long (os error 36)'
    if [ "$(id -u)" -ne 0 ]; then
        check_between 'a file that may not be read' locked.env 'Permission denied (os error 13)'
        check_between 'a file in a directory that may not be entered' shut/a.env 'Permission denied (os error 13)'
    fi
    chmod 755 locked.env shut
    printf 'A=\377\nB=1\n' >broken.env
    call broken.env
    check 'a line that is no text' 1 \
        "broken.env:1:3: error: this byte is not UTF-8, and the file may be in Latin-1; save it as UTF-8 [latin-1]$nl" ''
    ln -s bad.env link.env
    gives 'a link has its own name' 1 "${bad//bad.env/link.env}" '' link.env
    gives 'a file that is named twice' 1 "$bad$bad" '' bad.env bad.env
    : >empty.env
    gives 'empty files' 0 '' '' empty.env /dev/null
}

check_streams() {
    mkfifo pipe.env
    cat bad.env >pipe.env &
    gives 'a FIFO' 1 "${bad//bad.env/pipe.env}" '' pipe.env
    gives 'standard input by its name' 1 "${bad//bad.env//dev/stdin}" '' /dev/stdin <bad.env
    cp bad.env input.env
    gives 'standard input as a dash' 1 "${bad//bad.env/<stdin>}" '' - <input.env
    gives 'standard input twice, between files' 1 "${bad//bad.env/<stdin>}$bad" '' good.env - - bad.env <input.env
    call bad.env <&-
    check 'closed standard input' 1 "$bad" ''
    call - <&-
    check 'closed standard input that is named' 2 "$(unread '<stdin>' 'Bad file descriptor (os error 9)')$nl" ''
    gives 'standard input that is a directory' 2 "$(unread '<stdin>' 'Is a directory (os error 21)')$nl" '' - <folder
    seq 20000 | sed 's/.*/A/' >many.env
    call many.env
    # shellcheck disable=SC2046 # each place is a word of its own
    check 'faults on 20000 lines' 1 "$(no_equals_sign $(seq -f 'many.env:%.0f:2' 20000))$nl" ''
    sed '1s/.*/A="/' many.env >open.env
    gives 'guesses on 19999 lines behind an open quote' 1 "$(behind_open_quote 19999)$nl" '' open.env
}

# The report of open.env, where so many lines stand behind the one with the quote.
behind_open_quote() {
    local end='this double quote is never closed; close it, or write \" for one that is meant [open-double-quote]'
    echo "open.env:1:3: error: $end"
    no_equals_sign $(seq -f 'open.env:%.0f:2' 2 $(($1 + 1))) | sed 's/: error: /: warning: /; s/ \[/ (after the open quote)&/'
}

# The search begins in the current directory.
check_search() {
    local here=$PWD
    mkdir -p above/below/.env
    cp bad.env above/.env
    cd above
    gives 'the default file' 1 "${bad//bad.env/$here/above/.env}" ''
    cd below
    gives 'the default file of the directory above' 1 "${bad//bad.env/$here/above/.env}" ''
    cp ../.env ../other.env
    call other.env
    check 'a file that is named is not searched for' 2 "$(unread other.env 'No such file or directory (os error 2)')$nl" ''
    cd "$here"
    mkdir gone
    cd gone
    rmdir ../gone
    gives 'no current directory' 2 "$(unread .env 'No such file or directory (os error 2)')$nl" ''
    cd "$here"
}

check_outputs() {
    call_without_output '>&-' bad.env
    check 'standard output is closed' 2 '' "$(failure 'Bad file descriptor (os error 9)')$nl"
    call_without_output '>/dev/full' bad.env
    check 'standard output is full' 2 '' "$(failure 'No space left on device (os error 28)')$nl"
    call_without_output '>/dev/full' absent.env bad.env
    check 'standard output is full, and a file is absent' 2 '' "$(failure 'No space left on device (os error 28)')$nl"
    call_without_output '>&-' good.env
    check 'standard output is closed, and nothing is to be written' 0 '' ''
    call_without_output '>/dev/full' good.env
    check 'standard output is full, and nothing is to be written' 0 '' ''
    call_without_output '>&-' -q bad.env
    check 'standard output is closed, and the check is quiet' 1 '' ''
    call_without_output '>/dev/full' --help
    check 'standard output is full, and help is asked for' 2 '' "$(failure 'No space left on device (os error 28)')$nl"
    call_without_output '>&-' --version
    check 'standard output is closed, and the version is asked for' 2 '' "$(failure 'Bad file descriptor (os error 9)')$nl"
    # More than a pipe holds, so that the program waits for the reader, which goes.
    call_without_output '> >(:)' many.env
    check 'the reader of standard output is gone' 2 '' "$(failure 'Broken pipe (os error 32)')$nl"
    : >"$room/errors"
    status=0
    "$program" -x >"$room/output" 2>&- || status=$?
    check 'standard error is closed' 2 '' ''
    status=0
    "$program" -x >"$room/output" 2>/dev/full || status=$?
    check 'standard error is full' 2 '' ''
}

# What is printed of places at which the name of line 1 is declared again.
declared_twice() {
    printf '%s: warning: this name is declared already, and the first value counts (line 1) [declared-twice]\n' "$@"
}

# Calls a command with so many kilobytes of memory.
call_bounded() (
    ulimit -v "$1"
    shift
    exec "$@" 2>"$room/errors"
)

# The findings of a file are printed while it is read, and none of them is held.
check_sizes() {
    local lines=2000000
    status=0
    (yes A=1 || :) | head -n "$lines" | call_bounded 20000 "$program" - | tail -n 1 >"$room/output" || status=$?
    check "$lines lines with a finding, in 20 MB" 0 "$(declared_twice "<stdin>:$lines:1")$nl" ''
    # One line, however long, has one finding of a kind.
    {
        printf 'A='
        head -c 1600000 /dev/zero | tr '\0' '$'
        echo
    } >dollars.env
    gives 'a line of 1600000 dollars' 0 \
        "dollars.env:1:3: warning: a dollar without a name gives nothing; write \\$ [lone-dollar]$nl" '' dollars.env
    rm dollars.env
}

# A report that is longer than a part of it, 64 KB, in each format.
check_long_reports() {
    local told='there is no = after the name; write NAME=VALUE' one
    seq 3000 | sed 's/.*/A/' >long.env
    gives 'a long report' 1 "$(long_report)$nl" '' long.env
    one="::error file=long.env,line=%.0f,col=2,title=no-equals-sign::$told"
    gives "a long report in GitHub's form" 1 "$(seq -f "$one" 3000)$nl" '' --format github long.env
    one='{"file":"long.env","line":%.0f,"column":2,"severity":"error","kind":"no-equals-sign","message":'
    gives 'a long report as JSON' 1 "$(seq -f "$one\"$told\"}" 3000)$nl" '' --format json long.env
    call --format sarif long.env
    cut_results
    one="{\"ruleId\":\"no-equals-sign\",\"level\":\"error\",\"message\":{\"text\":\"$told\"},"
    one+='"locations":[{"physicalLocation":{"artifactLocation":{"uri":"long.env"},'
    one+='"region":{"startLine":%.0f,"startColumn":2}}}]}'
    check 'a long report as SARIF' 1 "\"results\":[$(seq -s , -f "$one" 3000)]}]}$nl" ''
}

# The report of long.env.
long_report() {
    # shellcheck disable=SC2046 # each place is a word of its own
    no_equals_sign $(seq -f 'long.env:%.0f:2' 3000)
}

# A name without a value waits for its declaration, and so do the findings after it: they keep their order.
check_order() {
    local faults
    faults=$(seq 1000 | sed 's/.*/A/')
    printf '%s\nB=$NOT\n%s\nNOT=1\nC=$CHECKED\n%s\nB=2\n' "$faults" "$faults" "$faults" >waiting.env
    gives 'findings after a name that is declared later, over several parts' 1 "$(waiting_report)$nl" '' waiting.env
}

# The report of waiting.env.
waiting_report() {
    # shellcheck disable=SC2046 # each place is a word of its own
    no_equals_sign $(seq -f 'waiting.env:%.0f:2' 1000)
    echo 'waiting.env:1001:3: warning: this name is declared only later; move that line up (line 2002) [later-name]'
    no_equals_sign $(seq -f 'waiting.env:%.0f:2' 1002 2001)
    unknown_name waiting.env:2003:3
    no_equals_sign $(seq -f 'waiting.env:%.0f:2' 2004 3003)
    declared_twice waiting.env:3004:1 | sed 's/(line 1)/(line 1001)/'
}

# Calls a command whose standard input gives the bytes of a file, and then fails: it is a terminal that was closed.
read_and_fail() {
    python3 - "$@" <<'END'
import os, subprocess, sys, tty

reader, terminal = os.openpty()
tty.setraw(terminal)
with open(sys.argv[1], "rb") as file:
    os.write(terminal, file.read())
os.close(terminal)
sys.exit(subprocess.run(sys.argv[2:], stdin=reader).returncode)
END
}

# What was found before a fault of reading is printed. After one of writing nothing more is read or written.
check_stops() {
    local found
    head -n 1500 long.env >cut.env
    printf 'B=$CHECKED\nC' >>cut.env
    found=$(long_report | head -n 1500 | sed 's/^long.env/<stdin>/')$nl$(unknown_name '<stdin>:1501:3')$nl
    keep read_and_fail cut.env "$program" - good.env
    check 'a read that fails' 2 "$found$(unread '<stdin>' 'Input/output error (os error 5)')$nl" ''
    # The input has no end, so the program has to end when the reader of its report goes.
    echo 0 >"$room/status"
    (yes A=1 || :) | (call_bounded 200000 timeout 60 "$program" - || echo "$?" >"$room/status") |
        head -n 1 >"$room/output"
    status=$(cat "$room/status")
    check 'the reader of a report goes' 2 "$(declared_twice '<stdin>:2:1')$nl" \
        "$(failure 'Broken pipe (os error 32)')$nl"
    # The file of the report may have 100 KB, so the second part of it can't be written.
    status=0
    (trap '' XFSZ && ulimit -f 100 && exec "$program" long.env absent.env >"$room/output" 2>"$room/errors") || status=$?
    found=$(long_report)
    check 'a report that is too long for its file' 2 "${found:0:102400}" "$(failure 'File too large (os error 27)')$nl"
}

check_statuses
check_words
check_counts
check_names
check_schema
check_folders
check_formats
check_texts
check_quiet
check_many_names
check_files
check_streams
check_search
check_outputs
check_sizes
check_long_reports
check_order
check_stops

tell_sums
