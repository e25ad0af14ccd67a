#!/usr/bin/env bash
# Tries what integrations/ and .pre-commit-hooks.yaml have, on a report that is written down here: the hook by
# pre-commit and the compiler file by vim, where these are installed, and the matcher by Python's regular expressions,
# which read it as GitHub's do. In place of dotenvy_check stands a script that prints the report. Then it reads reports
# in the formats for GitHub, of JSON and of SARIF, by tests/formats.py, and has bash complete options.
# `tests/integrations.sh PROGRAM` reads those that this program prints, too; without a word it is the one that `rt ci`,
# or `rt run` in crates/dotenvy_check, has built, if there is one. It takes some seconds. The last line is `N passed, M
# failed`.
#
# shellcheck disable=SC2016 # dollars in single quotes belong to documents, files and another shell
set -euo pipefail
cd "$(dirname "$0")/.."
. tests/lib.sh
top=$PWD
built=$(realpath -m "${1-crates/dotenvy_check/out/dotenvy_check}")

# Whether a file has these bytes. The difference is printed.
has() {
    printf '%s\n' "${@:2}" | diff - "$1"
}

# Calls git in the room, whatever the user's settings are.
git_there() {
    GIT_CONFIG_GLOBAL=/dev/null GIT_CONFIG_SYSTEM=/dev/null git -c safe.directory='*' -c user.name=x -c user.email=x "$@"
}

# What a check of two files and of one that isn't there prints.
report=(
    "a b/.env:2:12: error: a value with a space needs quotes; put it in double quotes [space-in-value]"
    "x:1.env:10:3: warning: the name in these braces has no value here; declare it before, or set it [unknown-braced-name]"
    "gone.env: error: No such file or directory (os error 2)"
)
mkdir "$room/bin"
printf '%s\n' "${report[@]}" >"$room/report"
cat >"$room/bin/dotenvy_check" <<'END'
#!/bin/sh
printf '%s\n' "$@" >"$ROOM/words"
cat "$ROOM/report"
exit 1
END
chmod +x "$room/bin/dotenvy_check"
export ROOM=$room PATH=$room/bin:$PATH

# ---- the matcher

cat >"$room/match.py" <<'END'
import json
import re
import sys

with open(sys.argv[1], encoding="utf-8") as file:
    [matcher] = json.load(file)["problemMatcher"]
[pattern] = matcher["pattern"]
with open(sys.argv[2], encoding="utf-8") as file:
    for line in file:
        found = re.search(pattern["regexp"], line.rstrip("\n"))
        if found:
            names = ["file", "line", "column", "severity", "message", "code"]
            print("|".join(found[pattern[name]] for name in names))
END
python3 "$room/match.py" integrations/github/matcher.json "$room/report" >"$room/matched"
check 'the matcher reads each finding, and nothing else' has "$room/matched" \
    "a b/.env|2|12|error|a value with a space needs quotes; put it in double quotes|space-in-value" \
    "x:1.env|10|3|warning|the name in these braces has no value here; declare it before, or set it|unknown-braced-name"

# ---- vim

if command -v vim >"$room/found"; then
    cat >"$room/try.vim" <<'END'
set nomore
compiler dotenvy_check
silent make
let found = map(getqflist(), {_, it -> join([bufname(it.bufnr), it.lnum, it.col, it.type, it.text], '|')})
call writefile(found, $ROOM . '/quickfix')
qall!
END
    (
        cd "$room"
        vim -Nes -u NONE -i NONE --cmd "set rtp^=$top/integrations/vim" -S try.vim -- '-c d.env' </dev/null >vim.output 2>&1
    ) || :
    check 'vim reads each line of the report' has "$room/quickfix" \
        "a b/.env|2|12|e|a value with a space needs quotes; put it in double quotes [space-in-value]" \
        "x:1.env|10|3|w|the name in these braces has no value here; declare it before, or set it [unknown-braced-name]" \
        "gone.env|0|0|e|No such file or directory (os error 2)"
    check 'vim calls the program with the file, whatever its name' has "$room/words" '--' '-c d.env'
else
    echo 'left out: vim is not installed'
fi

# ---- pre-commit

if command -v pre-commit >"$room/found" && command -v git >"$room/found"; then
    mkdir "$room/work"
    cd "$room/work"
    git_there init -q
    mkdir deep
    touch .env .env.local prod.env deep/.env .env. .envrc environment notes.txt .env.d ./-x.env
    mkdir .env.folder
    touch .env.folder/notes
    ln -s .env linked.env
    git_there add -A
    printf '%s\n' 'repos:' "- repo: local" '  hooks:' >"$room/config.yaml"
    sed 's/^/  /' "$top/.pre-commit-hooks.yaml" | grep -v '^ *#' >>"$room/config.yaml"
    # One call for all files, so that the words of the call are all of them.
    echo '    require_serial: true' >>"$room/config.yaml"
    status=0
    PRE_COMMIT_HOME=$room/home GIT_CONFIG_GLOBAL=/dev/null pre-commit run --all-files -c "$room/config.yaml" \
        >"$room/said" 2>&1 || status=$?
    check 'pre-commit fails where the program does' test "$status" -eq 1
    check 'pre-commit shows the report' grep -qF "${report[0]}" "$room/said"
    LC_ALL=C sort "$room/words" >"$room/sorted"
    check 'pre-commit checks the environment files, and no links' has "$room/sorted" \
        '--' '-x.env' '.env' '.env.d' '.env.local' 'deep/.env' 'prod.env'
    check 'the list of hooks has the form that pre-commit asks for' \
        pre-commit validate-manifest "$top/.pre-commit-hooks.yaml"
    cd "$top"
else
    echo 'left out: pre-commit or git is not installed'
fi

# ---- formats, as they are written down here

# Whether tests/formats.py reads a file of this format as these lines of text.
reads_as() {
    python3 -B "$top/tests/formats.py" "$1" <"$2" >"$room/read" && has "$room/read" "${@:3}"
}

# Whether tests/formats.py refuses a file of this format.
refuses() {
    ! python3 -B "$top/tests/formats.py" "$1" <"$2" >"$room/read" 2>"$room/refusal"
}

cat >"$room/report.github" <<'END'
::error file=a b/.env,line=2,col=12,title=space-in-value::a value with a space needs quotes; put it in double quotes
::warning file=x%3A1.env,line=10,col=3,title=unknown-braced-name::the name in these braces has no value here; declare it before, or set it
::error file=gone.env::No such file or directory (os error 2)
END
cat >"$room/report.json" <<'END'
{"file":"a b/.env","line":2,"column":12,"severity":"error","kind":"space-in-value","message":"a value with a space needs quotes; put it in double quotes"}
{"file":"x:1.env","line":10,"column":3,"severity":"warning","kind":"unknown-braced-name","message":"the name in these braces has no value here; declare it before, or set it"}
{"file":"gone.env","severity":"error","message":"No such file or directory (os error 2)"}
END
cat >"$room/report.sarif" <<'END'
{"$schema":"https://json.schemastore.org/sarif-2.1.0.json","version":"2.1.0","runs":[{"tool":{"driver":
{"name":"dotenvy_check","version":"1.0.0","rules":[
{"id":"space-in-value","shortDescription":{"text":"a value with a space needs quotes; put it in double quotes"}},
{"id":"unread-file","shortDescription":{"text":"the file was not read"}}]}},
"columnKind":"unicodeCodePoints","results":[
{"ruleId":"space-in-value","level":"error",
"message":{"text":"a value with a space needs quotes; put it in double quotes"},
"locations":[{"physicalLocation":{"artifactLocation":{"uri":"a%20b/.env"},"region":{"startLine":2,"startColumn":12}}}]},
{"ruleId":"unknown-braced-name","level":"warning",
"message":{"text":"the name in these braces has no value here; declare it before, or set it"},
"locations":[{"physicalLocation":{"artifactLocation":{"uri":"x%3A1.env"},"region":{"startLine":10,"startColumn":3}}}]},
{"ruleId":"unread-file","level":"error",
"message":{"text":"No such file or directory (os error 2)"},
"locations":[{"physicalLocation":{"artifactLocation":{"uri":"gone.env"}}}]}]}]}
END
for format in github json sarif; do
    check "a report in the format $format has the findings of the text" \
        reads_as "$format" "$room/report.$format" "${report[@]}"
done
for property in '$schema' version runs tool driver name id shortDescription columnKind results level message text ruleId \
    locations physicalLocation artifactLocation uri startLine startColumn; do
    sed "s/\"$property\":/\"no_$property\":/" "$room/report.sarif" >"$room/lacking"
    check "a document without $property is no SARIF" refuses sarif "$room/lacking"
done
sed 's/"startLine":2/"startLine":0/' "$room/report.sarif" >"$room/lacking"
check 'a line 0 is no SARIF' refuses sarif "$room/lacking"
sed 's/%20/ /' "$room/report.sarif" >"$room/lacking"
check 'a name with a space is no URI' refuses sarif "$room/lacking"
sed 's/%3A/:/' "$room/report.github" >"$room/lacking"
check "a colon in a name is not GitHub's form" refuses github "$room/lacking"
sed 's/"severity"/"level"/' "$room/report.json" >"$room/lacking"
check 'an object with other members is none of a report' refuses json "$room/lacking"

# ---- formats, as the program prints them

# Calls the built program with these words in the folder of its files.
call_built() {
    status=0
    (cd "$room/files" && exec "$built" "$@" >"$room/output" 2>"$room/errors") || status=$?
}

# Whether each format has the findings, the order and the status of the text.
formats_agree() {
    local format text text_status
    call_built "$@"
    text_status=$status
    mapfile -t text <"$room/output"
    for format in github json sarif; do
        call_built --format "$format" "$@"
        [ "$status" = "$text_status" ] && [ ! -s "$room/errors" ] || return 1
        python3 -B "$top/tests/formats.py" "$format" <"$room/output" >"$room/read" || return 1
        printf '%s\n' "${text[@]}" | sed '/^$/d' | diff - "$room/read" || return 1
    done
}

# Whether nothing is printed.
is_silent() {
    call_built "$@"
    [ ! -s "$room/output" ] && [ ! -s "$room/errors" ]
}

check_built() {
    local format
    mkdir -p "$room/files/sorts"
    cd "$room/files"
    printf 'A=1\n' >good.env
    printf 'A=two words\nB=$C\nB=${D}~\nE=~/x\n' >bad.env
    printf 'A=1\nB="x\n// c\nD=two words\nE=$F\n' >guess.env
    printf 'A=\xe9\n' | tee 'a b.env' 'a:b,c%d.env' '"q\".env' $'a\tb\nc.env' é.env sorts/.env >sorts/z.env
    printf 'A=1\nZ=1\n' >names.schema
    check 'each format has the findings of files' formats_agree good.env bad.env guess.env absent.env
    check 'each format has names of files that need escapes' formats_agree 'a b.env' 'a:b,c%d.env' '"q\".env' é.env
    check 'each format has the files of a folder' formats_agree --exclude z.env sorts . --strict
    check 'each format has what is allowed and denied' formats_agree --allow tilde --deny unknown-name bad.env guess.env
    check 'each format has no findings of a good file' formats_agree good.env
    check 'each format has the names that there should be' formats_agree --schema names.schema good.env bad.env
    for format in text github json sarif; do
        check "a quiet check prints nothing in the format $format" is_silent -q --format "$format" bad.env absent.env
    done
    cd "$top"
}

if [ -x "$built" ]; then
    check_built
else
    echo 'left out: dotenvy_check is not built, so no report of it is read'
fi

# ---- completions

# The words that bash completes at the end of a line of this program, of which each is an argument here.
completes_for() {
    bash -c '
        . "$1/$2.bash"
        COMP_WORDS=("$2" "${@:4}")
        COMP_CWORD=$((${#COMP_WORDS[@]} - 1))
        "_$2"
        printf "%s\n" "${COMPREPLY[@]}" | LC_ALL=C sort -u | tr "\n" " " | grep -qxF -- "$3 "
    ' - "$top/release/completions" "$@"
}

completes() {
    completes_for dotenvy_check "$@"
}

check 'bash completes an option' completes --together --tog
check 'bash completes a kind to allow' completes 'tilde' --allow til
check 'bash completes an error to deny' completes 'open-brace' bad.env --deny open-br
check 'bash completes no error to allow' completes '' --allow open-br
check 'bash completes a format behind an equals sign' completes 'sarif' --format = s
check 'bash completes each format' completes 'github json sarif text' --format ''
check 'bash completes a file of names' completes 'README.md' --schema READ
check 'bash completes a file behind two dashes' completes 'README.md' -- --allow READ
check 'bash completes a target' completes_for dotenvy_export 'kubernetes' ku
check 'bash completes each target' completes_for dotenvy_export 'docker json kubernetes sh systemd' ''
check 'bash completes an option behind a target' completes_for dotenvy_export '--skip-reserved' sh --sk
check 'bash completes a file behind a target' completes_for dotenvy_export 'README.md' sh READ
check 'bash completes an optional file' completes_for dotenvy_export 'README.md' --optional = READ
check 'bash completes a file behind two dashes of an export' completes_for dotenvy_export 'README.md' sh -- READ
check 'bash completes a command of the editor' completes_for dotenvy_edit 'rename' ren
check 'bash completes each command of the editor' completes_for dotenvy_edit 'get rename set unset' ''
check 'bash completes an option before a command' completes_for dotenvy_edit '--portable' --port
check 'bash completes an option after a command' completes_for dotenvy_edit '--dry-run' set --dry
check 'bash completes the file of a command' completes_for dotenvy_edit 'README.md' set --next READ
check 'bash completes no name of a file' completes_for dotenvy_edit '' set a.env READ
check 'bash completes the file after two dashes' completes_for dotenvy_edit 'README.md' set -- READ
check 'bash completes an option of dotenvy_exec' completes_for dotenvy_exec '--ignore-environment' -f a.env --ig
check 'bash completes a file of dotenvy_exec' completes_for dotenvy_exec 'README.md' --optional READ
check 'bash completes a file behind an equals sign' completes_for dotenvy_exec 'README.md' --file = READ
check 'bash completes a command behind a file' completes_for dotenvy_exec 'sha256sum' --file = a.env sha256
check 'bash completes a command behind two dashes' completes_for dotenvy_exec 'sha256sum' --strict -- sha256
check 'bash completes no option of a command' completes_for dotenvy_exec '' -f a.env ls --ig

tell_sums
