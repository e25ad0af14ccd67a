#!/usr/bin/env bash
# Cuts the recipes out of COMMAND.md, CHECK.md, EXPORT.md and EXEC.md of docs/, as they are there, and tries each:
# - the systemd unit: systemd-analyze verifies it below a root folder, where empty scripts are its programs;
# - the Dockerfile: each line is an instruction, its steps are made in a folder, and its command runs. The archive is a
#   stand-in, and no image is built;
# - the crontab line: Debian's crontab checks it, and its command runs in the environment that cron gives;
# - the workflow of integrations/github: a parser of YAML reads it, and its steps run, on the same archive;
# - the container: docker is a stand-in that prints its words and the file; the secret: kubectl makes it, and sends nothing;
# - the recipes for a shell run, and the manual pages have the same scripts.
# A recipe runs with folders of the test in place of /usr/local, /etc/serve, /var/lib and /tmp. Nothing else of it is
# changed.
#
# The programs are those of `rt ci`, or of the folder that is named: `tests/recipes.sh FOLDER`. Without them, or without
# a tool, a line `left out: ..` says what isn't tried. With CI=true in the environment, the programs have to be there.
# It takes a few seconds, and no proof. The last line is `N passed, M failed`.
#
# Recipes and scripts have dollars of their own.
# shellcheck disable=SC2016 # the shells that they are for replace them
set -euo pipefail
cd "$(dirname "$0")/.."
. tests/lib.sh
top=$PWD
page=$top/docs/COMMAND.md
run=$(realpath -m "${1-crates/dotenvy_run/out}/dotenvy_run")
checker=$(realpath -m "${1-crates/dotenvy_check/out}/dotenvy_check")
exporter=$(realpath -m "${1-crates/dotenvy_export/out}/dotenvy_export")
version=$(sed -n 's/^version = "\(.*\)"/\1/p' bindings/python/pyproject.toml)
archive=dotenvy-$version-linux-x86_64

# Whether a program is installed. If not, a line says what is left out.
installed() {
    command -v "$1" >/dev/null || ! echo "left out: $2, as $1 is not installed"
}

# Prints the first block of a page after the line that begins with these words.
block_of() {
    awk -v title="$2" '
        index($0, title) == 1 { met = 1 }
        met && /^```/ && inside { exit }
        met && /^```/ { inside = 1; next }
        inside
    ' "$1"
}

block() {
    block_of "$page" "$1"
}

# Prints a recipe with the folders of the test in place of those that it names.
placed() {
    sed -E "s#(/usr/local|/etc/serve|/var/lib|/tmp)\b#$room\1#g"
}

# Makes a script for sh: standard input is its text.
script() {
    mkdir -p "${1%/*}"
    cat <(echo '#!/bin/sh') - >"$1"
    chmod 755 "$1"
}

# Calls any command.
call() {
    keep "$@"
}

# --- The programs and files that the recipes name ---

make_files() {
    mkdir -p "$room"/{usr/local/bin,etc/serve,tmp,work}
    printf 'PORT=8080\nSTORE=/srv/backups\n' >"$room/etc/serve/service.env"
    script "$room/usr/local/bin/serve" <<<'echo "serve on $PORT" "$@"'
    script "$room/usr/local/bin/backup" <<<'echo "backup to $1"'
    script "$room/work/serve" <<<'echo "serve on $PORT" "$@"'
    if "$has_programs"; then
        cp "$run" "$checker" "$room/usr/local/bin"
    fi
    if "$has_exporter"; then
        cp "$exporter" bin/dotenvy_exec "$room/usr/local/bin"
    fi
}

# Makes the archive of a release in a folder, with the layout that the recipes use: programs, and install.sh PREFIX.
make_archive() {
    local folder=$room/release/$archive
    mkdir -p "$folder/bin" "$1"
    cp "$room"/programs/* "$folder/bin"
    script "$folder/install.sh" <<<'mkdir -p "$1/bin" && cp "$(dirname "$0")"/bin/* "$1/bin"'
    tar -czf "$1/$archive.tar.gz" -C "$room/release" "$archive"
}

# --- The systemd unit ---

# Whether systemd-analyze finds nothing in the unit of the root folder.
verified() {
    local status=0
    systemd-analyze verify --root="$room/root" serve.service >"$room/said" 2>&1 || status=$?
    cat "$room/said"
    [ "$status" -eq 0 ] && [ ! -s "$room/said" ]
}

# The unit of the page, and the programs that it names.
check_unit() {
    local units=$room/root/usr/lib/systemd/system targets target program
    installed systemd-analyze 'the systemd unit' || return 0
    rm -rf "$room/root"
    mkdir -p "$units" "$room/root"/{etc/systemd/system,bin,usr/local/bin}
    ln -s usr/lib "$room/root/lib"
    block '### A systemd unit' >"$room/root/etc/systemd/system/serve.service"
    targets=$(block '### A systemd unit' | grep -o '[a-z-]*\.target' | sort -u)
    # The targets that the unit names, and those that each service waits for.
    for target in $targets {sysinit,basic,shutdown}.target; do
        check "systemd has $target" cp "/usr/lib/systemd/system/$target" "$units"
    done
    check 'systemd-analyze sees that a program of the unit is missing' missing_program "$1"
    for program in "$@"; do
        script "$room/root/usr/local/bin/$program" </dev/null
    done
    check 'systemd-analyze finds nothing wrong with the unit' verified
}

missing_program() {
    ! verified >/dev/null && grep -q "$1 is not executable" "$room/said"
}

# The unit's commands have no quotes but single ones, so sh reads them as systemd does.
check_unit_commands() {
    local unit before start
    unit=$(block '### A systemd unit' | placed)
    before=$(sed -n 's/^ExecStartPre=//p' <<<"$unit")
    start=$(sed -n 's/^ExecStart=//p' <<<"$unit")
    call sh -c "$before"
    check 'the unit checks a file without a fault' gave 0
    call sh -c "$start"
    check 'the unit starts the command with the settings' gave 0 'serve on 8080 --verbose'
    cp "$room/broken.env" "$room/etc/serve/service.env"
    call sh -c "$before"
    check 'the unit refuses a file with a fault, and says what is wrong' \
        gave 1 "$room/etc/serve/$open_quote"
    printf 'PORT=8080\nSTORE=/srv/backups\n' >"$room/etc/serve/service.env"
}

# --- The Dockerfile ---

instructions='ADD|ARG|CMD|COPY|ENTRYPOINT|ENV|EXPOSE|FROM|HEALTHCHECK|LABEL|ONBUILD|RUN|SHELL|STOPSIGNAL|USER'
instructions+='|VOLUME|WORKDIR'

# Prints the strings of a JSON array, each on a line, as ENTRYPOINT and CMD have them.
strings() {
    python3 -c 'import json, sys
words = json.loads(sys.argv[1])
assert type(words) is list and all(type(word) is str for word in words)
print("\n".join(words))' "$1"
}

# Makes the steps of a Dockerfile as far as they can be made in a folder, and collects the command in `command`.
build() {
    local instruction words from to
    while read -r instruction words; do
        read -r from to <<<"$words"
        case $instruction in
            FROM) ;;
            ADD) tar -xzf "$from" -C "$to" ;;
            COPY) cp "$from" "$to" ;;
            # A step that names any other folder of the machine isn't made: this one removes files.
            RUN) [[ " ${words//"$room"\//}" != *" /"* ]] && PATH=/usr/bin:/bin sh -c "$words" ;;
            ENTRYPOINT | CMD) strings "$words" >>"$room/command" ;;
            *) return 1 ;;
        esac || return 1
    done
}

check_instructions() {
    block '### A Dockerfile' >"$room/Dockerfile"
    check 'each line of the Dockerfile is an instruction' \
        diff <(grep -E "^($instructions) [^ ]" "$room/Dockerfile") "$room/Dockerfile"
    check 'the Dockerfile begins with FROM' grep -qm1 '^FROM ' <(head -n 1 "$room/Dockerfile")
    check 'the Dockerfile names the archive of this version' grep -qF "ADD $archive.tar.gz " "$room/Dockerfile"
}

# Makes the image's steps in folders of the test, from which the programs were taken away before. The image's command is
# then in `command`.
make_image() {
    rm -rf "$room/context"
    mkdir "$room/context"
    make_archive "$room/context"
    cp "$room/usr/local/bin/serve" "$room/context"
    rm "$room/usr/local/bin"/{serve,dotenvy_*}
    : >"$room/command"
    cd "$room/context"
    check 'the steps of the Dockerfile can be made' build < <(placed <"$room/Dockerfile")
    cd "$top"
    check 'the Dockerfile leaves nothing of the archive' test -z "$(ls "$room/tmp")"
    mapfile -t command <"$room/command"
}

# --- The crontab line ---

# Whether the crontab of this machine can check a file without using it.
has_dry_run() {
    grep -qF '[-n] file' <(crontab --help 2>&1) ||
        ! echo 'left out: the check of the crontab line, as no crontab with -n (dry run) is installed'
}

check_crontab() {
    local line plain command field='[0-9*,/-]+'
    line=$(block '### A crontab line')
    check 'the crontab line has five fields and a command' \
        grep -qxE "($field ){5}[^ ].*" <<<"$line"
    plain=${line//'\%'/}
    check 'each % of the crontab line is written \%' test "$plain" = "${plain//%/}"
    if has_dry_run; then
        echo "$line" >"$room/crontab"
        check 'crontab finds nothing wrong with the line' crontab -n "$room/crontab"
    fi
    "$1" || return 0
    command=$(cut -d ' ' -f 6- <<<"$line" | placed | sed 's/\\%/%/g')
    # What cron sets; a file can't change it.
    call env -i HOME=/root LOGNAME=root PATH=/usr/bin:/bin SHELL=/bin/sh sh -c "$command"
    check 'the command of the crontab line runs with the settings' dated
}

# Whether the last call printed the name of a backup of today, or of yesterday if it began before midnight.
dated() {
    sed -Ei 's/[0-9]{4}-[0-9]{2}-[0-9]{2}/DATE/' "$room/output"
    gave 0 'backup to /srv/backups/DATE.tar'
}

# --- The workflow ---

# Writes the steps of the job to files step.1, step.2 and so on.
read_job() {
    python3 -c 'import sys, yaml
jobs = yaml.safe_load(sys.stdin)["jobs"]
(job,) = jobs.values()
runs = [step["run"] for step in job["steps"] if "run" in step]
assert all("run" in step or "uses" in step for step in job["steps"]) and len(runs) == 3
for number, run in enumerate(runs, 1):
    with open(f"{sys.argv[1]}.{number}", "w") as file:
        file.write(run)' "$room/step" <integrations/github/workflow.yml
}

# Runs a step of the job as CI does, with the folders that earlier steps put on PATH.
step() {
    local path
    path=$(tac "$room/path" | tr '\n' :)/usr/bin:/bin
    (cd "$room/checkout" && env -i HOME="$room/home" RUNNER_TEMP="$room/temporary" GITHUB_PATH="$room/path" \
        PATH="$path" bash -e "$room/step.$1")
}

check_job() {
    if ! python3 -c 'import yaml' 2>/dev/null; then
        echo 'left out: the workflow, as python3 has no module yaml'
        return
    fi
    check 'the workflow is YAML, and each step has something to run or to use' read_job
    check 'the workflow names the archive of this version' grep -qF "tools/$archive.tar.gz" "$room/step.1"
    "$has_programs" || return 0
    mkdir -p "$room"/{home,temporary,checkout/deploy}
    : >"$room/path"
    make_archive "$room/checkout/tools"
    cp "$room/etc/serve/service.env" "$room/checkout/deploy"
    git init -q "$room/checkout"
    git -C "$room/checkout" add deploy
    call step 1
    check 'the job installs the programs' test "$status" = 0 -a -x "$room/home/.local/bin/dotenvy_check"
    call step 3
    check 'the job ends well if no file has a finding' gave 0
    cp "$room/broken.env" "$room/checkout/deploy"
    echo 'A=$B' >"$room/checkout/deploy/dollar.env"
    git -C "$room/checkout" add deploy
    call step 3
    local no_value='the name after this dollar has no value; write \$ for a dollar, or declare it before [unknown-name]'
    check 'the job fails at a fault, and says what is wrong' \
        gave 123 "deploy/broken.env:${open_quote#*:}" "deploy/dollar.env:1:3: warning: $no_value"
}

# --- Secrets ---

# The page says which texts this file gives.
check_secrets() {
    cp "$room/broken.env" "$room/work/service.env"
    call dotenvy_run -f service.env ./serve
    check 'the text of a fault is that of the page' complained 1 "$(block 'Then `dotenvy_run -f service.env ./serve`')"
    call dotenvy_check service.env
    check 'the report of the checker is that of the page' gave 1 "$open_quote"
}

# --- Recipes for a shell ---

# Calls the first line of a block that has these words, after the heading or the words that begin a paragraph.
line_of() {
    call sh -c "$(block "$1" | grep -F -- "$2" | head -n 1)"
}

check_lines() {
    printf 'PORT=1\n' >.env
    line_of '**Print one value.**' 'printenv PORT'
    check 'one value is printed' gave 0 1
    PORT=2 line_of '**Let the file win' 'env -u PORT'
    check 'the file wins over a variable that is taken away' gave 0 'serve on 1'
    PORT=2 line_of '**Let the file win' 'env -i'
    check 'the file wins over an empty environment' gave 0 'serve on 1'
    printf 'PORT=3\n' >.env.local
    line_of '**Put the settings of this machine' .env.local
    check 'the settings of this machine win' gave 0 'serve on 3'
    cp "$room/broken.env" service.env
    line_of '**Check a file before' --strict
    check 'a file with a fault is found' test "$status" = 1
}

# Both files lack a last line feed.
check_joined() {
    printf 'A=1' >a.env
    printf 'B=2' >b.env
    line_of '**Join files.**' awk
    check 'files without a last line feed are joined' gave 0 'A="1"' 'B="2"'
    call dotenvy_run --list -f absent.env <b.env
    check 'a list ignores the file of -f' gave 0 'B="2"'
    printf '\xef\xbb\xbfB=2' >b.env
    line_of '**Join files.**' awk
    check 'a byte order mark of the second file is a fault' test "$status" = 1
    call dotenvy_run -f a.env -f b.env printenv A B
    check 'each file may have one where files are loaded one by one' gave 0 1 2
    printf 'A=1' >local.env
    printf 'B=2\nA=3' >base.env
    call sh -c "$(block_of "$top/docs/CHECK.md" 'Services that load several files')"
    check 'files without a last line feed are checked as one' gave 0 \
        '<stdin>:3:1: warning: this name is declared already, and the first value counts (line 1) [declared-twice]'
}

# The file that may be absent wins, if it is there.
check_optional() {
    "$has_exporter" || return 0
    printf 'PORT=1\n' >.env
    rm -f .env.local
    line_of '**Use a file only if it exists**' --optional
    check 'without the optional file, the other one counts' gave 0 'serve on 1'
    printf 'PORT=3\n' >.env.local
    line_of '**Use a file only if it exists**' --optional
    check 'with the optional file, its settings win' gave 0 'serve on 3'
    rm .env.local
}

# Whether the last call ended with status 1, and told only which file has a fault.
refused_file() {
    [ "$status" = 1 ] && [ ! -s "$room/output" ] && grep -qF "$1" "$room/errors" && ! grep -qE 'secret|hidden' "$room/errors"
}

# The line of the page runs as a child, and its command says which process it is.
check_place() {
    local line
    "$has_exporter" || return 0
    line=$(block '### Give the command' | placed)
    mv serve serve.kept
    script ./serve <<<'echo "$$ $PORT $EXISTING"'
    EXISTING=yes sh -c "exec $line" >"$room/output" 2>"$room/errors" &
    status=0
    wait $! || status=$?
    check 'the command has the place of the script, its environment and the settings' gave 0 "$! 8080 yes"
    cp "$room/broken.env" "$room/etc/serve/service.env"
    call sh -c "$line"
    check 'a file with a fault starts nothing, and is named' refused_file "$room/etc/serve/service.env"
    printf 'PORT=8080\nSTORE=/srv/backups\n' >"$room/etc/serve/service.env"
    mv serve.kept serve
}

# The command gets SIGTERM through its process group, and cleans up for a while.
check_cleaning() {
    local line leader waited=0
    line=$(block '### Wait until' | head -n 1)
    mv serve serve.kept
    script ./serve <<'END'
exec 2>words # a shell says of its child that it was terminated
trap 'sleep 0.3; echo cleaned up; exit 5' TERM
echo >ready
for second in 1 2 3 4 5 6 7 8 9 10; do sleep 1; done
END
    set -m
    bash -c "exec $line" >"$room/output" 2>"$room/errors" &
    leader=$!
    set +m
    until [ -e ready ] || [ $((waited += 1)) -gt 100 ]; do
        sleep 0.1
    done
    kill -TERM -- "-$leader"
    status=0
    wait "$leader" || status=$?
    check 'the program waits until the command has cleaned up' gave 5 'cleaned up'
    mv serve.kept serve
}

# --- The page of exports ---

# What the page says that a target writes of its example. Each cell has lines in backquotes.
check_targets() {
    local targets lines target line
    block 'Let `service.env` be this file' >service.env
    while IFS='|' read -r _ targets lines _; do
        for target in $(grep -o '`[^`]*`' <<<"$targets" | tr -d '`'); do
            call dotenvy_export "$target" service.env
            while IFS= read -r line; do
                check "$target: the example has the line $line" grep -qxF -- "$line" "$room/output"
            done < <(grep -o '`[^`]*`' <<<"$lines" | tr -d '`')
            check "$target: nothing is told" test "$status" = 0 -a ! -s "$room/errors"
        done
    done < <(awk '/^\| Target \| Of/ { inside = 1; next } !/^\|/ { inside = 0 } inside && !/^\|-/' "$page")
}

# docker is a stand-in: it prints its words, except the name of the file, and then the file.
check_container() {
    script "$room/fetch/docker" <<<'echo "$1 $2 $3 $5"; cat "$4"'
    printf 'PORT=8080\nMOTTO="it is \\"open\\""\n' >service.env
    PATH=$room/fetch:$PATH PORT=1 call bash -c "$(block '### A container')"
    check 'docker gets the settings of the file, and no variable of the shell' \
        gave 0 'run --rm --env-file serve' 'MOTTO=it is "open"' 'PORT=8080'
    PATH=$room/fetch:$PATH call bash -c "cp '$room/broken.env' service.env; $(block '### A container')"
    check 'after a fault no container is started' refused_file service.env
    printf 'PORT=8080\nMOTTO="it is \\"open\\""\n' >service.env
}

# kubectl makes the object and prints it, and asks no server.
check_secret() {
    installed kubectl 'the secret of Kubernetes' || return 0
    script "$room/fetch/kubectl" <<<"exec $(command -v kubectl) \"\$@\" --dry-run=client -o json"
    PATH=$room/fetch:$PATH call bash -c "$(block '### A secret of Kubernetes')"
    python3 -c 'import base64, json, sys
secret = json.load(sys.stdin)
for name, value in sorted(secret["data"].items()):
    print(secret["metadata"]["name"], name, base64.b64decode(value).decode())' <"$room/output" >"$room/said"
    check 'kubectl makes a secret with the settings' \
        diff <(printf '%s\n' 'serve MOTTO it is "open"' 'serve PORT 8080') "$room/said"
    PATH=$room/fetch:$PATH call bash -c "cp '$room/broken.env' service.env; $(block '### A secret of Kubernetes')"
    check 'after a fault no secret is made' refused_file service.env
}

# A shell sets the settings, and after a fault nothing.
check_eval() {
    local shell line
    line=$(block '### Settings in a shell')
    for shell in dash bash; do
        installed "$shell" "the settings in $shell" || continue
        printf 'PORT="it'"'"'s \\$(echo \\$x)"\n' >service.env
        call "$shell" -c "$line"' && printenv PORT'
        check "$shell: the settings are set and exported" gave 0 "it's \$(echo \$x)"
        cp "$room/broken.env" service.env
        call "$shell" -c "$line"'; echo "$? $PORT"'
        check "$shell: after a fault, the status is 1 and nothing is set" test "$(cat "$room/output")" = '1 '
    done
}

# The file of settings for a unit is written, unless there is a fault.
check_settings() {
    printf 'PORT=8080\n' >service.env
    call sh -c "$(block 'If a unit has to have')"
    check 'the file for EnvironmentFile is written' gave 0
    check 'and nobody else may read it' test "$(stat -c '%a' service.conf)" = 600
    check 'and it has the settings' diff <(echo 'PORT="8080"') service.conf
    cp "$room/broken.env" service.env
    call sh -c "$(block 'If a unit has to have')"
    check 'after a fault the old file stays' refused_file service.env
    check 'with the settings' diff <(echo 'PORT="8080"') service.conf
}

check_exports() {
    local title
    page=$top/docs/EXPORT.md
    if "$has_exporter"; then
        cd "$room/work"
        check_targets
        check_settings
        check_container
        check_secret
        check_eval
        cd "$top"
    fi
    for title in '### A container' '### A secret of Kubernetes' 'If a unit has to have' '### Settings in a shell'; do
        check "docs/dotenvy_export.1 has the block of: $title" in_manual docs/dotenvy_export.1 "$title"
    done
}

# --- The page of dotenvy_exec ---

# The settings of the file that may be absent win over those of the other one.
check_optional_settings() {
    local start
    start=$(block '### A systemd unit' | placed | sed -n 's/^ExecStart=//p')
    echo 'PORT=1' >"$room/etc/serve/local.env"
    call sh -c "$start"
    check 'the optional file wins, if it is there' gave 0 'serve on 1 --verbose'
    rm "$room/etc/serve/local.env"
}

check_dockerfile() {
    local command
    check_instructions
    "$has_exporter" || return 0
    make_image
    call "${command[@]}"
    check 'the command of the image runs with the settings' gave 0 'serve on 8080 --verbose'
}

check_exec() {
    local title
    page=$top/docs/EXEC.md
    check_unit dotenvy_check dotenvy_exec
    if "$has_programs" && "$has_exporter"; then
        check_unit_commands
        check_optional_settings
    fi
    printf 'PORT=8080\nSTORE=/srv/backups\nPATH=%s\n' "$room/usr/local/bin:/usr/bin:/bin" >"$room/etc/serve/service.env"
    check_crontab "$has_exporter"
    # It takes the programs away, and installs them.
    check_dockerfile
    for title in '### A systemd unit' '### A Dockerfile' '### A crontab line'; do
        check "docs/dotenvy_exec.1 has the block of: $title" in_manual docs/dotenvy_exec.1 "$title"
    done
}

# --- The manual page ---

# Whether a manual page has the block with these words, line by line.
in_manual() {
    local text
    text=$(sed "s/\\\\-/-/g; s/\\\\(aq/'/g; s/\\\\(dq/\"/g; s/\\\\e/\\\\/g" "$1")
    [[ $'\n'$text$'\n' == *$'\n'"$(block "$2")"$'\n'* ]]
}

check_manual() {
    local title
    for title in '**Use a file only if it exists**' '**Join files.**' '### Give the command' '**Print one value.**' \
        '**Put the settings of this machine' '**Check a file before' '**Let the file win' '### Wait until' \
        'Such texts go to standard error'; do
        check "docs/dotenvy_run.1 has the block of: $title" in_manual docs/dotenvy_run.1 "$title"
    done
}

export PATH=$room/usr/local/bin:$PATH
unset PORT STORE A B
has_programs=true
if [ ! -x "$run" ] || [ ! -x "$checker" ]; then
    has_programs=false
    echo "left out: whatever calls $run and $checker, as one of them is missing; \`rt ci\` builds both"
    if [ "${CI-}" = true ]; then
        check 'the programs are there' false
    fi
fi
has_exporter=true
if [ ! -x "$exporter" ]; then
    has_exporter=false
    echo "left out: whatever calls $exporter, as it is missing; \`rt ci\` builds it"
    if [ "${CI-}" = true ]; then
        check 'the program dotenvy_export is there' false
    fi
fi
make_files
mkdir -p "$room/programs"
cp "$room/usr/local/bin"/dotenvy_* "$room/programs" 2>/dev/null || :
block '## Secrets' >"$room/broken.env"
# What the checker reports of it.
open_quote=$(block 'Such texts go to standard error')
check 'the page has a file with a secret' grep -qx 'TOKEN=hidden' "$room/broken.env"
check_job
check_manual
if "$has_programs"; then
    cd "$room/work"
    check_secrets
    check_lines
    check_joined
    check_optional
    check_place
    check_cleaning
    cd "$top"
fi
check_exports
check_exec

tell_sums
