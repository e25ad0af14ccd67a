#!/bin/sh
# Calls a program with other words, and shows what each call prints and its status. The program is the first word of
# this script, and without a word the one that runs the script.
# Standard input is that of the stored run: the three lines of its file stdin.
program=${1-/proc/$PPID/exe}

# The status of the call before, and what it wrote to the file faults.
ended() {
    echo "status $?"
    sed 's/^/standard error: /' faults
}

row() {
    echo "> $*"
    "$program" "$@" 2>faults
    ended
}

row --list
row --list --next <<'END'
A=1
K="$A"
END
row --list <<'END'
A=1
K="$A"
END
printf 'A=1\n.B=2\nC=3\n' | row --list -f first.env
echo 'piped' | row cat

# shellcheck disable=SC2016 # the shell that the program starts expands it
row sh -c 'echo "$SAID, $GREETING"'
# shellcheck disable=SC2016 # the shell that the program starts expands it
SAID=hello row sh -c 'echo "$SAID, $GREETING"'
# shellcheck disable=SC2016 # the shell that the program starts expands it
row -f first.env -f second.env sh -c 'echo "$X $Y $Z"'
# shellcheck disable=SC2016 # the shell that the program starts expands it
row --next -f next.env sh -c 'echo "$K"'
row sh -c 'exit 7'
row sh -c 'kill -9 $$'
row sh -c 'kill -13 $$'
row sh -c 'echo its own >&2; exit 1'
for status in 126 127 128 200 255; do
    row sh -c "exit $status"
done

row -f faulty.env sh -c 'echo started'
row -f first.env -f faulty.env sh -c 'echo started'
row -f absent.env sh -c 'echo started'
row /no/such/program

row
row -f first.env
row -f
row --list --file
row -h
row -- sh
row "$(printf '\377')" | tail -n 2

# Words reach the command as they are: its own, empty ones, ones with blanks at their ends, ones like the word before.
# shellcheck disable=SC2016 # the shell that the program starts expands it
row sh -c 'echo "$0"'
# shellcheck disable=SC2016 # the shell that the program starts expands it
row sh -c 'printf "<%s>" "$0" "$@"; echo' '' ' a ' b b ''
row '' echo started
PATH=/bin:/usr/bin row ' echo' started
PATH=/bin:/usr/bin row ' --list'

# Many words, of which only what comes of them is shown.
# shellcheck disable=SC2016 # the shell that the program starts expands it
row sh -c 'echo "$# $1 ${5000}, beside $(ls rows.sh)"' sh $(seq 5000) | tail -n 2
(
    for _ in $(seq 300); do
        set -- "$@" -ffirst.env
    done
    # shellcheck disable=SC2016 # the shell that the program starts expands it
    row "$@" -f second.env sh -c 'echo "$X $Z"'
) | tail -n 2

# Files with blanks at their ends, without a name, and of bytes that are no text. A list does without its files.
echo 'X=blank' >' first.env '
printf 'A=\377\n' >broken.env
# shellcheck disable=SC2016 # the shell that the program starts expands it
row -f ' first.env ' sh -c 'echo "$X"'
row -f '' echo started
row -f broken.env echo started
row --list <broken.env
echo 'A=1' | row --list -f absent.env sh -c 'echo started'

# A text that has line feeds is printed with them.
printf 'A="x\ny\n' | row --list

# A command has all of standard input: of a file, and of a pipe that no single read empties.
row cat <second.env
seq 20000 | row sed -n "1p; \$p"

# What a call leaves of standard input for the next program.
leaving() {
    printf '1\n2\n' | { row "$@"; sed 's/^/left: /'; }
}

leaving -x
leaving -f absent.env cat
leaving -f faulty.env cat
leaving /no/such/program
leaving sh -c 'exit 7'
# shellcheck disable=SC2016 # the shell that the program starts expands it
leaving sh -c 'read -r line; echo "its $line"'

# Entries of the environment that are no text, and no name, reach the command, and names keep the blanks at their ends.
# shellcheck disable=SC2016 # the shell that the program starts expands it
BYTES=$(printf '\377') row sh -c 'printf %s "$BYTES" | wc -c'
# shellcheck disable=SC2016 # the shell that the program starts expands it
X=$(printf '\377') row -f first.env sh -c 'echo "$X $Y"'
env 'A =1' ' A=2' =3 "$program" env | grep '^ *A* *=[123]$' | LC_ALL=C sort

# More names than small limits hold, of a file, and of the process, which keeps its values. The command counts them.
seq 1100 | sed 's/.*/N&=file/' >many.env
row -f many.env sh -c 'env | grep -c "^N[0-9]*=file$"'
(
    for number in $(seq 1100); do
        export "N$number=process"
    done
    row -f many.env sh -c 'env | grep -c "^N[0-9]*=process$"'
)

# What no file system has a place for. Of words this long only what comes of them is shown.
long=$(printf '%05000d' 0)

# Names that no file can be read by. A directory, a link to nothing and a FIFO let the search go on, up to the root; each
# other one ends it. The script runs as one whom a mode can keep out, and gives the modes back, so that it can run again.
mkdir -p folder shut
: >locked.env
rm -f loop.env nothing.env fifo.env
ln -s loop.env loop.env
ln -s absent.env nothing.env
mkfifo fifo.env
chmod 000 locked.env shut
row -f folder echo started
row -f . echo started
row -f nothing.env echo started
row -f fifo.env echo started
row -f locked.env echo started
row -f shut/first.env echo started
row -f loop.env echo started
row -f first.env/x echo started
row -f "$long" echo started | tail -n 2
chmod 700 locked.env shut

# A file that may be read and not written.
echo 'X=read' >kept.env
chmod 444 kept.env
# shellcheck disable=SC2016 # the shell that the program starts expands it
row -f kept.env sh -c 'echo "$X"'
chmod 644 kept.env

# Commands that can't be started: a directory, a file that is no program, a script that names no interpreter, one whose
# interpreter is absent, any command with a variable that is too large, names that are too long, in PATH and beside.
printf 'echo started\n' >script
printf '#!/no/such/program\n' >stray
chmod +x script stray
printf 'LONG=%0200000d\n' 0 >long.env
row ./folder
row ./first.env
row ./script
row ./stray
row -f long.env echo started
row "$long" | tail -n 2
row "./$long" | tail -n 2

# A bare name is searched for in the PATH of the new environment: the process's, where it has one, and else the file's.
# Without any, /bin and /usr/bin are searched.
without_path() {
    echo "> $*, without PATH"
    (unset PATH && exec "$program" "$@") 2>faults
    ended
}

mkdir -p tools
printf '#!/bin/sh\necho found\n' >tools/greet
chmod +x tools/greet
PATH=/bin:/usr/bin row -f path.env greet
without_path -f path.env greet
without_path -f first.env greet
without_path -f first.env sh -c 'echo started'

# Standard input that is closed, or a directory.
row --list <&-
row --list <folder

# Standard output that is closed, or full. A fault of the input is told in its place: then nothing is to be written.
for output in '>&-' '>/dev/full'; do
    for line in A=1 .A=1; do
        echo "> --list $output, of $line"
        echo "$line" | eval '"$program" --list 2>faults' "$output"
        ended
    done
done

# The reader of standard output goes, while the list is longer than a pipe holds.
echo '> --list, whose reader goes'
seq 30000 | sed 's/.*/A&=1/' | { "$program" --list 2>faults; ended >ending; } | :
cat ending

# A text of more than 2,000 bytes is printed whole.
echo '> - and 2000 zeros'
"$program" "-$(printf '%02000d' 0)" 2>faults
ended | sed "s/0\{2000\}'\$/(2000 zeros)'/"

# Standard error that is closed, or full: the text is lost, and the status tells that there was a fault.
mute() {
    echo "> $* $errors"
    eval '"$program" "$@"' "$errors"
    echo "status $?"
}

for errors in '2>&-' '2>/dev/full'; do
    mute -x
    mute --list <faulty.env
    mute -f faulty.env echo started
    mute /no/such/program
done
