# For the launchers beside it, which read it in: builds a program of this repository where that is due, and runs it.
# A launcher first sets `tool`, its own name for messages, and `root`, the repository's folder.
die() { printf '%s: %s\n' "$tool" "$*" >&2; exit 2; }

# deps CRATE: the crates of this repository that it names in crates.txt.
deps() {
    for dep in $(sed -n "s/^$1: *//p" "$root/crates.txt"); do
        [ ! -d "$root/crates/$dep" ] || printf '%s\n' "$dep"
    done
}

# rests_on CRATE: all that it rests on and then itself, each once, a crate behind those that it names.
rests_on() {
    found='' path=''
    visit() {
        case " $found $path " in *" $1 "*) return ;; esac
        path="$path $1"
        for below in $(deps "$1"); do visit "$below"; done
        found="$found $1"
    }
    visit "$1"
    printf '%s\n' $found
}

# What a build that came to its end leaves beside the program: the name of the kit that proved it. A program without it counts as not built.
kit_of() { printf '%s/target/bin/%s.kit' "$root" "$1"; }

# due PROGRAM: whether the program is missing, or a file of what it rests on is newer.
# What a program reads, what it must print and what the kit keeps are no part of it, so a new case builds nothing.
due() {
    kit=$(kit_of "$1")
    [ -x "$root/target/bin/$1" ] && [ -s "$kit" ] || return 0
    [ -n "$(cd "$root/crates" && find $(rests_on "$1") ../crates.txt -name out -prune -o -type f ! -name stdin ! -name stdout ! -name args ! -name status ! -path '*/data/*' -newer "$kit" -print | head -n 1)" ]
}

# build PROGRAM: proves what it rests on and no more, as many crates at a time as there are processors, and says which is done.
# It counts as built when that began, so a file changed meanwhile is seen; broken off, it goes on later from the crates that are done.
build() {
    command -v rt >/dev/null || die 'no rt on the PATH: install the Rattle kit first'
    building=$(mktemp -d 2>/dev/null) || die 'no folder can be made in the one for temporary files'
    trap 'stop_build; exit 129' HUP
    trap 'stop_build; exit 130' INT
    trap 'stop_build; exit 131' QUIT
    trap 'stop_build; exit 143' TERM
    : >"$building/began"
    rm -f "$(kit_of "$1")"
    crates=$(rests_on "$1")
    many=$(printf '%s\n' $crates | wc -l)
    started='' finished='' running='' begun=$(date +%s)
    printf '%s: building %s: %d crates are to be proved, this once\n' "$tool" "$1" "$many" >&2
    while [ "$(printf '%s\n' $finished | grep -c .)" -lt "$many" ]; do
        start_ready
        sleep 0.2
        finish_done
    done
    mkdir -p "$root/target/bin"
    cp "$root/crates/$1/out/$1" "$root/target/bin/$1.new"
    mv "$root/target/bin/$1.new" "$root/target/bin/$1"
    rt version | tr -d '\n' >"$(kit_of "$1").new"
    touch -r "$building/began" "$(kit_of "$1").new"
    mv "$(kit_of "$1").new" "$(kit_of "$1")"
    rm -rf "$building"
    trap - HUP INT QUIT TERM
}

# Starts crates of which all that they name is done, as far as there are processors.
start_ready() {
    for crate in $crates; do
        [ "$(printf '%s\n' $running | grep -c .)" -lt "$(nproc)" ] || return 0
        case " $started " in *" $crate "*) continue ;; esac
        ready=yes
        for below in $(deps "$crate"); do
            case " $finished " in *" $below "*) ;; *) ready=no ;; esac
        done
        [ "$ready" = yes ] || continue
        setsid sh -c "$prove" prove "$root" "$crate" "$building" &
        started="$started $crate" running="$running $crate"
        printf '%d\n' $! >"$building/$crate.process"
    done
}

# What proves one crate, as a group of processes of its own; a program is linked too, which `rt run` does, and runs it then, here on no input.
prove='
trap ": >\"$3/$2.failed\"" EXIT
cd "$1/crates/$2" || exit
rt check --jobs 1 >"$3/$2.log" 2>&1 || exit
if [ -f src/main.rt ]; then
    rt run </dev/null >"$3/$2.log" 2>&1
    [ -f "out/$2.stamp" ] || exit
fi
trap - EXIT
: >"$3/$2.done"'

finish_done() {
    for crate in $running; do
        if [ ! -e "$building/$crate.done" ] && ! kill -0 "$(cat "$building/$crate.process")" 2>/dev/null; then
            [ -e "$building/$crate.done" ] || : >"$building/$crate.failed"
        fi
        if [ -e "$building/$crate.failed" ]; then
            cat "$building/$crate.log" >&2 || true
            stop_build
            die "$crate is not proved, so nothing was built"
        fi
        [ -e "$building/$crate.done" ] || continue
        finished="$finished $crate"
        running=$(printf '%s\n' $running | grep -vx "$crate" || true)
        printf '%s: %s proved, %d of %d, %d s\n' "$tool" "$crate" "$(printf '%s\n' $finished | wc -l)" "$many" "$(($(date +%s) - begun))" >&2
    done
}

stop_build() {
    for process in "$building"/*.process; do
        [ ! -e "$process" ] || kill -- "-$(cat "$process")" 2>/dev/null || true
    done
    rm -rf "$building"
}

# can_launch: whether this machine can run a program of the repository, or a complaint.
can_launch() { [ "$(uname -m)" = x86_64 ] || die "no way to run a program on $(uname -m)"; }

# launch PROGRAM ARGUMENT..: the shell becomes the program.
launch() {
    built=$root/target/bin/$1
    shift
    exec "$built" "$@"
}
