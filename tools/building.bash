# For ./run, ./import, ./compare, ./serve, ./replay, ./verify, ./install and tools/walker, which read it: what they report, and what is built
# and current. Nothing here is run by itself. They set `root`, the repository's folder, `own`, their name, and `trouble`, their status where
# something is not proved, not built or not there, first.
# shellcheck disable=SC2154

# A text that moves no cursor and ends no line: bytes but 20 to 7E as \x and two digits. In a text that has such a byte, or that could be
# read so, each backslash is two. The locale is C.
escaped() { # TEXT
    local text=$1 byte shown='' at
    case $text in
    *[!\ -~]* | *\\x[0-9A-Fa-f][0-9A-Fa-f]*) ;;
    *)
        printf '%s' "$text"
        return
        ;;
    esac
    for ((at = 0; at < ${#text}; at += 1)); do
        byte=${text:at:1}
        case $byte in
        \\) shown+=$byte$byte ;;
        [\ -~]) shown+=$byte ;;
        *)
            printf -v byte '%d' "'$byte"
            printf -v byte '\\x%02X' "$((byte & 255))"
            shown+=$byte
            ;;
        esac
    done
    printf '%s' "$shown"
}

# One line on standard error.
say() { printf '%s: %s\n' "$own" "$(escaped "$*")" >&2; }
failed() {
    say "$*"
    exit "$trouble"
}
needs() { # COMMAND WHAT
    command -v "$1" >/dev/null || failed "'$1' is missing: $2"
}

# A stamp is what a file was built from and what it is: the sum of the files, and its own sum. Files that are the same have the same
# stamp, however they came here: a name counts from the repository's folder on, and a file from elsewhere has none. What the kit keeps in
# the folder out/ of a crate is left out.
sum_of_files() { # PATH..
    local path names=() others=()
    for path in "$@"; do
        case $path in
        "$root"/*) names+=("${path#"$root"/}") ;;
        /*) others+=("$path") ;;
        *) names+=("$path") ;;
        esac
    done
    (
        cd "$root" || exit
        {
            find "${names[@]}" -regex 'crates/[^/]*/out' -prune -o -type f -print0 | sort -z | xargs -0 sha256sum
            for path in "${others[@]}"; do sha256sum <"$path"; done
        } | sha256sum
    ) 2>/dev/null
}
stamp_of() { printf '%s\n' "$root/target/run/$(basename -- "$1").stamp"; }
stamp_text() { # FILE FILES-SUM
    printf '%s\n%s\n' "$2" "$(sha256sum <"$1" 2>/dev/null)"
}

# Whether this is what ./install put into place, which holds nothing to build from. Its file `installed` has the sum of each file.
is_installed() { [ -e "$root/installed" ]; }

# Whether a file is there and nothing has changed since it was built. Nothing is written to find out. What is installed is never built
# here: a file that is another than the one that was installed is reported, and that is the end.
is_current() { # FILE FILES-SUM
    if is_installed; then
        grep -q -x -F -e "$(sha256sum <"$1" | cut -d ' ' -f 1)  lib/luspemaro/${1#"$root"/}" -- "$root/installed" ||
            failed "'$1' is not the file that was installed"
        return
    fi
    [ -r "$1" ] && [ "$(stamp_text "$1" "$2")" = "$(cat -- "$(stamp_of "$1")" 2>/dev/null)" ]
}
set_stamp() { # FILE FILES-SUM
    if ! mkdir -p -- "$root/target/run" || ! stamp_text "$1" "$2" >"$(stamp_of "$1")"; then
        say 'what was built cannot be noted, so it is looked at again the next time'
    fi
}

# The sums that a stamp notes: of the files, and of the file that was built from them. Nothing where there is no stamp.
stamped_files_sum() { sed -n '1s/ .*//p' -- "$(stamp_of "$1")" 2>/dev/null; }
stamped_sum() { sed -n '2s/ .*//p' -- "$(stamp_of "$1")" 2>/dev/null; }

# Whether a file is one that a command reads: of the repository, of what is built from it, or one of these.
is_own_file() { # FILE PATH..
    [ -n "$(find -H "$root/crates" "$root/crates.txt" "$root/host" "$root/tools" "$root/target/run" "$proved" "${@:2}" \
        -samefile "$1" -print -quit 2>/dev/null)" ]
}

# Where a program of the workspace host/ lies once it is built.
host_program() { # PACKAGE
    printf '%s\n' "$root/target/host/release/$1"
}

# Builds a program of the workspace host/, with nothing but the standard library, from these files beside those of the workspace.
build_host() { # PACKAGE NAME CONSEQUENCE PATH..
    local package=$1 name=$2 consequence=$3 program files
    shift 3
    program=$(host_program "$package")
    ! is_installed || [ -x "$program" ] || failed "there is no '$program'"
    files=$(sum_of_files host/Cargo.toml host/Cargo.lock "$@")
    if [ -x "$program" ] && is_current "$program" "$files"; then return; fi
    needs cargo "Rust builds $name"
    [ -x "$program" ] || say "building $name; the first time this takes some 20 seconds"
    if ! cargo build --quiet --release --offline --package "$package" \
        --manifest-path "$root/host/Cargo.toml" --target-dir "$root/target/host" </dev/null >&2; then
        failed "$name cannot be built, so $consequence"
    fi
    set_stamp "$program" "$files"
}

# What tools/kit says, as one line for each crate that it has proved now. What else it says is shown, as what is refused.
show_progress() { # COUNT
    local line words done=0
    while IFS= read -r line || [ -n "$line" ]; do
        read -ra words <<<"$line "
        case $line in
        'kit: '*' proved ('*)
            done=$((done + 1))
            case $line in *'(unchanged since'*) continue ;; esac
            say "$done of $1: ${words[1]} proved ${words[*]:3}"
            ;;
        'kit: ok,'*) ;;
        *) printf '%s\n' "$line" ;;
        esac
    done
}

# The proved program of frames.
proved=$root/target/bin/luspemaro

# Proves and builds the program. A crate that has not changed is not proved again.
build_program() {
    local files
    files=$(sum_of_files crates crates.txt)
    if [ -x "$proved" ] && is_current "$proved" "$files"; then return; fi
    needs rt 'the Rattle kit proves and builds the program'
    if [ ! -x "$proved" ]; then
        say 'proving and building the program; the first time this takes some 5 minutes'
    else
        say 'the program was not built by this command, or files have changed; what has changed is proved again'
    fi
    "$root/tools/kit" check luspemaro </dev/null 2>&1 | show_progress "$("$root/tools/kit" list luspemaro | wc -l)" >&2
    if [ "${PIPESTATUS[0]}" -ne 0 ] || [ ! -x "$proved" ]; then
        failed 'the program is not proved, so nothing was run'
    fi
    set_stamp "$proved" "$files"
}

# The commit of the repository, where git can say it, and whether files differ from it.
commit_text() {
    local commit
    [ -e "$root/.git" ] || return
    commit=$(git -C "$root" rev-parse --verify HEAD 2>/dev/null) || return
    if [ -z "$(git --no-optional-locks -C "$root" status --porcelain 2>&1)" ]; then
        printf 'commit %s\n' "$commit"
    else
        printf 'commit %s, with changes\n' "$commit"
    fi
}
