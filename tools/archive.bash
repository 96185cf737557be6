# For ./serve, ./replay, ./verify, ./install, ./test and tools/walker, which read it: the proved library's archive. Nothing here is run by
# itself. They set `root`, the repository's folder, and `own`, their name, first.
# shellcheck disable=SC2154
trouble=${trouble:-1}
# shellcheck source=tools/building.bash
. "$root/tools/building.bash" || exit "$trouble"

archives=$(readlink -m -- "${LUSPEMARO_ARCHIVE_DIR:-$root/target/staticlib}")
archive=$archives/libexports.a
# As ./install names it.
[ -r "$archive" ] || [ ! -r "$archives/libluspemaro.a" ] || archive=$archives/libluspemaro.a

# Proves the library and makes its archive. A crate that has not changed is not proved again. An archive that LUSPEMARO_ARCHIVE_DIR
# names is taken as it is, and where all is installed, nothing is built.
build_archive() {
    local files log
    if is_installed; then return; fi
    if [ -n "${LUSPEMARO_ARCHIVE_DIR:-}" ]; then
        [ -r "$archive" ] || failed "there is no archive '$archive'"
        return
    fi
    files=$(sum_of_files crates crates.txt)
    if is_current "$archive" "$files"; then return; fi
    needs rt 'the Rattle kit proves the library and makes its archive'
    say 'proving the library, as far as it has changed; the first time this takes some 6 minutes'
    log=$("$root/tools/kit" archive 2>&1 </dev/null) || failed "$log"
    set_stamp "$archive" "$files"
}

# What a page says of the library, as words of a call, in `facts`: its sum, the sum of what it was proved from, and the commit. Of an archive
# that LUSPEMARO_ARCHIVE_DIR names, and of an installed one, it is not known what built it.
set_facts() {
    local sum commit of=$archive
    ! is_installed || of=$root/../libluspemaro.a
    facts=()
    sum=$(sha256sum <"$of" 2>/dev/null) && facts+=(--archive-sum "${sum%% *}")
    if [ -z "${LUSPEMARO_ARCHIVE_DIR:-}" ] && ! is_installed; then
        facts+=(--built-by-proof --sources-sum "$(stamped_files_sum "$archive")")
    fi
    if commit=$(commit_text); then facts+=(--commit "$commit"); fi
}
