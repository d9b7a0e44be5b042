# shellcheck shell=bash disable=SC2154
# Runs a program of go/cmd. Sourced by the program's launcher, which has set $who, the program's name, and $top, the
# folder of the repository.
#
# Whether the program is built is judged by a digest over go/, osb.h and the library. A changed crate counts once the
# library is built from it. To build again after an update of Go or of one of Debian's packages, remove out/go. All
# reports go to standard error.
. "$top/scripts/artifacts.sh" || exit 70
program=$top/out/go/$who
install="apt-get install golang-go gcc libc6-dev pkg-config golang-github-mattn-go-sqlite3-dev \
golang-github-lib-pq-dev golang-github-spf13-cobra-dev golang-github-rs-zerolog-dev \
golang-github-prometheus-client-golang-dev golang-github-pires-go-proxyproto-dev golang-github-coreos-go-systemd-dev \
golang-github-json-iterator-go-dev"

# run_go_program VARIABLE ARGUMENT ..: runs the program in place of this shell. If the environment has VARIABLE, it
# names the program that runs. Else out/go/$who runs, which is built first if it isn't built from the sources in this
# checkout. The built file needs nothing of the checkout. If the program can't be run, the status is 70.
run_go_program() {
    local variable=$1
    shift
    if [ -n "${!variable:-}" ]; then
        program=${!variable}
        [ -f "$program" ] && [ -x "$program" ] || fail "$variable names $program, which isn't a program"
    else
        is_current || build
    fi
    shopt -s execfail
    exec "$program" "$@" || fail "can't run $program"
}

# is_current: whether the program is the one that was built here, from the sources as they stand. It sets $digest to
# theirs. The file .digest has that, and the digest of the program itself.
is_current() {
    local was itself
    digest=$(digest_of_program) && digest=${digest%% *} || fail "can't read the sources in go/"
    [ -x "$program" ] && { read -r was && read -r itself; } 2>/dev/null <"$program.digest" &&
        [ "$was" = "$digest" ] || return
    [ "$itself" = "$(sha256sum <"$program")" ] || { say "$program isn't what was built here" && return 1; }
}

# digest_of_program: prints a SHA-256 over the sources of the program but their tests, over each archive of the library
# that scripts/go may take, and over how the program is built.
digest_of_program() (
    set -o pipefail
    archives=("$prebuilt/libosb.a" "$built/libosb.a")
    [ -z "${LIBOSB_FOLDER:-}" ] || archives=("$LIBOSB_FOLDER/libosb.a")
    {
        for archive in "${archives[@]}"; do
            [ ! -f "$archive" ] || sha256sum <"$archive" || exit
        done
        cd "$top" && find go -type f ! -name '*_test.go' -print0 | LC_ALL=C sort -z |
            xargs -0 sha256sum scripts/go_program.sh include/osb.h
    } | sha256sum
)

# build: builds the program, unless another start does it meanwhile. One build runs at a time: all programs have most
# packages in common.
build() {
    local library
    check_tools
    # The library first: it may have to be built too, which has reports of its own, and changes the digest.
    library=${LIBOSB_FOLDER:-$("$top/scripts/where" library)} || exit 70
    exec 9<"$top/scripts/go_program.sh"
    flock -n 9 || { say "waiting for another start, which builds" && flock 9; }
    if ! is_current; then
        say "building the program from the sources in go/, which takes up to a minute"
        compile "$library" || fail "the program can't be built"
    fi
    exec 9<&-
}

# check_tools: reports the first thing that a build needs and that isn't installed.
check_tools() {
    local name
    for name in go "${CC:-gcc}" pkg-config; do
        command -v "$name" >/dev/null || fail "to build the program, $name is missing: $install"
    done
    for name in mattn/go-sqlite3 lib/pq spf13/cobra rs/zerolog prometheus/client_golang pires/go-proxyproto \
        coreos/go-systemd json-iterator/go; do
        [ -d "/usr/share/gocode/src/github.com/$name" ] ||
            fail "to build the program, the Go package github.com/$name is missing: $install"
    done
}

# compile LIBRARY: builds the program over the library in this folder, under another name until it is whole. A program
# that was there is replaced and not written over: one that runs has it open. It has no build ID, since the digest of
# scripts/go and what debuggers read name the folder of the checkout: so another checkout gives the same bytes.
compile() {
    local new=$program.new.$$ static='-extldflags -Wl,--build-id=none'
    mkdir -p "${program%/*}" && rm -f "$program".new.* || return
    ! can_link_statically || static='-linkmode external -extldflags "-static -Wl,--build-id=none -lsqlite3 -lm"'
    # If this shell is ended, so is the build.
    LIBOSB_FOLDER=$1 setpriv --pdeathsig TERM "$top/scripts/go" build -trimpath -o "$new" \
        -tags 'libsqlite3 netgo osusergo sqlite_omit_load_extension' -ldflags "-buildid= $static" "./cmd/$who" \
        </dev/null >"$program.log" 2>&1 9<&- || { cat "$program.log" >&2 && return 1; }
    { echo "$digest" && sha256sum <"$new"; } >"$new.digest" && mv -f "$new" "$program" &&
        mv -f "$new.digest" "$program.digest"
}

# can_link_statically: whether the C compiler finds an archive of each library. The build overwrites what it links.
can_link_statically() {
    echo 'int main(void) { return 0; }' |
        "${CC:-gcc}" -static -x c - -x none -lsqlite3 -lm -o "$program.new.$$" 2>/dev/null
}
