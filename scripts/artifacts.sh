# shellcheck shell=bash disable=SC2015,SC2154
# Finds osb-replay, the library and the programs of cases for the sources in this checkout. Sourced by the launchers and
# by scripts/: $top is the folder of the repository, $who the program that reports on standard error.
#
# A target is `replay`, `library` or `cases`. A folder of artifacts has the files of targets and a MANIFEST (see record
# below).
# There are two: prebuilt/MACHINE, which is committed, and out/MACHINE, which has what was built here.
machine=$(uname -sm) && machine=${machine#* }-${machine%% *} && machine=${machine,,}
prebuilt=$top/prebuilt/$machine
built=$top/out/$machine

say() {
    echo "$who: $*" >&2
}

fail() {
    say "$@"
    exit 70
}

# artifacts_of TARGET: its files.
artifacts_of() {
    case $1 in
        replay) echo osb-replay ;;
        library) echo libosb.so libosb.a ;;
        cases) echo library_cases refusal_cases service_cases ;;
    esac
}

# all_artifacts: the files of all targets.
all_artifacts() {
    echo "$(artifacts_of replay) $(artifacts_of library) $(artifacts_of cases)"
}

# is_program FILE: whether it is a program, and not a library.
is_program() {
    [[ $1 != *.* ]]
}

# crates_of TARGET: the crates that it is linked from.
crates_of() {
    case $1 in
        replay) echo osb_replay ;;
        # Each is a static library of its own, so that they are proved side by side. osb_c_driver stands on
        # osb_c_binding, which stands on osb_c_instance, as osb_c_update and osb_c_platform_driver do, osb_c_update_driver on
        # osb_c_driver and osb_c_update, osb_c_binding_wire on osb_c_wire, and osb_c_update_wire on osb_c_wire and
        # osb_c_update. These are then libraries too.
        library)
            echo osb_c,osb_c_instance,osb_c_binding,osb_c_update,osb_c_driver,osb_c_update_driver,osb_c_platform_driver,osb_c_wire,osb_c_binding_wire,osb_c_update_wire
            ;;
        cases) artifacts_of cases | tr ' ' , ;;
    esac
}

# rows_of CRATE,..: the lines of crates.txt for these crates and all below them, lowest first, without comments.
rows_of() {
    awk -v of="$1" '
        function visit(name, deps, count, i) {
            if (!(name in row) || seen[name]++) return
            count = split(row[name], deps, " ")
            for (i = 2; i <= count; i++) visit(deps[i])
            print row[name]
        }
        { sub(/#.*/, "") }
        /:/ { $1 = $1; name = $1; sub(/:.*/, "", name); row[name] = $0 }
        END {
            count = split(of, wanted, ",")
            for (i = 1; i <= count; i++) {
                if (!(wanted[i] in row)) exit 1
                visit(wanted[i])
            }
        }' "$top/crates.txt"
}

# digest_of_sources TARGET: prints a SHA-256 over the lines of crates.txt and the names and contents of all files in
# src/, specs/ and proofs/, of the target's crates and all below them. It fails if one of them can't be read.
digest_of_sources() (
    set -o pipefail
    cd "$top" || exit
    rows=$(rows_of "$(crates_of "$1")") || exit
    folders=()
    while read -r name _; do
        for part in src specs proofs; do
            [ ! -e "crates/${name%:}/$part" ] || folders+=("crates/${name%:}/$part")
        done
    done <<<"$rows"
    [ ${#folders[@]} -gt 0 ] || exit
    { echo "$rows" && find "${folders[@]}" ! -type d -print0 | LC_ALL=C sort -z | xargs -0 sha256sum; } |
        sha256sum | cut -d ' ' -f 1
)

# entry FOLDER FILE: reads the file's line of the folder's MANIFEST into $sum, $sources_then and $kit_then.
entry() {
    local name
    while read -r name sum sources_then kit_then; do
        [ "$name" != "$2" ] || return 0
    done 2>/dev/null <"$1/MANIFEST"
    return 1
}

# digest_of FILE: the SHA-256 of a file; nothing if it can't be read.
digest_of() {
    sha256sum 2>/dev/null <"$1" | cut -d ' ' -f 1
}

# fits FOLDER TARGET SOURCES [KIT]: whether the folder has the target's files, undamaged and built from the sources with
# this digest, by this kit if one is given. If not, $why is the reason, and the status is 2 if MANIFEST can't tell.
fits() {
    local file sum sources_then kit_then name=${1#"$top/"}
    why="there is no $name"
    [ -e "$1" ] || return 1
    for file in $(artifacts_of "$2"); do
        why="$name/MANIFEST can't be read, or has no line for $file"
        entry "$1" "$file" || return 2
        why="$name was built from other sources"
        [ "$sources_then" = "$3" ] || return 1
        why="$name was built by another kit"
        [ "$kit_then" = "${4-$kit_then}" ] || return 1
        why="$name/$file is damaged: its SHA-256 isn't the one in MANIFEST"
        [ "$(digest_of "$1/$file")" = "$sum" ] || { say "$why" && return 1; }
        why="$name/$file isn't executable"
        ! is_program "$file" || [ -x "$1/$file" ] || { say "$why" && return 1; }
    done
}

# find_current TARGET [--from-source]: sets $folder to one with the target's files for the sources in this checkout:
# the prebuilt ones if they fit; else, or with --from-source, those that were built here, which it builds if it must.
find_current() {
    local sources why="--from-source was given" status=1
    sources=$(digest_of_sources "$1") || fail "can't read the sources of the crates"
    if [ -z "${2:-}" ]; then
        folder=$prebuilt
        fits "$prebuilt" "$1" "$sources" && return
        status=$?
    fi
    [ "$status" -ne 2 ] || say "$why"
    folder=$built
    is_built "$1" "$sources" "${2:-}" || build "$1" "$sources" "${2:-}"
}

# is_built TARGET SOURCES [--from-source]: whether the target was built here from these sources; with --from-source, by
# the kit that is on the PATH.
is_built() {
    local why kit
    if [ -n "$3" ] && kit=$(kit_version 2>/dev/null); then
        fits "$built" "$1" "$2" "$kit"
    else
        fits "$built" "$1" "$2"
    fi
}

# The kit's version line. rt must not read the program's standard input.
kit_version() {
    rt version </dev/null
}

# build TARGET SOURCES [--from-source]: builds the target into $built. One build runs at a time; whoever has waited for
# another's finds nothing left to do.
build() {
    local kit log
    log=crates/$(crates_of "$1" | cut -d , -f 1)/out/build.log
    command -v rt >/dev/null || fail "$why. To build from source, put the command rt of the Rattle kit on the PATH"
    command -v python3 >/dev/null || fail "$why. To build from source, put python3, 3.9 or later, on the PATH"
    mkdir -p "$built" || fail "can't write ${built#"$top/"}"
    exec 9<"$top/crates.txt"
    flock -n 9 || { say "waiting for another start, which builds" && flock 9; }
    if ! is_built "$@"; then
        kit=$(kit_version) || fail "rt doesn't report its version"
        say "proving and building from source, for some 10 to 20 minutes ($why); the prover's output is in $log"
        "build_$1" && record "$built" "$1" "$2" "$kit" || exit 70
    fi
    exec 9>&-
}

build_replay() {
    build_crates osb_replay program replay && put "$top/crates/osb_replay/out/osb_replay" "$built/osb-replay"
}

build_library() {
    build_crates "$(crates_of library)" archive && "$top/scripts/link_library" "$built"
}

build_cases() {
    local name
    for name in $(artifacts_of cases); do
        build_crates "$name" program && put "$top/crates/$name/out/$name" "$built/$name" || return
    done
}

# build_crates NAME,.. KIND [ARGUMENT ..]: has scripts/build_crates.py prove and build these crates. If this shell is
# ended, so is the build.
build_crates() {
    setpriv --pdeathsig TERM "$top/scripts/build_crates.py" "$who" "$@" </dev/null
}

# record FOLDER TARGET SOURCES KIT: writes into the folder's MANIFEST what the target's files are.
record() {
    local file sum sources_then kit_then
    {
        cat <<'END'
# What the files in this folder are: a line for each, with four fields separated by spaces.
#
#     FILE  SHA-256 of the file  digest of the sources it was built from  version line of the kit that built it
#
# The digest of the sources is a SHA-256 over crates, in the order of crates.txt: scripts/artifacts.sh computes it.
# `make prebuilt` builds all files from nothing and writes the committed folder; `./check` compares them byte by byte.
END
        for file in $(all_artifacts); do
            if [[ " $(artifacts_of "$2") " == *" $file "* ]]; then
                echo "$file $(digest_of "$1/$file") $3 $4"
            elif entry "$1" "$file"; then
                echo "$file $sum $sources_then $kit_then"
            fi
        done
    } >"$1/MANIFEST.new" && mv "$1/MANIFEST.new" "$1/MANIFEST"
}

# put SOURCE FILE: copies a file unless it is the same already. A file that was there is replaced and not written over:
# a program that runs may have it open.
put() {
    cmp -s "$1" "$2" || { cp -p "$1" "$2.new.$$" && mv -f "$2.new.$$" "$2"; }
}

# fill FOLDER [--from-source]: puts the library into a folder from which it is linked and used. Its second name is no
# symbolic link, which the gate rejects wherever it finds one in the repository.
fill() {
    local folder
    find_current library "${2:-}"
    mkdir -p "$1" && put "$folder/libosb.a" "$1/libosb.a" && put "$folder/libosb.so" "$1/libosb.so.0" &&
        put "$folder/libosb.so" "$1/libosb.so" && describe "$(readlink -f "$1")" "$top/include" >"$1/osb.pc.$$" &&
        mv -f "$1/osb.pc.$$" "$1/osb.pc" || fail "can't write $1"
}

# describe LIBRARIES HEADERS: what pkg-config reads.
describe() {
    cat <<END
libdir=$1
includedir=$2

Name: osb
Description: Service instances under the Open Service Broker API 2.17: platform and broker, proved
Version: $(awk '/^#define OSB_VERSION_(MAJOR|MINOR|PATCH) / { text = text dot $3; dot = "." } END { print text }' \
        "$top/include/osb.h")
Libs: -L\${libdir} -losb
Cflags: -I\${includedir}
END
}
