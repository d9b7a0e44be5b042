# shellcheck shell=bash
# Finds Python. Sourced by ./osb-replay-log, ./check and the launchers of what is in checks/ and bench/.

# python_with MODULE[,MODULE ..]: prints the first Python, 3.9 or later, that has the modules; its status is 0 where
# there is one. What Debian installs is there for /usr/bin/python3 alone.
python_with() {
    python_where "import $1"
}

# python_that_finds MODULE: the same, for one module that takes long to be loaded.
python_that_finds() {
    python_where "import importlib.util; importlib.util.find_spec('$1') or sys.exit(1)"
}

# python_where STATEMENTS: the first one that runs them. With -c, Python looks for modules in the current folder first:
# that has to be one that only root writes to.
python_where() (
    for found in python3 /usr/bin/python3; do
        if cd / && "$found" -c "import sys; $1; sys.exit(sys.version_info < (3, 9))" 2>/dev/null; then
            echo "$found"
            exit 0
        fi
    done
    exit 1
)

# refuse_program NAME TEXT: ends with status 70, and reports why on standard error.
refuse_program() {
    echo "$1: $2" >&2
    exit 70
}
