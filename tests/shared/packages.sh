# Shared by tests/install.sh and the install.sh of some folders, which describe their purpose on a line `for:`, source
# this file, name their requirements by `programs` and `required`, and then call `packages`.
#   install.sh              installs the Debian packages that are missing
#   install.sh --missing    prints the Debian packages that are missing
#   install.sh --check      prints a line for each requirement that is missing; the exit status is 1 if one is
set -eu
script=$(cd "$(dirname "$0")" && pwd)/$(basename "$0")
mode=${1-}
case $mode in '' | --missing | --check) ;; *) echo "usage: $0 [--missing | --check]" >&2 && exit 2 ;; esac
lacking=0

# required NAME COMMAND..: a requirement that is there if the command succeeds
required() {
    local name=$1
    shift
    if [ "$mode" = --check ] && ! "$@" > /dev/null 2>&1; then
        echo "missing: $name"
        lacking=1
    fi
}

# programs NAME..: programs on the path
programs() {
    local name
    for name in "$@"; do
        required "$name" command -v "$name"
    done
}

# packages NAME..: installs the named Debian packages that are missing
packages() {
    local name missing=()
    if [ "$mode" = --check ]; then
        exit "$lacking"
    fi
    if ! command -v apt-get > /dev/null; then
        echo "$script: no apt-get here; Debian's packages are: $*" >&2
        exit 1
    fi
    for name in "$@"; do
        [ "$(dpkg-query --show --showformat '${db:Status-Status}' "$name" 2> /dev/null)" = installed ] || missing+=("$name")
    done
    echo "missing: ${missing[*]:-nothing}"
    if [ ${#missing[@]} = 0 ] || [ "$mode" = --missing ]; then
        return
    fi
    if [ "$(id -u)" != 0 ]; then
        echo "$script: packages are installed by root: sudo $0${folder:+ $folder}" >&2
        exit 1
    fi
    export DEBIAN_FRONTEND=noninteractive
    # (the lists of packages may be old or absent)
    apt-get install --yes --quiet --no-install-recommends "${missing[@]}" || {
        apt-get update --quiet
        apt-get install --yes --quiet --no-install-recommends "${missing[@]}"
    }
}
