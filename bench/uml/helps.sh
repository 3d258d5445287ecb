#!/usr/bin/env bash
# Reports if user-mode Linux provides everything that this machine lacks. The exit status is 0 if MISSING, the output
# of an install.sh --check, names only root, /dev/net/tun and the permission to create namespaces, if user-mode Linux
# is installed, and if this script does not already run in it.
# usage: bench/uml/helps.sh "$missing"
[ -z "${IN_USER_MODE_LINUX:-}" ] || exit 1
! grep -q -v -E '^missing: (root |/dev/net/tun |permission to create network namespaces)' <<< "$1" || exit 1
"$(dirname "$0")/install.sh" --check > /dev/null
