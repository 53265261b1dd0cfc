#!/usr/bin/env bash
# Installs Debian packages for programs that are missing.
#
#     tools/need.sh man:man-db zsh fish
#
# Each word is PROGRAM or PROGRAM:PACKAGE, or /A/FILE:PACKAGE for a package that is known by a file. Nothing is done where all are
# there. The status is not 0 where one is missing in the end.
set -euo pipefail

there() {
    case "$1" in
        /*) [ -e "$1" ] ;;
        *) command -v "$1" > /dev/null ;;
    esac
}

packages=()
for word in "$@"; do
    there "${word%%:*}" || packages+=("${word#*:}")
done
if [ "${#packages[@]}" -gt 0 ]; then
    as_root=()
    [ "$(id -u)" -eq 0 ] || as_root=(sudo)
    export DEBIAN_FRONTEND=noninteractive
    install=("${as_root[@]}" apt-get install -y -q --no-install-recommends "${packages[@]}")
    # (the lists of packages may be old or absent)
    "${install[@]}" >&2 || { "${as_root[@]}" apt-get update -q >&2; "${install[@]}" >&2; }
fi
for word in "$@"; do
    there "${word%%:*}" || { echo "need.sh: there is no ${word%%:*}, and installing ${word#*:} did not help" >&2; exit 1; }
done
