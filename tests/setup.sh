#!/bin/sh
# Installs what tests use and a system may lack, where this may be done: by root, with apt-get. It changes nothing where nothing is
# missing, and its exit status is 0 in any case: a test that lacks something says so, and is skipped.
PACKAGES="python3-pytest python3-hypothesis python3-selenium chromium chromium-driver python3-rich python3-dask
    python3-distributed mypy strace shellcheck"

missing() {
    for package in $PACKAGES; do
        case $(dpkg-query -W -f '${db:Status-Status}' "$package" 2>/dev/null) in
            installed) ;;
            *) printf '%s ' "$package" ;;
        esac
    done
}

get() {
    timeout 900 apt-get -q -y -o Acquire::Retries=1 -o Acquire::http::Timeout=30 -o Acquire::https::Timeout=30 "$@" \
        </dev/null >/dev/null 2>&1
}

# Installs packages one by one, so that one which can't be installed keeps no other back.
each() {
    for package in "$@"; do
        get install --no-install-recommends "$package"
    done
}

lacking=$(missing)
[ -n "$lacking" ] || exit 0
export DEBIAN_FRONTEND=noninteractive
if [ "$(id -u)" = 0 ] && command -v apt-get >/dev/null && command -v dpkg-query >/dev/null; then
    # one by one only where the archive answers, so that a machine without a network does not wait for each package
    answers=yes
    get update || answers=no
    # shellcheck disable=SC2086  # words of their own
    get install --no-install-recommends $lacking || [ "$answers" = no ] || each $lacking
    lacking=$(missing)
fi
[ -z "$lacking" ] || echo "tests/setup.sh: not installed here: ${lacking% }; tests that use them are skipped"
exit 0
