#!/bin/sh
# Warns if the README names another toolchain than the one that is installed. It fails nothing.
set -eu
cd "$(dirname "$0")/.."
installed=$(rt version)
if grep -qF "\`$installed\`" README.md; then
    echo '1 passed, 0 failed, 0 skipped'
else
    echo "skipped: README.md does not name the installed toolchain, $installed"
    echo '0 passed, 0 failed, 1 skipped'
fi
