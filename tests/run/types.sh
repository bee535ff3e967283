#!/usr/bin/env bash
# The types of aiger-check and of the Python module, by mypy, where that is installed. The last line is 'N passed, M
# failed', with ', K skipped' behind it where it is not.
cd "$(dirname "${BASH_SOURCE[0]}")/../../python" || exit
if ! command -v mypy > /dev/null; then
    echo 'SKIPPED 1: mypy is not installed'
    echo '0 passed, 0 failed, 1 skipped'
elif MYPYPATH=. mypy --strict --cache-dir /dev/null --python-version 3.9 -p aiger_check; then
    echo '1 passed, 0 failed'
else
    echo '0 passed, 1 failed'
    exit 1
fi
