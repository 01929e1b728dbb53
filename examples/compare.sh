#!/bin/sh
# Runs every example and compares what `cap` prints with what stands beside it.
cd "$(dirname "$0")" || exit 1
failed=0
for schedule in *.schedule; do
    if ! ../cap replay <"$schedule" | cmp - "${schedule%.schedule}.report"; then
        failed=1
    fi
done
for document in *.xml; do
    if ! ../cap show <"$document" | cmp - "${document%.xml}.txt"; then
        failed=1
    fi
done
if [ "$failed" = 0 ]; then
    echo 'examples: each prints what stands beside it'
fi
exit "$failed"
