#!/bin/sh
# Compares what `polypar run` leaves of each kernel of bench/polybench on its data, in tiles of 3, with what the emitted
# text leaves, compiled by gcc with OpenMP, and with what the kernel's own text leaves, compiled by gcc -O0; looks that
# docs/POLYBENCH.md has two rows of each. Wants gcc and python3.
set -u
root=$(CDPATH= cd -- "$(dirname -- "$0")/.." && pwd)
failed=0
passed=0

for kernel in "$root"/bench/polybench/*.c; do
    name=$(basename "$kernel" .c)
    if [ "$(grep -c "^| \`$name\` |" "$root/docs/POLYBENCH.md")" -eq 2 ]; then
        passed=$((passed + 1))
    else
        failed=$((failed + 1))
        echo "docs/POLYBENCH.md has no two rows of $name"
    fi
done

if python3 -B "$root/tests/emitted.py" --by "$root/polypar" "$root"/bench/polybench/*.c; then
    passed=$((passed + 1))
else
    failed=$((failed + 1))
fi
echo "$passed passed, $failed failed"
[ "$failed" -eq 0 ]
