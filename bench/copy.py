"""Times `polypar run` on a copy kernel of 65,536 cells against a C program. Called by copy.sh."""

import random
import sys

from timing import rounds_of, shortest

program, baseline, source = sys.argv[1:4]
rounds = rounds_of(sys.argv[4:], 30)
draw = random.Random(1)
values = " ".join(str(draw.getrandbits(64)) for _ in range(65536))
with open(source, "w") as file:
    file.write(
        "void copy(int64_t N, uint64_t A[N], uint64_t B[N]) {\n"
        "  for (int64_t i = 0; i < N; i++)\n    B[i] = A[i];\n}\n"
        f"%%\nN = 65536\nA = {values}\n"
    )
times, printed = shortest({"polypar": [program, "run"], "gcc -O2": [baseline]}, rounds, source)
for name, text in printed.items():
    if text != f"A = {values}\nB = {values}\n".encode():
        sys.exit(f"{name} printed other arrays")
for name, seconds in times.items():
    print(f"{name}: {1000 * seconds:.2f} ms of processor time (shortest of {rounds})")
print(f"ratio: {times['polypar'] / times['gcc -O2']:.2f}")
