"""The drill's work for N rows: drill.py N."""

import sys

N = int(sys.argv[1])
P = set()
for i in range(N):
    P.add((i, i * 7 % 11))
print("commit 1")
low = {(k, v) for k, v in P if v < 5}
add = {(k + N, v) for k, v in P}
print(len(P))
print(sum(v for _, v in P))
print(len(P - low))
print(len((P - low) | add))
lower = P - low
print(len(lower | {(k + N, v) for k, v in lower}))
