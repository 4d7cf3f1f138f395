"""A simple heuristic: at budget b, caches at the b open nodes with the largest flows, the smaller number first on a tie.

    python3 heaviest.py TREE > heaviest.csv
"""

import sys

import kterc

tree = kterc.read(sys.argv[1]).tree
sites = [number for number in range(1, len(tree.nodes)) if tree.nodes[number].open and tree.nodes[number].flow]
sites.sort(key=lambda number: -tree.nodes[number].flow)
print("budget,nodes")
for budget in range(tree.budget + 1):
    print(f"{budget},{' '.join(tree.named(sites[:budget]))}")
