"""The freight of freight.min in arrays, and a flow that costs too much: better ones are asked for until none is."""

import dimacs

tails, heads = [1, 1, 2, 2, 3, 3], [3, 4, 3, 5, 4, 5]
lows, caps, costs = [0, 0, 0, 1, 0, 0], [8, 3, 5, 4, 4, 7], [2, 6, 1, 7, 3, 4]
freight = dimacs.MinInstance(5, tails, heads, lows, caps, costs, supplies=[7, 3, 0, -4, -6])

flows = [4, 3, 2, 1, 1, 5]
while True:
    try:
        cost, potentials = dimacs.certify_min_arrays(freight, flows)
        break
    except dimacs.NotOptimal as refused:
        print("x", refused)
        flows = refused.better
print("v min", cost, flows)
print(dimacs.judge_min_arrays(freight, flows, potentials))
try:
    flows[0] += 1
    dimacs.certify_min_arrays(freight, flows)
except dimacs.Refused as refused:
    print("x", refused)
