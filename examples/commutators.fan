scallop fan 1
first 1
word 1 abAB
second 1
word 1 cdCD
corners 3
corner 0 -1 1/2
corner 1 0 1/2
corner 0 1 1/2
edges 2
edge 0
scale 1
base 1
base 1
pair 0 2 -9
pair 1 3 -9
pair 4 6 -9
pair 5 7 -9
edge 1
scale 1
base 1
base 1
pair 0 2 -9
pair 1 3 -9
pair 4 6 -9
pair 5 7 -9
end
