"""Store S of the specification, marked and swept, by the module that is installed; prints its version and where it stands."""

import kullneyra
from kullneyra import Buffers, Graph, Settings, words

buffers, dead = Buffers.of(objects=6, workers=1), words(6)
graph = Graph([0, 2, 3, 4, 5, 5, 6], [1, 2, 3, 3, 0, 4])
marked = kullneyra.mark(graph, [0], Settings(workers=1, batch=2, cutoff=1), bytes(80), buffers)
swept = kullneyra.sweep(buffers.marks, [100, 200, 300, 400, 500, 600], dead)
assert (marked.finished, marked.live, list(dead[: swept.count]), swept.freed) == (True, 4, [4, 5], 1100)
assert kullneyra.VERSION == kullneyra.library_version()
print(kullneyra.VERSION)
print(kullneyra.__file__)
