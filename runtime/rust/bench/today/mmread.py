"""Times SciPy's mmread on the texts that the benchmark writes: mmread.py FOLDER STORE.. prints for each store a line with nanoseconds for each
byte, the median of some runs. The text is in memory, as it is for import."""
import io
import statistics
import sys
import time
from pathlib import Path

from scipy.io import mmread

RUNS = 3

folder, *stores = sys.argv[1:]
for store in stores:
    text = (Path(folder) / f"{store}.mtx").read_bytes()
    times = []
    for _ in range(RUNS):
        start = time.process_time_ns()
        mmread(io.BytesIO(text)).tocsr()
        times.append((time.process_time_ns() - start) / len(text))
    print("mmread", store, f"{statistics.median(times):.2f}", sep="\t", flush=True)
