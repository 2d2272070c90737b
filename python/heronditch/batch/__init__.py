"""A shelf of patterns on many boards, with a receipt for every pair, which anybody can check again.

- sources: the circuits that a command line names, each file read once;
- receipts: what was found of a pattern on a board, as a JSON line;
- library: which library answers, and what was proved of it;
- engines: the work in this process, in several, or on a Dask cluster, its results in order;
- lines: whole lines, whatever ends the run, and going on after them;
- ending: signals, which end a run between lines;
- summary: a table, boards by patterns;
- checking: receipts computed anew and compared.
"""
