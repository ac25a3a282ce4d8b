"""Makes a page, one file of HTML, on which a run can be stepped through.

log.py defines the log of a run. from_finder.py, from_explorer.py and from_scenario.py read logs. state.py computes what
each step changes, reasons.py finds where a run goes wrong, compare.py aligns two runs, and write.py writes the page.
"""
