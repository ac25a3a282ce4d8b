"""A finder of races between a driver and the modelled adapter (`tools/races`), and charts and pages of runs
(`tools/run_chart`).
"""

from __future__ import annotations
