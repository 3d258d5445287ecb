"""Audits and summarizes the histories of many links on a Dask cluster, as one table with a row
for each link. `python3 -m pie_fleet --help` describes the command."""
