"""An exporter for Prometheus: the states of running nodes of a cluster, which it asks under a reader's key.

`python3 -m wakdulg_exporter` is the program, which docs/how-to/monitor.md shows. `program` asks the nodes and serves
the page. `metrics` makes metrics of their reports.
"""
import sys


def main() -> None:
    """Calls the program, or says which package it needs."""
    try:
        from wakdulg_exporter import program
    except ModuleNotFoundError as fault:
        if fault.name != "prometheus_client":
            raise
        sys.exit("wakdulg_exporter: install Debian's package python3-prometheus-client")
    program.main()
