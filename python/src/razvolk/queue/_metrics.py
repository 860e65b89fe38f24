"""Counts for Prometheus. Without a port nothing is counted, and the library isn't needed."""

from __future__ import annotations

from typing import Any, Optional

from ._look import STATUSES


class Metrics:
    """How many jobs came to which end, how often a job was put off, and how long jobs took; served at a port of one's own."""

    def __init__(self, port: Optional[int], host: str = "127.0.0.1") -> None:
        self._ends: Any = None
        if port is None:
            return
        try:
            import prometheus_client as prometheus
        except ImportError:
            raise SystemExit("razvolk-queue: --metrics needs prometheus-client") from None
        self._ends = prometheus.Counter("razvolk_ends", "Jobs ended, by status", ["status"])
        self._later = prometheus.Counter(
            "razvolk_later", "Jobs put off: the host can't do them now"
        )
        self._again = prometheus.Counter("razvolk_redelivered", "Jobs that were delivered before")
        self._took = prometheus.Histogram(
            "razvolk_job_seconds",
            "From a job's delivery to its acknowledgement",
            buckets=(0.005, 0.01, 0.025, 0.05, 0.1, 0.25, 0.5, 1, 2.5, 5, 10, 30, 60),
        )
        for status in STATUSES:
            self._ends.labels(status)
        try:
            prometheus.start_http_server(port, host)
        except OSError as fault:
            raise SystemExit(f"razvolk-queue: metrics at {host}:{port}: {fault.strerror}") from None

    def ended(self, status: str, seconds: float, redelivered: bool) -> None:
        """Counts a job that came to its end."""
        if self._ends is not None:
            self._ends.labels(status).inc()
            self._took.observe(seconds)
            self._again.inc(int(redelivered))

    def put_off(self) -> None:
        """Counts a job that is put off."""
        if self._ends is not None:
            self._later.inc()
