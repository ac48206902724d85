"""Figures of a hub of many, for a monitor: `GET /metrics` in Prometheus' text form, made by its own client library.

Debian has that as python3-prometheus-client. Where it isn't there `figures_of` gives None, and everything else works without.
"""
from __future__ import annotations

from typing import Any, Iterator, List, Optional

from hub_hosting import Many

try:
    import prometheus_client
    from prometheus_client.core import CounterMetricFamily, GaugeMetricFamily
except ImportError:
    prometheus_client = None  # type: ignore[assignment]

SECONDS = (0.001, 0.0025, 0.005, 0.01, 0.025, 0.05, 0.1, 0.25, 0.5, 1, 2.5, 5, 10, 30)  # of a sale


class Figures:
    """What is counted of requests, and what is looked up of the shops when somebody asks."""

    def __init__(self, shops: Many) -> None:
        self.registry = prometheus_client.CollectorRegistry()
        self.content_type = str(prometheus_client.CONTENT_TYPE_LATEST)
        words: Any = {"registry": self.registry}
        self.requests = prometheus_client.Counter("verifactu_requests", "Requests by the status of their answer", ["status"], **words)
        self.answers = prometheus_client.Counter("verifactu_answers", "Sales, fixes and cancellations by what the program answered", ["answer"], **words)
        self.sales = prometheus_client.Histogram("verifactu_sale_seconds", "From a sale's request to its answer, where it is 200 or 201",
                                                 buckets=SECONDS, **words)
        self.registry.register(ShopFigures(shops))  # type: ignore[arg-type]
        prometheus_client.ProcessCollector(registry=self.registry)

    def request(self, status: int, seconds: float, is_sale: bool) -> None:
        """A request was answered."""
        self.requests.labels(str(status)).inc()
        if is_sale and status in (200, 201):
            self.sales.observe(seconds)

    def answer(self, word: str) -> None:
        """The program answered a command with this word."""
        self.answers.labels(word).inc()

    def text(self) -> bytes:
        """All figures, as they are now. It may run in a thread of its own."""
        return bytes(prometheus_client.generate_latest(self.registry))


class ShopFigures:
    """The figures of the shops: as they were last seen, without a question to a program."""

    def __init__(self, shops: Many) -> None:
        self.shops = shops

    def describe(self) -> List[Any]:
        """No names in advance."""
        return []

    def collect(self) -> Iterator[Any]:
        """Each family, with a sample a shop where that is known."""
        shops = list(self.shops.shops.values())
        yield GaugeMetricFamily("verifactu_shops", "Shops that are served", len(shops))
        yield GaugeMetricFamily("verifactu_programs", "Programs that run", len(self.shops.running))
        yield GaugeMetricFamily("verifactu_programs_most", "Programs that may run at once", self.shops.most)
        yield CounterMetricFamily("verifactu_program_starts", "Programs started for a request or for what waits", self.shops.starts)
        waiting = GaugeMetricFamily("verifactu_records_waiting", "Records that wait for the agency, as last seen", labels=["shop"])
        refused = GaugeMetricFamily("verifactu_records_refused", "Records that the agency refused and nothing answers yet, as last listed", labels=["shop"])
        restarts = CounterMetricFamily("verifactu_program_restarts", "Programs started again after they ended by themselves or were killed", labels=["shop"])
        faulty = GaugeMetricFamily("verifactu_program_faulty", "1 where the program ended as no restart mends, or doesn't come up", labels=["shop"])
        for served in shops:
            values: List[Any] = [(waiting, served.waiting), (refused, served.refused), (restarts, served.all_restarts), (faulty, served.trouble != "")]
            for family, value in values:
                if value is not None:
                    family.add_metric([served.line.name], float(value))
        yield from (waiting, refused, restarts, faulty)


def figures_of(shops: Many) -> Optional[Figures]:
    """The figures of these shops, None where the library isn't there."""
    return None if prometheus_client is None else Figures(shops)
