"""What Prometheus reads."""
import time
from collections.abc import Iterator

import prometheus_client as prometheus
from prometheus_client.core import CounterMetricFamily, GaugeMetricFamily
from prometheus_client.registry import Collector

from .chain import Chain

SECONDS = (.05, .1, .2, .5, 1, 2, 5, 10, 30, 60, 600)
TYPE = prometheus.CONTENT_TYPE_LATEST


class Metrics(Collector):
    def __init__(self, chain: Chain):
        self.chain, self.streams = chain, 0
        self.registry = prometheus.CollectorRegistry()
        self.requests = prometheus.Counter("regtuma_requests", "Requests", ["route", "status"], registry=self.registry)
        self.submits = prometheus.Histogram("regtuma_submit_seconds", "From a request to its flags", registry=self.registry,
                                            buckets=SECONDS)
        self.registry.register(self)

    def text(self) -> bytes:
        return prometheus.generate_latest(self.registry)

    def collect(self) -> Iterator[GaugeMetricFamily | CounterMetricFamily]:
        """What is told of the chain at this moment."""
        chain, awaited = self.chain, self.chain.awaited
        gauges = {
            "height": ("Blocks in the store", chain.height),
            "blocks_left": ("Blocks until the end of the chain", chain.ticks.last - chain.height),
            "share_left": ("Blocks that this organisation can bring about", chain.share),
            "waiting": ("Envelopes that wait for a block", awaited.waiting),
            "unput": ("Envelopes not yet in the log", len(chain.unput)),
            "oldest_seconds": ("How long the first of them has waited", time.monotonic() - awaited.since if awaited.since else 0),
            "log_unled_seconds": ("Since the log was seen to take entries", time.monotonic() - chain.led),
            "behind": ("Lines of the log not yet read", chain.given - chain.read),
            "asked": ("What was asked of the ledger's peer, and is not answered", chain.peer.unanswered),
            "lost": ("Blocks that were not read back from the store", chain.peer.lost),
            "log_revision": ("Where the log was read to", chain.revision),
            "log_entries": ("Entries of the log that were read", chain.entries),
            "forked": ("Whether somebody says that a block is another one", int(chain.forked is not None)),
            "streams": ("Readers of /events", self.streams),
        }
        for name, (words, value) in gauges.items():
            yield GaugeMetricFamily(f"regtuma_{name}", words, value=value)
        ticked = CounterMetricFamily("regtuma_ticks", "Ticks that this node has put while calls of a caller waited", labels=["caller"])
        for caller, number in chain.ticked.items():
            ticked.add_metric([caller], number)
        yield ticked
        put = CounterMetricFamily("regtuma_put_bytes", "Bytes that this node has put into the log for a caller", labels=["caller"])
        for caller, number in chain.put_bytes.items():
            put.add_metric([caller], number)
        yield put
        events = CounterMetricFamily("regtuma_counted", "What happened", labels=["what"])
        for what, count in chain.counts.items():
            events.add_metric([what], count)
        yield events
