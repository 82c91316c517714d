"""What the server counts, as Prometheus reads it."""
import bisect
from collections import Counter

# Upper bounds in seconds of the classes of durations.
CLASSES = (0.001, 0.0025, 0.005, 0.01, 0.025, 0.05, 0.1, 0.25, 0.5, 1.0, 2.5, 5.0, 10.0)


class Durations:
    """How long calls took."""

    def __init__(self) -> None:
        self.counts, self.total = [0] * (len(CLASSES) + 1), 0.0

    def add(self, seconds: float) -> None:
        self.counts[bisect.bisect_left(CLASSES, seconds)] += 1
        self.total += seconds

    def lines(self, name: str, labels: str) -> list[str]:
        lines, so_far = [], 0
        for bound, count in zip((*CLASSES, "+Inf"), self.counts):
            so_far += count
            lines.append(f'{name}_bucket{{{labels},le="{bound}"}} {so_far}')
        return [*lines, f"{name}_sum{{{labels}}} {self.total:.6f}", f"{name}_count{{{labels}}} {so_far}"]


class Counts:
    """Of one server, since it was started."""

    def __init__(self) -> None:
        self.open = 0
        self.dials: Counter[str] = Counter()
        self.ends: Counter[str] = Counter()
        self.faults: Counter[str] = Counter()
        self.states: Counter[str] = Counter()
        self.requests = {"pull": Durations(), "push": Durations()}

    def add(self, ask: str, seconds: float, states: dict[str, int]) -> None:
        """Counts a request that was answered."""
        self.requests[ask].add(seconds)
        self.states.update(states)

    def text(self) -> str:
        lines = ["# TYPE rx_connections gauge", f"rx_connections {self.open}"]
        for name, label, counter in (("dials", "answer", self.dials), ("ends", "end", self.ends),
                                     ("faults", "fault", self.faults), ("states", "kind", self.states)):
            lines.append(f"# TYPE rx_{name}_total counter")
            lines += (f'rx_{name}_total{{{label}="{word}"}} {count}'
                      for word, count in sorted(counter.items()))
        lines.append("# TYPE rx_request_seconds histogram")
        for ask, durations in self.requests.items():
            lines += durations.lines("rx_request_seconds", f'ask="{ask}"')
        return "\n".join(lines) + "\n"
