"""When is high water?"""
from dataclasses import dataclass
from math import cos, tau

@dataclass(frozen=True)
class Tide:
    mean: float = 2.4  # metres
    period: float = 12.42

    def height(self, hours: float) -> float:
        return self.mean + 1.1 * cos(tau * hours / self.period)

print(f"{Tide().height(3.5):.2f} m")
