"""Shells of satellites: Walker constellations, where their satellites are, and which links they have.

    shell = bentzolu.Shell(planes=18, satellites=36, phasing=9, inclination=87.9, altitude=1200, star=True)
    line = bentzolu.Timeline.of_shell(shell, step=10, orbits=1, latitude=60)
"""
from __future__ import annotations

import math
from dataclasses import dataclass
from typing import Iterator, List, Tuple

from .errors import GraphError

EARTH = 6371.0  # the radius, in kilometres
MU = 398600.4418  # the gravity of the Earth, in cubic kilometres a second squared

Satellite = Tuple[int, int]  # its plane, and its place in the plane
Pair = Tuple[Satellite, Satellite]


@dataclass(frozen=True)
class Shell:
    """A Walker constellation on circular orbits. A satellite is a node `(plane, place)`.

    Parameters
    ----------
    planes, satellites : how many planes there are, and how many satellites a plane has
    phasing : how far a plane is ahead of the one before it, in places over all planes (Walker's F)
    inclination : of the planes, in degrees
    altitude : over the ground, in kilometres
    star : whether the planes spread over half the globe (a star, as near the poles) and not all of it (a delta); the last plane and the
        first of a star fly against each other, and no link goes over that seam
    """

    planes: int
    satellites: int
    phasing: int = 0
    inclination: float = 53.0
    altitude: float = 550.0
    star: bool = False

    def __post_init__(self) -> None:
        if self.planes < 1 or self.satellites < 1 or self.planes * self.satellites < 2:
            raise GraphError(f"a shell of {self.planes} planes with {self.satellites} satellites is too small: give at least 2 satellites")
        if not self.altitude > 0 or not math.isfinite(self.inclination):
            said = f"it has {self.altitude} and {self.inclination}"
            raise GraphError(f"a shell needs an altitude above 0 kilometres and an inclination in degrees: {said}")

    @property
    def period(self) -> float:
        """The time of an orbit, in seconds."""
        return 2 * math.pi * math.sqrt((EARTH + self.altitude) ** 3 / MU)

    @property
    def nodes(self) -> List[Satellite]:
        """The satellites, plane by plane."""
        return [(plane, place) for plane in range(self.planes) for place in range(self.satellites)]

    def argument(self, node: Satellite, time: float) -> float:
        """The angle from where its plane crosses the equator northward, in radians, at a time in seconds."""
        plane, place = node
        return 2 * math.pi * (place / self.satellites + self.phasing * plane / (self.planes * self.satellites) + time / self.period)

    def latitude(self, node: Satellite, time: float) -> float:
        """The latitude of a satellite, in degrees, at a time in seconds."""
        return math.degrees(math.asin(math.sin(math.radians(self.inclination)) * math.sin(self.argument(node, time))))

    def place(self, node: Satellite, time: float) -> Tuple[float, float, float]:
        """Where a satellite is, in kilometres from the centre of the Earth, at a time in seconds; the Earth does not turn here."""
        along, radius, tilt = self.argument(node, time), EARTH + self.altitude, math.radians(self.inclination)
        ascending = (math.pi if self.star else 2 * math.pi) * node[0] / self.planes
        x, y, z = math.cos(along), math.sin(along) * math.cos(tilt), math.sin(along) * math.sin(tilt)
        east, north = math.cos(ascending), math.sin(ascending)
        return radius * (x * east - y * north), radius * (x * north + y * east), radius * z

    def inside(self) -> List[Pair]:
        """The links in planes: each satellite has one to the next. They are always up."""
        return apart(((plane, place), (plane, (place + 1) % self.satellites)) for plane, place in self.nodes)

    def across(self) -> List[Pair]:
        """The links between planes: each satellite has one to the one beside it in the next plane. A star has none over its seam. Round
        the globe the phases add up to `phasing` places, by which the links from the last plane of a delta to the first are shifted."""
        found: List[Pair] = []
        for plane in range(self.planes - (1 if self.star else 0)):
            far = (plane + 1) % self.planes
            shift = self.phasing if far == 0 else 0
            found += [((plane, place), (far, (place + shift) % self.satellites)) for place in range(self.satellites)]
        return apart(iter(found))

    def links(self) -> List[Pair]:
        """All links, the +grid: those in planes, and those between planes."""
        return self.inside() + self.across()


def apart(links: Iterator[Pair]) -> List[Pair]:
    """Links, each once, and none from a satellite to itself."""
    found = {frozenset(link): link for link in links if link[0] != link[1]}
    return list(found.values())
