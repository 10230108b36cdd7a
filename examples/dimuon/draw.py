#!/usr/bin/env python3
"""Draws events with a pair of muons, as a line of event text each, with Python's standard library alone.

    python3 draw.py RUN COUNT >run.txt

**The events are drawn and are no data of an experiment.** One in three pairs comes from a resonance like the Z boson, with its mass
and width; the masses of the others fall off. Momenta and the invariant mass of the pair are in MeV, as whole numbers. One event in ten
has a third, soft muon besides. The same RUN and COUNT give the same lines.
"""
import math
import random
import sys

MUON = 105.658  # the mass of a muon in MeV
PEAK, WIDTH = 91188.0, 2495.0  # mass and width of the resonance in MeV
LEAST, GREATEST = 40000.0, 140000.0  # the masses that are drawn lie between these


def drawn_mass(draws):
    """The mass of a pair: a third of them by Breit and Wigner, and the others by an exponential."""
    resonant = draws.random() < 1 / 3
    while True:
        if resonant:
            mass = PEAK + WIDTH / 2 * math.tan(math.pi * (draws.random() - 0.5))
        else:
            mass = LEAST + draws.expovariate(1 / 30000)
        if LEAST < mass < GREATEST:
            return mass


def directed(draws, length):
    """A vector of this length, in any direction."""
    cosine, angle = draws.uniform(-1, 1), draws.uniform(0, 2 * math.pi)
    across = length * math.sqrt(1 - cosine * cosine)
    return (across * math.cos(angle), across * math.sin(angle), length * cosine)


def boosted(vector, energy, pair, mass):
    """A momentum in the frame of a pair, as it is where the pair has this momentum and mass."""
    along = sum(a * b for a, b in zip(vector, pair))
    total = math.hypot(mass, *pair)
    factor = (along / (total + mass) + energy) / mass
    return tuple(a + factor * b for a, b in zip(vector, pair))


def drawn_pair(draws):
    """The momenta of the two muons as a detector measures them, each a hundredth too large or too small."""
    mass = drawn_mass(draws)
    across, angle = draws.expovariate(1 / 15000), draws.uniform(0, 2 * math.pi)
    pair = (across * math.cos(angle), across * math.sin(angle), draws.gauss(0, 60000))
    inside = directed(draws, math.sqrt(mass * mass / 4 - MUON * MUON))
    muons = []
    for sign in (1, -1):
        muon = boosted(tuple(sign * a for a in inside), mass / 2, pair, mass)
        scale = draws.gauss(1, 0.01)
        muons.append(tuple(round(scale * a) for a in muon))
    return muons


def mass_of(muons):
    """The invariant mass of the muons in MeV."""
    energy = sum(math.hypot(MUON, *muon) for muon in muons)
    momentum = [sum(muon[k] for muon in muons) for k in range(3)]
    return round(math.sqrt(energy * energy - sum(a * a for a in momentum)))


def main():
    run, count = int(sys.argv[1]), int(sys.argv[2])
    draws = random.Random(run)
    for event in range(1, count + 1):
        muons = drawn_pair(draws)
        mass = mass_of(muons)
        charges = draws.choice([(1, -1), (-1, 1)])
        trigger = "two muons"
        if draws.random() < 0.1:
            muons.append(tuple(round(a) for a in directed(draws, 3000 + draws.expovariate(1 / 2000))))
            charges += (draws.choice([1, -1]),)
            trigger = "three muons"
        values = ",".join("[%d,%d,%d,%d]" % (charge, *muon) for charge, muon in zip(charges, muons))
        print('[%d,%d,"%s",[%s],%d]' % (run, event, trigger, values, mass))


if __name__ == "__main__":
    main()
