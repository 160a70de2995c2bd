"""Whether numbers can be draws of a distribution, by Pearson's statistic.

The bound holds for every number of draws n, not only in the limit. With p the probabilities of k cells and N their counts, the statistic is
the square of Z, the length of the vector (N - n p) / sqrt(n p). Z is a supremum of sums of n independent terms, over the unit vectors; each
sum has a variance of at most 1 and terms of at most b = 1 / sqrt(n min p), and E Z <= sqrt(k - 1). So by Bousquet's form of Talagrand's
inequality (2002), for every x

    P(Z >= sqrt(k - 1) + sqrt(2 x (1 + 2 b sqrt(k - 1))) + b x / 3) <= e^-x.

With x = 30 right draws are turned down with a probability below 10^-13 in one test.
"""
from bisect import bisect_left
from collections import Counter
from math import exp, sqrt

X = 30
LEAST = 400  # draws that a cell has on average


def laplace(x, scale):
    """The probability of a draw with a discrete Laplace distribution."""
    return (exp(1 / scale) - 1) / (exp(1 / scale) + 1) * exp(-abs(x) / scale)


def zero_twice(x, scale):
    """The same where zero may have either sign, and so comes twice as often beside the others."""
    return laplace(x, scale) * (2 if x == 0 else 1) / (1 + laplace(0, scale))


def cells_of(probability, scale, count):
    """0, and where each further cell of positive numbers ends, but for the last, which has no end; and the probabilities of all of these."""
    ends, chances, rest, x = [0], [probability(0, scale), 0], (1 - probability(0, scale)) / 2, 0
    while rest * count >= LEAST:
        x += 1
        chances[-1] += probability(x, scale)
        rest -= probability(x, scale)
        if min(chances[-1], rest) * count >= LEAST:
            ends.append(x)
            chances.append(0)
    chances[-1] += rest
    return ends, chances


def turned_down(draws, probability, scale):
    """Whether the draws are not of this distribution, as their statistic says. Negative numbers have cells as positive ones do."""
    count = len(draws)
    ends, chances = cells_of(probability, scale, count)
    found = Counter((bisect_left(ends, abs(draw)), draw < 0) for draw in draws)
    expected = {(cell, negative): chance * count for cell, chance in enumerate(chances) for negative in (False, True)[: 1 + (cell > 0)]}
    statistic = sum((found[cell] - mean) ** 2 / mean for cell, mean in expected.items())
    root, b = sqrt(len(expected) - 1), 1 / sqrt(min(expected.values()))
    return sqrt(statistic) >= root + sqrt(2 * X * (1 + 2 * b * root)) + b * X / 3
