"""Prints draws for NOISE: whole numbers with a discrete Laplace distribution, one to a line. docs/DRAWS.md says how to use them.

    draws COUNT SCALE   prints COUNT draws; SCALE is written as 3, 1/2 or 2.5
    draws -h            prints this help

With scale t a draw is x with the probability (e^(1/t) - 1) / (e^(1/t) + 1) * e^(-|x|/t), independently of all others and exactly, as far as
the system's secure source of random numbers is uniform. No plan uses more than 16,128 draws, so COUNT is 1 to 16,128. SCALE is above 0 and
has 1 to 9 digits, and as many behind its '/' or '.'; so it is below 10^9.

The method is that of Algorithms 1 and 2 of Canonne, Kamath and Steinke, 'The Discrete Gaussian for Differential Privacy' (NeurIPS 2020);
all of its numbers are whole ones. A draw outside 64 bits ends it with a message, and no draw is printed: to draw again in its place would
change the distribution. The chance of that is below e^(-9,000,000,000).

Exit status: 0 the draws are printed; 2 the words are wrong, or the draws could not be made or written, and none is to be used.
"""
import re
from secrets import randbelow

import console
from console import Failure, quoted
from layout import DRAWS
from words import Fault, number

DIGITS = "([0-9]{1,9})"


def chance(n, d):
    """True with the probability n/d."""
    return randbelow(d) < n


def chance_of_exp(n, d):
    """True with the probability e^(-n/d), for n/d from 0 to 1: the paper's Algorithm 1."""
    k = 1
    while chance(n, d * k):
        k += 1
    return k % 2 == 1


def laplace(t, s):
    """A draw with scale t/s: the paper's Algorithm 2."""
    while True:
        u = randbelow(t)
        if not chance_of_exp(u, t):
            continue
        v = 0
        while chance_of_exp(1, 1):
            v += 1
        magnitude = (u + t * v) // s
        negative = chance(1, 2)
        if not (negative and magnitude == 0):  # zero has one sign
            return -magnitude if negative else magnitude


def scale_of(word):
    """Two whole numbers whose quotient is the scale."""
    quotient = re.fullmatch(f"{DIGITS}(?:/{DIGITS})?", word)
    decimal = re.fullmatch(rf"{DIGITS}\.{DIGITS}", word)
    if quotient:
        t, s = int(quotient[1]), int(quotient[2] or "1")
    elif decimal:
        t, s = int(decimal[1] + decimal[2]), 10 ** len(decimal[2])
    if not (quotient or decimal) or t == 0 or s == 0:
        raise Fault(f"the scale {quoted(word)} is not a number above 0, as 3, 1/2 or 2.5, of at most 9 and 9 digits")
    return t, s


def line(draw):
    if not -(2**63) <= draw < 2**63:
        raise Failure("a draw is outside 64 bits, and none is printed")
    return f"{draw}\n"


def main(words):
    if console.wants_help(words):
        return 0, __doc__
    console.no_options(words)
    if len(words) != 2:
        raise Failure(f"there are two words, COUNT and SCALE, and not {len(words)}; -h prints help")
    try:
        count, (t, s) = number(words[0], 1, DRAWS, "the count"), scale_of(words[1])
    except Fault as fault:
        raise Failure(f"{fault}; -h prints help") from None
    return 0, "".join(line(laplace(t, s)) for _ in range(count))


if __name__ == "__main__":
    console.run("draws", main)
