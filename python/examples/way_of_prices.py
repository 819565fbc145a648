"""The prices' way as a bidder's weight grows: how one buyer's size moves both prices.

    python way_of_prices.py [--most 60] [--plot way.png]

A bank bids for more and more units of either of two goods, at 800 and 700. At first it takes the second one alone, and that
price rises; once the first good is as good for it, both prices rise together.
"""

import argparse
from typing import List, Tuple

from product_mix import Auction, Bid, Cleared, generate, solve_many


def with_bank(weight: int) -> Auction:
    """Some bidders that are drawn, and a bank that bids for so many units."""
    others = generate(8, "positive", goods=2, bidders=12, bids=3, supply=60)
    bank = [Bid("Bank", (800, 700), weight)] if weight else []
    return Auction(others.goods, others.supply, others.reserve, [*bank, *others.bids])


def way(most: int) -> List[Tuple[int, Cleared]]:
    """The outcome at each weight from nothing on."""
    outcomes = []
    for weight, outcome in enumerate(solve_many(map(with_bank, range(most + 1)))):
        assert isinstance(outcome, Cleared), outcome
        outcomes.append((weight, outcome))
    return outcomes


def main() -> None:
    parser = argparse.ArgumentParser(description=__doc__, formatter_class=argparse.RawDescriptionHelpFormatter)
    parser.add_argument("--most", type=int, default=60, help="the greatest weight")
    parser.add_argument("--plot", metavar="FILE")
    arguments = parser.parse_args()
    steps = way(arguments.most)
    print("weight  price of G1  price of G2  bank gets")
    for weight, outcome in steps:
        got = outcome.shares["Bank"].bundle if weight else {"G1": 0, "G2": 0}
        print("%6d  %11d  %11d  %d + %d" % (weight, outcome.prices["G1"], outcome.prices["G2"], got["G1"], got["G2"]))
    if arguments.plot:
        from matplotlib import pyplot
        pyplot.plot([step[1].prices["G1"] for step in steps], [step[1].prices["G2"] for step in steps], marker=".")
        pyplot.xlabel("price of G1")
        pyplot.ylabel("price of G2")
        pyplot.savefig(arguments.plot)


if __name__ == "__main__":
    main()
