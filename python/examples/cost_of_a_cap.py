"""What a cap costs its bidder and the seller, over many seeds.

    python cost_of_a_cap.py [--seeds 200] [--plot cap.png]

The first bidder gets a cap of a share of what it bids for. Fewer units are wanted, so prices fall: the seller loses revenue,
while the bidder has less at lower prices, and even gains as long as the cap isn't much less than what it bids for.
"""

import argparse
from dataclasses import replace
from typing import Iterator, List, Tuple

from product_mix import Auction, Cleared, generate, solve_many, utility

SHARES = (100, 80, 60, 40, 20, 0)
CAPPED = "B001"


def auctions(seeds: int) -> Iterator[Auction]:
    for seed in range(seeds):
        drawn = generate(seed, "positive", goods=2, bidders=4, bids=4)
        units = sum(bid.weight for bid in drawn.bids if bid.bidder == CAPPED)
        for share in SHARES:
            yield replace(drawn, caps={CAPPED: units * share // 100})


def means(seeds: int) -> List[Tuple[int, float, float]]:
    """For each share the mean of what the bidder gains, and the mean revenue."""
    gained, revenue = dict.fromkeys(SHARES, 0), dict.fromkeys(SHARES, 0)
    for number, (auction, outcome) in enumerate(zip(auctions(seeds), solve_many(auctions(seeds), progress=True))):
        assert isinstance(outcome, Cleared), outcome
        share = SHARES[number % len(SHARES)]
        # At the prices its bundle is one that it likes best, so what it gains is its indirect utility under the cap.
        gained[share] += utility(auction, outcome.prices)[CAPPED]
        revenue[share] += outcome.revenue
    return [(share, gained[share] / seeds, revenue[share] / seeds) for share in SHARES]


def main() -> None:
    parser = argparse.ArgumentParser(description=__doc__, formatter_class=argparse.RawDescriptionHelpFormatter)
    parser.add_argument("--seeds", type=int, default=200)
    parser.add_argument("--plot", metavar="FILE")
    arguments = parser.parse_args()
    rows = means(arguments.seeds)
    print("cap in %  bidder gains  revenue")
    for share, gained, revenue in rows:
        print("%8d  %12.0f  %7.0f" % (share, gained, revenue))
    if arguments.plot:
        from matplotlib import pyplot
        for column, name in ((1, "what the bidder gains"), (2, "revenue")):
            pyplot.plot(SHARES, [row[column] for row in rows], marker="o", label=name)
        pyplot.xlabel("cap in % of what the bidder bids for")
        pyplot.legend()
        pyplot.savefig(arguments.plot)


if __name__ == "__main__":
    main()
