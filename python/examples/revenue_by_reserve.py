"""What a reserve brings: the mean revenue, and the share of units sold, over many seeds.

    python revenue_by_reserve.py [--seeds 1000] [--plot revenue.png]

Each auction is drawn from a seed and run at every reserve. Revenue rises with the reserve as long as that keeps prices up
where few compete, and then falls, since more and more units go back.
"""

import argparse
from dataclasses import replace
from typing import Dict, Iterator, List, Tuple

from product_mix import Auction, Cleared, generate, solve_many

RESERVES = range(0, 1001, 100)


def auctions(seeds: int) -> Iterator[Auction]:
    for seed in range(seeds):
        drawn = generate(seed, "positive", goods=2, bidders=6, bids=4)
        for reserve in RESERVES:
            yield replace(drawn, reserve=[reserve] * len(drawn.goods))


def means(seeds: int) -> List[Tuple[int, float, float]]:
    """For each reserve the mean revenue, and which share of the units is sold."""
    revenue: Dict[int, int] = dict.fromkeys(RESERVES, 0)
    sold, supply = dict.fromkeys(RESERVES, 0), dict.fromkeys(RESERVES, 0)
    for auction, outcome in zip(auctions(seeds), solve_many(auctions(seeds), progress=True)):
        assert isinstance(outcome, Cleared), outcome
        reserve = auction.reserve[0]
        revenue[reserve] += outcome.revenue
        sold[reserve] += sum(outcome.sold.values())
        supply[reserve] += sum(auction.supply)
    return [(reserve, revenue[reserve] / seeds, sold[reserve] / supply[reserve]) for reserve in RESERVES]


def main() -> None:
    parser = argparse.ArgumentParser(description=__doc__, formatter_class=argparse.RawDescriptionHelpFormatter)
    parser.add_argument("--seeds", type=int, default=1000)
    parser.add_argument("--plot", metavar="FILE")
    arguments = parser.parse_args()
    rows = means(arguments.seeds)
    print("reserve  revenue  sold")
    for reserve, revenue, sold in rows:
        print("%7d  %7.0f  %3.0f%%" % (reserve, revenue, 100 * sold))
    if arguments.plot:
        from matplotlib import pyplot
        pyplot.plot(RESERVES, [row[1] for row in rows], marker="o")
        pyplot.xlabel("reserve of each good")
        pyplot.ylabel("mean revenue of %d auctions" % arguments.seeds)
        pyplot.savefig(arguments.plot)


if __name__ == "__main__":
    main()
