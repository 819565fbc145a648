"""The call that draws an auction."""

from typing import Optional, Sequence, Tuple, Union

from .._answers import Trail
from .._auction import Auction
from .._outcome import Cleared, Refused
from .._shown import Shown
from .asked import asked
from .plane import plane_of
from .stairs import stairs_of


def picture(auction: Auction, outcome: Union[Cleared, Refused, None] = None, *, bidder: Optional[str] = None,
            goods: Optional[Sequence[str]] = None, trail: Optional[Trail] = None,
            span: Optional[Sequence[Tuple[int, int]]] = None, title: Optional[str] = None, shown: Shown = Shown()) -> str:
    """An auction as a picture, the text of an SVG: two goods in the plane of their prices, or one good with its steps.

    Each bid has a sign at its values, in the colour of its bidder. With an ``outcome`` the signs tell bids that are
    filled, filled in part and not filled, and lines at its prices part those who get the one good, the other, or nothing;
    of a refused one the picture has the place that shows it. With a ``bidder`` its bids alone are drawn, and with two
    goods the lines along which it changes its mind and what it wants between them, under its cap where it has one.
    ``goods`` names the one or two that are drawn, which has to be said where there are more than two; the others stand at
    their printed prices. ``trail`` is drawn as a way from the reserves. ``span`` has for each axis of prices, or once for
    both, from which to which price it goes. ``shown`` says how names and amounts are shown.

    What can't be drawn raises :class:`FormError`: an auction or an outcome that has no text, names of nobody, an outcome or
    a trail of another auction, as far as names and sums tell; whether it is true, ``check`` says.

    >>> auction = Auction(["permit"], supply=[3], reserve=[2]).bid("Ada", 2, permit=10)
    >>> picture(auction).splitlines()[1]
    '<title>Demand and supply of permit</title>'
    """
    what = asked(auction, outcome, bidder, goods, trail, span, title, shown)
    return plane_of(what) if len(what.goods) == 2 else stairs_of(what)
