"""Product-mix auctions: auctions in and outcomes out as values, over a proved solver.

>>> from product_mix import Auction, check, solve
>>> auction = Auction(goods=["inside", "outside"], supply=[1, 1], reserve=[10, 6])
>>> auction = auction.bid("Ann", 1, inside=40).bid("Bo", 1, inside=24, outside=16)
>>> outcome = solve(auction)
>>> outcome.prices
{'inside': 14, 'outside': 6}
>>> print(check(auction, outcome))
yes
"""

from ._answers import (
    Likeness,
    Step,
    Trade,
    TradeRange,
    Trail,
    Trial,
    Verdict,
)
from ._auction import (
    Auction,
    Bid,
)
from ._commands import (
    check,
    compare,
    prices,
    solve,
    trade_range,
    trail,
    trial,
    upgrade,
    utility,
    validate,
)
from ._dots import (
    from_dots,
    to_arrays,
    to_dots,
)
from ._doubts import (
    Doubt,
    warnings,
)
from ._errors import (
    DeviceError,
    Fault,
    Field,
    FormError,
    OutOfMemory,
    PastLimit,
    ProductMixError,
    ProgramError,
    ProgramNotFound,
    TextError,
    WorkerLost,
)
from ._faults import (
    Faults,
    faults,
)
from ._generate import (
    KINDS,
    VALUES,
    Kind,
    generate,
    generate_owned,
)
from ._outcome import (
    Cleared,
    Facet,
    Outcome,
    Refused,
    Share,
    Tight,
)
from ._pictures.drawing import (
    picture,
)
from ._session import (
    Session,
)
from ._solve_many import (
    solve_many,
)
from ._tables import (
    Line,
    SessionLine,
)

__version__ = "1.0.0"

__all__ = [
    "Auction",
    "Bid",
    "Cleared",
    "DeviceError",
    "Doubt",
    "Facet",
    "Fault",
    "Faults",
    "Field",
    "FormError",
    "KINDS",
    "Kind",
    "Likeness",
    "Line",
    "OutOfMemory",
    "Outcome",
    "PastLimit",
    "ProductMixError",
    "ProgramError",
    "ProgramNotFound",
    "Refused",
    "Session",
    "SessionLine",
    "Share",
    "Step",
    "TextError",
    "Tight",
    "Trade",
    "TradeRange",
    "Trail",
    "Trial",
    "VALUES",
    "Verdict",
    "WorkerLost",
    "check",
    "compare",
    "faults",
    "from_dots",
    "generate",
    "generate_owned",
    "picture",
    "prices",
    "solve",
    "solve_many",
    "to_arrays",
    "to_dots",
    "trade_range",
    "trail",
    "trial",
    "upgrade",
    "utility",
    "validate",
    "warnings",
]
