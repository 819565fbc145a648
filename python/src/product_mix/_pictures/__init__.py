"""Pictures of auctions, as SVG.

`drawing` has the call; `asked` looks at what is to be drawn, `plane` draws two goods and `stairs` one; `facets` says where
a bidder changes its mind; `marks`, `labels`, `legend`, `axes`, `parts` and `svg` are what both are made of.
"""
