"""Tables of bids as people keep them, and how they become auctions and come back."""
