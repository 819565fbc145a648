"""One page of HTML on an auction and its outcome."""
