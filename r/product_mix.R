# Product-mix auctions from data frames. Read it by source("product_mix.R"), after dyn.load of the shared object that
# R CMD SHLIB makes of product_mix.c.

# What `product_mix WORDS` writes of a text, and its status.
product_mix <- function(words, text) .Call("product_mix_run", words, text)

# One row of a text. A value that is left out is NA, and is written `-`. Numbers are written in full, as 100000 and never
# as 1e+05, and a fraction stays one, which the program refuses.
row_of <- function(...) {
  fields <- lapply(list(...), function(field) {
    text <- if (is.numeric(field)) format(field, scientific = FALSE, trim = TRUE, digits = 15) else as.character(field)
    ifelse(is.na(field), "-", text)
  })
  paste(unlist(fields), collapse = ",")
}

# The text of an auction. `goods` has the columns good, supply and reserve; `bids` has bidder, weight, and a column of
# values for each good, by its name.
auction_text <- function(goods, bids, format = 2) {
  bid_rows <- vapply(seq_len(nrow(bids)), function(k) {
    do.call(row_of, c(list("bid", bids$bidder[k], bids$weight[k]), lapply(goods$good, function(good) bids[[good]][k])))
  }, "")
  rows <- c(row_of("mix", format), row_of("goods", goods$good), row_of("supply", goods$supply),
            row_of("reserve", goods$reserve), bid_rows, "end")
  paste0(paste(rows, collapse = "\n"), "\n")
}

# The prices and the shares of an auction's outcome. Where it has none, an error that tells why.
solve_auction <- function(goods, bids, format = 2) {
  text <- auction_text(goods, bids, format)
  result <- product_mix("solve", text)
  rows <- strsplit(strsplit(result$reply, "\n")[[1]], ",")
  named <- function(word) Filter(function(row) row[1] == word, rows)
  if (result$status == 1) {
    stop("the bids of ", named("refused")[[1]][2], " stand for no demand")
  }
  if (result$status != 0) {
    at <- as.integer(rows[[1]][2])
    stop(trimws(result$reply), ": ", if (isTRUE(at > 0)) strsplit(text, "\n")[[1]][at])
  }
  shares <- do.call(rbind, lapply(named("share"), function(row) {
    data.frame(bidder = row[2], t(setNames(as.numeric(row[-c(1, 2, length(row))]), goods$good)),
               payment = as.numeric(row[length(row)]), check.names = FALSE)
  }))
  list(prices = setNames(as.numeric(named("price")[[1]][-1]), goods$good), shares = shares)
}
