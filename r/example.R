# An auction from data frames, solved in this process. Rscript example.R, in this folder, after R CMD SHLIB (see
# docs/LIBRARY.md).
dyn.load(paste0("product_mix", .Platform$dynlib.ext))
source("product_mix.R")

goods <- data.frame(good = c("weak", "strong"), supply = c(30, 20), reserve = c(10, 15))
bids <- data.frame(
  bidder = c("alpha", "beta", "gamma"),
  weight = c(10, 15, 25),
  weak = c(40, 35, NA),
  strong = c(50, NA, 30)
)
outcome <- solve_auction(goods, bids)
print(outcome$prices)
print(outcome$shares)

# What is wrong with a bid is told with its row.
bids$weak[2] <- 35.5
message(tryCatch(solve_auction(goods, bids), error = conditionMessage))
