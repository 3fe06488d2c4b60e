# Writes the least and the greatest filled level of a tile: Rscript examples/levels.R ./levels_for_r.so STORE LAT LON
words <- commandArgs(trailingOnly = TRUE)
dyn.load(words[1])
ask <- function(samples) {
    .C("tile_levels", words[2], as.integer(words[3:4]), as.integer(samples), side = 0L, levels = integer(samples), refused = 0L)
}
side <- ask(0)$side
told <- ask(side * side)
if (told$refused != 0) stop("refused: ", told$refused, call. = FALSE)
levels <- matrix(told$levels, nrow = side, byrow = TRUE) # north row first; NA where there is no ground
cat(min(levels, na.rm = TRUE), max(levels, na.rm = TRUE), "\n")
