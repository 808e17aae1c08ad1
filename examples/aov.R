# Checks the degrees of freedom of the accepted examples against R's own analysis of variance.
# Usage: Rscript examples/aov.R, with R from Debian's r-base-core. It is not part of the tests.
#
# For each sheet R fits aov() to random numbers: all treatment columns crossed, and Error() with the strata that the table names,
# U and E apart, which R calls the intercept and Within. In each stratum the treatments' degrees of freedom, the residual and the
# total must be the table's. Names are compared too, but for members that no column or infimum names (`S(..)`, or `#` and a place): R puts
# these under the name of the column that they come from.
#
# For each formula, R has to find the same strata in its sheet by the formula itself, without the counts: Error(Hut/Pier) for
# Hut=4/Pier=3. The stratum E is for R the combinations of all names.

here <- dirname(sub("^--file=", "", grep("^--file=", commandArgs(), value = TRUE)))

# I(A,B) as R writes it, A:B.
in_r <- function(name) gsub(",", ":", sub("^I\\((.*)\\)$", "\\1", name))

# The sheet as a table of factors, without the marks of the kinds.
read_sheet <- function(path) {
  sheet <- read.delim(path, check.names = FALSE)
  sheet[] <- lapply(sheet, factor)
  sheet
}

columns <- function(sheet, kind) sub("^..", "", grep(paste0("^", kind, ":"), names(sheet), value = TRUE))

# For each stratum of R's fit the degrees of freedom by source; the strata are those of Error(), and Within.
fitted_strata <- function(sheet, error) {
  treatments <- columns(sheet, "t")
  names(sheet) <- sub("^..", "", names(sheet))
  sheet$y <- rnorm(nrow(sheet))
  right <- paste0(paste(if (length(treatments)) treatments else "1", collapse = " * "), if (nzchar(error)) sprintf(" + Error(%s)", error))
  # Strata inside one another make R warn of a singular Error() model; the fit is by projections all the same.
  fit <- suppressWarnings(aov(as.formula(paste("y ~", right)), data = sheet))
  tables <- if (nzchar(error)) lapply(summary(fit), function(s) s[[1]]) else list("Error: Within" = summary(fit)[[1]])
  names(tables) <- sub("^Error: ", "", names(tables))
  lapply(tables, function(s) setNames(s$Df, trimws(rownames(s))))
}

# What differs between a stratum's lines and R's numbers.
difference <- function(lines, df) {
  own <- lines[!grepl("^=", lines$source), ]
  total <- lines$df[lines$source == "=total"]
  printed <- sum(lines$df[lines$source == "=residual"])
  # A stratum without a treatment has no line for its residual, which is all of it.
  residual <- if (nrow(own)) printed else total
  theirs <- df[names(df) != "Residuals"]
  found <- c(
    if (!identical(sort(as.integer(own$df)), sort(as.integer(theirs)))) "treatments",
    if (residual != sum(df["Residuals"], na.rm = TRUE)) "residual",
    if (total != sum(df)) "total",
    if (!all(in_r(own$source[!grepl("^(#|S\\()", own$source)]) %in% names(theirs))) "names"
  )
  paste(found, collapse = ", ")
}

# What differs between the strata of a formula's table and those that R finds by the formula itself.
formula_difference <- function(path, sheet, table) {
  formula <- gsub("=[0-9]+", "", readLines(path))
  theirs <- vapply(fitted_strata(sheet, formula), sum, 0)
  own <- table[table$source == "=total" & !table$stratum %in% c("U", "=all"), ]
  names <- ifelse(own$stratum == "E", paste(columns(sheet, "p"), collapse = ":"), in_r(own$stratum))
  if (identical(theirs[names], setNames(as.numeric(own$df), names)) && length(theirs) == nrow(own)) "" else formula
}

set.seed(1)
bad <- 0
count <- 0
formulas <- 0
for (path in Sys.glob(file.path(here, "*.table"))) {
  title <- sub("\\.table$", "", basename(path))
  if (grepl("^refused", readLines(path, 1))) next
  table <- read.delim(path)
  sheet <- read_sheet(file.path(here, paste0(title, ".sheet")))
  strata <- setdiff(unique(table$stratum), c("U", "=all"))
  fit <- fitted_strata(sheet, paste(in_r(setdiff(strata, "E")), collapse = " + "))
  for (stratum in strata) {
    name <- if (stratum == "E") "Within" else in_r(stratum)
    lines <- table[table$stratum == stratum, ]
    found <- if (is.null(fit[[name]])) "no such stratum" else difference(lines, fit[[name]])
    count <- count + 1
    if (nzchar(found)) {
      cat(sprintf("%s, %s: %s\n", title, stratum, found))
      bad <- bad + 1
    }
  }
  formula <- file.path(here, paste0(title, ".formula"))
  if (file.exists(formula)) {
    formulas <- formulas + 1
    found <- formula_difference(formula, sheet, table)
    if (nzchar(found)) {
      cat(sprintf("%s: not the strata of Error(%s)\n", title, found))
      bad <- bad + 1
    }
  }
}
cat(sprintf("aov: %d strata and %d formulas compared, %d different\n", count, formulas, bad))
quit(status = if (bad > 0 || count == 0 || formulas == 0) 1 else 0)
