"""Numbers for nulls that stay from run to run; clio-ids uses these modules."""
