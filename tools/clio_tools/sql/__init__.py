"""clio-sql: the exchange inside a database."""
