"""The SQL that puts the tables of a mapping into a database."""
