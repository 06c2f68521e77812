"""The script that clio wrote, as PostgreSQL runs it."""
