"""./ask: scripts of the language over the tables of a database (docs/DATABASES.md)."""
