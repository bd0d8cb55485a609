"""The scope's rules as plain Python. No code or table of the library or of a program is used."""
