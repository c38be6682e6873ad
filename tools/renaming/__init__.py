"""What tools/rename.py is made of: reading files and the table, resolving names, rewriting text, and moving files."""
