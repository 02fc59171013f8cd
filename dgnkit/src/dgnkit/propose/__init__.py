"""Scripts and patch files, and the tables that they come from."""
