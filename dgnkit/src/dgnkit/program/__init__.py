"""The program dgnedit: its runs, the language of its scripts, and what it answers and lists."""
