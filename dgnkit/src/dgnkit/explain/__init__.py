"""What changed, what a script would do, and why something was refused, in words."""
