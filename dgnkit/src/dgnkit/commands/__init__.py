"""The commands of dgnkit, each a module with a function `register`."""
