"""Runs the command by `python3 -m dgnkit`."""

try:
    from dgnkit.entry import command
except KeyboardInterrupt:  # which comes before the command can heed it
    raise SystemExit(130)

if __name__ == '__main__':
    command()
