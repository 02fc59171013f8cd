"""The options of what is written, which several commands share."""

from __future__ import annotations

import argparse

from ..saving import Target

SCRIPT_HELP = 'the script; otherwise it is printed'


def add_force(parser: argparse.ArgumentParser) -> None:
    """Adds the option that lets a command replace files."""
    parser.add_argument('--force', action='store_true', help='overwrite a file that is already there')


def add_output(parser: argparse.ArgumentParser, text: str = SCRIPT_HELP, metavar: str = 'SCRIPT') -> None:
    """Adds the option that names the file to write."""
    parser.add_argument('-o', '--output', metavar=metavar, default='', help=text)
    add_force(parser)


def add_dry_run(parser: argparse.ArgumentParser) -> None:
    """Adds the option by which nothing is written."""
    parser.add_argument('--dry-run', action='store_true', help='say what would be done, and write nothing')


def target_of(arguments: argparse.Namespace, path: str) -> Target:
    """The file of this name that a command is to write."""
    return Target(path, arguments.force, getattr(arguments, 'dry_run', False))
