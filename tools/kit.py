"""The Rattle kit that a build wants."""

import os
import shutil
import subprocess

TOP = os.path.dirname(os.path.dirname(os.path.abspath(__file__)))


class Missing(Exception):
    """There is no kit, or not the right one; the text says so."""


def rt(*words: str) -> str:
    """What the kit's command says."""
    ran = subprocess.run(['rt', *words], stdout=subprocess.PIPE, stderr=subprocess.DEVNULL, text=True)
    return ran.stdout.strip()


def find_kit() -> str:
    """The folder of the kit, whose logic has to be the one that LOGIC names: the proofs were written for it."""
    with open(os.path.join(TOP, 'LOGIC'), encoding='utf-8') as file:
        wanted = file.read().strip()
    if shutil.which('rt') is None:
        raise Missing("a build wants rt, the command of the Rattle kit, which isn't on the path")
    version = rt('version')
    if ' logic %s ' % wanted not in ' %s ' % version:
        raise Missing("a build wants the logic %s, while rt version says '%s'" % (wanted, version))
    return os.path.dirname(rt('doc'))
