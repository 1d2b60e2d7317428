"""`python3 -m whatif.sweeps` is whatif-sweep. Workers of MPI import this module, and must not run it."""

from .command import command

if __name__ == "__main__":
    command()
