"""The program that came with this package: python -m onfiseq, or `onfiseq` where pip has put it on the path."""
import os
import sys


def main() -> None:
    """Runs the program in place of this process, with its words."""
    program = os.path.join(os.path.dirname(os.path.abspath(__file__)), "onfiseq")
    if not os.path.isfile(program):
        sys.exit("onfiseq: this package came without the program: there is no %s" % program)
    try:
        os.execv(program, ["onfiseq", *sys.argv[1:]])
    except OSError as why:
        sys.exit("onfiseq: %s can't be run: %s" % (program, why.strerror))


if __name__ == "__main__":
    main()
