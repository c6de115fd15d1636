"""python3 -m tilgwaren PLAN    prints a plan, or a grid of tiles, as JSON"""
import sys

from . import FormatError, Plan


def main(words):
    if len(words) != 1:
        print(__doc__, file=sys.stderr)
        return 1
    try:
        with open(words[0], "rb") as file:
            print(Plan.read(file.read()).to_json(indent=1))
    except (OSError, FormatError) as error:
        print(f"{words[0]}: {error}", file=sys.stderr)
        return 2
    return 0


if __name__ == "__main__":
    sys.exit(main(sys.argv[1:]))
