"""Lists the data objects of a forest, each with the offset at which it begins and, if it is primitive, its value.

    python3 objects.py 6F07A5059F650201025F2001AA
"""
import sys

import scard


def main(words):
    if len(words) != 1:
        sys.exit(__doc__)
    try:
        forest = scard.Tlv.decode(bytes.fromhex(words[0]))
    except (scard.Refused, scard.Short) as refusal:
        print(refusal)
        return 1
    for one in forest.walk():
        value = "" if one.is_constructed else f"  {one.value.hex().upper()}"
        print(f"{one.start:3}{'  ' * one.depth}{one}{value}")
    return 0


if __name__ == "__main__":
    sys.exit(main(sys.argv[1:]))
