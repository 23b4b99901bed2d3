#!/usr/bin/env python3
"""prefixes_of_gs1 [FILE]: writes the file of `--prefixes` from GS1's list of company prefix lengths, its JSON or its XML form.

FILE is the standard input if it is not given. The list's name is "GCP Length Table"; its root is `GCPPrefixFormatList`. Entries stay in their order.
A length of 0 stays: it says that the digits belong to no company prefix. `tdl check --prefixes` checks what is written.
"""
import json
import sys
import xml.etree.ElementTree as ElementTree

LIST = "GCPPrefixFormatList"


def entries(text):
    """Returns the prefix and the length of each entry of GS1's list."""
    if text.lstrip("\ufeff \r\n\t").startswith("<"):
        found = [element.attrib for element in ElementTree.fromstring(text).iter() if element.tag.rpartition("}")[2] == "entry"]
    else:
        found = json.loads(text.lstrip("\ufeff"))[LIST]["entry"]
    return [(str(entry["prefix"]), int(entry["gcpLength"])) for entry in found]


def main():
    """Writes the file, one entry a line, and returns the status: 0, or 65 if the list cannot be read."""
    try:
        text = open(sys.argv[1], encoding="utf-8").read() if len(sys.argv) > 1 else sys.stdin.read()
        rows = [json.dumps({"prefix": prefix, "length": length}) for prefix, length in entries(text)]
    except (OSError, ValueError, KeyError, TypeError, ElementTree.ParseError) as fault:
        print(f"prefixes_of_gs1: this is no {LIST} in JSON or XML: {fault!r}", file=sys.stderr)
        return 65
    print('{"version": 1, "prefixes": [\n' + ",\n".join(rows) + "\n]}")
    return 0


if __name__ == "__main__":
    sys.exit(main())
