"""Whether each case of the tables names a call of the list and gives it the arguments that it takes, and no other.

Prints each line that doesn't, and ends with status 1 where there is one: so an argument that is misspelt is told, also where the call
could do without it.
"""
import glob
import json
import sys


def calls_of(path):
    """The arguments of each call: those that it needs, and all that it takes."""
    calls = {}
    with open(path, encoding="utf-8") as lines:
        for line in lines:
            if not line.startswith("#"):
                call, _, words = line.partition(":")
                needed = {word for word in words.split() if not word.endswith("?")}
                calls[call] = needed, {word.rstrip("?") for word in words.split()}
    return calls


def fault_of(line, calls):
    """What is wrong with a case, or None."""
    case, _ = json.JSONDecoder().raw_decode(line)
    if case.get("call") not in calls:
        return "a call that isn't listed"
    needed, taken = calls[case["call"]]
    given = set(case) - {"call"}
    if given - taken:
        return "takes no " + ", ".join(sorted(given - taken))
    if needed - given:
        return "needs " + ", ".join(sorted(needed - given))
    return None


def main():
    calls = calls_of("tests/cases/ARGUMENTS")
    faults = 0
    for table in sorted(glob.glob("tests/cases/*.cases")):
        with open(table, encoding="utf-8") as lines:
            for number, line in enumerate(lines, 1):
                if line.startswith("#") or " => " not in line:
                    continue
                fault = fault_of(line, calls)
                if fault:
                    faults += 1
                    print(f"{table}:{number}: {fault}")
    return 1 if faults else 0


sys.exit(main())
