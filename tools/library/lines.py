"""Does commands on the store of a file by the module `fstch`, and answers each by a line, which is written at once: so crashes.py
stops the module.

    python3 tools/library/lines.py FILE [no-barriers] < COMMANDS

The commands and the answers are those of lines.c, but for groups, of which there are none, and writers, each of which is `-`. At the end
the store is synced and closed.
"""

import sys

import fstch


def answer(store, op, *words):
    """The answer to a command."""
    if op == "put":
        _, key, value = words
        store[content(key)] = content(value)
    elif op == "get":
        (key,) = words
        return f"value {store[content(key)].hex()}".rstrip()
    elif op == "delete":
        _, key = words
        del store[content(key)]
    elif op == "reclaim":
        (extent,) = words
        store.reclaim(int(extent))
    elif op == "sync":
        store.sync()
        return "synced"
    else:
        raise ValueError(f"no command: {op}")
    return "ok"


def content(word):
    return b"" if word == "-" else bytes.fromhex(word)


def answer_or_refusal(store, words):
    try:
        return answer(store, *words)
    except fstch.Absent:
        return "none"
    except fstch.Error:
        return "refused"


def main():
    path, *flags = sys.argv[1:]
    with fstch.open(path, barriers=flags != ["no-barriers"]) as store:
        for line in sys.stdin:
            print(answer_or_refusal(store, line.split()), flush=True)


if __name__ == "__main__":
    main()
