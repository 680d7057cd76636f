"""A session from Python: each line is given when the answer to the one before is known.

usage: examples/sessions/client.py [PROGRAM]

PROGRAM is a built proxy_session. Without one it is what `tools/unproved_program proxy_session` leaves, and this runs at the
top of the repository.
"""
import json
import os
import subprocess
import sys

program = sys.argv[1] if len(sys.argv) > 1 else "out/proxy_session_unproved"
if not os.path.exists(program):
    raise SystemExit(f"{program} is not there: name a proxy_session, or run tools/unproved_program proxy_session")
session = subprocess.Popen([program], stdin=subprocess.PIPE, stdout=subprocess.PIPE, text=True)


def answer(line):
    """Returns the lines of the answer, which ends with an empty line."""
    session.stdin.write(json.dumps(line) + "\n")
    session.stdin.flush()
    lines = []
    while (read := session.stdout.readline()) != "\n":
        if not read:
            raise SystemExit("the session has ended")
        lines.append(read.rstrip("\n"))
    return lines


print(answer({"cluster": {"proxies": 1, "resolvers": 1, "window": 100, "step": 10}}))  # ['cluster']
print(answer({"sequence": {"proxy": 0, "batch": []}}))  # ['sequence row 0 version 10']
print(answer({"finish": {"proxy": 0}}))  # ['refused 43 MissingReply 0']
print(answer({"offer": {"row": 0, "resolver": 0}}))  # ['offer row 0 resolver 0 judged none unseen none']
