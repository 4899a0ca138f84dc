#!/usr/bin/env python3
"""refused.py LOOP_ROWS < CASE: runs one case of `loop_rows` once for each of its allocations, with that one refused, and judges each
run: the program ends by itself and says where memory was refused, its journal is a beginning of that with ample memory, and what was
written of it replays. Prints how many runs ended how, and the first that is wrong. LOOP_ROWS is the built program; `cc` makes the
library that refuses."""
import collections
import os
import subprocess
import sys
import tempfile

HERE = os.path.dirname(os.path.abspath(__file__))


def run(program, case, library, **more):
    environment = {"LD_PRELOAD": library, **more}
    return subprocess.run([program], input=case, env=environment, capture_output=True, timeout=60)


def journal(out):
    """The journal's text in what is printed: from its first line to the count of dispatches."""
    begin = out.find(b"h2replay-session ")
    end = out.find(b"dispatches ", begin)
    return out[begin:end].removesuffix(b"..\n") if 0 <= begin < end else b""


def judge(ample, ended):
    """How a run ended, or None where it is wrong."""
    out, text = ended.stdout, journal(ended.stdout)
    if not journal(ample.stdout).startswith(text):
        return None
    if ended.returncode == 0 and out == ample.stdout:
        return "as with ample memory"
    if ended.returncode == 0 and out == b"no memory\n":
        return "no memory"
    if ended.returncode == 0 and b"ended by out of memory\n" in out and b"\nreplays with 0, " in out:
        return "ended by out of memory"
    if ended.returncode == 0 and b"\nreplays with 7, " in out:
        return "the replay ended by out of memory"
    if ended.returncode == 0 and out.endswith(b"no configuration\n"):
        return "no memory for the configuration"
    if ended.returncode == 1 and not out:
        return "no memory for what is read"
    return None


def main():
    program, case = os.path.abspath(sys.argv[1]), sys.stdin.buffer.read()
    with tempfile.TemporaryDirectory() as folder:
        library = os.path.join(folder, "refused.so")
        subprocess.run(["cc", "-O1", "-shared", "-fPIC", "-o", library, f"{HERE}/refused.c"], check=True)
        ample = run(program, case, library, REFUSE_COUNT="1")
        count = int(ample.stderr.split()[-1])
        ends = collections.Counter()
        for number in range(1, count + 1):
            ended = run(program, case, library, REFUSE=str(number))
            said = judge(ample, ended)
            if said is None:
                sys.exit(f"allocation {number} refused: status {ended.returncode}\n{ended.stdout.decode()}{ended.stderr.decode()}")
            ends[said] += 1
        print(f"{count} allocations:", ", ".join(f"{n} {said}" for said, n in ends.most_common()))


main()
