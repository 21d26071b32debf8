"""Nanoseconds a step, glft.rs and floatrun, on the same records, and milliseconds of the longest call.

    python3 measure.py ORACLE FLOATRUN FOLDER

The records have the parameters of glft.rs's own example: gamma 0.01, k 0.3, A 0.9 and a volatility
of 0.3 a second's root, so alpha is k gamma 0.09 / 2 and eta about 0.3257; there is no drift. A run's time is that of
records with many steps less that of as many with tau 0, whose vectors are written too, so that
reading, writing and starting the program drop out. It is processor time, the least of several
rounds, in which the programs take turns. The steps are floatrun's own, from its lines; the
programs have to agree on the kind of every line. Peak memory is that of the longest run. The longest
call is one record of the largest bound and the most steps, its time taken in the same way.
"""
import resource
import struct
import subprocess
import sys

ROUNDS = 11
K, ALPHA, ETA, BASE = 0.3, 0.3 * 0.01 * 0.09 / 2.0, 0.3257, 3.279
# bound, tau, records: a little below the cap of 11,000 steps each
RUNS = ((200, 3300.0, 6), (30, 15000.0, 40), (1, 16000.0, 200))
# one record, whose plan has 11,000 steps
MOST_STEPS = 11000
LONGEST = (200, 3308.7, 1)


def record(bound, tau, q=0, beta=0.0):
    return struct.pack("<4dQdqd", K, ALPHA, ETA, BASE, bound, tau, q, beta)


def seconds(command, path):
    """Processor time of a run, and what it wrote."""
    before = resource.getrusage(resource.RUSAGE_CHILDREN)
    with open(path, "rb") as file:
        wrote = subprocess.run(command, stdin=file, stdout=subprocess.PIPE, check=True).stdout
    after = resource.getrusage(resource.RUSAGE_CHILDREN)
    return after.ru_utime + after.ru_stime - before.ru_utime - before.ru_stime, wrote


def peak(command, path):
    """Peak resident memory in kB."""
    with open(path, "rb") as file:
        said = subprocess.run(["/usr/bin/time", "-f", "%M"] + command, stdin=file,
                              stdout=subprocess.DEVNULL, stderr=subprocess.PIPE, check=True).stderr
    return int(said.split()[-1])


def written(path, content):
    with open(path, "wb") as file:
        file.write(content)
    return path


def timed(programs, folder, bound, tau, count):
    """The seconds of each program's steps, and the number of steps."""
    many = written(folder + "/many", record(bound, tau) * count)
    none = written(folder + "/none", record(bound, 0.0) * count)
    least = {}
    for _ in range(ROUNDS):
        for name, command in programs.items():
            for path in (many, none):
                took, wrote = seconds(command, path)
                lines = wrote.decode().splitlines()
                if len(lines) != count or any(not line.startswith("V ") for line in lines):
                    sys.exit("measure.py: %s did not answer every record" % name)
                if name == "floatrun" and path == many:
                    steps = sum(int(line.split(" ", 2)[1]) for line in lines)
                least[name, path] = min(took, least.get((name, path), took))
    return {name: least[name, many] - least[name, none] for name in programs}, steps


def main():
    oracle, floatrun, folder = sys.argv[1:]
    programs = {"glft.rs": [oracle, "platform"], "floatrun": [floatrun]}
    for bound, tau, count in RUNS:
        took, steps = timed(programs, folder, bound, tau, count)
        step = {name: took[name] / steps * 1e9 for name in programs}
        print("bound %d, %d steps: glft.rs %.0f ns a step, floatrun %.0f, ratio %.3f"
              % (bound, steps, step["glft.rs"], step["floatrun"], step["floatrun"] / step["glft.rs"]))
        if bound == RUNS[0][0]:
            memory = {name: peak(command, folder + "/many") for name, command in programs.items()}
    took, steps = timed(programs, folder, *LONGEST)
    if steps != MOST_STEPS:
        sys.exit("measure.py: the longest call has %d steps" % steps)
    print("the longest call, bound %d, %d steps: glft.rs %.1f ms, floatrun %.1f ms"
          % (LONGEST[0], steps, 1e3 * took["glft.rs"], 1e3 * took["floatrun"]))
    print("peak resident memory at bound %d: glft.rs %d kB, floatrun %d kB"
          % (RUNS[0][0], memory["glft.rs"], memory["floatrun"]))


if __name__ == "__main__":
    main()
