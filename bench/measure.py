"""Times of programs on request texts, and where the programs are. For the scripts of this folder."""
import os
import resource
import subprocess

import rowtext

HERE = os.path.dirname(os.path.abspath(__file__))
TUNED = os.path.join(rowtext.ROOT, "target", "bench", "tuned")
BUILD_TUNED = ["cc", "-O3", "-std=c11", "-Wall", "-Wextra"]

MOST_RUNS = 15
ENOUGH = 1.0  # seconds: a program that has run so long on a text is not run on it again
LIMIT = 120  # seconds: given up


def build_tuned():
    """Builds the C program."""
    rowtext.needed("cc", "builds the C program tuned by hand", "a C compiler")
    os.makedirs(os.path.dirname(TUNED), exist_ok=True)
    subprocess.run(BUILD_TUNED + ["-o", TUNED, os.path.join(HERE, "tuned.c")], check=True)


def cpu_clock():
    """CPU time, user and system, of all programs run so far."""
    usage = resource.getrusage(resource.RUSAGE_CHILDREN)
    return usage.ru_utime + usage.ru_stime


def timed(clock, program, text):
    """(seconds, answer) of one run of a program, a path or a list of words, the process start included; the answer is None where it was
    given up."""
    words = [program] if isinstance(program, str) else program
    start = clock()
    try:
        answer = subprocess.run(words, input=text, stdout=subprocess.PIPE, timeout=LIMIT, check=False).stdout
    except subprocess.TimeoutExpired:
        answer = None
    return clock() - start, answer


def best_times(clock, programs, text, runs=MOST_RUNS):
    """By the name of the program, its (best seconds, answer). The programs run in turn."""
    best, spent = {}, dict.fromkeys(programs, 0.0)
    for _ in range(runs):
        for name, program in programs.items():
            if spent[name] < ENOUGH:
                seconds, answer = timed(clock, program, text)
                spent[name] += seconds
                best[name] = min(seconds, best.get(name, (seconds,))[0]), answer
    return best


def shown(seconds):
    return f"{seconds:.2f} s" if seconds >= 1 else f"{seconds * 1000:.1f} ms"
