"""Runs a check of this folder over small trees that stand in a test as text, for the tests beside this file."""
import subprocess
import sys
import tempfile
from pathlib import Path

HERE = Path(__file__).resolve().parent


def faults_of(check, files, words=()):
    """The faults that a check prints for a tree of these files. A last line or an exit status that does not fit is one more."""
    with tempfile.TemporaryDirectory() as folder:
        for name, text in files.items():
            path = Path(folder) / name
            path.parent.mkdir(parents=True, exist_ok=True)
            path.write_text(text, encoding='utf-8')
        run = subprocess.run([sys.executable, HERE / check, *words, folder], capture_output=True, text=True, encoding='utf-8')
    *faults, last = run.stdout.splitlines() or ['']
    clean = last.split(', ')[-1] == '0 failed'
    if ' passed, ' not in last or clean == bool(faults) or run.returncode != (1 if faults else 0):
        faults.append(f'exit status {run.returncode} with the last line {last!r} {run.stderr}')
    return faults


def run_cases(check, cases, passed=0, failed=0):
    """Each case is what it tests, the words that each fault has, in order, and the files; then words for the command line. Two counts of others are added."""
    others = passed + failed
    for what, wanted, files, *words in cases:
        got = faults_of(check, files, words)
        if len(got) != len(wanted) or not all(w in g for w, g in zip(wanted, got)):
            failed += 1
            print(f'fault: {check}: {what}: wanted {wanted}, got {got}')
    print(f'{others + len(cases) - failed} passed, {failed} failed')
    sys.exit(1 if failed else 0)
