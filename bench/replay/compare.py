"""compare.py LINES WORK RATTLE ORACLE: runs both programs in turn on WORK/listing, five times each; prints lines a second of processor
time (user and system), the best of five, and the peak memory. A run before them writes the outputs to files, which must be equal.
Memory is what GNU time says: a child of python would begin with python's own."""
import filecmp
import os
import subprocess
import sys

lines, work, rattle, oracle = int(sys.argv[1]), sys.argv[2], sys.argv[3], sys.argv[4]
programs = {'rattle': [rattle], 'rust': [oracle, 'replay']}
RUNS = 5


def run(command, output):
    """Runs it on the listing; answers its processor time in seconds."""
    with open(work + '/listing', 'rb') as listing, open(output, 'wb') as answers:
        child = subprocess.Popen(command, stdin=listing, stdout=answers)
        _, status, usage = os.wait4(child.pid, 0)
    if status != 0:
        sys.exit('%s ended with status %d' % (command[0], status))
    return usage.ru_utime + usage.ru_stime


def peak_memory(command):
    """Of one run, in KB."""
    with open(work + '/listing', 'rb') as listing:
        subprocess.run(['/usr/bin/time', '-o', work + '/peak', '-f', '%M'] + command, stdin=listing, stdout=subprocess.DEVNULL, check=True)
    with open(work + '/peak') as peak:
        return int(peak.read().split()[-1])


for name, command in programs.items():
    run(command, work + '/' + name)
if not filecmp.cmp(work + '/rattle', work + '/rust', shallow=False):
    sys.exit('the two programs write different answers')
times = {name: [] for name in programs}
for _ in range(RUNS):
    for name, command in programs.items():
        times[name].append(run(command, os.devnull))
peaks = {name: peak_memory(command) for name, command in programs.items()}

print('%d lines, outputs equal, best of %d runs' % (lines, RUNS))
print('          lines a second   seconds   peak memory')
for name in programs:
    best = min(times[name])
    print('%-8s %12.2f million %9.3f %10d KB' % (name, lines / best / 1e6, best, peaks[name]))
print('ratio    %.2f (Rust\'s time over Rattle\'s, of the best runs)' % (min(times['rust']) / min(times['rattle'])))
