"""How long requests take behind nginx: the station on one path, the program on libfcgi on another."""
import os
import re
import statistics
import subprocess

import behind
import reference

READINGS, REQUESTS, AT_ONCE, ROUNDS = 20, 2000, 8, 21
PATHS = {'station': '/keep', 'libfcgi': '/second'}
PROGRAMS = {'station': 'station', 'libfcgi': 'libfcgi-station'}


def seconds(port, path, body_file):
    """The time of one round by ab, which keeps its connections, and how many answers were wrong in status or length."""
    told = subprocess.run(['ab', '-q', '-k', '-s', '30', '-n', str(REQUESTS), '-c', str(AT_ONCE), '-p', body_file, '-T',
                           'application/octet-stream', 'http://127.0.0.1:%d%s' % (port, path)], timeout=120,
                          stdout=subprocess.PIPE, stderr=subprocess.STDOUT, check=False).stdout.decode()
    found = {name: re.search(name + r': +([0-9.]+)', told) for name in (
        'Time taken for tests', 'Complete requests', 'Failed requests', 'Non-2xx responses')}
    time, done, bad, other = [float(one.group(1)) if one else 0 for one in found.values()]
    if not time or done != REQUESTS:
        raise RuntimeError(told[-300:])
    return time, bad + other


def work(program):
    """The seconds that the processor has worked so far for the group of processes that a program is in, ended ones and
    the kernel's part included. The station's has socat in it, which accepts its connections."""
    group, ticks = set(), {}
    for number in filter(str.isdigit, os.listdir('/proc')):
        try:
            with open('/proc/%s/stat' % number) as file:
                fields = file.read().rpartition(')')[2].split()
            ticks[fields[2]] = ticks.get(fields[2], 0) + sum(map(int, fields[11:15]))
            if os.readlink('/proc/%s/exe' % number) == program:
                group.add(fields[2])
        except OSError:
            pass  # it has ended, or is none of ours
    if len(group) != 1:
        raise RuntimeError('%s is in %d groups' % (program, len(group)))
    return ticks[group.pop()] / os.sysconf('SC_CLK_TCK')


def run(report, port, folder):
    """Both programs answer alike; then rounds in turn."""
    body = reference.body([(log, 15 * log - 184, 1200 + log) for log in range(READINGS)])
    body_file = os.path.join(folder, 'twenty')
    with open(body_file, 'wb') as file:
        file.write(body)
    several = behind.BODIES + [behind.BODIES[3] + rest for rest in behind.REFUSED] + [body]
    for name, path in PATHS.items():
        report.answers('answers of the program (%s)' % name, behind.posted(port, path, several))
        seconds(port, path, body_file)  # opens the connections
    times, wrong = {name: [] for name in PATHS}, 0
    worked = {name: -work(os.path.join(folder, program)) for name, program in PROGRAMS.items()}
    for _ in range(ROUNDS):
        for name, path in PATHS.items():
            time, bad = seconds(port, path, body_file)
            times[name].append(time)
            wrong += bad
    report.equal('wrong answers in %d rounds' % ROUNDS, wrong, 0)
    middle = {name: statistics.median(each) for name, each in times.items()}
    for name, program in PROGRAMS.items():
        worked[name] += work(os.path.join(folder, program))
        report.note('%s: %d requests of %d readings, %d at a time, in %.3f s (middle), %.3f s (best); %.0f a second' % (
            name, REQUESTS, READINGS, AT_ONCE, middle[name], min(times[name]), REQUESTS / middle[name]))
        report.note('%s: the processor works %.0f microseconds in the program for a request' % (
            name, worked[name] / REQUESTS / ROUNDS * 1e6))
    report.note('station to libfcgi: %.2f (middle), %.2f (best), %.2f (work of the program); load of the machine %s' % (
        middle['station'] / middle['libfcgi'], min(times['station']) / min(times['libfcgi']),
        worked['station'] / worked['libfcgi'], ' '.join('%.1f' % load for load in os.getloadavg())))
