#!/usr/bin/env python3
"""usage: web/check.py SERVER PORT FOLDER    tries the stations behind a server; web/run calls it

`direct` and `systemd` try a station itself. FOLDER has the numbers of the stations' processes and what socat heard;
`ended` looks whether all the processes have ended. A line for each thing tried goes to standard output, and how many
passed and failed to FOLDER/tally. `web/check.py ports N FOLDER` prints N ports of loopback that are free.
"""
import os
import socket
import subprocess
import sys

sys.dont_write_bytecode = True
import behind
import direct
import throughput
from client import Stations, soon
from report import Report


def free_ports(number):
    """So many ports that nobody listens on."""
    sockets = [socket.socket() for _ in range(number)]
    for one in sockets:
        one.bind(('127.0.0.1', 0))
    ports = [one.getsockname()[1] for one in sockets]
    for one in sockets:
        one.close()
    return ports


def units(report, folder):
    """The units of systemd, with the station that is tried in its place."""
    here = os.path.dirname(os.path.abspath(__file__))
    for name in ('station.socket', 'station@.service'):
        with open(os.path.join(here, name)) as unit, open(os.path.join(folder, name), 'w') as copy:
            copy.write(unit.read().replace('/usr/local/bin/station', os.path.join(folder, 'station')))
    told = subprocess.run(['systemd-analyze', 'verify', 'station.socket', 'station@.service'], cwd=folder, timeout=60,
                          stdout=subprocess.PIPE, stderr=subprocess.STDOUT, check=False)
    report.holds('systemd-analyze verify', told.returncode == 0 and b'station' not in told.stdout, '%r' % told.stdout)


def main(server, port, folder):
    if server == 'ports':
        print(*free_ports(int(port)))
        return 0
    report = Report(server, os.path.join(folder, 'tally'))
    first, second = Stations(folder, 'first'), Stations(folder, 'second')
    sample = os.path.join(os.path.dirname(os.path.abspath(__file__)), '..', 'samples', 'readings.bin')
    if server == 'ended':
        for name in ('first', 'second', 'third'):
            stations = Stations(folder, name)
            if os.path.exists(stations.started):
                report.holds('no process of the %s station is left' % name, soon(lambda: stations.alive() == 0),
                             '%d of %d are running' % (stations.alive(), stations.count()))
    elif server == 'direct':
        direct.run(report, int(port), first)
    elif server == 'throughput':
        throughput.run(report, int(port), folder)
    elif server == 'systemd':
        units(report, folder)
        direct.run(report, int(port), Stations(folder, 'third'))
    else:
        behind.run(report, server, int(port), os.path.normpath(sample), first, second)
    return 1 if report.failed else 0


if __name__ == '__main__':
    if len(sys.argv) != 4:
        sys.exit(__doc__)
    sys.exit(main(*sys.argv[1:]))
