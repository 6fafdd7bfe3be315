#!/usr/bin/env python3
"""Writes the script of a hundred hosts on two links that docs/SIMULATE.md tells of.

usage: hundred_hosts.py | simulate tables
"""

lines = ['seed 1', 'until 600000000', 'loss 10', 'delay 1000 3000']
lines += ['host r1 02:00:00:00:01:01', 'addr r1 10.0.1.254/24', 'delay 2000 2000 r1']
lines += ['host r2 02:00:00:00:01:02', 'addr r2 10.0.2.254/24', 'delay 2000 2000 r2']
for i in range(1, 101):
    n = 1 if i <= 50 else 2
    lines += [f'host h{i} 02:00:00:00:00:{i:02x}', f'addr h{i} 10.0.{n}.{i}/24', f'gateway h{i} 10.0.{n}.254', f'udp h{i} 7']
    lines += [f'ping h{i} 10.0.{n}.254 60 {i}000 10000000']
lines += ['link 2 r2 h51 to h100', 'forward r1 r2']
for i in range(1, 11):
    lines += [f'delay 25000 25000 h{i}', f'delay 25000 25000 h{50 + i}']
    lines += [f'listen h{50 + i} 80', f'stream h{i} 10.0.2.{50 + i} 80 5000000 1000000']
lines += [f'ping h{i} 10.0.2.{50 + i} 1000 1{i}0000 500000' for i in range(11, 31)]
lines += [f'send h{i} 7 10.0.2.{50 + i} 7 100 1000 1{i}0000 500000' for i in range(31, 51)]
print('\n'.join(lines))
