# Times pins by the lines `threads` of set_check: those of many pins less those of none, least of three.
import os, subprocess, sys, time

here = os.path.dirname(os.path.abspath(__file__))
crate = os.path.join(here, '..', 'crates', 'set_check')
pins = int(sys.argv[1]) if len(sys.argv) > 1 else 1_000_000
with open(os.path.join(crate, 'stdin')) as cases:
    descriptor = next(line for line in cases if line.startswith('descriptor '))


def seconds(known, last, count):
    line = f'threads {known} {last} {count}\n'
    begun = time.perf_counter()
    told = subprocess.run([os.path.join(crate, 'out', 'set_check')], input=descriptor + line, text=True, capture_output=True, check=True)
    took = time.perf_counter() - begun
    assert told.stdout.splitlines()[1] == 'threads true true true', told.stdout
    return took


def a_pin(known, last):
    return (min(seconds(known, last, pins) for _ in range(3)) - min(seconds(known, last, 0) for _ in range(3))) / pins * 1e9


print('sets  published beside  ns a pin')
for known, last in [(0, 0), (999, 999), (0, 1000), (999, 1999)]:
    print(f'{known + 1:4}  {last - known:16}  {a_pin(known, last):8.0f}')
