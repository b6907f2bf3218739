"""Writes a design of many modules, in which E11 has much to look at, to standard output, for the measures of docs/SPEED.md.

    make chain KIND MODULES

The modules are m0, m1 and so on. The kinds differ in the instances that they hold:

    chain    Each module but the first holds the one before it. With the last one as top more than 4,096 modules are refused
             by E12, after E11.
    cycles   The same, but the first tenth of the modules is a cycle, and so is the last tenth. With the last one as top m0 is
             refused by E11: the modules between the cycles aren't at fault.
    above    The second half is a cycle. Each module of the first half holds the one before it and the last of the cycle. With
             m(MODULES / 2 - 1) as top m(MODULES / 2) is refused by E11: none of the modules before it is at fault.
"""
import sys


def held(kind, n, k):
    before, tenth, half = [k - 1] if k > 0 else [], n // 10, n // 2
    if kind == 'cycles':
        return ([tenth - 1] if k == 0 else before) + ([n - 1] if k == n - tenth else [])
    if kind == 'above':
        return before + [n - 1] if k < half else [n - 1] if k == half else before
    return before


def main():
    kind, n = sys.argv[1], int(sys.argv[2])
    for k in range(n):
        instances = ''.join('m%d u%d();' % (place, i) for i, place in enumerate(held(kind, n, k)))
        sys.stdout.write('module m%d();%sendmodule\n' % (k, instances))
