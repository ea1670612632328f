"""How a script of the gate ends that looks for faults: a line for each, a line that counts, and the exit status. To have looked at nothing is a
fault too."""


def tell(faults, looked_at, line):
    for fault in faults:
        print(fault)
    print(line)
    return 1 if faults or not looked_at else 0
