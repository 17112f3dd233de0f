"""Files of calls and of their outcomes, as rust/jws/examples/node_calls writes them and nodes/test/runner.c reads them."""
import struct

HEAD = 32  # of a call: its function, its shift, the lengths of four areas, k
INPUTS = {1: 2, 2: 3, 3: 1, 4: 0, 5: 0}  # how many areas are read, by the function
WORDS = {1: 9, 2: 1, 3: 5}  # how many words are written; others have no areas
GUARD_WORDS, GUARD, AREAS, RECORD = 2, 16, 4, 72


def split(calls):
    """The calls of a file, each as its bytes and the length of its outcome."""
    at, found = 0, []
    while (function := struct.unpack_from("<I", calls, at)[0]) != 0:
        shift, *lengths = struct.unpack_from("<5I", calls, at + 4)
        end = at + HEAD + (RECORD if function == 4 else sum(lengths[:INPUTS[function]]))
        arena = shift + (AREAS + 1) * GUARD + sum(lengths)
        found.append((calls[at:end], 8 + (8 * (WORDS[function] + 2 * GUARD_WORDS) + arena if function in WORDS else 0)))
        at = end
    return found


def join(calls):
    """A file of these calls."""
    return b"".join(calls) + struct.pack("<I", 0)


def differences(calls, expected, outcomes):
    """The calls whose outcomes differ, by their numbers from 0; where the lengths of the files differ, the first number past the last too."""
    at, found, each = 0, [], split(calls)
    for number, (_, length) in enumerate(each):
        if expected[at:at + length] != outcomes[at:at + length]:
            found.append(number)
        at += length
    if not at == len(expected) == len(outcomes):
        found.append(len(each))
    return found
