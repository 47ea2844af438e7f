#!/usr/bin/env python3
"""Times `check` on a long field of frames, and the decoding of frames in a session, and reports frames per second.

    bench/check.py PROGRAM [--frames N] [--messages N] [--runs N]

The field repeats one rule of three components. The time of a run over one frame is taken off, so that what is left is
the reading of the word, the decoding, and the writing of the lines. The second figure is of UPDATEs that withdraw the
same rule, as many frames as a message takes, from a table that doesn't hold it: what is left there beside the session's
start is framing, decoding, and one look-up a frame.
"""

import argparse
import pathlib
import sys
import tempfile

from timing import best_of
from wire import CONFIG, EMPTY_CAPTURE, TAPE, V4_RULES, attribute, says, up, update

FRAME = "0b0118c00002038106048119"

# A message of 4096 octets, less its header, the two length fields, the attribute's head, AFI and SAFI.
FRAMES_A_MESSAGE = (4096 - 19 - 4 - 4 - 3) // (len(FRAME) // 2)


def withdrawals(count):
    """A tape of so many UPDATEs, each with a full MP_UNREACH_NLRI of IPv4 flow specification."""
    unreach = attribute(15, V4_RULES + bytes.fromhex(FRAME) * FRAMES_A_MESSAGE)
    return TAPE + up() + says(update(b"", unreach)) * count


def decoding(program, messages, runs, folder):
    """The seconds that the session takes for so many full messages, without start and end of the program."""
    (folder / "config").write_text(CONFIG)
    (folder / "capture").write_bytes(EMPTY_CAPTURE)
    words = [program, "enforce", *(folder / name for name in ("config", "tape", "capture"))]
    seconds = []
    for count in (0, messages):
        (folder / "tape").write_bytes(withdrawals(count))
        seconds.append(best_of(runs, words).clock)
    return max(seconds[1] - seconds[0], 1e-9)


def main():
    parser = argparse.ArgumentParser(description=__doc__.split("\n", 1)[0])
    parser.add_argument("program", type=pathlib.Path)
    parser.add_argument("--frames", type=int, default=5000)
    parser.add_argument("--messages", type=int, default=3000)
    parser.add_argument("--runs", type=int, default=20)
    options = parser.parse_args()
    if not 2 <= options.frames <= 5000:
        parser.error("--frames is from 2 to 5000, so that the word fits an argument")
    with tempfile.TemporaryDirectory() as name:
        tell(options, options.program.resolve(), pathlib.Path(name))


def tell(options, program, folder):
    one = best_of(options.runs, [program, "check", "v4", FRAME]).clock
    all_ = best_of(options.runs, [program, "check", "v4", FRAME * options.frames], folder / "lines").clock
    lines = (folder / "lines").read_bytes().count(b"\n")
    if lines != options.frames:
        sys.exit(f"{lines} lines for {options.frames} frames")
    spent = max(all_ - one, 1e-9)
    print(f"frames {options.frames}, octets {len(FRAME) // 2 * options.frames}")
    print(f"seconds {all_:.4f}, of them start and end {one:.4f} (best of {options.runs})")
    print(f"checked frames per second {(options.frames - 1) / spent:,.0f}")
    spent = decoding(program, options.messages, min(options.runs, 5), folder)
    frames = options.messages * FRAMES_A_MESSAGE
    print(f"decoded frames per second {frames / spent:,.0f} ({frames} frames in {options.messages} messages, {spent:.3f} s)")


if __name__ == "__main__":
    main()
