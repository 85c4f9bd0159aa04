"""Writes the inputs of the measurement, the same every time, to the folder named as the argument: jobs of 1 MiB, and
label-like bytes with which the stores are filled."""

import pathlib
import random
import sys

SIZE = 1 << 20
FILLING = 8 << 20

STREETS = ["Hafenweg", "Lindenallee", "Am Markt", "Industriestr.", "Bahnhofstr.", "Oak Lane", "Mill Road"]
TOWNS = ["Kiel", "Lübeck", "Bremen", "Utrecht", "Leeds", "Aarhus", "Gdańsk"]
GOODS = ["SCREW M4X16", "HEX NUT M4", "WASHER 4.3", "CABLE TIE 200", "HOSE CLAMP 12", "O-RING 18X2", "FUSE 10A"]


def address(dice):
    return f"{dice.choice(STREETS)} {dice.randint(1, 199)}, {dice.randint(10000, 99999)} {dice.choice(TOWNS)}"


def zpl_label(dice, counter):
    """A label as commands of a label language: the same lines each time, with other fields."""
    day = f"{dice.randint(1, 28):02}.{dice.randint(1, 12):02}.2024"
    return (
        "^XA^CI28^PW812^LL406\n"
        f"^FO40,30^A0N,36,36^FD{dice.choice(GOODS)}^FS\n"
        f"^FO40,80^A0N,28,28^FDArt. {dice.randint(100000, 999999)}-{dice.randint(0, 99):02}^FS\n"
        f"^FO40,120^A0N,28,28^FDLot {counter:08}  {day}^FS\n"
        f"^FO40,160^A0N,24,24^FD{address(dice)}^FS\n"
        f"^FO40,210^BY2^BCN,100,Y,N,N^FD>;{dice.randint(10**11, 10**12 - 1)}^FS\n"
        f"^PQ{dice.randint(1, 4)},0,1,Y^XZ\n"
    ).encode()


def escpos_slip(dice, counter):
    """A slip with control bytes between its lines."""
    lines = [b"\x1b@\x1ba\x01\x1b!\x30", f"SLIP {counter:08}\n".encode(), b"\x1b!\x00\x1ba\x00"]
    for _ in range(dice.randint(2, 6)):
        lines.append(f"{dice.choice(GOODS):<16}{dice.randint(1, 50):>4} x{dice.randint(5, 9999) / 100:>8.2f}\n".encode())
    lines.append(f"{address(dice)}\n".encode())
    lines.append(b"\x1dk\x49\x0c" + f"{dice.randint(10**11, 10**12 - 1)}".encode() + b"\x1bd\x03\x1dV\x00")
    return b"".join(lines)


def label(dice, length, counter):
    parts, size = [], 0
    while size < length:
        counter += 1
        part = zpl_label(dice, counter) if dice.random() < 0.8 else escpos_slip(dice, counter)
        parts.append(part)
        size += len(part)
    return b"".join(parts)[:length]


def main():
    folder = pathlib.Path(sys.argv[1])
    folder.mkdir(parents=True, exist_ok=True)
    dice = random.Random(20240501)
    (folder / "random").write_bytes(dice.randbytes(SIZE))
    (folder / "label").write_bytes(label(dice, SIZE, 4711))
    (folder / "filling").write_bytes(label(dice, FILLING, 20000))
    (folder / "zero").write_bytes(bytes(SIZE))
    (folder / "rising").write_bytes(bytes(range(256)) * (SIZE // 256))


main()
