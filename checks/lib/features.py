"""Compares the words that tools/features tells with those that were worked out by hand, and its sentences where it tells none."""

import contextlib
import io
import os
import runpy
import subprocess
import sys
import tempfile
import zipfile

CAMERA, PREFIXED = "checks/descriptions/camera.xml", "checks/descriptions/prefixed.xml"
TOOL = os.path.abspath("tools/features")

# Words for the description of camera.xml, and what is told of them. Below each stands how it was worked out, where that isn't plain.
TOLD = [
    ("", "start:0x2004=1 stop:0x2008=1"),
    # 0x2000 of Base and 4; 0x2000 and the constant 8
    ("AcquisitionStop AcquisitionStart", "stop:0x2008=1 start:0x2004=1"),
    ("AcquisitionStart AcquisitionStop --for register", "0x2004=1 0x2008=1"),
    ("AcquisitionStop --for orders", "set:0x2008=1"),
    ("set:AcquisitionStop start:Width=640 stop:Width=16", "set:0x2008=1 start:0x1000=640 stop:0x1000=16"),
    ("Width=640 --start", "set:0x1000=640 start:0x2004=1 stop:0x2008=1"),
    ("Width=640", "set:0x1000=640"),
    ("Width=0x280", "set:0x1000=640"),
    ("Width=2048 --for register", "0x1000=2048"),
    ("Width=104 --for orders", "set:0x1000=104"),
    # 16 + 11 * 8
    ("Width", "0x1000"),
    ("Width=640 Width", "0x1000=640 0x1000"),
    ("Temperature", "0x1008"),
    ("Shift=-5", "set:0x100c=0xfffffffb"),
    ("OffsetX=1409", "set:0x1004=1409"),
    # (the register of Width isn't known, so the greatest OffsetX isn't)
    ("OffsetX=1408 --value 0x1000=640", "set:0x1004=1408"),
    # 2048 - 640
    ("PixelFormat=Mono8", "set:0x1010=0x01000801"),
    # the bytes 01 00 08 01, the lowest first
    ("PixelFormat=Mono16", "set:0x1010=0x07001001"),
    ("Unsaid=1", "set:0x1030=0x01000000"),
    ("BinningMode", "0x1014"),
    ("BinningMode=Average --value 0x1014=0x12345678", "set:0x1014=0x12345278"),
    # big-endian bits 20 to 23 are the third digit from the right
    ("BinningMode=Average BinningMode=Sum --value 0x1014=0x12345678", "set:0x1014=0x12345278 set:0x1014=0x12345178"),
    ("TestPattern=3 --value 0x1018=0x11223344", "set:0x1018=0x11033344"),
    # little-endian bits 8 to 15 are the second byte
    ("Straddling=0xab --value 4120=0x11223344", "set:0x1018=0xb12a3344"),
    # its lower digit is the higher one of the first byte, its higher the lower one of the second
    ("LineInverter=1 LineDelay=-2 --value 0x101c=0x80000010", "set:0x101c=0x80000011 set:0x101c=0x80fe0011"),
    # bit 31 is the lowest; bits 8 to 15 are the second byte
    ("Strobe=1 --value 0x1020=6", "set:0x1020=7"),
    ("ShortBig=0x1234 --value 0x1024=0xaaaabbbb", "set:0x1024=0xaaaa1234"),
    ("ShortLittle=0x1234 --value 0x1028=0xaaaabbbb", "set:0x1028=0x3412bbbb"),
    ("LowOfEight=7", "set:0x1044=7"),
    ("ReverseX=true", "set:0x102c=85"),
    ("ReverseX=0", "set:0x102c=170"),
    ("ExposureTime=5000", "set:0x1050=0x00030d40"),
    # 5000 * 40 = 200000
    ("ExposureTime=10.02", "set:0x1050=401"),
    # 400.8 is nearest to 401
    ("FramesPerSecond=30", "set:0x1064=33333"),
    # 33333.3 is nearest to 33333, which is 11111 * 3
    ("ClockFrequency=10 ExposureTime=5000", "set:0x1050=50000"),
    ("Divider=5", "set:0x1054=81"),
    # 5 * 16 + 1
    ("BankValue=9 --value 0x1060=2", "set:0x3200=9"),
    ("Bank=1 BankValue=9", "set:0x1060=1 set:0x3100=9"),
    ("GainRaw=12", "set:0x2100=12"),
    ("GainSelector=Red GainRaw=12 BlackLevelRaw=1 GammaRaw=2", "set:0x2110=12 set:0x2220=1 set:0x2304=2"),
    ("GainSelector=Blue GainRaw", "0x2120"),
    ("GainSelector=Blue BalanceRatioRaw=7", "set:0x2404=7"),
    ("BothRatios=3", "set:0x2400=3 set:0x2404=3"),
    ("Gamma=1.5", "set:0x1070=0x3fc00000"),
    ("GammaLittle=1.5", "set:0x1074=49215"),
    # 00 00 c0 3f
    ("GevSCPSPacketSize", "0x0d04"),
    ("ClockFrequency=41", ""),
    ("--tell Width --value 0x1000=640", "Width=640"),
    ("--tell PixelFormat --value 0x1010=0x07001001", "PixelFormat=Mono16"),
    ("--tell PixelFormat --value 0x1010=1", "PixelFormat=16777216"),
    ("--tell Shift Temperature --value 0x100c=0xfffffffb --value 0x1008=5", "Shift=-5 Temperature=5"),
    ("--tell BinningMode Straddling LineDelay --value 0x1014=0x200 --value 0x1018=0xb12a3344 --value 0x101c=0xfe0000",
     "BinningMode=Average Straddling=171 LineDelay=-2"),
    ("--tell ExposureTime Divider --value 0x1050=100 --value 0x1054=0x51", "ExposureTime=2.5 Divider=5"),
    ("--tell FrameRate --value 0x1050=0x00030d40", "FrameRate=200.0"),
    # 1 / (5000 / 1e6)
    ("--tell Gamma GammaLittle --value 0x1070=0x3fc00000 --value 0x1074=0xc03f", "Gamma=1.5 GammaLittle=1.5"),
    ("--tell ReverseX --value 0x102c=0x55", "ReverseX=true"),
    ("--tell ShortBig ShortLittle LowOfEight --value 0x1024=0x1234 --value 0x1028=0x34120000 --value 0x1044=9",
     "ShortBig=4660 ShortLittle=4660 LowOfEight=9"),
    ("--tell GainSelector ClockFrequency", "GainSelector=All ClockFrequency=40"),
]

# Words of which nothing can be told, and a part of the sentence that says why.
REFUSED = [
    ("Width=15", "15 is below the least value of Width, 16"),
    ("Width=2056", "2056 is above the greatest value of Width, 2048"),
    ("Width=100", "100 isn't a value of Width: they go from 16 on in steps of 8"),
    ("Width=1.5", "Width takes whole numbers, and not 1.5"),
    ("Width=wide", "'wide' isn't a number"),
    ("OffsetX=1409 --value 0x1000=640", "1409 is above the greatest value of OffsetX, 1408"),
    ("ExposureTime=9.9", "9.9 is below the least value of ExposureTime, 10.0"),
    ("Temperature=1", "Temperature can't be written, since Temperature has the access mode RO"),
    ("LineStatus=1", "has the access mode RO"),
    ("AcquisitionStart=1", "AcquisitionStart is a command, and takes no value"),
    ("Strobe", "Strobe can't be read"),
    ("Strobe=1", "Strobe has 1 of the bits of register 0x1020 (0x00000001), which can't be read: --value 0x1020=VALUE says what it has"),
    ("PixelFormat=mono8", "PixelFormat takes Mono8, Mono16, and not mono8"),
    ("BinningMode=Sum", "BinningModeRegister has 4 of the bits of register 0x1014 (0x00000f00), whose present value is needed: --"),
    ("BankValue", "BankRegister is in register 0x1060, whose present value is needed"),
    ("Straddling=256 --value 0x1018=0", "Straddling takes 0 to 255, the numbers of 8 bits, and not 256"),
    ("LineInverter=2 --value 0x101c=0", "LineInverter takes 0 to 1, the numbers of 1 bit, and not 2"),
    ("Shift=2147483648", "Shift takes -2147483648 to 2147483647"),
    ("ReverseX=on", "ReverseX takes true or false, and not on"),
    ("FramesPerSecond=60", "16667 isn't a value of FramePeriod: they go from 3 on in steps of 3"),
    ("FrameRate=10", "FrameRate is worked out by a formula, and can't be written"),
    ("FrameRate", "FrameRate is worked out by a formula, and is in no register of its own"),
    ("Gamma=1e300", "is no float of 4 bytes"),
    ("Gamma=1e999", "'1e999' isn't a number"),
    ("GammaLong=1.5", "GammaLong is a float of 8 bytes, and a register that is read or written at once has 4"),
    ("Timestamp", "Timestamp has 8 bytes at 0x1080, and a register that is read or written at once has 4"),
    ("DeviceUserID=mine", "DeviceUserID is a text of several registers"),
    ("DeviceUserID", "DeviceUserID is a text of several registers"),
    ("ImageFormatControl", "ImageFormatControl is a category of features"),
    ("ChunkWidth", "ChunkWidth comes with an image or an event, by the port ChunkPort, and is in no register"),
    ("GevSCPSPacketSize=9000", "which gevacq writes itself: the word of receive is packet="),
    ("GainSelector", "GainSelectorValue is in the description alone, and in no register"),
    ("Dangling=1", "Dangling names 'Nowhere', and the description has no such node"),
    ("Nowhere2=1", "Nowhere2 tells no address"),
    ("width=640", "the description has no width; is Width meant?"),
    ("Wolf=640", "the description has no Wolf"),
    ("Width=640 Divider=4e9", "Divider takes whole numbers, and not 4e9"),
    ("Width --for receive", "Width without a value is to be read, which register does alone"),
    ("start:AcquisitionStart --for register", "start:AcquisitionStart is a word of receive, and not of register"),
    (" ".join(["Width=640"] * 65), "these are 65 words, and receive takes 64"),
]

# Words that aren't understood.
USAGE = ["=5", "walk:Width=1", "--for camera", "--value 5=1", "--value Width=1"]
USAGE += ["--list Width", "--list --start", "--tell", "--tell Width=1", "--nonsense"]

# Formulas of floats and of whole numbers, with x = 7, y = -2 and z = 0, and their values; None where they have none.
REAL = [
    ("1/2", 0.5), ("x / y", -3.5), ("7 % 4", 3.0), ("y % 4", -2.0), ("2 ** 10", 1024.0), ("2 ** -1", 0.5), ("-(2 ** 2)", -4.0),
    ("1 + 2 * 3", 7.0), ("(1 + 2) * 3", 9.0), ("10 - 4 - 3", 3.0), ("1e3 + .5 + 2.", 1002.5), ("0x10 + 1", 17.0), ("--x", 7.0),
    ("x = 7", 1.0), ("x <> 7", 0.0), ("x >= 7 && y < 0", 1.0), ("z && 1 / z", 0.0), ("x || 1 / z", 1.0), ("z ? 1 / z : 5", 5.0),
    ("z ? 1 : x ? 2 : 3", 2.0), ("(x > 3) ? (y > 3 ? 1 : 2) : 3", 2.0), ("6 & 3 | 8", 10.0), ("1 << 4 + 1", 32.0), ("~0", -1.0),
    ("ROUND(2.567, 1)", 2.6), ("ROUND(2.5)", 3.0), ("TRUNC(-2.7)", -2.0), ("FLOOR(-2.5)", -3.0), ("CEIL(2.1)", 3.0), ("SGN(y)", -1.0),
    ("NEG(x)", -7.0), ("ABS(y)", 2.0), ("SQRT(16)", 4.0), ("LG(1000)", 3.0), ("LN(E)", 1.0), ("EXP(0)", 1.0), ("COS(PI() - PI)", 1.0),
    ("1 / z", None), ("SQRT(y)", None), ("LN(0)", None), ("1e300 * 1e300", None), ("1e999", None), ("-2 ** 2", None), ("w", None),
    ("2 ** 3 ** 2", None), ("1 +", None), ("(1", None), ("1 2", None), ("x.Max", None), ("SQRT()", None),
    ("ROUND(1, 2, 3)", None), ("1 ? 2", None), ("", None),
    ("__import__(x)", None), ("'a'", None), ("x == 7", None), ("1 << 64", None), ("(" * 9000 + "1" + ")" * 9000, None),
]
WHOLE = [
    ("7 / 2", 3), ("-7 / 2", -3), ("7 / y", -3), ("-7 % 4", -3), ("2 ** 62", 1 << 62), ("1 << 63", -(1 << 63)), ("0xFFFFFFFFFFFFFFFF", -1),
    ("x & 3", 3), ("x ^ 1", 6), ("~x", -8), ("-8 >> 1", -4), ("(0x12345678 >> 16) & 0xFF", 0x34), ("x > y = 1", 1), ("1 | 6 ^ 2 & 3", 5),
    ("2 & 3 = 2", 0), ("4 | 2 > 1", 5), ("5 ^ 1 = 1", 4), ("2 = 1 < 3", 0), ("1 << 2 > 1", 1), ("1 ? 0 ? 5 : 6 : 7", 6),
    ("x = 7 ? 0x100 : 0x200", 256), ("SGN(y) + NEG(x)", -8), ("3 ** 1000000000 & 1", 1), ("007", 7), ("+".join(["1"] * 3000), 3000),
    ("1.5", None), ("2 ** -1", None), ("SQRT(4)", None), ("x / z", None), ("x % z", None), ("0x10000000000000000", None), ("9" * 50, None),
]


def formulas():
    """Those of the formulas that come to something else."""
    sys.path.insert(0, os.path.abspath("tools/lib"))
    from formula import Formula
    from refusal import Refused

    sys.setrecursionlimit(5000)
    for rows, whole in ((REAL, False), (WHOLE, True)):
        for text, wanted in rows:
            try:
                found = Formula(text, whole).value({"x": 7, "y": -2, "z": 0}.get)
            except (Refused, RecursionError):
                found = None
            if found != wanted or type(found) is not type(wanted):
                yield f"the formula {text[:60]} is {found}, not {wanted}"


def run(words, data=None, path=CAMERA, environment=None):
    """The status, the output and the errors of the tool, which runs in this process where it wants nothing of its own."""
    if data is None and environment is None:
        return run_here([path, *words])
    ran = subprocess.run([TOOL, path, *words], input=data, capture_output=True, timeout=120, env={**os.environ, **(environment or {})})
    return ran.returncode, ran.stdout.decode(), ran.stderr.decode()


def run_here(words):
    output, errors, status = io.StringIO(), io.StringIO(), 0
    sys.argv = [TOOL, *words]
    with contextlib.redirect_stdout(output), contextlib.redirect_stderr(errors):
        try:
            runpy.run_path(TOOL, run_name="__main__")
        except SystemExit as end:
            status = end.code or 0
    return status, output.getvalue(), errors.getvalue()


def described(nodes):
    """A description of these nodes."""
    return f'<RegisterDescription xmlns="http://www.genicam.org/GenApi/Version_1_1">{nodes}</RegisterDescription>'.encode()


def knife(name, formula, *variables):
    named = "".join(f'<pVariable Name="V{at}">{it}</pVariable>' for at, it in enumerate(variables))
    return f'<IntSwissKnife Name="{name}">{named}<Formula>{formula}</Formula></IntSwissKnife>'


def integer(name, target):
    return f'<Integer Name="{name}"><pValue>{target}</pValue></Integer>'


def register(name, address, more=""):
    return f'<IntReg Name="{name}"><Address>{address}</Address>{more}<Length>4</Length><Endianess>BigEndian</Endianess></IntReg>'


def bomb():
    """A description whose entities grow to 10 to the 9 letters."""
    entities = "".join(f'<!ENTITY e{at} "{f"&e{at - 1};" * 10}">' for at in range(1, 10))
    return f'<!DOCTYPE r [<!ENTITY e0 "aaaaaaaaaa">{entities}]><RegisterDescription>&e9;</RegisterDescription>'.encode()


def zipped(*files):
    packed = io.BytesIO()
    with zipfile.ZipFile(packed, "w", zipfile.ZIP_DEFLATED) as archive:
        for name, data in files:
            archive.writestr(name, data)
    return packed.getvalue()


def hostile():
    """Descriptions that aren't, or aren't meant well, the name that is asked for, and what is said of it."""
    chain = "".join(integer(f"N{at}", f"N{at + 1}") for at in range(9999)) + register("N9999", "0x100")
    # (each is worked out once, though its formulas name it 2 to the 40 times)
    doubled = "".join(knife(f"K{at}", "V0 + V1", f"K{at + 1}", f"K{at + 1}") for at in range(40))
    doubled += '<Integer Name="K40"><Value>1</Value></Integer>'
    spelled = "".join(f'<Expression Name="E{at}">E{at + 1} + E{at + 1}</Expression>' for at in range(40))
    spelled = f'<IntSwissKnife Name="K">{spelled}<Constant Name="E40">1</Constant><Formula>E0</Formula></IntSwissKnife>'
    copied = "".join(f'<Integer Name="C{at}"><pValue>C{at + 1}</pValue><pValueCopy>C{at + 1}</pValueCopy></Integer>' for at in range(40))
    big = f'{register("R", "0x100")}<!--{"x" * (33 << 20)}-->'
    yield b"", "Width", "the description isn't XML"
    yield b"PK\x03\x04" + bytes(40), "Width", "the zip file can't be unpacked"
    yield zipped(("camera.xml", described(integer("Width", "R") + register("R", "8"))))[:-30], "Width", "the zip file can't be unpacked"
    yield zipped(), "Width", "the zip file has no file in it"
    yield b"<html></html>", "Width", "the XML is a html"
    yield described("")[:-5], "Width", "the description isn't XML"
    yield bomb(), "Width", "the description has a DOCTYPE"
    yield b'<!DOCTYPE r SYSTEM "file:///etc/passwd"><RegisterDescription/>', "Width", "the description has a DOCTYPE"
    yield described("&other;"), "Width", "the description isn't XML: undefined entity"
    yield described(big), "Width", "has more than 33554432 bytes"
    yield zipped(("camera.xml", described(big))), "Width", "the file in the zip file has more than 33554432 bytes"
    yield described("<a>" * 100 + "</a>" * 100), "Width", "more than 64 within each other"
    yield described("<a/>" * 500_001), "Width", "the description has more than 500000 elements"
    yield described(integer("A", "B") + integer("B", "C") + integer("C", "A")), "A=1", "the description goes round in a circle: A, B, C, A"
    yield described(integer("A", "A")), "A", "the description goes round in a circle: A, A"
    yield described(knife("A", "V0", "B") + knife("B", "V0", "A") + register("R", "0", "<pAddress>A</pAddress>")), "R", "circle: A, B, A"
    yield described(register("R", "0", "<pIndex>R</pIndex>")), "R", "circle: "
    yield described('<IntSwissKnife Name="A"><Expression Name="X">X</Expression><Formula>X</Formula></IntSwissKnife>'
                    + register("R", "0", "<pAddress>A</pAddress>")), "R", "circle: X, X"
    yield described(chain), "N0", "the description goes too deep to be followed"
    yield described(doubled + register("R", "0", "<pAddress>K0</pAddress>")), "R", "R lies at 1099511627776, and addresses have 32 bits"
    yield described(spelled + register("R", "0", "<pAddress>K</pAddress>")), "R", "1099511627776"
    yield described(copied + register("C40", "8")), "C0=1", "the new values go to more than 1000 nodes"
    yield described(register("R", "-4")), "R", "R lies at -4, and addresses have 32 bits"
    yield described(register("R", "0x102")), "R", "R has 4 bytes at 0x0102, and a register that is read or written at once has 4"
    yield described(register("R", "1e3")), "R", "'1e3' isn't a whole number"
    yield described(register("R", "9" * 5000)), "R", "isn't a whole number"
    yield described('<IntReg Name="R"><Address>0</Address><Length>4000000000</Length></IntReg>'), "R", "R has 4000000000 bytes"
    beyond = '<MaskedIntReg Name="R"><Address>0</Address><Length>4</Length><LSB>0</LSB><MSB>32</MSB></MaskedIntReg>'
    yield described(beyond), "R", "R has bits beyond its 4 bytes"
    yield described('<Integer Name="A&#10;B"><Value>1</Value></Integer>'), "A", "the description has no A"
    yield described('<Integer Name="A"><pValue>&#155;31m</pValue></Integer>'), "A", "A names '\\x9b31m', and"


class Check:
    """What differs, in a folder of its own."""

    def __init__(self, room):
        self.room, self.faults = room, []

    def tells(self, words, output, errors="", **how):
        status, told, said = run(words, **how)
        if status or told.split() != output.split() or errors not in said:
            self.faults.append(f"{' '.join(words)[:200]}: {status}, {told.split()} {said!r}, not {output}")

    def refuses(self, words, status, errors, output="refused\n", **how):
        found, told, said = run(words, **how)
        if found != status or told != output or errors not in said or not (said[-1:] == "\n" and said[:-1].isprintable()):
            self.faults.append(f"{' '.join(words)[:200]}: {found}, {told[:200]!r} {said[:700]!r}, not {errors!r}")

    def rows(self):
        for words, output in TOLD:
            self.tells(words.split(), output)
        for words, why in REFUSED:
            self.refuses(words.split(), 1, why)
        for words in USAGE:
            self.refuses(words.split(), 2, "(--help tells the words)")
        self.faults += formulas()
        note = "these values are in the description alone, and no register is written"
        self.tells(["GainSelector=Red"], "", note)
        self.refuses(["--tell", "Width"], 1, "WidthRegister is in register 0x1000, whose present value is needed", output="")
        told = ["--tell", "Gamma", "--value", "0x1070=0x7fc00000"]
        self.refuses(told, 1, "Gamma has no number in register 0x1070, but nan", output="")
        self.refuses(["Width", "--present", f"{self.room}/nothing"], 1, "nothing: No such file or directory")

    def write(self, name, data, mode=0o644):
        path = f"{self.room}/{name}"
        with open(path, "wb") as file:
            file.write(data)
        os.chmod(path, mode)
        return path

    def forms(self):
        """The forms in which a description comes, and where from the tool is run."""
        with open(CAMERA, "rb") as file:
            data = file.read()
        start, plain = "start:0x2004=1 stop:0x2008=1", "start:0x0124=1 stop:0x0124=0"
        self.tells([], start, path="-", data=data)
        packed = self.write("camera.zip", zipped(("readme.txt", b"no"), ("One.XML", data)))
        self.tells([], start, path=packed)
        self.tells([], start, path=self.write("only.zip", zipped(("description", data))))
        self.tells([], start, path=self.write("zeros.xml", data + bytes(512)))
        self.tells([], start, path=self.write("wide.xml", data.decode().replace("utf-8", "utf-16").encode("utf-16")))
        self.tells([], plain, path=PREFIXED)
        self.refuses([], 1, "nothing: No such file or directory", path=f"{self.room}/nothing")
        self.refuses([], 1, "Is a directory", path=self.room)
        os.symlink(TOOL, f"{self.room}/gevacq-features")
        tool = f"'{self.room}/gevacq-features' '{packed}'"
        line = f"cd / && set -- $({tool} ExposureTime=5000 --start) && echo $#:$*"
        ran = subprocess.run(["sh", "-c", line], capture_output=True, text=True, timeout=120)
        if ran.stdout != f"3:set:0x1050=0x00030d40 {start}\n":
            self.faults.append(f"in a shell: {ran.stdout!r} {ran.stderr!r}")

    def lists(self):
        """What is listed: each feature of the categories once, in their order."""
        wanted = [
            "Width type=Integer category=ImageFormatControl register=0x1000",
            "OffsetX type=Integer category=ImageFormatControl register=0x1004",
            "PixelFormat type=Enumeration category=ImageFormatControl register=0x1010 entries=Mono8,Mono16",
            "AcquisitionStart type=Command category=AcquisitionControl register=0x2004",
            "AcquisitionStop type=Command category=AcquisitionControl register=0x2008",
            "ExposureTime type=Float category=AcquisitionControl register=0x1050",
            "GainSelector type=Enumeration category=AnalogControl register=- entries=All,Red,Blue",
            "GainRaw type=Integer category=AnalogControl register=0x2100",
            "BinningMode type=Enumeration category=AnalogControl register=0x1014 mask=0x00000f00 entries=Sum,Average",
            "DeviceUserID type=String category=OtherControl register=-",
            "Bank type=Integer category=OtherControl register=0x1060",
            "BankValue type=Integer category=OtherControl register=-",
        ]
        self.tells(["--list"], " ".join(wanted))
        named = "".join(f"<pFeature>{it}</pFeature>" for it in ("Root", "R", "None", "R"))
        circle = f'<Category Name="Root"><pFeature>A</pFeature></Category><Category Name="A">{named}</Category>'
        path = self.write("circle", described(circle + register("R", "8")))
        self.tells(["--list"], "R type=Integer category=A register=0x0008", path=path)
        self.tells(["--list", "--value", "0x1060=2"], " ".join(wanted[:-1] + [wanted[-1].replace("-", "0x3200")]))

    def present(self):
        """Values of registers that a file has, or a camera, in whose program's place a script answers."""
        told = b"gevacq: a line of another kind\nregister 0x00001014 value=0x12345678\nregister 0x0000101c value=0x00000000\n"
        self.tells(["BinningMode=Average", "--present", self.write("told", told)], "set:0x1014=0x12345278")
        words = ["LineInverter=1", "BinningMode=Average", "--present", "-", "--value", "0x1014=0"]
        self.tells(words, "set:0x101c=1 set:0x1014=512", data=told)
        script = f"""#!/bin/sh
echo "$*" >> '{self.room}/asked'
case $3 in
    0x1014) echo "register 0x00001014 value=0x12345678" ;;
    0x1000) echo "register 0x00001000 value=0x00000280" ;;
    0x1060) echo "gevacq: register 0x00001060 refused with status 0x8003" >&2; exit 10 ;;
    *) printf 'gevacq: request 1 is READREG\\ngevacq: no answer to request 1\\n' >&2; exit 9 ;;
esac
"""
        place = {"GEVACQ": self.write("gevacq", script.encode(), 0o755)}
        camera = ["--camera", "192.168.10.7"]
        self.tells([*camera, "BinningMode=Average", "BinningMode=Sum"], "set:0x1014=0x12345278 set:0x1014=0x12345178", environment=place)
        self.tells([*camera, "--tell", "BinningMode"], "BinningMode=6", environment=place)
        self.refuses([*camera, "OffsetX=1409"], 1, "1409 is above the greatest value of OffsetX, 1408", environment=place)
        self.refuses([*camera, "BankValue=1"], 1, "ends with 10: gevacq: register 0x00001060 refused with status 0x8003", environment=place)
        silent = "gevacq register 192.168.10.7 0x101c ends with 9: gevacq: no answer to request 1"
        self.refuses([*camera, "LineInverter=1"], 1, silent, environment=place)
        with open(f"{self.room}/asked", encoding="ascii") as file:
            asked = file.read()
        if asked != "".join(f"register 192.168.10.7 {it}\n" for it in ("0x1014", "0x1014", "0x1000", "0x1060", "0x101c")):
            self.faults.append(f"the program is asked {asked!r}")

    def simulated(self, program):
        """The rest of a masked register, read from the camera that the program simulates; and what the register is then."""
        masked = '<MaskedIntReg Name="HeartbeatRegister"><Address>0x0938</Address><Length>4</Length><AccessMode>RW</AccessMode><pPort>Device</pPort>'
        masked += "<LSB>31</LSB><MSB>24</MSB><Endianess>BigEndian</Endianess></MaskedIntReg>"
        path = self.write("masked.xml", described(integer("Heartbeat", "HeartbeatRegister") + masked + '<Port Name="Device"/>'))
        address, place = "127.79.3.1", {"GEVACQ": os.path.abspath(program)}
        with subprocess.Popen([program, "simulate", address, "rate=1"], stdout=subprocess.DEVNULL) as camera:
            try:
                # 3000 is 0x0bb8, and 2821 is 0x0b05
                self.reads(program, address, "register 0x00000938 value=0x00000bb8\n")
                self.tells(["--camera", address, "Heartbeat=5"], "set:0x0938=2821", path=path, environment=place)
                self.tells(["--camera", address, "Heartbeat=5", "--for", "register"], "0x0938=2821", path=path, environment=place)
                self.reads(program, address, "register 0x00000938 value=0x00000b05\n", "0x0938=2821")
            finally:
                camera.kill()

    def reads(self, program, address, wanted, *writes):
        """What the heartbeat's register of the camera is, behind these writes."""
        ran = subprocess.run([program, "register", address, *writes, "0x0938"], capture_output=True, text=True, timeout=60)
        if ran.returncode or ran.stdout != wanted:
            self.faults.append(f"register {address}: {ran.returncode}, {ran.stdout!r} {ran.stderr!r}, not {wanted!r}")

    def hostile(self):
        count = 0
        for data, word, why in hostile():
            self.refuses([word], 1, why, path=self.write("hostile", data))
            count += 1
        return count


def main():
    # (the tool that runs here has words of its own)
    program = sys.argv[1]
    with tempfile.TemporaryDirectory() as room:
        check = Check(room)
        check.rows()
        check.forms()
        check.lists()
        check.present()
        check.simulated(program)
        count = check.hostile()
    for fault in check.faults:
        print(f"checks/features: {fault}", file=sys.stderr)
    if check.faults:
        sys.exit(1)
    rows = len(TOLD) + len(REFUSED) + len(USAGE)
    formulas = len(REAL) + len(WHOLE)
    print(f"checks/features: {rows} lists of names, {formulas} formulas and {count} hostile descriptions come to what they have to, and so does a register of a camera")


if __name__ == "__main__":
    main()
