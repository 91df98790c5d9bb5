"""Lets Aravis' fake camera take what tools/features tells, and its arv-tool, which reads descriptions in its own way, read it back:
once with the description that the camera has, once with that in checks/descriptions, of which the camera keeps the registers."""

import re
import shutil
import subprocess
import sys

from cameras import PROGRAM, with_aravis

SCRIPT = """
ip link set lo up
tries=0
begin() {
    arv-fake-gv-camera-0.8 -i lo "$@" >>"$here/camera" 2>&1 &
    camera=$!
    until "$program" description 127.0.0.1 >"$here/description" 2>"$here/none" || [ "$tries" -ge 20 ]; do
        tries=$((tries + 1))
    done
}
here=$1
program=$2
begin
set -- $(tools/features "$here/description" OWN --start)
"$program" receive 127.0.0.1 1 "$@" >"$here/lines" 2>>"$here/said"
arv-tool-0.8 -a 127.0.0.1 control OWN_NAMES >"$here/own" 2>>"$here/said"
kill $camera
wait $camera 2>/dev/null
begin -g checks/descriptions/camera.xml
set -- $(tools/features "$here/description" OURS)
"$program" receive 127.0.0.1 1 start:0x0124=1 stop:0x0124=0 "$@" >"$here/more_lines" 2>>"$here/said"
arv-tool-0.8 -a 127.0.0.1 control OUR_NAMES >"$here/ours" 2>>"$here/said"
kill $camera
"""

# Of the camera's own description: the words, and what arv-tool tells behind them.
OWN = {
    "Width=320": "320",
    "Height=240": "240",
    "PixelFormat=Mono16": "Mono16",
    "ExposureTimeAbs=5000": "5000",
    "AcquisitionFrameRate=20": "20",
    "GainRaw=7": "7",
    "GainAuto=Once": "Once",
    "BinningHorizontal=1": "1",
    # (the next one has the lower half of it: 0x1234fffb)
    "StructEntry_0_31=0x12345678": "305463291",
    "StructEntry_16_31=-5": "-5",
    "TriggerSelector=AcquisitionStart": "AcquisitionStart",
    "TriggerMode=On": "On",
}
# (what lies in the description alone is set there by arv-tool itself)
SELECTORS = ("TriggerSelector=AcquisitionStart", "GainSelector=Blue")
# What these registers had before, for all the camera tells.
OURS_BEFORE = {"0x1014": "0x12345678", "0x1018": "0x11223344", "0x101c": "0x80000010", "0x1024": "0xaaaabbbb", "0x1028": "0xaaaabbbb"}
OURS = {
    "Width=640": "640",
    "Shift=-5": "-5",
    "PixelFormat=Mono8": "Mono8",
    "Unsaid=7": "7",
    "BinningMode=Average": "Average",
    # (the next one has the lower half of it: 0x0a)
    "TestPattern=3": "10",
    "Straddling=0xab": "171",
    "LineInverter=1": "1",
    "LineDelay=-2": "-2",
    "ShortBig=0x1234": "4660",
    "ShortLittle=0x1234": "4660",
    "ReverseX=true": "true",
    "ExposureTime=5000": "5000",
    "Divider=5": "5",
    "Bank=2": "2",
    "BankValue=9": "9",
    "BothRatios=3": "3",
    "GainRaw=12": "12",
    "Gamma=1.5": "1.5",
    "GammaLittle=-2.5": "-2.5",
    "GainSelector=Blue": "Blue",
    "BlackLevelRaw=5": "5",
    "GammaRaw=6": "6",
    "BalanceRatioRaw=8": "8",
}


faults = []


def names(words):
    return " ".join(word if word in SELECTORS else word.split("=")[0] for word in words)


def judge(read):
    """What the camera sent, and what arv-tool told."""
    said, lines = read("said").decode("utf-8", "replace"), read("lines").decode()
    if said or not re.search(r" complete=1 .* width=320 height=240 pixel=0x01100007 ", lines):
        faults.append(f"no image of the size and format that were set: {said!r} {lines!r}")
    for words, file in ((OWN, "own"), (OURS, "ours")):
        told = dict(re.findall(r"^(\w+) = (\S+)", read(file).decode("utf-8", "replace"), re.M))
        for word, wanted in words.items():
            name = word.split("=")[0]
            if told.get(name) != wanted:
                faults.append(f"{word}: arv-tool reads {told.get(name)}, not {wanted}")


def judge_refusal():
    """What stands in place of words that can't be told has to be no word of the program, so that nothing runs without them."""
    for words in (["receive", "127.0.0.1", "1", "refused"], ["register", "127.0.0.1", "refused"]):
        ran = subprocess.run([PROGRAM, *words], stdin=subprocess.DEVNULL, capture_output=True, timeout=60)
        if ran.returncode != 2:
            faults.append(f"gevacq {' '.join(words)} ends with {ran.returncode}, not 2")


def main():
    judge_refusal()
    if not shutil.which("arv-tool-0.8"):
        why = "there is no arv-tool-0.8"
    else:
        before = "".join(f" --value {register}={value}" for register, value in OURS_BEFORE.items())
        script = SCRIPT.replace("OWN_NAMES", names(OWN)).replace("OUR_NAMES", names(OURS))
        script = script.replace("OWN", " ".join(OWN)).replace("OURS", " ".join(OURS) + before)
        why = with_aravis(script, 120, judge)
    if why:
        print(f"checks/features: Aravis' fake camera is skipped, since {why}")
    for fault in faults:
        print(f"checks/features: {fault}", file=sys.stderr)
    if not faults and not why:
        print(f"checks/features: arv-tool reads back {len(OWN) + len(OURS)} values that were set")
    return 1 if faults else 0


if __name__ == "__main__":
    sys.exit(main())
