"""A third reader: Tk's image formats (tkimg) open one of our cells, under a display that nobody sees."""
import os
import re
import subprocess

import numpy as np

import ours
from counting import check, fact

PATH = "ours.dt"
SCRIPT = os.path.join(os.path.dirname(os.path.abspath(__file__)), "tk.tcl")


def opened():
    """What tkimg prints of the cell: each name and text."""
    done = subprocess.run(["xvfb-run", "-a", "wish", SCRIPT, PATH], capture_output=True, text=True, check=False, timeout=60)
    return {name.strip(): text.strip() for name, text in re.findall(r"^\s*([^:\n]+):(.*)$", done.stdout, re.M)}


def run():
    print("== tkimg")
    ours.write(0, 46, 7, PATH, 2)
    heights = ours.heights(2, False, 121, 121)
    words = np.where(heights < 0, 0x8000 - heights.astype(np.int32), heights).astype(np.uint16)
    shown = opened()
    due = {"Longitude of origin": "0070000E", "Latitude of origin": "0460000N", "East-West interval": "0300",
           "North-South interval": "0300", "DTED level": "DTED0", "Number of rows": "0121", "Number of columns": "0121",
           "Image": "121 121"}
    check("tk.opens", "headers and size", due, {name: shown.get(name) for name in due})
    lowest, highest = shown.get("Minimum pixel values"), shown.get("Maximum pixel values")
    height = int(heights.flat[list(words.view(np.int16).flat).index(int(lowest))])
    fact("tk.negatives", f"tkimg {shown.get('Version')} sees heights {lowest} to {highest} where they are {heights.min()} to "
         f"{heights.max()}: the word of {height}, read as two's complement, is {lowest}",
         int(lowest) < -12000 and int(highest) == heights.max())
