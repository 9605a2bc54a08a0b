"""How pictures look: colours that the colour-blind can tell apart, each with a marker, a line or a hatch of its own for print."""
import matplotlib

# The colours of Okabe and Ito.
BLACK, SKY, GREEN, YELLOW, BLUE, VERMILLION, PURPLE = "#000000", "#56B4E9", "#009E73", "#F0E442", "#0072B2", "#D55E00", "#CC79A7"
GREY, LIGHT, LIGHTER = "#666666", "#DDDDDD", "#E8E8E8"

# Of each phase: the colour, the line and the marker.
PHASE_LOOKS = {"a": (BLUE, "-", "o"), "b": (VERMILLION, "--", "s"), "c": (GREEN, "-.", "^")}
# Of each verdict: the name, the colour and the hatch.
VERDICT_LOOKS = {
    "W": ("waiting", LIGHTER, "--"),
    "R": ("restrain", SKY, ""),
    "O": ("outside", YELLOW, "////"),
    "T": ("trip", VERMILLION, "xx"),
}
# Of each record of the script that harms frames: what became of them, and the marker.
ACT_LOOKS = {
    "lose": ("lost", "x"),
    "flip": ("a bit flipped", "d"),
    "repeat": ("repeated", "P"),
    "cut": ("cut", "|"),
    "slip": ("bits slipped", "v"),
    "failsend": ("send failed", "<"),
    "failtake": ("take failed", ">"),
}
FAULT_LINE = {"color": VERMILLION, "linestyle": (0, (4, 2)), "linewidth": 0.8}

matplotlib.rcParams.update({
    "font.size": 8,
    "axes.titlesize": 9,
    "axes.titlelocation": "left",
    "axes.spines.top": False,
    "axes.spines.right": False,
    "hatch.linewidth": 0.5,
    "legend.frameon": False,
    "svg.fonttype": "none",
    # The same picture has the same names within its file each time.
    "svg.hashsalt": "linediff",
})
