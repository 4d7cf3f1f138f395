"""What all pictures share: colours, the lines above, the legend, and writing them as SVG, PNG or PDF, the same bytes each time."""

import io
import warnings
from contextlib import contextmanager
from functools import lru_cache
from pathlib import Path

import matplotlib
from matplotlib.backends.backend_agg import FigureCanvasAgg
from matplotlib.figure import Figure
from matplotlib.font_manager import FontProperties
from matplotlib.textpath import text_to_path

from .output import write_file
from .source import shown

# The colours of Okabe and Ito, told apart also by the colour-blind and, with the shapes, in grey.
BLACK, ORANGE, SKY, GREEN, BLUE, VERMILION, PURPLE = (
    "#000000", "#E69F00", "#56B4E9", "#009E73", "#0072B2", "#D55E00", "#CC79A7")
GREY = "#B0B0B0"

MARGIN = 14                               # points around everything
HEADING, FACTS, LEGEND = 13, 10.5, 9.5    # sizes of letters
WORD = 30                                 # letters of a word of the heading

DOTS = 150  # of a PNG to the inch,
PIXELS = 6000  # fewer where it would be wider or higher than this
NO_DATE = {".svg": {"Date": None}, ".png": {"Software": None}, ".pdf": {"CreationDate": None}}
SETTINGS = {"svg.fonttype": "none", "svg.hashsalt": "kterc", "pdf.fonttype": 42, "font.family": "DejaVu Sans",
            "path.simplify": False}


@contextmanager
def settings():
    """The settings under which a figure is made and written, whatever the reader's own are."""
    with matplotlib.rc_context(), warnings.catch_warnings():
        warnings.filterwarnings("ignore", message="Glyph .* missing from current font")
        matplotlib.rcdefaults()
        matplotlib.rcParams.update(SETTINGS)
        yield


def new_figure():
    """A figure with what measures its parts."""
    figure = Figure()
    FigureCanvasAgg(figure)
    return figure


def save(figure, path, read_from=None):
    """Writes the figure in the kind that the path's ending names. Text in an SVG stays text."""
    ending = Path(path).suffix.lower()
    dots = min(DOTS, *(PIXELS / inches for inches in figure.get_size_inches()))
    content = io.BytesIO()
    with settings():
        figure.savefig(content, format=ending[1:], dpi=dots, metadata=NO_DATE[ending])
    write_file(path, content.getvalue(), read_from)


def heading_of(path):
    """The heading where none is given: the input's name."""
    return shown(path) if path == "-" else Path(path).stem


def separated(number):
    """The number with a comma between groups of three digits."""
    return f"{number:,}"


def counted(number, word):
    """1 cache, 2 caches."""
    return f"{separated(number)} {word}" + ("" if number == 1 else "s")


@lru_cache(maxsize=None)
def text_size(text, letters, weight="normal"):
    """Width and height in points."""
    font = FontProperties(family="DejaVu Sans", size=letters, weight=weight)
    width, _, _ = text_to_path.get_text_width_height_descent(text, font, ismath=False)
    return width, letters * 1.2


def printable(text, longest):
    """The text with a sign for each character that cannot be printed, cut where it is longer."""
    text = "".join(letter if letter.isprintable() else "\N{REPLACEMENT CHARACTER}" for letter in text)
    return text if len(text) <= longest else text[: longest - 1] + "…"


def wrapped(text, width):
    """The heading in lines that fit, broken between words. No word has more letters than the narrowest picture has room for."""
    lines = [""]
    for word in text.split():
        word = printable(word, WORD)
        longer = f"{lines[-1]} {word}".strip()
        if lines[-1] and text_size(longer, HEADING, "bold")[0] > width:
            lines.append(word)
        else:
            lines[-1] = longer
    return [line for line in lines if line]


def top_height(lines):
    """The points that the heading's lines and the facts take."""
    return len(lines) * HEADING * 1.35 + FACTS * 1.3 + 12


def write_top(figure, lines, facts):
    """The heading's lines and the line of facts, in the middle of the figure's top."""
    width, height = (72 * inches for inches in figure.get_size_inches())
    y = height - MARGIN
    for line in lines:
        figure.text(0.5, y / height, line, fontsize=HEADING, weight="bold", ha="center", va="top", parse_math=False)
        y -= HEADING * 1.35
    figure.text(0.5, (y - 2) / height, facts, fontsize=FACTS, ha="center", va="top", gid="facts", parse_math=False)


def fitted_legend(figure, samples, width):
    """The legend of (sample, text) pairs with as many columns as fit into the width."""
    for columns in range(len(samples), 0, -1):
        legend = figure.legend([sample for sample, _ in samples], ["text"] * len(samples), loc="lower center", ncol=columns,
                               frameon=False, fontsize=LEGEND, handlelength=1.8, columnspacing=1.4, borderaxespad=0, borderpad=0)
        for shown_text, (_, text) in zip(legend.get_texts(), samples):
            shown_text.set(text=text, parse_math=False)
        if columns == 1 or legend_size(figure, legend)[0] <= width:
            return legend
        legend.remove()


def legend_size(figure, legend):
    """Width and height in points."""
    box = legend.get_window_extent(figure.canvas.get_renderer())
    return box.width * 72 / figure.dpi, box.height * 72 / figure.dpi
