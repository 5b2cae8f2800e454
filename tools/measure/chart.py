"""Draws a bar chart as an SVG picture without a background, in colors that are readable on light and on dark pages."""
import collections
import html

# A bar: its label, its number, and whether it is the one that the picture is about.
Bar = collections.namedtuple("Bar", "label value is_main")

WIDTH, MARGIN, LABELS, NUMBERS = 720, 8, 190, 90
TITLE_HEIGHT, ROW_HEIGHT, BAR_HEIGHT, NOTE_HEIGHT = 40, 32, 20, 22
TEXT, MAIN, OTHER = "#7a7f87", "#3b82f6", "#9aa1ab"
FONT = "system-ui, -apple-system, 'Segoe UI', 'DejaVu Sans', sans-serif"


def figure(value):
    """Returns a number as a text of about two digits."""
    return f"{value:.1f}" if value >= 1 else f"{value:.2f}"


def text(x, y, content, size=14, anchor="start", weight="normal", fill=TEXT):
    """Returns a line of text."""
    style = f'font-size="{size}" text-anchor="{anchor}" font-weight="{weight}" fill="{fill}"'
    return f'<text x="{x}" y="{y}" {style}>{html.escape(content)}</text>'


def row(bar, at, longest):
    """Returns the label, the bar and the number of a row."""
    length = max(2, round((WIDTH - LABELS - NUMBERS) * bar.value / longest))
    fill, weight = (MAIN, "bold") if bar.is_main else (OTHER, "normal")
    middle = at + BAR_HEIGHT - 5
    return [
        text(LABELS - 12, middle, bar.label, anchor="end", weight=weight, fill=MAIN if bar.is_main else TEXT),
        f'<rect x="{LABELS}" y="{at}" width="{length}" height="{BAR_HEIGHT}" rx="3" fill="{fill}"/>',
        text(LABELS + length + 8, middle, figure(bar.value), weight=weight),
    ]


def bar_chart(title, bars, notes):
    """Returns the picture of some bars, with a title above them and lines of notes below."""
    longest, below = max(bar.value for bar in bars), TITLE_HEIGHT + ROW_HEIGHT * len(bars)
    height = below + NOTE_HEIGHT * len(notes) + MARGIN
    described = f"{title}: " + ", ".join(f"{bar.label} {figure(bar.value)}" for bar in bars)
    size = f'viewBox="0 0 {WIDTH} {height}" width="{WIDTH}" height="{height}"'
    return "\n".join([
        f'<svg xmlns="http://www.w3.org/2000/svg" {size} role="img" font-family="{FONT}">',
        f"<title>{html.escape(described)}</title>",
        text(MARGIN, 24, title, 16, weight="bold"),
        *(line for k, bar in enumerate(bars) for line in row(bar, TITLE_HEIGHT + ROW_HEIGHT * k, longest)),
        *(text(MARGIN, below + 16 + NOTE_HEIGHT * k, note, 12) for k, note in enumerate(notes)),
        "</svg>\n",
    ])
