"""The picture of when shuffles are due."""


def drawn(starts, ends):
    """A bar for the start and one for each shuffle, from its earliest to its latest time, and a scale in ms below."""
    bars = [("start", *starts)] + [(f"shuffle {k}", *both) for k, both in enumerate(ends, 1)]
    left, width, row, first, last = 90, 540, 20, starts[0], ends[-1][1]
    place = lambda time: left + width * (time - first) // (last - first)
    height = row * len(bars) + 30
    parts = []
    for i, (name, low, high) in enumerate(bars):
        color = "#888" if i == 0 else "#36c"
        parts.append(f'<text x="{left - 8}" y="{row * i + 19}" text-anchor="end">{name}</text>')
        parts.append(f'<rect x="{place(low)}" y="{row * i + 8}" width="{max(place(high) - place(low), 2)}" height="14" fill="{color}"><title>{low} to {high} ms</title></rect>')
    for i in range(5):
        time = first + (last - first) * i // 4
        parts.append(f'<line x1="{place(time)}" y1="4" x2="{place(time)}" y2="{height - 20}" stroke="#ccc"/>')
        parts.append(f'<text x="{place(time)}" y="{height - 6}" text-anchor="middle">{time}</text>')
    size = f'width="{left + width + 60}" height="{height}"'
    return "\n".join([f'<svg xmlns="http://www.w3.org/2000/svg" {size} font-family="sans-serif" font-size="12">',
                      '<rect width="100%" height="100%" fill="#fff"/>', *parts, "</svg>", ""])
