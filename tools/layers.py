"""Draws the crates in their layers, lowest at the bottom, with a line to each crate that one stands on and meets first."""
import crates as listed

COLOURS = {
    "base": "#d9d9d9",
    "languages": "#cfe2f3",
    "plans": "#d9ead3",
    "running": "#fff2cc",
    "watching": "#fce5cd",
    "debugging": "#f4cccc",
    "tools": "#d9d2e9",
    "command": "#d0e0e3",
    "tests": "#ffffff",
}
WIDTH, HEIGHT, ACROSS, BETWEEN = 118, 26, 12, 46
LEFT, TOP = 60, 60


def nearest(crate, below):
    """Returns the names of the crates that it stands on and no other one of those stands on."""
    direct = [it for it in crate.stands_on if it in below]
    return [it for it in direct if not any(it in below[other] for other in direct)]


def everything_below(crates):
    """Returns for each crate the names of all crates that it stands on."""
    below = {}
    for crate in crates:
        below[crate.name] = set()
        for it in crate.stands_on:
            if it in below:
                below[crate.name] |= {it} | below[it]
    return below


def places(crates, below):
    """Returns where the middle of each crate's box is, and the size of the picture: each box as near as may be to what it stands on."""
    at, rows = {}, range(1, max(it.layer for it in crates) + 1)
    most = max(sum(it.layer == row for it in crates) for row in rows)
    whole = most * (WIDTH + ACROSS)
    bottom = TOP + len(rows) * (HEIGHT + BETWEEN)

    def wish(crate):
        under = [at[it][0] for it in nearest(crate, below)]
        return sum(under) / len(under) if under else whole / 2

    for row in rows:
        these = [it for it in crates if it.layer == row]
        if row > 1:
            these.sort(key=wish)
        step = whole / len(these)
        for number, crate in enumerate(these):
            at[crate.name] = (LEFT + (number + 0.5) * step, bottom - row * (HEIGHT + BETWEEN) + BETWEEN)
    return at, LEFT + whole + 20, bottom + 20


def picture(crates):
    """Returns the picture as SVG."""
    below = everything_below(crates)
    at, width, height = places(crates, below)
    lines = [
        f'<svg xmlns="http://www.w3.org/2000/svg" viewBox="0 0 {width:.0f} {height:.0f}" font-family="sans-serif" font-size="12">',
        f'<rect width="{width:.0f}" height="{height:.0f}" fill="#ffffff"/>',
    ]
    for number, group in enumerate(listed.groups_of(crates)):
        x = LEFT + number * 110
        lines.append(f'<rect x="{x}" y="12" width="14" height="14" fill="{COLOURS[group]}" stroke="#666666"/>')
        lines.append(f'<text x="{x + 20}" y="24">{group}</text>')
    for crate in crates:
        x, y = at[crate.name]
        for it in nearest(crate, below):
            to, under = at[it]
            lines.append(f'<path d="M{x:.0f} {y + HEIGHT:.0f} L{to:.0f} {under:.0f}" stroke="#aaaaaa" fill="none"/>')
    for row in range(1, max(it.layer for it in crates) + 1):
        y = next(at[it.name][1] for it in crates if it.layer == row)
        lines.append(f'<text x="16" y="{y + 18:.0f}" fill="#666666">{row}</text>')
    for crate in crates:
        x, y = at[crate.name]
        fill = COLOURS[crate.group]
        lines.append(f'<rect x="{x - WIDTH / 2:.0f}" y="{y:.0f}" width="{WIDTH}" height="{HEIGHT}" rx="4" fill="{fill}" stroke="#666666"/>')
        lines.append(f'<text x="{x:.0f}" y="{y + 17:.0f}" text-anchor="middle">{crate.name}</text>')
    return "\n".join([*lines, "</svg>", ""])
