"""Sizes in bytes, as they are shown."""


def size_text(size):
    """A size in bytes with its unit: 20 kB, 2.1 MB, 300 MB."""
    for unit in ("bytes", "kB", "MB"):
        if size < 1000:
            return shown(size, unit)
        size /= 1000
    return shown(size, "GB")


def shown(size, unit):
    return f"{size:.1f} {unit}" if unit in ("MB", "GB") and size < 10 else f"{size:.0f} {unit}"
