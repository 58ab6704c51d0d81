"""The list of what is reached, as lines of text."""


def name_of(item):
    return ", ".join(item.names) or item.lines[0][1].strip()


def count_of(items):
    return sum(len(item.lines) for item in items)


def place_of(item):
    first, last = item.first, max(number for number, _ in item.lines)
    return str(first) if first == last else "%d-%d" % (first, last)


def grouped(number):
    return format(number, ",")


def text_lines(item):
    for number, line in sorted(item.comments + item.lines):
        yield "    %5d  %s" % (number, line)


def item_lines(item, in_full):
    yield "  %-9s %3d  %s" % (place_of(item), len(item.lines), name_of(item))
    if in_full:
        yield from text_lines(item)
        yield ""


def file_lines(path, items, in_full):
    yield "%s: %d line%s" % (path, count_of(items), "" if count_of(items) == 1 else "s")
    for item in items:
        yield from item_lines(item, in_full)


def kit_lines(kit):
    yield "Words of the kit's library, by its modules:"
    for module in sorted(kit):
        yield "  %s: %s" % (module, " ".join(sorted(kit[module])))


def total_line(order):
    """The line that says how much there is to be believed."""
    items = [item for path in order.paths for item in order.items[path]]
    return "In all: %s lines in %d files" % (grouped(count_of(items)), len(order.paths))


def lines(order, kit, in_full):
    for path in order.paths:
        yield from file_lines(path, order.items[path], in_full)
    yield total_line(order)
    yield ""
    yield from kit_lines(kit)
