"""A Markdown table whose columns also line up as plain text."""


def table(header, rows, texts=1):
    """The first columns, as many as texts says, are words and keep to the left; the others are numbers."""
    lines = [header, *rows]
    widths = [max(3, *(len(line[column]) for line in lines)) for column in range(len(header))]
    rule = ['-' * width if column < texts else '-' * (width - 1) + ':' for column, width in enumerate(widths)]
    for line in [header, rule, *rows]:
        cells = [cell.ljust(width) if column < texts else cell.rjust(width)
                 for column, (cell, width) in enumerate(zip(line, widths))]
        print('| ' + ' | '.join(cells) + ' |')
