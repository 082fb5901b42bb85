"""Comma-separated values, and the values that cells stand for."""
import re


def read_csv(text, sep):
    """([(line, [cell])], [fault words]); faults carry their line."""
    rows, faults, i, line, n = [], [], 0, 1, len(text)
    if text.startswith("\ufeff"):
        i = 1
    while i < n:
        start, row = line, []
        while True:
            if i < n and text[i] == '"':
                open_line, out, i, closed = line, [], i + 1, False
                while i < n:
                    if text[i] == '"':
                        if text[i + 1:i + 2] == '"':
                            out.append('"')
                            i += 2
                            continue
                        i, closed = i + 1, True
                        break
                    if text[i] == "\n":
                        line += 1
                    out.append(text[i])
                    i += 1
                if not closed:
                    faults.append((open_line, "a quote is not closed"))
                elif i < n and text[i] not in sep + "\r\n":
                    faults.append((line, "something follows a closing quote"))
                    while i < n and text[i] not in sep + "\n":
                        i += 1
                row.append("".join(out))
            else:
                j = i
                while i < n and text[i] not in sep + "\n":
                    i += 1
                row.append(text[j:i].rstrip("\r"))
            if i < n and text[i] == sep:
                i += 1
                continue
            break
        if text[i:i + 1] == "\r":
            i += 1
        if text[i:i + 1] == "\n":
            i += 1
            line += 1
        if row != [""]:
            rows.append((start, row))
    return rows, faults


def cell_value(s, as_text):
    if not as_text and re.fullmatch(r"0|-?[1-9][0-9]*", s) and -2 ** 63 <= int(s) < 2 ** 63:
        return (0, int(s))
    return (1, s.encode())


def csv_cell(s):
    return '"' + s.replace('"', '""') + '"' if re.search(r'[",\r\n]', s) or s != s.strip() or s == "" else s
