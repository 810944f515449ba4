"""A second writer of cells: it knows nothing of the library's code, and is made from docs/SCOPE.md alone."""

BOUNDS, FACTORS, INTERVALS = (50, 70, 75, 80, 90), (1, 2, 3, 4, 6), (300, 30, 10)


def grid(level, latitude):
    edge = latitude if latitude >= 0 else -(latitude + 1)
    factor = next(f for b, f in zip(BOUNDS, FACTORS) if edge < b)
    north = INTERVALS[level]
    return north, north * factor, 36000 // (north * factor) + 1, 36000 // north + 1


def angle(value, digits, letters, zeros):
    return f"{abs(value):0{digits}d}{zeros}{letters[value < 0]}"


def accuracy(metres):
    return "NA  " if metres is None else f"{metres:04d}"


def headers(level, latitude, longitude, partial=0, security="U", edition=1, version="A", datum="E96", accuracies=(None,) * 5):
    north, east, columns, posts = grid(level, latitude)
    text = bytearray(b" " * 3428)

    def put(record, position, what):
        at = {"UHL": 0, "DSI": 80, "ACC": 728}[record] + position - 1
        text[at:at + len(what)] = what.encode("ascii")

    put("UHL", 1, "UHL1" + angle(longitude, 3, "EW", "0000") + angle(latitude, 3, "NS", "0000"))
    put("UHL", 21, f"{east:04d}{north:04d}" + accuracy(accuracies[0]) + f"{security}  ")
    put("UHL", 48, f"{columns:04d}{posts:04d}0")
    put("DSI", 1, f"DSI{security}")
    put("DSI", 60, f"DTED{level}" + "0" * 15)
    put("DSI", 88, f"{edition:02d}{version}" + "0" * 12)
    put("DSI", 127, "PRF89020B" + "00" + "0005" + datum + "WGS84")
    put("DSI", 160, "0000")
    put("DSI", 186, angle(latitude, 2, "NS", "0000.0") + angle(longitude, 3, "EW", "0000.0"))
    for at, (a, b) in zip((205, 220, 235, 250), ((0, 0), (1, 0), (1, 1), (0, 1))):
        put("DSI", at, angle(latitude + a, 2, "NS", "0000") + angle(longitude + b, 3, "EW", "0000"))
    put("DSI", 265, f"0000000.0{north:04d}{east:04d}{posts:04d}{columns:04d}{partial:02d}")
    put("ACC", 1, "ACC" + "".join(accuracy(a) for a in accuracies[1:]))
    put("ACC", 56, "00")
    return text


def preamble(number):
    return bytes([170]) + number.to_bytes(3, "big") + number.to_bytes(2, "big") + bytes(2)


def words(heights):
    return b"".join((h if h >= 0 else 0x8000 - h).to_bytes(2, "big") for h in heights)


def column(number, heights):
    body = preamble(number) + words(heights)
    return body + sum(body).to_bytes(4, "big")


def with_byte(data, at, value):
    return data[:at] + bytes([value]) + data[at + 1:]


def with_texts(data, text, *places):
    """One text at each of these places."""
    for at in places:
        data = data[:at] + text.encode("ascii") + data[at + len(text):]
    return data


def with_word(data, size, k, post, word):
    """One word of a column replaced, and its checksum mended."""
    start = 3428 + k * size
    body = bytearray(data[start:start + size - 4])
    body[8 + 2 * post:10 + 2 * post] = word.to_bytes(2, "big")
    return data[:start] + bytes(body) + sum(body).to_bytes(4, "big") + data[start + size:]


def repeated(level, latitude, longitude, partial=0):
    """A cell whose columns differ in their numbers alone: quickly made, at any level."""
    _, _, columns, posts = grid(level, latitude)
    same = words(37 * p % 9400 - 400 for p in range(posts))
    total = sum(same)
    cell = [bytes(headers(level, latitude, longitude, partial))]
    for k in range(columns):
        front = preamble(k)
        cell += (front, same, (sum(front) + total).to_bytes(4, "big"))
    return b"".join(cell)
