# show.py COUNT WORD1 .. WORDCOUNT -- ARGUMENTS: shows answer records to a person. The COUNT words are the command that runs the
# proved program, which turns each record into the first part of its line; the arguments are those of `show`.
import os
import signal
import sys

ENDING = [signal.SIGINT, signal.SIGTERM, signal.SIGHUP]
ENDING = [ending for ending in ENDING if signal.getsignal(ending) != signal.SIG_IGN]
for ending in ENDING:
    signal.signal(ending, lambda ending, frame: os._exit(128 + ending))

import binascii
import errno
import functools
import html
import re
import select
import stat
import struct
import subprocess
import zlib

USAGE = 'usage: show [--words FILE --lot DIR] [--problems] [--strips] [--html PAGE] [RECORDS..]'
HELP = USAGE + '''
       show --help | --version

Shows answer records to a person: a line for each record, then how many there are of each verdict.
RECORDS are files, one after the other; - is standard input, and so is none at all.

  --words FILE  the words that were answered, and
  --lot DIR     the folder of their sheet.bin: says too which places were lost, settled and left open,
                and what each pattern of losses costs
  --problems    only records that are not unique
  --strips      the symbols too
  --html PAGE   writes a page with a picture of the lot
'''

RECORD = 1552
HEAD = 16
STRIP = 512
SHEET_RECORD = 68
BATCH = 32     # records that are asked for at once: their lines fit in one page of a pipe
LINE = 200     # more than the longest line of the proved program
WIDTH = 100    # of a line
INDENT = ' ' * 8
TOLD = 10      # errors of one kind that are told
LISTED = 50    # patterns of losses
PROBLEMS = 2000    # problem records on the page
UNFOLDED = 20  # rows of a table on the page
BAND = 1000    # words in one band of the picture

VERDICTS = ['unique', 'ambiguous', 'inconsistent']
REFUSALS = {
    11: 'the sheet has a wrong length',
    12: 'a record of the sheet breaks a rule',
    13: 'the check length or choice.bin is wrong',
    14: 'the word is cut off',
    15: 'a symbol is none of 0, 1 and 2',
    16: 'the output is too short',
    17: 'the ceiling is above 255',
    18: 'more unknowns than the ceiling allows',
    19: 'the sheet has no free position',
}
NOT_LOOKED_AT = (11, 12, 13, 19)
NO_ANSWER = "with a code that is no answer's"
NOT_ITS_WORD = 'that are not the answers to their words'
DIFFERENT = 'with the same losses and different answers'

# a byte as 1 where it is a 2, else as 0
TWOS = bytes(49 if symbol == 2 else 48 for symbol in range(256))
# a symbol as a digit
DIGITS = bytes(48 + symbol if symbol < 10 else 63 for symbol in range(256))


class Stop(BaseException):
    """Ends the run with a status and perhaps a message."""

    def __init__(self, status, message=''):
        self.status = status
        self.message = message


def stopped(ending, frame):
    raise Stop(128 + ending)


def reason(error):
    return os.strerror(error.errno) if error.errno else str(error)


def tell(line):
    """Writes a line to standard error; what would disturb a terminal becomes a question mark."""
    line = re.sub('[\0-\x1f\x7f]', '?', line)
    try:
        os.write(2, os.fsencode(line + '\n'))
    except OSError:
        pass


class Output:
    """Standard output, and what is told on standard error behind it."""

    def __init__(self, closed):
        self.closed = closed
        self.text = []
        self.status = 0
        self.told = []    # for the page
        self.counts = {}

    def add(self, text):
        self.text.append(text)

    def flush(self):
        data = memoryview(''.join(self.text).encode('ascii'))
        self.text = []
        try:
            if data and self.closed:
                raise OSError(errno.EBADF, '')
            while data:
                try:
                    data = data[os.write(1, data):]
                except BlockingIOError:
                    select.select([], [1], [])
        except BrokenPipeError:
            raise Stop(141)
        except OSError as error:
            raise Stop(1, 'cannot write: ' + reason(error))

    def error(self, message):
        self.flush()
        self.status = 1
        self.told.append(message)
        tell('show: ' + message)

    def some(self, kind, message):
        """An error of a kind that may be frequent: only the first are told."""
        self.counts[kind] = self.counts.get(kind, 0) + 1
        if self.counts[kind] <= TOLD:
            self.error(message)

    def rest(self):
        for kind, count in self.counts.items():
            if count > TOLD:
                self.error('.. and %d more %s' % (count - TOLD, kind))


class Lines:
    """The proved program: records in, a line for each out."""

    def __init__(self, command):
        try:
            self.process = subprocess.Popen(command, bufsize=0, stdin=subprocess.PIPE, stdout=subprocess.PIPE)
        except OSError as error:
            raise Stop(1, '%s: %s' % (command[0], reason(error)))
        self.into = self.process.stdin.fileno()
        self.out = self.process.stdout.fileno()
        os.set_blocking(self.into, False)

    def of(self, records):
        codes = [number(records, at) for at in range(0, len(records), RECORD)]
        data = memoryview(records)
        text = b''
        while text.count(b'\n') < len(codes) and len(text) <= LINE * len(codes):
            readable, writable, _ = select.select([self.out], [self.into] if data else [], [])
            try:
                if writable:
                    data = data[os.write(self.into, data):]
            except OSError:
                raise Stop(1, 'the program that makes the lines ended early')
            if readable:
                more = os.read(self.out, 65536)
                if not more:
                    raise Stop(1, 'the program that makes the lines ended early')
                text += more
        lines = text.decode('latin-1').split('\n')
        if data or lines.pop() or not all(map(is_line, lines, codes)) or len(lines) > len(codes):
            raise Stop(1, 'the program that makes the lines gave something else')
        return lines

    def end(self):
        self.process.stdin.close()
        if os.read(self.out, 1):
            raise Stop(1, 'the program that makes the lines gave something else')
        status = self.process.wait()
        if status:
            raise Stop(1, 'the program that makes the lines ended with status %d' % status)


def is_line(line, code):
    """Whether a line can be that of a record with this code."""
    if code < len(VERDICTS):
        start = VERDICTS[code] + ' '
    elif code in REFUSALS:
        start = 'refused %d ' % code
    else:
        start = "code %d is no answer's" % code
    return line.startswith(start) and len(line) < LINE and re.match('[ -~]*$', line)


class Words:
    """The words, one after the other."""

    def __init__(self, name, length, output):
        self.name = name
        self.length = length
        self.output = output
        self.count = 0
        self.broken = False
        try:
            self.file = open(name, 'rb')
        except OSError as error:
            self.fail(error)

    def fail(self, error):
        self.file = None
        self.broken = True
        self.output.error('%s: %s' % (self.name, reason(error)))

    def read(self, count):
        try:
            found = self.file.read(count * self.length) if self.file else b''
        except OSError as error:
            self.fail(error)
            found = b''
        self.count += (len(found) + self.length - 1) // self.length
        return found

    def next(self):
        """The next word, which may be cut off; None if there is none."""
        return self.read(1) or None

    def end(self, records):
        while self.read(4096):
            pass
        if self.count != records and not self.broken:
            self.output.error('%d words, %d records' % (self.count, records))


def number(record, at):
    return record[at] + 256 * record[at + 1]


def strip(record, at):
    return record[HEAD + STRIP * at:HEAD + STRIP * (at + 1)]


def until_end(strip):
    return strip.split(b'\xff', 1)[0]


def is_answer(code, place, record, word, length):
    """Whether a record can be the answer to its word."""
    whole = len(word) == length
    good = whole and not word.strip(b'\0\1\2')
    if code == 0 or code == 1:
        settled = strip(record, 0)
        for at in range(3):
            if len(until_end(strip(record, at))) != length or strip(record, at)[length:].strip(b'\xff'):
                return False
        symbols = b'\0\1' if code == 0 else b'\0\1\2'
        return (good and not settled[:length].translate(None, symbols) and (code == 0 or 2 in settled)
                and all(read == 2 or read == known for read, known in zip(word, settled)))
    if record[HEAD:].strip(b'\xff') and (code == 2 or code in REFUSALS):
        return False
    if code == 2 or code == 18:
        return good
    if code == 14:
        return not whole
    if code == 15:
        return whole and place < length and word[place] > 2 and not word[:place].translate(None, b'\0\1\2')
    return True


@functools.lru_cache(maxsize=1024)
def ranges(bits):
    """The places of the ones, neighbours as a range."""
    runs = [run.span() for run in re.finditer(b'1+', bits)]
    return ', '.join('%d-%d' % (a, b - 1) if b - a > 1 else str(a) for a, b in runs) or 'none'


def places(code, settled, word):
    """What is to be said of places; nothing, perhaps."""
    still = settled.translate(TWOS)
    if word is None:
        return 'open ' + ranges(still) if code == 1 else ''
    if code in NOT_LOOKED_AT:
        return ''
    lost = word.translate(TWOS)
    if code == 1:
        known = bytes(49 if a > b else 48 for a, b in zip(lost, still))
        return 'lost %s; settled %s; open %s' % (ranges(lost), ranges(known), ranges(still))
    if b'1' not in lost:
        return 'nothing lost'
    return 'lost ' + ranges(lost) + ('; all settled' if code == 0 else '')


def wrap(line):
    """A line in as many as it takes; not broken at the spaces that it starts with, nor behind its number."""
    rows = []
    while len(line) > WIDTH:
        cut = line.rfind(' ', len(INDENT), WIDTH + 1)
        if cut < 0:
            cut = line.find(' ', WIDTH)
        if cut < 0:
            break
        rows.append(line[:cut].rstrip(' '))
        line = INDENT + line[cut:].lstrip(' ')
    return '\n'.join(rows + [line]) + '\n'


def strips(code, record):
    names = [['word'], ['settled', 'first', 'last']][code] if code < 2 else []
    rows = ((name, until_end(strip(record, at)).translate(DIGITS).decode()) for at, name in enumerate(names))
    return ''.join('%s%-9s%s\n' % (INDENT, name, digits) for name, digits in rows)


class Pattern:
    """What became of the words that lost the same places."""

    __slots__ = ['words', 'inconsistent', 'first', 'shared', 'ruled', 'ruling']

    def __init__(self):
        self.words = 0
        self.inconsistent = 0
        self.first = 0          # its first record,
        self.shared = None      # and what all others share with it
        self.ruled = 0          # its first record that is not inconsistent,
        self.ruling = None      # and what all of these share

    def add(self, at, code, g, m, d, still):
        """Counts a record; answers an earlier one that it cannot stand beside, or 0."""
        self.words += 1
        clash = 0
        shared = (code == 18, g, m)
        ruling = (code, g if code == 18 else d, still)
        if self.shared is None:
            self.first, self.shared = at, shared
        elif self.shared != shared:
            clash = self.first
        if code == 2:
            self.inconsistent += 1
        elif self.ruling is None:
            self.ruled, self.ruling = at, ruling
        elif self.ruling != ruling:
            clash = clash or self.ruled
        return clash

    def cost(self):
        if self.ruling is None:
            return 'inconsistent'
        code, count, _ = self.ruling
        text = {0: 'unique', 1: 'ambiguous of d %d' % count, 18: 'over the ceiling, g %d' % count}[code]
        return text + (', %d inconsistent' % self.inconsistent if self.inconsistent else '')


class Patterns:
    """The table of patterns of losses. A set of places is a number of N bits, place 0 the highest."""

    def __init__(self, length):
        self.length = length
        self.table = {}

    def add(self, at, numbers, settled, word):
        code, g, m, d = numbers
        key = int(word.ljust(self.length, b'\0').translate(TWOS), 2)
        still = int(settled.translate(TWOS), 2) if code == 1 else 0
        return self.table.setdefault(key, Pattern()).add(at, code, g, m, d, still)

    def bits(self, key):
        return format(key, '0%db' % self.length).encode()

    def listed(self):
        """Each pattern with its lost and its open places: the most frequent first, then by the list of places."""
        def order(item):
            # without the zeros at the end, a one before a zero: that is the order of the lists
            return -item[1].words, self.bits(item[0]).rstrip(b'0').translate(bytes.maketrans(b'01', b'10'))

        for key, pattern in sorted(self.table.items(), key=order):
            still = pattern.ruling[2] if pattern.ruling else 0
            yield pattern, self.bits(key), format(still, '0%db' % STRIP).encode()


def many(count, noun):
    return '%d %s%s' % (count, noun, '' if count == 1 else 's')


def lost_and_open(lost, still):
    return ranges(lost) + ('; open ' + ranges(still) if b'1' in still else '')


def costs(patterns):
    text = ['   words  what the loss costs\n']
    left = words = 0
    for at, (pattern, lost, still) in enumerate(patterns.listed()):
        if at >= LISTED:
            left += 1
            words += pattern.words
            continue
        text.append(wrap('%8d  %-24s  lost %s' % (pattern.words, pattern.cost(), lost_and_open(lost, still))))
    if left:
        text.append('.. and %s, %s\n' % (many(left, 'more pattern'), many(words, 'word')))
    return ''.join(text)


def tally(codes):
    """The counts, each with its name and perhaps a meaning."""
    for code, name in enumerate(VERDICTS):
        yield name, codes.get(code, 0), ''
    refused = [code for code in sorted(codes) if code in REFUSALS]
    yield 'refused', sum(codes[code] for code in refused), ''
    for code in refused:
        yield '  %d' % code, codes[code], REFUSALS[code]
    others = sum(count for code, count in codes.items() if code > 2 and code not in REFUSALS)
    if others:
        yield 'no answer', others, ''
    yield 'records', sum(codes.values()), ''


def summary(codes):
    return ''.join(('%-14s%8d  %s' % row).rstrip() + '\n' for row in tally(codes))


# What a pixel of the picture says, with its colour: the first is half transparent, so that it suits light and dark pages.
READ, SETTLED, OPEN, WRONG, WRONG_LOST, REFUSED, NOTHING, OUTSIDE = range(8)
COLOURS = [
    (128, 138, 150, 56), (106, 176, 236, 255), (200, 62, 0, 255), (240, 206, 60, 255),
    (82, 62, 0, 255), (126, 132, 140, 255), (214, 120, 176, 255), (0, 0, 0, 0),
]
KINDS = [
    'read', 'lost and settled', 'lost and open', 'read, but the word contradicts itself', 'lost, and the word contradicts itself',
    'the word was refused', 'no answer', '',
]
LEGEND = [
    'read', 'lost and settled', 'lost and open', 'the word contradicts itself', 'lost in such a word', 'refused', 'no answer',
]
# where the words are not given
KNOWN = ['known', '', 'open', 'the word contradicts itself', '', 'the word was refused', 'no answer', '']


def mapped(two, other, end=None):
    """A table that turns a symbol into a pixel."""
    return bytes(two if symbol == 2 else end if symbol == 255 and end is not None else other for symbol in range(256))


UNIQUE_PIXELS = mapped(SETTLED, READ)
WRONG_PIXELS = mapped(WRONG_LOST, WRONG)
KNOWN_PIXELS = mapped(OPEN, READ, OUTSIDE)


def pixels(code, settled, word, width):
    """The row of a word in the picture."""
    if code == 0 and word:
        row = word.translate(UNIQUE_PIXELS)
    elif code == 1 and word:
        row = bytes(OPEN if known == 2 else SETTLED if read == 2 else READ for read, known in zip(word, settled))
    elif code == 2 and word:
        row = word.translate(WRONG_PIXELS)
    elif code == 0 or code == 1:
        row = settled.translate(KNOWN_PIXELS)
    else:
        row = bytes([WRONG if code == 2 else REFUSED if code in REFUSALS else NOTHING]) * width
    return row[:width].ljust(width, bytes([OUTSIDE]))


def png(rows, width):
    """A picture with four bits a pixel."""
    def chunk(kind, data):
        return struct.pack('>I', len(data)) + kind + data + struct.pack('>I', zlib.crc32(kind + data))

    packed = (bytes.fromhex(row.hex()[1::2] + '0' * (width % 2)) for row in rows)
    return b''.join([
        b'\x89PNG\r\n\x1a\n',
        chunk(b'IHDR', struct.pack('>IIBBBBB', width, len(rows), 4, 3, 0, 0, 0)),
        chunk(b'PLTE', bytes(part for colour in COLOURS for part in colour[:3])),
        chunk(b'tRNS', bytes(colour[3] for colour in COLOURS)),
        chunk(b'IDAT', zlib.compress(b''.join(b'\0' + row for row in packed), 9)),
        chunk(b'IEND', b''),
    ])


STYLE = '''
:root { color-scheme: light dark; --page: #fafaf8; --text: #20252b; --soft: #616a74; --line: #e0e2e4; --card: #fff }
@media (prefers-color-scheme: dark) {
  :root { --page: #15181b; --text: #e3e6e9; --soft: #98a1ab; --line: #2d3339; --card: #1c2024 }
}
body { margin: 0; background: var(--page); color: var(--text); font: 15px/1.5 system-ui, sans-serif }
main { max-width: 1104px; margin: 0 auto; padding: 32px 24px 96px }
h1 { font-size: 26px; font-weight: 600; margin: 0 }
h2 { font-size: 18px; font-weight: 600; margin: 40px 0 8px }
p { margin: 4px 0 12px; max-width: 75ch }
.soft { color: var(--soft) }
.cards { display: flex; flex-wrap: wrap; gap: 12px; margin: 20px 0 }
.cards div { background: var(--card); border: 1px solid var(--line); border-radius: 8px; padding: 10px 18px; min-width: 92px }
.cards b { display: block; font-size: 24px; font-weight: 600; font-variant-numeric: tabular-nums }
.wrong { border-left: 4px solid #c83e00; padding: 2px 0 2px 14px; margin: 20px 0 }
table { border-collapse: collapse; width: 100%; font-variant-numeric: tabular-nums; font-size: 14px }
th { text-align: left; font-weight: 600; color: var(--soft) }
th, td { padding: 5px 16px 5px 0; border-bottom: 1px solid var(--line); vertical-align: top }
td.number, th.number { text-align: right; white-space: nowrap }
td.short, td i { white-space: nowrap; font-style: normal }
td.answer { white-space: pre-wrap; min-width: 280px; font: 13px/1.6 ui-monospace, monospace }
table.small { width: auto }
summary { cursor: pointer; padding: 8px 0; color: var(--soft) }
.legend { display: flex; flex-wrap: wrap; gap: 6px 22px; margin: 8px 0 16px; padding: 0; list-style: none; font-size: 14px }
.legend span { display: inline-block; width: 14px; height: 14px; border-radius: 3px; margin-right: 7px; vertical-align: -2px;
  border: 1px solid rgb(128 128 128 / .4) }
.frame { overflow: auto; max-height: 85vh; border: 1px solid var(--line); border-radius: 8px }
.picture { padding: 0 8px 8px 64px; font-size: 11px; color: var(--soft); font-variant-numeric: tabular-nums }
.top { position: sticky; top: 0; height: 24px; background: var(--page); z-index: 1; margin-left: -64px;
  border-left: 64px solid var(--page) }
.top span { position: absolute; bottom: 3px; transform: translateX(-50%) }
.band { position: relative; overflow: hidden; margin-left: -56px; padding-left: 56px }
.band pre { position: absolute; left: 0; width: 48px; margin: 0; font: inherit; text-align: right; white-space: pre }
.band img { display: block; image-rendering: pixelated; cursor: crosshair; background: var(--card) }
#tip { position: fixed; z-index: 2; padding: 3px 9px; border-radius: 6px; background: #20252b; color: #fff; font-size: 13px;
  pointer-events: none; white-space: nowrap; box-shadow: 0 2px 8px rgb(0 0 0 / .3) }
'''

# Reads the pixel under the pointer from the picture and says what it is.
SCRIPT = '''
const pen = Object.assign(document.createElement("canvas"), {width: 1, height: 1}).getContext("2d", {willReadFrequently: true});
const tip = document.getElementById("tip");
for (const band of document.querySelectorAll("img[data-first]")) {
  band.onpointermove = event => {
    const box = band.getBoundingClientRect();
    const at = (place, size, count) => Math.max(0, Math.min(count - 1, Math.floor(place / size * count)));
    const x = at(event.clientX - box.left, box.width, band.naturalWidth);
    const y = at(event.clientY - box.top, box.height, band.naturalHeight);
    pen.clearRect(0, 0, 1, 1);
    pen.drawImage(band, x, y, 1, 1, 0, 0, 1, 1);
    const pixel = pen.getImageData(0, 0, 1, 1).data;
    const far = colour => colour.reduce((sum, part, i) => sum + (part - pixel[i]) ** 2, 0);
    const kind = COLOURS.map(far).reduce((best, here, i, all) => here < all[best] ? i : best, 0);
    tip.textContent = `word ${+band.dataset.first + y}, cartridge ${x}` + (KINDS[kind] && ": " + KINDS[kind]);
    tip.hidden = false;
    tip.style.left = Math.min(event.clientX + 14, innerWidth - tip.offsetWidth - 8) + "px";
    tip.style.top = Math.min(event.clientY + 18, innerHeight - tip.offsetHeight - 8) + "px";
  };
  band.onpointerleave = () => tip.hidden = true;
}
'''


def nice(least):
    """The smallest of 1, 2, 5, 10, 20 .. that is not below this."""
    size = 1
    while True:
        for step in size, 2 * size, 5 * size:
            if step >= least:
                return step
        size *= 10


def safe(text):
    """Text for a page, whatever bytes it came from."""
    return html.escape(os.fsencode(str(text)).decode('utf-8', 'replace'))


def grouped(count):
    return '{:,}'.format(count)


def table(heads, rows, kind=''):
    """A table. The sign behind a head tells the kind of its column: # numbers, . never broken, : answers. In the others
    a range of places is not broken."""
    classes = [{'#': ' class="number"', '.': ' class="short"', ':': ' class="answer"'}.get(head[-1:], '') for head in heads]
    yield '<table%s>\n<thead><tr>' % kind
    yield ''.join('<th%s>%s</th>' % (c, head.rstrip('#.:')) for head, c in zip(heads, classes)) + '</tr></thead>\n<tbody>\n'
    for row in rows:
        cells = (safe(cell) if c else re.sub('[0-9]+-[0-9]+', r'<i>\g<0></i>', safe(cell)) for cell, c in zip(row, classes))
        yield '<tr>' + ''.join('<td%s>%s</td>' % (c, cell) for cell, c in zip(cells, classes)) + '</tr>\n'
    yield '</tbody>\n</table>\n'


def long_table(heads, rows, noun):
    """A table whose rows behind the first are folded away."""
    yield from table(heads, rows[:UNFOLDED])
    if rows[UNFOLDED:]:
        yield '<details><summary>%s</summary>\n' % many(len(rows) - UNFOLDED, 'more ' + noun)
        yield from table(heads, rows[UNFOLDED:])
        yield '</details>\n'


class Page:
    """The page, written beside its place and put there when it is whole."""

    def __init__(self, name, lot, words):
        self.name = name
        self.lot = lot
        self.known = words is None
        self.width = STRIP if words is None else words.length
        self.seen = 0          # the longest strip
        self.rows = []         # of the band that is being drawn
        self.bands = []        # of each, its bytes in the file of pictures and its words
        self.counts = [0] * len(KINDS)
        self.problems = []
        self.left = 0          # problems without a place on the page
        self.place = os.path.realpath(name)
        self.room = '%s.%s.new' % (self.place, os.urandom(6).hex())
        self.drawn = self.file = None

    def open(self):
        mode = None
        if os.path.lexists(self.place):
            mode = os.stat(self.place).st_mode
            if stat.S_ISDIR(mode):
                raise OSError(errno.EISDIR, '')
            if not stat.S_ISREG(mode):
                raise OSError('is no regular file')
        # the pictures: a file without a name
        self.drawn = self.fresh()
        os.unlink(self.room)
        self.file = self.fresh()
        if mode is not None:
            os.fchmod(self.file.fileno(), stat.S_IMODE(mode))

    def fresh(self):
        return os.fdopen(os.open(self.room, os.O_RDWR | os.O_CREAT | os.O_EXCL, 0o666), 'w+b')

    def drop(self):
        """Leaves nothing behind."""
        for file in self.drawn, self.file:
            try:
                file and file.close()
            except OSError:
                pass
        try:
            self.file and os.unlink(self.room)
        except OSError:
            pass

    def add(self, at, code, line, about, settled, word):
        row = pixels(code, settled, word, self.width)
        if self.known:
            self.seen = max(self.seen, len(until_end(settled)) if code in (0, 1) else 0)
        else:
            self.seen = self.width
        for kind in range(len(KINDS)):
            self.counts[kind] += row.count(kind)
        self.rows.append(row)
        if len(self.rows) == BAND:
            self.band()
        if code != 0:
            if len(self.problems) < PROBLEMS:
                self.problems.append((at, line, about))
            else:
                self.left += 1

    def band(self):
        if self.rows:
            data = png(self.rows, self.width)
            self.bands.append((len(data), len(self.rows)))
            self.drawn.write(data)
            self.rows = []

    def text(self, codes, patterns, names, told):
        """The page, piece by piece."""
        title = safe('Answers of ' + self.lot if self.lot else 'Answers')
        total = sum(codes.values())
        yield '<!DOCTYPE html>\n<html lang="en">\n<head>\n<meta charset="utf-8">\n'
        yield '<meta name="viewport" content="width=device-width">\n<title>%s</title>\n' % title
        yield '<style>%s</style>\n</head>\n<body>\n<main>\n<h1>%s</h1>\n<p class="soft">' % (STYLE, title)
        yield 'Records from ' + ', '.join(map(safe, names))
        yield '</p>\n' if self.known else '; %s</p>\n' % many(self.width, 'cartridge')
        yield '<div class="cards">\n'
        counts = list(tally(codes))
        for name, count, meaning in counts:
            if not meaning:
                yield '<div><b>%s</b>%s</div>\n' % (grouped(count), name)
        yield '</div>\n'
        refused = [(name.strip(), meaning, grouped(count)) for name, count, meaning in counts if meaning]
        if refused:
            yield from table(['refused', '', 'records#'], refused, ' class="small"')
        if told:
            yield '<div class="wrong">\n' + ''.join('<p>%s</p>\n' % safe(message) for message in told) + '</div>\n'
        yield '<h2>The lot</h2>\n'
        yield from self.picture()
        if patterns:
            yield '<h2>What each loss costs</h2>\n<p class="soft">Words with the same losses share their answer, but for '
            yield 'those that contradict themselves.</p>\n'
            rows = [(grouped(pattern.words), pattern.cost(), lost.count(b'1'), lost_and_open(lost, still))
                    for pattern, lost, still in patterns.listed()]
            yield from long_table(['words#', 'what the loss costs.', 'lost#', 'places'], rows, 'pattern')
        yield '<h2>Problems</h2>\n'
        if self.problems:
            yield from long_table(['record#', 'answer:', 'places'], self.problems, 'record')
        else:
            yield '<p>None: every record is unique.</p>\n' if total else '<p>No record came in.</p>\n'
        if self.left:
            yield '<p>.. and %s that are not unique.</p>\n' % many(self.left, 'more record')
        yield '</main>\n<div id="tip" hidden></div>\n<script>\nconst COLOURS = %s;\n' % [list(colour) for colour in COLOURS]
        yield 'const KINDS = %s;%s</script>\n</body>\n</html>\n' % (KNOWN if self.known else KINDS, SCRIPT)

    def legend(self):
        # whole rows are counted as words
        words = {kind: self.counts[kind] // self.width for kind in (REFUSED, NOTHING)}
        words[WRONG] = (self.counts[WRONG] + self.counts[WRONG_LOST]) // self.width
        yield '<ul class="legend">\n'
        for kind, name in enumerate(KNOWN[:OUTSIDE] if self.known else LEGEND):
            count = words.get(kind, self.counts[kind])
            if count or name and kind <= OPEN:
                r, g, b, a = COLOURS[kind]
                colour = 'rgb(%d %d %d / %.2f)' % (r, g, b, a / 255)
                noun = 'word' if kind in words else 'symbol'
                yield '<li><span style="background:%s"></span>%s: %s %s%s</li>\n' % (
                    colour, name, grouped(count), noun, '' if count == 1 else 's')
        yield '</ul>\n'

    def picture(self):
        self.band()
        if not self.bands:
            return
        if not self.seen:
            yield '<p>No record has a strip, so the number of cartridges is not known.</p>\n'
            return
        yield '<p class="soft">A row for each word, a column for each cartridge.</p>\n'
        yield from self.legend()
        total = sum(count for _, count in self.bands)
        across = max(2, min(16, 1024 // self.seen))
        down = max(2, min(16, 4000 // total))
        step = nice(34 / across)
        yield '<div class="frame">\n<div class="picture" style="width:%dpx">\n<div class="top">' % (across * self.seen)
        for place in range(0, self.seen, step):
            yield '<span style="left:%gpx">%d</span>' % (across * (place + .5), place)
        yield '</div>\n'
        step = nice(15 / down)
        first = 1
        self.drawn.seek(0)
        for size, count in self.bands:
            label = -(-first // step) * step
            labels = '\n'.join(map(str, range(label, first + count, step)))
            top = down * (label - first + .5 - step / 2)
            yield '<div class="band" style="height:%dpx">' % (down * count)
            yield '<pre style="top:%gpx;line-height:%dpx">%s</pre>' % (top, down * step, labels)
            yield '<img data-first="%d" width="%d" height="%d" alt="words %d to %d" src="data:image/png;base64,' % (
                first, across * self.width, down * count, first, first + count - 1)
            yield binascii.b2a_base64(self.drawn.read(size), newline=False).decode()
            yield '"></div>\n'
            first += count
        yield '</div>\n</div>\n'

    def write(self, *about):
        for piece in self.text(*about):
            self.file.write(piece.encode('utf-8'))
        self.file.flush()
        os.fsync(self.file.fileno())
        self.file.close()
        os.rename(self.room, self.place)
        self.file = None


class Options:
    """What the arguments ask for."""

    def __init__(self, arguments):
        self.problems = self.strips = False
        self.words = self.lot = self.html = None
        self.records = []
        arguments = list(arguments)
        while arguments:
            argument = arguments.pop(0)
            name, equals, value = argument.partition('=')
            if argument == '--':
                self.records += arguments
                break
            if argument == '--help':
                raise Stop(0, HELP)
            if not argument.startswith('-') or argument == '-':
                self.records.append(argument)
            elif name in ('--words', '--lot', '--html'):
                if not equals and arguments and not arguments[0].startswith('-'):
                    value = arguments.pop(0)
                if not value:
                    raise Stop(2, '%s needs a value' % name)
                if getattr(self, name[2:]) is not None:
                    raise Stop(2, '%s is given twice' % name)
                setattr(self, name[2:], value)
            elif argument in ('--problems', '--strips'):
                setattr(self, name[2:], True)
            else:
                raise Stop(2, '%s is no option' % argument)
        if (self.words is None) != (self.lot is None):
            raise Stop(2, '--words and --lot go together')
        self.records = self.records or ['-']


def length_of(lot):
    """N, by the length of a lot's sheet."""
    name = os.path.join(lot, 'sheet.bin')
    try:
        with open(name, 'rb') as file:
            size = len(file.read(SHEET_RECORD * STRIP + 1))
    except OSError as error:
        raise Stop(2, '%s: %s' % (name, reason(error)))
    for exponent in range(10):
        if size == SHEET_RECORD << exponent:
            return 1 << exponent
    raise Stop(2, '%s: its length is not 68 N for N = 1, 2, 4 .. 512' % name)


def some_of(file, size):
    """What can be read, at most so much; nothing at the end."""
    data = file.read(size)
    while data is None:
        select.select([file], [], [])
        data = file.read(size)
    return data


def title_of(name):
    return 'standard input' if name == '-' else name


class Show:
    """One run."""

    def __init__(self, command, options, closed):
        self.options = options
        self.closed = closed
        self.output = Output(1 in closed)
        self.words = self.patterns = self.page = None
        self.at = 0
        self.codes = {}
        if options.lot is not None:
            length = length_of(options.lot)
            self.patterns = Patterns(length)
            self.words = Words(options.words, length, self.output)
        self.lines = Lines(command)

    def paged(self, act):
        """Does something with the page; if that fails, there will be none."""
        try:
            act()
        except OSError as error:
            self.drop()
            self.output.error('%s: %s' % (self.options.html, reason(error)))

    def drop(self):
        if self.page:
            self.page.drop()
            self.page = None

    def one(self, record, line):
        self.at += 1
        code, place, g, m, d = (number(record, at) for at in range(0, 10, 2))
        self.codes[code] = self.codes.get(code, 0) + 1
        word = self.words.next() if self.words else None
        settled = strip(record, 0)
        about = places(code, settled, word)
        if code != 0 or not self.options.problems:
            self.output.add(wrap('%6d  %s%s' % (self.at, line, about and '  ' + about)))
            if self.options.strips:
                self.output.add(strips(code, record))
        if code > 2 and code not in REFUSALS:
            self.output.some(NO_ANSWER, "record %d: code %d is no answer's" % (self.at, code))
        if word is not None:
            if not is_answer(code, place, record, word, self.words.length):
                self.output.some(NOT_ITS_WORD, 'record %d is not the answer to its word' % self.at)
            clash = self.patterns.add(self.at, (code, g, m, d), settled, word) if code in (0, 1, 2, 18) else 0
            if clash:
                self.output.some(DIFFERENT, 'records %d and %d have the same losses and different answers: '
                                 'they are not the answers to these words' % (clash, self.at))
        if self.page:
            self.paged(lambda: self.page.add(self.at, code, line, about, settled, word))

    def file(self, name):
        """All records of a file."""
        title = title_of(name)
        rest = b''
        try:
            if name == '-' and 0 in self.closed:
                raise OSError(errno.EBADF, '')
            with open(0 if name == '-' else name, 'rb', buffering=0, closefd=name != '-') as file:
                data = some_of(file, RECORD * BATCH)
                while data:
                    rest += data
                    whole = len(rest) - len(rest) % RECORD
                    for at, line in enumerate(self.lines.of(rest[:whole])):
                        self.one(rest[RECORD * at:RECORD * (at + 1)], line)
                    rest = rest[whole:]
                    self.output.flush()
                    data = some_of(file, RECORD * BATCH - len(rest))
        except OSError as error:
            self.output.error('%s: %s' % (title, reason(error)))
        if rest:
            self.cut(title, len(rest))

    def cut(self, title, size):
        """A record that is cut off: it has its number and its word."""
        self.at += 1
        word = self.words.next() if self.words else None
        self.output.error('%s: record %d is cut off: %d of %d bytes' % (title, self.at, size, RECORD))
        if self.page:
            line = 'the record is cut off'
            self.paged(lambda: self.page.add(self.at, -1, line, '', b'', word))

    def run(self):
        if self.options.html is not None:
            self.page = Page(self.options.html, self.options.lot, self.words)
            self.paged(self.page.open)
        for name in self.options.records:
            self.file(name)
        self.lines.end()
        self.output.add('\n' + summary(self.codes))
        if self.patterns:
            self.output.add('\n' + costs(self.patterns))
        self.output.flush()
        self.output.rest()
        if not self.at:
            self.output.error('no record came in')
        if self.words:
            self.words.end(self.at)
        if self.page:
            names = list(map(title_of, self.options.records))
            self.paged(lambda: self.page.write(self.codes, self.patterns, names, self.output.told))
        return self.output.status


def main(arguments):
    closed = set()
    for file in range(3):
        try:
            os.fstat(file)
        except OSError:
            # nothing else may take its number
            closed.add(file)
            os.set_inheritable(os.open(os.devnull, os.O_RDWR), True)
    show = None
    try:
        for ending in ENDING:
            signal.signal(ending, stopped)
        try:
            count = int(arguments[0])
            command = arguments[1:count + 1]
            if arguments[count + 1] != '--' or not command:
                raise ValueError
        except (IndexError, ValueError):
            raise Stop(2, 'the command of the proved program is missing')
        try:
            options = Options(arguments[count + 2:])
        except Stop as stop:
            if stop.status:
                raise
            output = Output(1 in closed)
            output.add(stop.message)
            output.flush()
            return 0
        show = Show(command, options, closed)
        return show.run()
    except Stop as stop:
        for ending in ENDING:
            signal.signal(ending, signal.SIG_IGN)
        if stop.message:
            tell('show: ' + stop.message)
        return stop.status
    except Exception as error:
        tell('show: %s: %s' % (type(error).__name__, error))
        return 1
    finally:
        if show:
            show.drop()


os._exit(main(sys.argv[1:]))
