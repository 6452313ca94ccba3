"""Requests and stored tables as bytes, made from paper 01's list of fields. Nothing here judges them, so they may be bad."""

PUT, GET, PUT_IF_ABSENT, REPLACE, REPLACE_IF_UNMODIFIED = 0x01, 0x03, 0x05, 0x07, 0x09
REMOVE, REMOVE_IF_UNMODIFIED, CONTAINS_KEY, GET_WITH_VERSION = 0x0b, 0x0d, 0x0f, 0x11
CLEAR, STATS, PING, BULK_GET, BULK_GET_KEYS = 0x13, 0x15, 0x17, 0x19, 0x1d
OPERATIONS = (PUT, GET, PUT_IF_ABSENT, REPLACE, REPLACE_IF_UNMODIFIED, REMOVE, REMOVE_IF_UNMODIFIED, CONTAINS_KEY,
              GET_WITH_VERSION, CLEAR, STATS, PING, BULK_GET, BULK_GET_KEYS)
BULK = (BULK_GET, BULK_GET_KEYS)
WITH_VALUE = (PUT, PUT_IF_ABSENT, REPLACE, REPLACE_IF_UNMODIFIED)
WITH_VERSION = (REPLACE_IF_UNMODIFIED, REMOVE_IF_UNMODIFIED)
MOST_KEYS = 128
LARGEST_VERSION = 2 ** 63 - 1
LARGEST_DEADLINE = 8_589_934_590
LARGEST_SECOND = 2 ** 32 - 1
GREATEST_FLAGS = {10: 1, 11: 1, 12: 7, 20: 31}  # by the protocol version
THIRTY_DAYS = 2_592_000  # a longer lifespan is a date


def number(value):
    """A vInt or vLong: seven bits a byte, lowest first."""
    out = bytearray()
    while value >= 128:
        out.append(value % 128 + 128)
        value //= 128
    out.append(value)
    return bytes(out)


def sized(data):
    """A length and the bytes."""
    return number(len(data)) + data


def header(operation, message=1, version=10, name=b'', flags=0, intelligence=1, topology=0, transaction=0):
    """Version 20 has no transaction type."""
    return (b'\xa0' + number(message) + bytes([version, operation]) + sized(name) + number(flags)
            + bytes([intelligence]) + number(topology) + (b'' if version == 20 else bytes([transaction])))


def frame(operation, key=b'k', value=b'v', lifespan=0, idle=0, entry_version=1, bulk=0, **head):
    """A request with the fields that its operation sends, in the first version that has it if none is given."""
    head.setdefault('version', 12 if operation == BULK_GET_KEYS else 10)
    out = header(operation, **head)
    if operation not in (CLEAR, STATS, PING, *BULK):
        out += sized(key)
    if operation in WITH_VALUE:
        out += number(lifespan) + number(idle)
    if operation in WITH_VERSION:
        out += entry_version.to_bytes(8, 'big')
    if operation in WITH_VALUE:
        out += sized(value)
    if operation in BULK:
        out += number(bulk)
    return out


def line(data, second=0):
    """A request line with its end."""
    return b'%08x %s\n' % (second, data.hex().encode())


def request(operation, second=0, **fields):
    return line(frame(operation, **fields), second)


def head_line(last, form=1):
    """The first line of a stored table."""
    return (bytes([form]) + last.to_bytes(8, 'big')).hex().encode() + b'\n'


def entry_line(version, key=b'k', value=b'v', deadline=0):
    """An entry's line of a stored table."""
    data = version.to_bytes(8, 'big') + deadline.to_bytes(8, 'big') + sized(key) + sized(value)
    return data.hex().encode() + b'\n'


def key_name(index):
    """Different keys of three bytes."""
    return b'k' + index.to_bytes(2, 'big')
