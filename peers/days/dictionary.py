"""Data dictionaries of QuickFIX: what an exchange takes that knows one table of words."""

from dataclasses import dataclass

# What each session and each order has, by tag: its name and its type.
FIELDS = {
    7: ("BeginSeqNo", "SEQNUM"),
    8: ("BeginString", "STRING"),
    9: ("BodyLength", "LENGTH"),
    10: ("CheckSum", "STRING"),
    11: ("ClOrdID", "STRING"),
    16: ("EndSeqNo", "SEQNUM"),
    34: ("MsgSeqNum", "SEQNUM"),
    35: ("MsgType", "STRING"),
    36: ("NewSeqNo", "SEQNUM"),
    38: ("OrderQty", "QTY"),
    40: ("OrdType", "CHAR"),
    43: ("PossDupFlag", "BOOLEAN"),
    44: ("Price", "PRICE"),
    45: ("RefSeqNum", "SEQNUM"),
    49: ("SenderCompID", "STRING"),
    50: ("SenderSubID", "STRING"),
    52: ("SendingTime", "UTCTIMESTAMP"),
    54: ("Side", "CHAR"),
    55: ("Symbol", "STRING"),
    56: ("TargetCompID", "STRING"),
    57: ("TargetSubID", "STRING"),
    58: ("Text", "STRING"),
    59: ("TimeInForce", "CHAR"),
    60: ("TransactTime", "UTCTIMESTAMP"),
    65: ("SymbolSfx", "STRING"),
    97: ("PossResend", "BOOLEAN"),
    98: ("EncryptMethod", "INT"),
    108: ("HeartBtInt", "INT"),
    112: ("TestReqID", "STRING"),
    122: ("OrigSendingTime", "UTCTIMESTAMP"),
    123: ("GapFillFlag", "BOOLEAN"),
    141: ("ResetSeqNumFlag", "BOOLEAN"),
    369: ("LastMsgSeqNumProcessed", "SEQNUM"),
    371: ("RefTagID", "INT"),
    372: ("RefMsgType", "STRING"),
    373: ("SessionRejectReason", "INT"),
    553: ("Username", "STRING"),
    554: ("Password", "STRING"),
    789: ("NextExpectedMsgSeqNum", "SEQNUM"),
}

# The values that a field may have, where it may not have any.
VALUES = {40: ("2",), 54: ("1", "2"), 59: ("3",)}

# The fields of the header, of the trailer and of each message: those that have to be there, and those that may be.
HEADER = ((8, 9, 35, 49, 56, 34, 52), (43, 97, 122, 369))
TRAILER = ((10,), ())
MESSAGES = {
    ("Heartbeat", "0"): ((), (112,)),
    ("TestRequest", "1"): ((112,), ()),
    ("ResendRequest", "2"): ((7, 16), ()),
    ("Reject", "3"): ((45,), (58, 371, 372, 373)),
    ("SequenceReset", "4"): ((36,), (123,)),
    ("Logout", "5"): ((), (58,)),
    ("Logon", "A"): ((98, 108), (141, 789)),
}
ORDER = (11, 38, 40, 44, 54, 55, 59, 60)


@dataclass(frozen=True)
class Own:
    """A field that a message has to have besides, with the one value that is taken."""

    tag: int
    value: str


@dataclass(frozen=True)
class Needs:
    """What an exchange wants besides what every order, header and Logon has."""

    order: tuple
    header: tuple = ()
    logon: tuple = ()
    # Whether an order may have SymbolSfx (65).
    has_suffix: bool = False

    def values(self):
        """The values that each field may have."""
        return VALUES | {field.tag: (field.value,) for field in (*self.order, *self.header, *self.logon)}


def tags_of(fields):
    return tuple(field.tag for field in fields)


def name_of(tag):
    return FIELDS[tag][0] if tag in FIELDS else f"Field{tag}"


def rows(needed, allowed, yes="Y"):
    for tags, required in ((needed, yes), (allowed, "N")):
        yield from (f'<field name="{name_of(tag)}" required="{required}"/>' for tag in tags)


def message_rows(name, type, category, needed, allowed):
    yield f'<message name="{name}" msgtype="{type}" msgcat="{category}">'
    yield from rows(needed, allowed)
    yield "</message>"


def field_rows(values):
    for tag in sorted(FIELDS.keys() | values.keys()):
        type = FIELDS[tag][1] if tag in FIELDS else "STRING"
        yield f'<field number="{tag}" name="{name_of(tag)}" type="{type}">'
        yield from (f'<value enum="{value}" description="V{at}"/>' for at, value in enumerate(values.get(tag, ())))
        yield "</field>"


def dictionary_of(needs):
    """The dictionary of an exchange that needs this."""
    needed, allowed = HEADER
    # QuickFIX takes a field of the header for required by this word alone
    header = rows((*needed, *tags_of(needs.header)), allowed, "true")
    lines = ['<fix type="FIX" major="4" minor="4">', "<header>", *header, "</header>", "<messages>"]
    for (name, type), (needed, allowed) in MESSAGES.items():
        own = tags_of(needs.logon) if type == "A" else ()
        lines += message_rows(name, type, "admin", (*needed, *own), allowed)
    allowed = (65,) if needs.has_suffix else ()
    lines += message_rows("NewOrderSingle", "D", "app", (*ORDER, *tags_of(needs.order)), allowed)
    lines += ["</messages>", "<trailer>", *rows(*TRAILER), "</trailer>", "<components/>"]
    lines += ["<fields>", *field_rows(needs.values()), "</fields>", "</fix>"]
    return "\n".join(lines) + "\n"
