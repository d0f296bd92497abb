"""The names of statuses."""

# Those of docs/SERVICES.md, "The statuses".
PROFILE = {
    "00000000": "SUCCESS",
    "00010002": "DBG_CONTINUE",
    "c0000005": "ACCESS_VIOLATION",
    "c0000008": "INVALID_HANDLE",
    "c000000b": "INVALID_CID",
    "c000000d": "INVALID_PARAMETER",
    "c0000019": "NOT_MAPPED_VIEW",
    "c000001f": "INVALID_VIEW_SIZE",
    "c0000022": "ACCESS_DENIED",
    "c0000024": "OBJECT_TYPE_MISMATCH",
    "c000002f": "PORT_MESSAGE_TOO_LONG",
    "c0000033": "OBJECT_NAME_INVALID",
    "c0000034": "OBJECT_NAME_NOT_FOUND",
    "c0000035": "OBJECT_NAME_COLLISION",
    "c0000037": "PORT_DISCONNECTED",
    "c000003a": "OBJECT_PATH_NOT_FOUND",
    "c000003b": "OBJECT_PATH_SYNTAX_BAD",
    "c0000040": "SECTION_TOO_BIG",
    "c0000041": "PORT_CONNECTION_REFUSED",
    "c0000042": "INVALID_PORT_HANDLE",
    "c0000044": "QUOTA_EXCEEDED",
    "c0000045": "INVALID_PAGE_PROTECTION",
    "c0000048": "PORT_ALREADY_SET",
    "c000004e": "SECTION_PROTECTION",
    "c000007c": "NO_TOKEN",
    "c00000a5": "BAD_IMPERSONATION_LEVEL",
    "c00000a6": "CANT_OPEN_ANONYMOUS",
    "c00000f2": "INVALID_PARAMETER_4",
    "c000021f": "REPLY_MESSAGE_MISMATCH",
    "c0000220": "MAPPED_ALIGNMENT",
    "c0000253": "LPC_REPLY_LOST",
}
# Windows NT's names for what another implementation may print in the place of one of these.
OTHERS = {
    "00000102": "TIMEOUT",
    "00000103": "PENDING",
    "c0000001": "UNSUCCESSFUL",
    "c0000002": "NOT_IMPLEMENTED",
    "c0000017": "NO_MEMORY",
    "c0000030": "INVALID_PARAMETER_MIX",
    "c0000039": "OBJECT_PATH_INVALID",
    "c000009a": "INSUFFICIENT_RESOURCES",
    "c00000bb": "NOT_SUPPORTED",
    "c0000120": "CANCELLED",
}
NAMES = {**OTHERS, **PROFILE}
# Windows NT's names for the codes of exceptions, with which threads die too.
EXCEPTIONS = {
    "40010005": "CONTROL_C",
    "80000001": "GUARD_PAGE_VIOLATION",
    "80000002": "DATATYPE_MISALIGNMENT",
    "80000003": "BREAKPOINT",
    "80000004": "SINGLE_STEP",
    "c0000006": "IN_PAGE_ERROR",
    "c000001d": "ILLEGAL_INSTRUCTION",
    "c0000025": "NONCONTINUABLE_EXCEPTION",
    "c000008c": "ARRAY_BOUNDS_EXCEEDED",
    "c000008e": "FLOAT_DIVIDE_BY_ZERO",
    "c0000094": "INTEGER_DIVIDE_BY_ZERO",
    "c0000095": "INTEGER_OVERFLOW",
    "c0000096": "PRIVILEGED_INSTRUCTION",
    "c00000fd": "STACK_OVERFLOW",
    "c000013a": "CONTROL_C_EXIT",
}
SUCCESS, CONTINUED = "00000000", "00010002"


def name_of(status):
    """The name of a status of 8 hexadecimal digits, None where it has none here."""
    return NAMES.get(status.lower())


def code_with_name(code):
    """The code of an exception or of a death, and its name where it is known by one."""
    name = name_of(code) or EXCEPTIONS.get(code.lower())
    return f"{code} {name}" if name else code


def with_name(status):
    """A status and its name, as far as it has one."""
    name = name_of(status)
    return f"{status} {name}" if name else f"{status} (a status without a name here)"
