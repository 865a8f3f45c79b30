"""The numbers of pethuvazh.h. tests/bindings compares them with bindings/options.json."""
import enum


class Flags(enum.IntFlag):
    """The flags of a report."""

    NO_CONTROL_FLOW_UNIFORMITY = 1
    NON_UNIFORM_TEXTURES = 2
    NON_UNIFORM_STORAGE_TEXTURES = 4
    FOR_PEOPLE = 8
    NAGA_UNIFORMITY = 16
    DRAWING = 32
    RESOURCES = 64
    BOUNDS_CHECKS = 128
    INDEX_RESTRICT = 256
    INDEX_READ_ZERO_SKIP_WRITE = 512
    BUFFER_RESTRICT = 1024
    BUFFER_READ_ZERO_SKIP_WRITE = 2048
    IMAGE_LOAD_RESTRICT = 4096
    IMAGE_LOAD_READ_ZERO_SKIP_WRITE = 8192
    BINDING_ARRAY_RESTRICT = 16384
    BINDING_ARRAY_READ_ZERO_SKIP_WRITE = 32768
    ALL_STRUCTS = 65536
    EXPLAIN = 131072
    ALL = 262144


class ReportStatus(enum.IntEnum):
    """How a report ends."""

    ACCEPTED = 0
    REFUSED = 1
    BAD_FLAGS = 2
    OUT_OF_MEMORY = 5
    NOT_MODULE = 6


class LinesStatus(enum.IntEnum):
    """How replies to lines end."""

    ANSWERED = 0
    BAD_LINE = 2
    OUT_OF_MEMORY = 5
    TOO_LONG = 6
