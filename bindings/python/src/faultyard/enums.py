"""The words of acts and replies. The value of each is the word as it stands in an audit."""

from enum import Enum


class Kind(Enum):
    """What a fault does to a process, from the mildest to the hardest. `CLOG` is no kill."""

    REBOOT_PROCESS = "RebootProcess"
    """Down; nothing on its disk is lost."""
    REBOOT = "Reboot"
    """Down; what its disk hasn't synced may be lost."""
    REBOOT_AND_DELETE = "RebootAndDelete"
    """Down, and its disk is emptied."""
    KILL_INSTANTLY = "KillInstantly"
    """Gone for good, and its disk is emptied."""
    CLOG = "Clog"
    """Its messages are held. It stands in grants and protections, and never in an order to kill."""

    @property
    def empties_disk(self) -> bool:
        """Whether the data of the process goes."""
        return self in (Kind.REBOOT_AND_DELETE, Kind.KILL_INSTANTLY)

    @property
    def is_final(self) -> bool:
        """Whether the process never comes back."""
        return self is Kind.KILL_INSTANTLY


class Key(Enum):
    """The part of a process's place by which an order names it."""

    PROCESS = "processid"
    MACHINE = "machineid"
    ZONE = "zoneid"
    DATA_HALL = "data_hall"
    DATA_CENTER = "dcid"


class Plan(Enum):
    """How a fault actor of `faultyard simulate --plan` draws its orders."""

    MIXED = "mixed"
    """Kills of each kind and clogs, of processes, machines, zones, halls and data centres."""
    ATTRITION = "attrition"
    """Machines are destroyed one after another."""
    SWIZZLE = "swizzle"
    """Processes are clogged one after another, and freed in another order."""
    ROLLING = "rolling"
    """Each process in turn, each round by a harder kind."""


class Role(Enum):
    """Which acts an actor may make."""

    STORAGE = "storage"
    """It stores records, and reports who is up and healed."""
    FAULT = "fault"
    """It kills and clogs."""
    OPERATOR = "operator"
    """It protects processes, and gives and takes grants."""


class Rule(Enum):
    """Why the kind that was ordered is barred: the first rule that holds."""

    NO_TARGET = "NoTarget"
    """No process that is left has the value."""
    NO_GRANT = "NoGrant"
    """No grant of the actor covers the process that is named."""
    PROTECTED = "Protected"
    """The process that is named is protected."""
    TOO_MANY_DESTROYED = "TooManyDestroyed"
    """The destroyed processes would satisfy the policy that is named."""
    TOO_FEW_LEFT = "TooFewLeft"
    """The processes left wouldn't satisfy the policy that is named."""


class Refusal(Enum):
    """Why an act is refused: the first reason that holds."""

    STRANGER = "Stranger"
    """There is no actor with the number of `by`."""
    WRONG_ROLE = "WrongRole"
    """The actor's role may not make this act."""
    TOO_MANY = "TooMany"
    """There are as many teams, or records, as there may be."""
    NO_POLICY = "NoPolicy"
    """There is no policy with this number."""
    NO_PROCESS = "NoProcess"
    """There is no process with this number."""
    GONE = "Gone"
    """The process is gone for good."""
    TEAM_SHORT = "TeamShort"
    """The members don't satisfy the policy that is named."""
    NO_TEAM = "NoTeam"
    """There is no team with this number."""
    PAYLOAD = "Payload"
    """The payload has more than 256 bytes."""
    NET_FULL = "NetFull"
    """There would be too many messages in flight."""
    NO_MESSAGE = "NoMessage"
    """No message in flight has this number."""
    CLOGGED = "Clogged"
    """The message's process is clogged."""
    NOT_UP = "NotUp"
    """The process isn't up."""
    NO_RECORD = "NoRecord"
    """There is no record with this number."""
    NOT_MEMBER = "NotMember"
    """The process is no member of the team."""
    ACKED = "Acked"
    """The record is acknowledged."""
    IS_UP = "IsUp"
    """The process is up already."""
    CLOCK_END = "ClockEnd"
    """The time would be past its end."""
    NO_ACTOR = "NoActor"
    """There is no actor with the number that the act names."""
    FULL = "Full"
    """There are as many grants as there may be."""
    NO_SUCH = "NoSuch"
    """The actor has no grant at this place."""
    NO_COPY = "NoCopy"
    """The sender hasn't synced the record."""
    IS_MEMBER = "IsMember"
    """The process is a member of the team already."""
    NOT_DESTROYED = "NotDestroyed"
    """The process isn't destroyed."""
    STILL_NEEDS = "StillNeeds"
    """The process lacks the acknowledged record that is named."""


class Part(Enum):
    """A part of a cluster file. The value is its word in fault lines."""

    JOURNAL_LIMIT = "JournalLimit"
    POLICIES = "Policies"
    PROCESS = "Process"
    ACTOR = "Actor"
    PROTECT = "Protect"
    UNKNOWN = "Unknown"
    """A key at the top that is none of these."""
